"""Rows of bytes with a few of them changed, removed, inserted or swapped."""

from __future__ import annotations

from random import Random

TELLING_BYTES = (0x00, 0x01, 0x02, 0x06, 0x07, 0x0F, 0x10, 0x41, 0x44, 0x7F, 0x80, 0x81, 0xFF)


def scramble(rng: Random, row: bytes, alphabet: bytes) -> bytes:
    """The row after one to three changes; new bytes are drawn from the alphabet."""
    changed = bytearray(row)
    for _ in range(rng.choice((1, 1, 1, 2, 3))):
        change_once(rng, changed, alphabet)
    return bytes(changed)


def change_once(rng: Random, row: bytearray, alphabet: bytes) -> None:
    """Changes, removes or swaps bytes of the row, or inserts one."""
    what = rng.choice(("change", "change", "remove", "insert", "swap"))
    place = rng.randrange(len(row)) if row else 0
    if what == "insert" or not row:
        row.insert(rng.randint(0, len(row)), rng.choice(alphabet))
    elif what == "change":
        row[place] = rng.choice(alphabet)
    elif what == "remove":
        del row[place : place + rng.choice((1, 1, 1, 2, 5))]
    else:
        other = rng.randrange(len(row))
        row[place], row[other] = row[other], row[place]


def scramble_sheet(rng: Random, sheet: bytes) -> bytes:
    """A scrambled sheet: half of the new bytes are telling ones, half are any."""
    return scramble(rng, sheet, bytes(TELLING_BYTES) if rng.random() < 0.5 else bytes(range(256)))


def scramble_text(rng: Random, line: bytes) -> bytes:
    """A scrambled line: most new bytes are those that lines are made of. It holds no line feed."""
    alphabet = b"0123456789-,/* " if rng.random() < 0.8 else b"\t\r\0+.aZ\x80\xff\"'#"
    return scramble(rng, line, alphabet)
