"""Batches for `quote`: sheets of both kinds in hexadecimal, comments, blank lines, and lines that are none of these."""

from __future__ import annotations

from random import Random
from typing import Iterator

from . import sheets
from .limits import limit_sheets
from .scramble import scramble_sheet, scramble_text

COMMENTS = (b"# a comment", b"#", b"   # 41 00 00 00", b"#zz")
BLANKS = (b"", b" ", b"     ")
NOT_HEXADECIMAL = (b"4", b"41 0", b"4 1", b"41\t00 00 00", b"zz", b"0x41", b"41,00", b"41000000\r", b"\xff", b"41 0g")


def hexadecimal(rng: Random, sheet: bytes) -> bytes:
    """The bytes as hexadecimal digits of either case, with spaces between bytes or none, and perhaps a comment."""
    digits = (f"{byte:02x}" if rng.random() < 0.5 else f"{byte:02X}" for byte in sheet)
    text = rng.choice(("", " ", "  ")).join(digits) if rng.random() < 0.8 else spaced(rng, list(digits))
    if rng.random() < 0.1:
        text += rng.choice(("#", " # a comment", "  # 41", "# x # y"))
    return text.encode()


def spaced(rng: Random, digits: list[str]) -> str:
    """The bytes with now and then a space."""
    return "".join(pair + rng.choice(("", " ", "")) for pair in digits).rstrip(" ")


def batch_line(rng: Random) -> bytes:
    """A line of a batch."""
    shape = rng.random()
    if shape < 0.45:
        return hexadecimal(rng, sheets.valid(rng))
    if shape < 0.55:
        return hexadecimal(rng, sheets.crowded(rng))
    if shape < 0.65:
        return hexadecimal(rng, sheets.spoilt(rng))
    if shape < 0.72:
        return hexadecimal(rng, scramble_sheet(rng, sheets.valid(rng)))
    if shape < 0.75:
        return hexadecimal(rng, rng.choice(limit_sheets()))
    if shape < 0.85:
        return rng.choice(COMMENTS + BLANKS)
    if shape < 0.95:
        return scramble_text(rng, hexadecimal(rng, sheets.valid(rng)))
    return rng.choice(NOT_HEXADECIMAL)


def crowded_batch(rng: Random) -> list[bytes]:
    """A batch that fills the table of 1,024 places of one kind or of both."""
    lines = [hexadecimal(rng, sheets.crowded(rng)) for _ in range(rng.randint(20, 60))]
    return lines + [batch_line(rng) for _ in range(10)]


def batches(rng: Random) -> Iterator[list[bytes]]:
    """Batches without end, most of them small."""
    while True:
        if rng.random() < 0.03:
            yield crowded_batch(rng)
        else:
            yield [batch_line(rng) for _ in range(rng.choice((0, 1, 2, 5, 10, 20, rng.randint(1, 60))))]
