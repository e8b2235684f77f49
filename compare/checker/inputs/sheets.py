"""Sheets of both kinds: at the limits, valid and cut, scrambled, spoilt in one leaf, and of many leaves."""

from __future__ import annotations

from itertools import islice
from random import Random
from typing import Iterator, NamedTuple

from . import leaves
from .encode import sheet_bytes
from .limits import limit_sheets
from .scramble import scramble_sheet


class Sheet(NamedTuple):
    """A sheet, and what it is an example of."""

    shape: str
    sheet: bytes


def valid(rng: Random) -> bytes:
    """A sheet of no leaf or of a few, all of which can be made."""
    return sheet_bytes(leaves.leaves_of_a_kind(rng, rng.choice((0, 1, 1, 2, 2, 3, 3, 4, 6))))


def crowded(rng: Random) -> bytes:
    """A sheet of many leaves of few rules, sometimes of more than a table of 128 places takes."""
    count = rng.choice((8, 15, 15, 30, 30, rng.randint(8, 70), rng.randint(100, 140)))
    return sheet_bytes(leaves.leaves_of_a_kind(rng, count))


def spoilt(rng: Random) -> bytes:
    """A sheet in which a part of one leaf is refused, or at the limit of what is; other leaves may follow it."""
    drawn = list(leaves.leaves_of_a_kind(rng, rng.choice((1, 2, 3))))
    place = rng.randrange(len(drawn))
    drawn[place] = leaves.spoilt(rng, drawn[place])
    return sheet_bytes(drawn)


def drawn_sheets(rng: Random) -> Iterator[Sheet]:
    """Sheets without end: a valid one whole and cut at every byte, then half as many of each other shape."""
    while True:
        sheet = valid(rng)
        yield Sheet("valid", sheet)
        for end in range(len(sheet)):
            yield Sheet("cut", sheet[:end])
        for _ in range(len(sheet) // 2 + 1):
            yield Sheet("scrambled", scramble_sheet(rng, valid(rng)))
            yield Sheet("spoilt", spoilt(rng))
            yield Sheet("crowded", crowded(rng))


def sheets(rng: Random, count: int) -> Iterator[Sheet]:
    """So many sheets: those at the limits in any order, as far as a quarter of the count goes, then drawn ones."""
    limits = rng.sample(limit_sheets(), min(len(limit_sheets()), count // 4))
    yield from (Sheet("limit", sheet) for sheet in limits)
    yield from islice(drawn_sheets(rng), count - len(limits))
