"""Sheets: rows of bytes that are read as leaves of one kind, into a list."""

from __future__ import annotations

from dataclasses import dataclass
from typing import Callable, Optional

from .days import day_number
from .divisors import MOST_DIVISORS, Divisors, Written, fold, is_number_of_divisor, thin
from .leaves import AmountRule, DayRule, Leaf
from .lists import LeafList
from .makers import ALL_WEEKDAYS, amount_of, is_window
from .refusals import Refused

LONGEST_SHEET = 32_768
LONGEST_NUMBER = 10

HAS_MINIMUM = 1
HAS_MAXIMUM = 2
MINIMUM_IS_NEGATIVE = 4
MAXIMUM_IS_NEGATIVE = 8


class Reader:
    """Goes along a sheet; what was taken last ends at `place`."""

    def __init__(self, sheet: bytes, place: int) -> None:
        self.sheet = sheet
        self.place = place

    def byte(self) -> int:
        """The next byte; refused 2, naming the sheet's length, where there is none."""
        if self.place >= len(self.sheet):
            raise Refused(2, len(self.sheet))
        self.place += 1
        return self.sheet[self.place - 1]

    def number(self) -> int:
        """The next number, judged after its last byte, at the latest after its tenth."""
        first = self.place
        value = 0
        for index in range(LONGEST_NUMBER):
            group = self.byte()
            value |= (group & 0x7F) << (7 * index)
            if group < 0x80:
                shortest = index == 0 or group != 0
                if shortest and value < 2**64:
                    return value
                break
        raise Refused(3, first)

    def flags(self, known: int) -> int:
        """The flags byte of a leaf; refused 4 where it has others than the known ones."""
        flags = self.byte()
        if flags & ~known:
            raise Refused(4, self.place - 1)
        return flags

    def amount(self, negative: bool) -> int:
        """An amount of which the sign is known."""
        first = self.place
        amount = amount_of((self.number(), negative))
        if amount is None:
            raise Refused(7, first)
        return amount

    def number_of_divisor(self) -> int:
        """A numerator or a denominator."""
        first = self.place
        number = self.number()
        if not is_number_of_divisor(number):
            raise Refused(5, first)
        return number

    def divisors(self) -> list[Written]:
        """A list of divisors: how many, and of each the numerator and the denominator."""
        first = self.place
        count = self.number()
        if count > MOST_DIVISORS:
            raise Refused(6, first)
        return [(self.number_of_divisor(), self.number_of_divisor()) for _ in range(count)]

    def day(self) -> int:
        """The number of a day, judged after its year, month and day."""
        first = self.place
        number = day_number((self.number(), self.number(), self.number()))
        if number is None:
            raise Refused(7, first)
        return number

    def weekdays(self) -> int:
        """A set of weekdays."""
        first = self.place
        weekdays = self.number()
        if not 1 <= weekdays <= ALL_WEEKDAYS:
            raise Refused(9, first)
        return weekdays


def read_amount_leaf(reader: Reader) -> Leaf:
    """The amount leaf that stands there."""
    start = reader.place
    flags = reader.flags(HAS_MINIMUM | HAS_MAXIMUM | MINIMUM_IS_NEGATIVE | MAXIMUM_IS_NEGATIVE)
    if (flags & MINIMUM_IS_NEGATIVE and not flags & HAS_MINIMUM) or (
        flags & MAXIMUM_IS_NEGATIVE and not flags & HAS_MAXIMUM
    ):
        raise Refused(4, start)
    minimum = reader.amount(bool(flags & MINIMUM_IS_NEGATIVE)) if flags & HAS_MINIMUM else None
    maximum = reader.amount(bool(flags & MAXIMUM_IS_NEGATIVE)) if flags & HAS_MAXIMUM else None
    required = fold(reader.divisors())
    barred = thin(reader.divisors())
    if not is_window(minimum, maximum):
        raise Refused(8, start)
    return Leaf(minimum, maximum, AmountRule(required, barred))


def read_day_leaf(reader: Reader) -> Leaf:
    """The day leaf that stands there."""
    start = reader.place
    flags = reader.flags(HAS_MINIMUM | HAS_MAXIMUM)
    minimum = reader.day() if flags & HAS_MINIMUM else None
    maximum = reader.day() if flags & HAS_MAXIMUM else None
    weekdays = reader.weekdays()
    if not is_window(minimum, maximum):
        raise Refused(8, start)
    return Leaf(minimum, maximum, DayRule(weekdays))


@dataclass(frozen=True)
class Kind:
    """A kind of leaves: its name, the byte with which its sheets begin, and its reader."""

    name: str
    byte: int
    read_leaf: Callable[[Reader], Leaf]


AMOUNTS = Kind("amounts", 0x41, read_amount_leaf)
DAYS = Kind("days", 0x44, read_day_leaf)


def kind_of(sheet: bytes) -> Kind:
    """The kind of list that a sheet goes to: days after their byte, else amounts."""
    return DAYS if sheet[:1] == bytes([DAYS.byte]) else AMOUNTS


@dataclass(frozen=True)
class Answer:
    """What became of a sheet: how many leaves were accepted, where it stands, and what stopped it."""

    accepted: int
    start: int
    refused: Optional[Refused]


def take_sheet(leaves: LeafList, sheet: bytes, kind: Kind) -> Answer:
    """Inserts the leaves of a sheet in turn, up to its end or a refusal."""
    accepted = 0
    start = 0
    try:
        if len(sheet) > LONGEST_SHEET:
            raise Refused(1, 0)
        reader = Reader(sheet, 0)
        if reader.byte() != kind.byte:
            raise Refused(4, 0)
        start = reader.place
        while start < len(sheet):
            leaf = kind.read_leaf(reader)
            insert_from_sheet(leaves, leaf, start)
            accepted += 1
            start = reader.place
    except Refused as refused:
        return Answer(accepted, start, refused)
    return Answer(accepted, start, None)


def insert_from_sheet(leaves: LeafList, leaf: Leaf, start: int) -> None:
    """Inserts a leaf whose flags stand at `start`; the list's refusal names that byte."""
    try:
        leaves.insert(leaf)
    except Refused as refused:
        raise Refused(refused.number, start) from None
