"""Sheets at the limits of the rules: each number, flag, count, date and length at which an answer turns."""

from __future__ import annotations

from functools import lru_cache
from itertools import chain, product
from typing import Iterator, Tuple

from ..rules.makers import AmountLeafAsWritten, DayLeafAsWritten
from ..rules.programs import PLACES_OF_LINES
from ..rules.sheets import AMOUNTS, DAYS, LONGEST_SHEET
from .encode import leaf_bytes, number_bytes, numbers_bytes, sheet_bytes

AMOUNTS_BYTE = bytes([AMOUNTS.byte])
DAYS_BYTE = bytes([DAYS.byte])
ANY_AMOUNT = bytes.fromhex("000000")
EVERY_DAY = bytes.fromhex("007f")

NUMBERS = (0, 1, 2, 6, 7, 12, 13, 28, 29, 30, 31, 32, 127, 128, 129, 255, 1999, 2000, 2100, 2199, 2200, 16383, 16384)
LARGE_NUMBERS = (2**53, 2**62, 2**63 - 1, 2**63, 2**63 + 1, 2**64 - 1, 2**64, 2**65, 2**70 - 1)

# Not in shortest form, too large, or without an end.
ODD_NUMBERS = tuple(
    bytes.fromhex(digits)
    for digits in ("8000", "8100", "ff00", "808000", "ff8000", "80", "ff", "8080", "ff" * 9, "ff" * 10, "80" * 10)
) + tuple(bytes(group for group in [low] * 9 + [last]) for low in (0x80, 0xFF) for last in (0, 1, 2, 3, 0x7F, 0x81))

# What stands before and behind a number of each part of a leaf, so that all else is in order.
AMOUNT_PARTS = (
    ("01", "0000"),  # a minimum
    ("05", "0000"),  # a negative minimum
    ("02", "0000"),  # a maximum
    ("0a", "0000"),  # a negative maximum
    ("0300", "0000"),  # a maximum above a minimum
    ("070a", "0000"),  # a maximum above a negative minimum
    ("00", "00"),  # the count of required divisors, followed by too few
    ("00", "01010101010101010101010100"),  # the same, followed by up to six
    ("0000", "010101010101010101010101"),  # the count of barred divisors
    ("0001", "0300"),  # a required numerator
    ("000103", "00"),  # a required denominator
    ("00020701", "0300"),  # a second required numerator
    ("000001", "05"),  # a barred numerator
    ("00000105", ""),  # a barred denominator
)
DAY_PARTS = (
    ("01", "05037f"),  # the year, month and day of a minimum
    ("01e80f", "037f"),
    ("01e80f05", "7f"),
    ("02", "05037f"),  # of a maximum
    ("02e80f", "037f"),
    ("02e80f05", "7f"),
    ("03e80f0503", "05037f"),  # of a maximum above a minimum
    ("00", ""),  # a weekday set
    ("01e80f0503", ""),
)

# The leaf that takes most bytes.
LONGEST_LEAF = AmountLeafAsWritten(
    (2**63, True), (2**63, True), ((2**63 - 1, 2**63 - 1),) * 6, ((2**63 - 1, 2**63 - 2),) * 6
)

DATES = tuple(product((2000, 2001, 2004, 2100, 2199), (1, 2, 4, 12), (28, 29, 30, 31))) + (
    (1999, 12, 31),
    (2000, 1, 1),
    (2199, 12, 31),
    (2200, 1, 1),
    (2024, 0, 1),
    (2024, 13, 1),
    (2024, 1, 0),
    (2024, 1, 32),
    (2024, 11, 31),
    (2024, 9, 31),
    (2024, 6, 31),
    (0, 2, 1),
    (4294969320, 2, 1),
    (2024, 258, 1),
    (2024, 2, 257),
    (2**64 - 1, 2**64 - 1, 2**64 - 1),
)


@lru_cache(maxsize=1)
def limit_sheets() -> Tuple[bytes, ...]:
    """All the sheets of this module."""
    return tuple(
        chain(
            first_bytes_and_flags(),
            numbers_in_each_part(),
            lists_of_each_length(),
            dates_in_each_place(),
            turned_windows(),
            full_tables(),
            long_sheets(),
        )
    )


def first_bytes_and_flags() -> Iterator[bytes]:
    """No byte, each first byte, and each flags byte of both kinds."""
    yield b""
    for first in range(256):
        yield bytes([first]) + ANY_AMOUNT
        yield bytes([first])
    for kind in (AMOUNTS_BYTE, DAYS_BYTE):
        for flags in range(256):
            yield kind + bytes([flags]) + bytes.fromhex("d10f0203d20f0203010100")


def numbers_in_each_part() -> Iterator[bytes]:
    """Each telling number in each part of a leaf, alone and behind another leaf, followed by the rest or by nothing."""
    forms = [number_bytes(number) for number in NUMBERS + LARGE_NUMBERS] + list(ODD_NUMBERS)
    for kind, before, parts in (
        (AMOUNTS_BYTE, ANY_AMOUNT, AMOUNT_PARTS),
        (DAYS_BYTE, EVERY_DAY, DAY_PARTS),
    ):
        for front, back in parts:
            for form in forms:
                part = bytes.fromhex(front) + form
                yield kind + part + bytes.fromhex(back)
                yield kind + before + part


def lists_of_each_length() -> Iterator[bytes]:
    """Lists of none to eight divisors, required and barred, of equal ones and of others."""
    for count in range(9):
        for divisors in (((3, 2),) * count, tuple((2 + place, 1) for place in range(count))):
            listed = number_bytes(count) + numbers_bytes(number for divisor in divisors for number in divisor)
            yield AMOUNTS_BYTE + b"\x00" + listed + b"\x00"
            yield AMOUNTS_BYTE + b"\x00\x00" + listed
            yield AMOUNTS_BYTE + ANY_AMOUNT + b"\x00" + listed + listed


def dates_in_each_place() -> Iterator[bytes]:
    """Each telling date as a minimum, as a maximum and as both."""
    for date in DATES:
        yield sheet_bytes([DayLeafAsWritten(date, None, 127)])
        yield sheet_bytes([DayLeafAsWritten(None, date, 1)])
        yield sheet_bytes([DayLeafAsWritten(date, date, 64)])


def turned_windows() -> Iterator[bytes]:
    """Minimum and maximum equal, one apart and turned, with the ends of the range; some are broken later."""
    bounds = [(size, False) for size in (0, 1, 2**63 - 2, 2**63 - 1)] + [(size, True) for size in (1, 2**63 - 1, 2**63)]
    for minimum, maximum in product(bounds, bounds):
        leaf = leaf_bytes(AmountLeafAsWritten(minimum, maximum, (), ()))
        for tail in (b"", b"\x00", ANY_AMOUNT, b"\x10"):
            yield AMOUNTS_BYTE + ANY_AMOUNT + leaf + tail
        yield AMOUNTS_BYTE + leaf[:-1]
        yield AMOUNTS_BYTE + leaf[:-1] + b"\x07"
    days = ((2000, 1, 1), (2024, 5, 2), (2024, 5, 3), (2199, 12, 31))
    for first_day, last_day, weekdays in product(days, days, (0, 1, 127, 128)):
        yield sheet_bytes([DayLeafAsWritten(first_day, last_day, weekdays)])


def full_tables() -> Iterator[bytes]:
    """As many leaves as `lines` has places, one less and one more, with what may follow on a full table."""
    every_amount, even_amounts = (AmountLeafAsWritten(None, None, required, ()) for required in ((), ((2, 1),)))
    for leaf in (every_amount, even_amounts, LONGEST_LEAF):
        for count in (PLACES_OF_LINES - 1, PLACES_OF_LINES, PLACES_OF_LINES + 1):
            sheet = sheet_bytes([leaf] * count)
            for tail in ("", "00", "0000", "000000", "10", "0305010000", "070102", "00000107", "0380000000", "00ff"):
                yield sheet + bytes.fromhex(tail)
    lone = [AmountLeafAsWritten((3 * n, False), (3 * n, False), (), ()) for n in range(PLACES_OF_LINES + 1)]
    yield sheet_bytes(lone)
    yield sheet_bytes(lone[::-1])
    for count in (PLACES_OF_LINES - 1, PLACES_OF_LINES, PLACES_OF_LINES + 1):
        sheet = sheet_bytes([DayLeafAsWritten(None, (2000, 1, 1), 1 + place % 127) for place in range(count)])
        for tail in ("", "00", "007f", "0080", "04", "03e80f0503e80f05027f", "01e80f0d017f", "00807f"):
            yield sheet + bytes.fromhex(tail)


def long_sheets() -> Iterator[bytes]:
    """Sheets of the longest length and around it, of leaves and of other bytes."""
    for length in (LONGEST_SHEET - 1, LONGEST_SHEET, LONGEST_SHEET + 1, LONGEST_SHEET + 2, 2 * LONGEST_SHEET + 3):
        for first, filling in (
            (AMOUNTS_BYTE, ANY_AMOUNT),
            (AMOUNTS_BYTE, leaf_bytes(LONGEST_LEAF)),
            (AMOUNTS_BYTE, b"\xff"),
            (DAYS_BYTE, EVERY_DAY),
            (b"\x00", b"\x00"),
        ):
            yield (first + filling * (length // len(filling) + 1))[:length]
