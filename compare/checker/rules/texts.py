"""Texts: lines and refusals as the programs print them, and numbers, lists and dates as they are read."""

from __future__ import annotations

import re
from typing import Optional, Tuple

from .days import WrittenDate, date_of
from .divisors import Divisors, Written
from .leaves import AmountRule, DayRule, Leaf
from .makers import WrittenAmount
from .refusals import Refused

# Every number of more digits, leading zeros aside, is far above 2^64; Python does not read numbers of any length.
MOST_DIGITS = 100
FAR_TOO_LARGE: int = 10**MOST_DIGITS

DIVISORS = re.compile(rb"[0-9]+(/[0-9]+)?(,[0-9]+(/[0-9]+)?)*")
AMOUNT = re.compile(rb"-?[0-9]+")
DATE = re.compile(rb"[0-9]{4}-[0-9]{2}-[0-9]{2}")
WEEKDAYS = re.compile(rb"1?2?3?4?5?6?7?")
BYTES = re.compile(rb" *([0-9A-Fa-f]{2} *)*")


def split_lines(text: bytes) -> list[bytes]:
    """The lines of a text: each ends with a line feed, and a last one without one counts."""
    lines = text.split(b"\n")
    return lines[:-1] if lines[-1] == b"" else lines


def print_divisors(divisors: Divisors) -> str:
    """A list of divisors; a whole one is written without `/1`."""
    return ",".join(str(divisor) for divisor in divisors) or "-"


def print_weekdays(weekdays: int) -> str:
    """The digits of a set of weekdays, 1 for Monday to 7 for Sunday."""
    return "".join(str(day + 1) for day in range(7) if weekdays >> day & 1)


def print_line(leaf: Leaf) -> str:
    """The line of an amount leaf or of a day leaf, without its line feed."""
    bounds = (leaf.minimum, leaf.maximum)
    if isinstance(leaf.rule, AmountRule):
        fields = ["*" if bound is None else str(bound) for bound in bounds]
        return " ".join(fields + [print_divisors(leaf.rule.required), print_divisors(leaf.rule.barred)])
    assert isinstance(leaf.rule, DayRule)
    fields = ["*" if bound is None else date_of(bound).isoformat() for bound in bounds]
    return " ".join(fields + [print_weekdays(leaf.rule.weekdays)])


def print_refusal(refused: Refused) -> str:
    """The text of a refusal, without its line feed."""
    return f"refused {refused.number}" if refused.byte is None else f"refused {refused.number} at {refused.byte}"


def read_number(digits: bytes) -> int:
    """The number of decimal digits, of which there may be any number; a far too large one comes out as 10^100."""
    significant = digits.lstrip(b"0")
    if len(significant) > MOST_DIGITS:
        return FAR_TOO_LARGE
    return int(significant or b"0")


def read_divisors(text: bytes) -> Optional[Tuple[Written, ...]]:
    """A list of divisors as written, and nothing where the text is none."""
    if text == b"-":
        return ()
    if not DIVISORS.fullmatch(text):
        return None
    divisors = []
    for item in text.split(b","):
        p, _, q = item.partition(b"/")
        divisors.append((read_number(p), read_number(q) if q else 1))
    return tuple(divisors)


def read_amount(text: bytes) -> Optional[WrittenAmount]:
    """An amount as written, and nothing where the text is none."""
    if not AMOUNT.fullmatch(text):
        return None
    return read_number(text.lstrip(b"-")), text.startswith(b"-")


def read_date(text: bytes) -> Optional[WrittenDate]:
    """A date as written, whether or not there is such a day, and nothing where the text is none."""
    if not DATE.fullmatch(text):
        return None
    year, month, day = text.split(b"-")
    return int(year), int(month), int(day)


def read_weekdays(text: bytes) -> Optional[int]:
    """A set of weekdays, and nothing where the text is none."""
    if text == b"-":
        return 0
    if text == b"" or not WEEKDAYS.fullmatch(text):
        return None
    return sum(1 << (digit - ord("1")) for digit in text)


def read_hexadecimal(text: bytes) -> Optional[bytes]:
    """The bytes that a text writes, two digits each, and nothing where it writes none."""
    if not BYTES.fullmatch(text):
        return None
    return bytes.fromhex(text.decode("ascii"))
