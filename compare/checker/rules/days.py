"""Days: their numbers from 1 January 2000, which is 0, to 31 December 2199, and their weekdays.

Python's `datetime` is the calendar: it is Gregorian too.
"""

from __future__ import annotations

from datetime import date, timedelta
from typing import Optional, Tuple

WrittenDate = Tuple[int, int, int]

FIRST = date(2000, 1, 1)
LAST = date(2199, 12, 31)


def day_number(written: WrittenDate) -> Optional[int]:
    """The number of a date as written (year, month, day), and nothing where there is no such day."""
    year, month, day = written
    if not FIRST.year <= year <= LAST.year or not 1 <= month <= 12 or not 1 <= day <= 31:
        return None
    try:
        return (date(year, month, day) - FIRST).days
    except ValueError:
        return None


def date_of(number: int) -> date:
    """The date of a day's number."""
    return FIRST + timedelta(days=number)


def weekday_bit(number: int) -> int:
    """The bit of a day's weekday in a set: 1 for Monday to 64 for Sunday."""
    return 1 << date_of(number).weekday()
