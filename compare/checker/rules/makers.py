"""Leaves as they are written: what the maker refuses, what it makes, and what a leaf as written admits."""

from __future__ import annotations

from dataclasses import dataclass
from typing import Optional, Sequence, Tuple

from . import days
from .days import WrittenDate
from .divisors import HIGHEST, MOST_DIVISORS, Written, fold, is_number_of_divisor, is_written_multiple, thin
from .leaves import AmountRule, DayRule, Leaf
from .refusals import Refused

LOWEST_AMOUNT = -(2**63)
HIGHEST_AMOUNT = HIGHEST
ALL_WEEKDAYS = 127

# An amount as written: its magnitude, and whether it has a minus.
WrittenAmount = Tuple[int, bool]


def amount_of(written: WrittenAmount) -> Optional[int]:
    """The amount, and nothing where it is out of range or minus zero."""
    magnitude, negative = written
    if negative:
        return -magnitude if 1 <= magnitude <= -LOWEST_AMOUNT else None
    return magnitude if magnitude <= HIGHEST_AMOUNT else None


def is_window(minimum: Optional[int], maximum: Optional[int]) -> bool:
    """Whether the minimum is at most the maximum, where both are there; if not, the leaf is refused 8."""
    return minimum is None or maximum is None or minimum <= maximum


def judge_lists(*lists: Sequence[Written]) -> None:
    """Refuses lists as written: 5 of any of them before 6 of any of them."""
    numbers = [number for written in lists for divisor in written for number in divisor]
    if not all(is_number_of_divisor(number) for number in numbers):
        raise Refused(5)
    if any(len(written) > MOST_DIVISORS for written in lists):
        raise Refused(6)


@dataclass(frozen=True)
class AmountLeafAsWritten:
    """An amount leaf as it goes to the maker; an absent bound is None."""

    minimum: Optional[WrittenAmount]
    maximum: Optional[WrittenAmount]
    required: Tuple[Written, ...]
    barred: Tuple[Written, ...]

    def window(self) -> Tuple[Optional[int], Optional[int]]:
        """The bounds, or the maker's refusal: 5, 6, 7 and 8 in this order."""
        judge_lists(self.required, self.barred)
        bounds = []
        for written in (self.minimum, self.maximum):
            bound = None if written is None else amount_of(written)
            if written is not None and bound is None:
                raise Refused(7)
            bounds.append(bound)
        if not is_window(*bounds):
            raise Refused(8)
        return bounds[0], bounds[1]

    def make(self) -> Leaf:
        """The leaf, or the maker's refusal."""
        minimum, maximum = self.window()
        return Leaf(minimum, maximum, AmountRule(fold(self.required), thin(self.barred)))

    def admits(self, value: int) -> bool:
        """Whether the leaf admits the amount, by the bounds and the divisors as written; or the maker's refusal."""
        minimum, maximum = self.window()
        within = (minimum is None or minimum <= value) and (maximum is None or value <= maximum)
        required = all(is_written_multiple(value, divisor) for divisor in self.required)
        barred = any(is_written_multiple(value, divisor) for divisor in self.barred)
        return within and required and not barred


@dataclass(frozen=True)
class DayLeafAsWritten:
    """A day leaf as it goes to the maker; an absent bound is None."""

    minimum: Optional[WrittenDate]
    maximum: Optional[WrittenDate]
    weekdays: int

    def make(self) -> Leaf:
        """The leaf, or the maker's refusal: 7, 8 and 9 in this order."""
        bounds = []
        for written in (self.minimum, self.maximum):
            bound = None if written is None else days.day_number(written)
            if written is not None and bound is None:
                raise Refused(7)
            bounds.append(bound)
        if not is_window(*bounds):
            raise Refused(8)
        if not 1 <= self.weekdays <= ALL_WEEKDAYS:
            raise Refused(9)
        return Leaf(bounds[0], bounds[1], DayRule(self.weekdays))

    def admits(self, day: int) -> bool:
        """Whether the leaf admits the day of that number; or the maker's refusal."""
        leaf = self.make()
        within = (leaf.minimum is None or leaf.minimum <= day) and (leaf.maximum is None or day <= leaf.maximum)
        return within and self.weekdays & days.weekday_bit(day) != 0
