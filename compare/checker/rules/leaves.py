"""Leaves: a window of values with a rule. Amounts and days are the two kinds; what holds of both is in `Leaf`."""

from __future__ import annotations

from dataclasses import dataclass
from typing import Any, Callable, Optional, Protocol

from . import days
from .divisors import Divisors, barred_covers, required_covers


class Rule(Protocol):
    """What a leaf's rule has to answer."""

    def order(self) -> tuple[Any, ...]:
        """By which rules are ordered; only equal rules have equal ones."""

    def covers(self, other: Any) -> bool:
        """Whether this rule covers the other one of its kind."""

    def next_on_grid(self, value: int) -> int:
        """The least grid value strictly above a value; past the kind's highest value where there is none."""


@dataclass(frozen=True)
class AmountRule:
    """A folded list of required divisors and a thinned list of barred ones."""

    required: Divisors
    barred: Divisors

    def order(self) -> tuple[Any, ...]:
        """By the required lists, then by the barred ones; tuples compare item by item, a shorter one being lower."""
        return (self.required, self.barred)

    def covers(self, other: "AmountRule") -> bool:
        """Whether both lists cover the other's."""
        return required_covers(self.required, other.required) and barred_covers(self.barred, other.barred)

    def next_on_grid(self, value: int) -> int:
        """The next multiple of a lone whole divisor, else the next amount."""
        if len(self.required) == 1 and self.required[0].denominator == 1:
            step = self.required[0].numerator
            return (value // step + 1) * step
        return value + 1


@dataclass(frozen=True)
class DayRule:
    """A set of weekdays, bit 0 Monday to bit 6 Sunday."""

    weekdays: int

    def order(self) -> tuple[Any, ...]:
        """By the set's number."""
        return (self.weekdays,)

    def covers(self, other: "DayRule") -> bool:
        """Whether the other's set is part of this one."""
        return self.weekdays & other.weekdays == other.weekdays

    def next_on_grid(self, value: int) -> int:
        """The next day whose weekday is in the set."""
        value += 1
        while not self.weekdays & days.weekday_bit(value):
            value += 1
        return value


@dataclass(frozen=True)
class Leaf:
    """A minimum and a maximum, each absent where it is None, and a rule."""

    minimum: Optional[int]
    maximum: Optional[int]
    rule: Rule

    def order(self) -> tuple[Any, ...]:
        """By rule, then by minimum, an absent one lowest."""
        return (self.rule.order(), self.minimum is not None, self.minimum or 0)

    def covers(self, other: "Leaf") -> bool:
        """Whether the window includes the other's and the rule covers the other's."""
        return self.includes_window_of(other) and self.rule.covers(other.rule)

    def includes_window_of(self, other: "Leaf") -> bool:
        """Whether the minimum is no higher and the maximum no lower, an absent bound being outermost."""
        below = self.minimum is None or (other.minimum is not None and self.minimum <= other.minimum)
        above = self.maximum is None or (other.maximum is not None and self.maximum >= other.maximum)
        return below and above

    def joins(self, before: "Leaf") -> bool:
        """Whether this leaf joins the one before it: no value of the rule's grid lies strictly between them."""
        if self.rule != before.rule:
            return False
        if before.maximum is None or self.minimum is None:
            return True
        return before.rule.next_on_grid(before.maximum) >= self.minimum

    def joined_to(self, before: "Leaf") -> "Leaf":
        """The leaf of both: the lower minimum and the higher maximum."""
        minimum = outermost(min, before.minimum, self.minimum)
        maximum = outermost(max, before.maximum, self.maximum)
        return Leaf(minimum, maximum, self.rule)


def outermost(choose: Callable[[int, int], int], one: Optional[int], other: Optional[int]) -> Optional[int]:
    """The chosen one of two bounds; an absent one is outermost."""
    return None if one is None or other is None else choose(one, other)
