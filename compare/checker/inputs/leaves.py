"""Draws of leaves as written: the leaves of one draw share few rules, and their windows lie close together."""

from __future__ import annotations

from dataclasses import replace
from random import Random
from typing import Optional, Sequence, Tuple

from ..rules.divisors import HIGHEST, MOST_DIVISORS, Written, fold
from ..rules.makers import HIGHEST_AMOUNT, LOWEST_AMOUNT, AmountLeafAsWritten, DayLeafAsWritten, WrittenAmount
from . import draw
from .encode import LeafAsWritten

Window = Tuple[Optional[int], Optional[int]]


def written_amount(value: Optional[int]) -> Optional[WrittenAmount]:
    """An amount as written; an absent one stays absent."""
    return None if value is None else (abs(value), value < 0)


class Windows:
    """Windows of values from `lowest` to `highest`, each close behind or over the one drawn before."""

    def __init__(self, rng: Random, lowest: int, highest: int, start: int, step: int, count: int) -> None:
        self.lowest = lowest
        self.highest = highest
        self.end = start
        self.gaps: Sequence[int] = (-2, -1, 0, 1, 1, 2, 3, step - 1, step, step + 1, 2 * step, -3 * step)
        if rng.random() < 0.6:
            self.gaps = (1, 2, step - 1, step, step + 1, 2 * step + 1, 7 * step, rng.randint(1, 1000) * step, -step)
        self.lengths = (0, 0, 1, 2, 5, step, step - 1, 7 * step)
        self.share_without = min(0.06, 0.4 / max(count, 1))

    def draw(self, rng: Random) -> Window:
        """The next window; a bound, or both, may be absent."""
        minimum = draw.clamp(self.end + rng.choice(self.gaps), self.lowest, self.highest)
        maximum = draw.clamp(minimum + rng.choice(self.lengths), minimum, self.highest)
        self.end = maximum
        if rng.random() < self.share_without:
            return rng.choice(((None, maximum), (minimum, None), (None, None)))
        return minimum, maximum


def amount_leaves(rng: Random, count: int) -> list[AmountLeafAsWritten]:
    """So many amount leaves that can all be made."""
    lists = draw.divisors if rng.random() < 0.3 else draw.few_divisors
    rules = [(lists(rng), lists(rng) if rng.random() < 0.5 else ())]
    while rng.random() < 0.6:
        required, barred = rng.choice(rules)
        shape = rng.random()
        if shape < 0.4:
            rules.append((draw.related_divisors(rng, required), barred))
        elif shape < 0.8:
            rules.append((required, draw.related_divisors(rng, barred)))
        else:
            rules.append((lists(rng), lists(rng)))
    start = draw.amount(rng)
    windows = [Windows(rng, LOWEST_AMOUNT, HIGHEST_AMOUNT, start, step_of(required), count) for required, _ in rules]
    leaves = []
    for _ in range(count):
        which = rng.randrange(len(rules))
        minimum, maximum = windows[which].draw(rng)
        leaves.append(AmountLeafAsWritten(written_amount(minimum), written_amount(maximum), *rules[which]))
    rng.shuffle(leaves)
    return leaves


def step_of(required: Sequence[Written]) -> int:
    """The distance of a rule's grid values, or one near it: the first folded divisor without its fraction."""
    folded = fold(required)
    return max(1, int(folded[0])) if folded else 1


def day_leaves(rng: Random, count: int) -> list[DayLeafAsWritten]:
    """So many day leaves that can all be made."""
    sets = [rng.randint(1, 127)]
    while rng.random() < 0.6:
        part = rng.choice(sets) & rng.randint(1, 127) if rng.random() < 0.6 else rng.randint(1, 127)
        sets.append(part or 127)
    start = draw.day(rng)
    windows = [Windows(rng, 0, draw.LAST_DAY, start, 7, count) for _ in sets]
    leaves = []
    for _ in range(count):
        which = rng.randrange(len(sets))
        minimum, maximum = map(draw.written_date, windows[which].draw(rng))
        leaves.append(DayLeafAsWritten(minimum, maximum, sets[which]))
    rng.shuffle(leaves)
    return leaves


def leaves_of_a_kind(rng: Random, count: int) -> Sequence[LeafAsWritten]:
    """So many leaves of either kind, amounts more often than days."""
    if rng.random() < 0.65:
        return amount_leaves(rng, count)
    return day_leaves(rng, count)


def spoilt(rng: Random, leaf: LeafAsWritten) -> LeafAsWritten:
    """The leaf with a part or more that is refused, or that lies at the limit of what is."""
    return spoilt_amounts(rng, leaf) if isinstance(leaf, AmountLeafAsWritten) else spoilt_days(rng, leaf)


def spoilt_amounts(rng: Random, leaf: AmountLeafAsWritten) -> AmountLeafAsWritten:
    """An amount leaf with such parts."""
    if rng.random() < 0.3:
        leaf = spoilt_amounts(rng, leaf)
    part = rng.choice(("minimum", "maximum", "window", "required", "barred"))
    if part in ("minimum", "maximum"):
        magnitude = rng.choice((0, HIGHEST, HIGHEST + 1, HIGHEST + 2, 2**64 - 1, 2**64))
        return replace(leaf, **{part: (magnitude, rng.random() < 0.6)})
    if part == "window":
        minimum = draw.amount(rng)
        below = draw.clamp(minimum - rng.choice((0, 1, 1, 50)), LOWEST_AMOUNT, HIGHEST_AMOUNT)
        return replace(leaf, minimum=written_amount(minimum), maximum=written_amount(below))
    divisors = list(getattr(leaf, part))
    if rng.random() < 0.4:
        divisors += [draw.divisor(rng) for _ in range(rng.randint(MOST_DIVISORS, MOST_DIVISORS + 1) - len(divisors))]
    if rng.random() < 0.7:
        broken = rng.choice((0, HIGHEST, HIGHEST + 1, 2**64 - 1, 2**64))
        divisors.insert(rng.randint(0, len(divisors)), rng.choice(((broken, 1), (3, broken), (broken, broken))))
    return replace(leaf, **{part: tuple(divisors)})


def spoilt_days(rng: Random, leaf: DayLeafAsWritten) -> DayLeafAsWritten:
    """A day leaf with such parts."""
    if rng.random() < 0.3:
        leaf = spoilt_days(rng, leaf)
    part = rng.choice(("minimum", "maximum", "window", "weekdays"))
    if part in ("minimum", "maximum"):
        return replace(leaf, **{part: draw.no_date(rng)})
    if part == "window":
        minimum = draw.day(rng)
        below = draw.clamp(minimum - rng.choice((0, 1, 1, 50)), 0, draw.LAST_DAY)
        return replace(leaf, minimum=draw.written_date(minimum), maximum=draw.written_date(below))
    return replace(leaf, weekdays=rng.choice((0, 0, 127, 128, 129, 255, 2**64 - 1)))
