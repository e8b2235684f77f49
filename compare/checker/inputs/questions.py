"""Questions of both forms for `ask`: about leaves that can be made, about others, strange ones, and malformed ones."""

from __future__ import annotations

from dataclasses import replace
from math import lcm
from random import Random
from typing import Iterator, NamedTuple, Tuple

from ..rules.days import day_number
from ..rules.divisors import is_number_of_divisor
from ..rules.makers import HIGHEST_AMOUNT, LOWEST_AMOUNT, AmountLeafAsWritten, DayLeafAsWritten
from . import draw, leaves
from .encode import date_text, leaf_text
from .folds import STRANGE_LISTS
from .leaves import written_amount
from .scramble import scramble_text

STRANGE_AMOUNTS = (
    *("*", "-0", "-000", "0", "00", "9223372036854775807", "9223372036854775808", "-9223372036854775808"),
    *("-9223372036854775809", "18446744073709551616", "1" + "0" * 300, "0" * 300 + "7", "-", "", "+1", "1.0", "--1"),
)
STRANGE_DATES = (
    *("*", "2100-02-29", "2000-02-29", "2199-12-31", "2200-01-01", "1999-12-31", "2000-01-01", "0000-00-00"),
    *("2024-13-01", "2024-5-03", "24-05-03", "2024-05-032", "2024/05/03", "2024-05", "-2024-05-03", "-", "", "1"),
)
STRANGE_WEEKDAYS = ("", "0", "8", "11", "21", "1-2", "1234567", "12345678", "*", "7", "-", "--", "1,2", "135")


class Question(NamedTuple):
    """A line for `ask`, and what it is an example of."""

    shape: str
    line: bytes


def asked_amount(rng: Random, leaf: AmountLeafAsWritten) -> int:
    """An amount that the leaf may admit, or just not: near a bound, or a multiple of what is required or barred."""
    numerators = [p for p, _ in leaf.required if is_number_of_divisor(p)]
    barred = [p for p, _ in leaf.barred if is_number_of_divisor(p)]
    step = lcm(*numerators) if rng.random() < 0.8 else 1
    if barred and rng.random() < 0.3:
        step = lcm(step, rng.choice(barred))
    bounds = [-size if negative else size for size, negative in filter(None, (leaf.minimum, leaf.maximum))]
    about = rng.choice(bounds) if bounds and rng.random() < 0.8 else draw.amount(rng)
    value = about // step * step + rng.choice((0, 0, 0, 1, -1, 2)) * step
    value += rng.choice((0, 0, 0, 0, 1, -1, rng.randint(-9, 9)))
    return draw.clamp(value, LOWEST_AMOUNT, HIGHEST_AMOUNT)


def asked_day(rng: Random, leaf: DayLeafAsWritten) -> int:
    """The number of a day near a bound of the leaf, where there is one."""
    bounds = [day_number(bound) for bound in (leaf.minimum, leaf.maximum) if bound is not None]
    about = rng.choice(bounds) if bounds else None
    return draw.clamp(draw.near(rng, draw.day(rng) if about is None else about, 9), 0, draw.LAST_DAY)


def amount_leaf_and_value(rng: Random) -> Tuple[AmountLeafAsWritten, int]:
    """An amount leaf that can be made, and an amount; in every other draw the window was widened to hold it."""
    leaf = leaves.amount_leaves(rng, 1)[0]
    value = asked_amount(rng, leaf)
    if rng.random() < 0.5:
        below, above = written_amount(min(value, draw.amount(rng))), written_amount(max(value, draw.amount(rng)))
        leaf = replace(leaf, minimum=leaf.minimum and below, maximum=leaf.maximum and above)
    return leaf, value


def amount_question(rng: Random) -> bytes:
    """A question about an amount leaf that can be made."""
    leaf, value = amount_leaf_and_value(rng)
    return f"{leaf_text(leaf)} {value}".encode()


def day_question(rng: Random) -> bytes:
    """A question about a day leaf that can be made; in every other one the window was widened to hold the day."""
    leaf = leaves.day_leaves(rng, 1)[0]
    asked = asked_day(rng, leaf)
    if rng.random() < 0.5:
        below, above = draw.written_date(min(asked, draw.day(rng))), draw.written_date(max(asked, draw.day(rng)))
        leaf = replace(leaf, minimum=leaf.minimum and below, maximum=leaf.maximum and above)
    return f"{leaf_text(leaf)} {date_text(draw.written_date(asked))}".encode()


def spoilt_question(rng: Random) -> bytes:
    """A question of which the leaf or the date has parts that are refused or at the limit of what is."""
    if rng.random() < 0.6:
        amounts = leaves.spoilt_amounts(rng, leaves.amount_leaves(rng, 1)[0])
        return f"{leaf_text(amounts)} {asked_amount(rng, amounts)}".encode()
    days = leaves.day_leaves(rng, 1)[0]
    if rng.random() < 0.8:
        days = leaves.spoilt_days(rng, days)
    date = draw.no_date(rng) if rng.random() < 0.4 else draw.written_date(asked_day(rng, days))
    return f"{leaf_text(days)} {date_text(date)}".encode()


def strange_question(rng: Random) -> bytes:
    """A question with one or two strange fields, of which some are in order."""
    is_of_amounts = rng.random() < 0.6
    fields = (amount_question(rng) if is_of_amounts else day_question(rng)).decode().split(" ")
    strange = (
        (STRANGE_AMOUNTS, STRANGE_AMOUNTS, STRANGE_LISTS, STRANGE_LISTS, STRANGE_AMOUNTS)
        if is_of_amounts
        else (STRANGE_DATES, STRANGE_DATES, STRANGE_WEEKDAYS, STRANGE_DATES)
    )
    for _ in range(rng.choice((1, 1, 2))):
        place = rng.randrange(len(fields))
        fields[place] = rng.choice(strange[place])
    return " ".join(fields).encode()


def malformed_question(rng: Random) -> bytes:
    """A question that was scrambled, or that has a field more or less."""
    line = amount_question(rng) if rng.random() < 0.6 else day_question(rng)
    if rng.random() < 0.6:
        return scramble_text(rng, line)
    fields = line.split(b" ")
    if rng.random() < 0.5:
        fields.insert(rng.randint(0, len(fields)), rng.choice((b"", b"*", b"1", b"x", fields[0])))
    else:
        del fields[rng.randrange(len(fields)) : len(fields) - rng.randrange(len(fields))]
    return b" ".join(fields)


SHAPES = (
    *(("amounts", amount_question),) * 10,
    *(("days", day_question),) * 3,
    *(("spoilt", spoilt_question),) * 3,
    *(("strange", strange_question),) * 2,
    *(("malformed", malformed_question),) * 2,
)


def questions(rng: Random) -> Iterator[Question]:
    """Questions without end."""
    while True:
        shape, make = rng.choice(SHAPES)
        yield Question(shape, make(rng))
