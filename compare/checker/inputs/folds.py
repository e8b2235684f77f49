"""Lines of a required and a barred list for `fold`: in order, refused, strange and malformed."""

from __future__ import annotations

from random import Random
from typing import Iterator, NamedTuple, Tuple

from ..rules.divisors import HIGHEST, MOST_DIVISORS, Written
from . import draw
from .encode import divisors_text
from .scramble import scramble_text

STRANGE_LISTS = (
    *("", "*", "-", "--", ",", "1,", ",1", "1,,2", "1/", "/1", "1/2/3", "-1", "+1", "0", "1/0", "0/1", "007/03", "1/1"),
    *("9223372036854775807", "9223372036854775808", "1/9223372036854775808", "9223372036854775807/9223372036854775807"),
    *("1,2,3,4,5,6", "1,2,3,4,5,6,7", "0,2,3,4,5,6,7", "2,2,2,2,2,2,2", "1/7,1/6,1/5,1/4,1/3,1/2"),
    *("0" * 300 + "5/1", "9" * 300, "1/" + "0" * 300, "18446744073709551617"),
)


class Fold(NamedTuple):
    """A line for `fold`, and what it is an example of."""

    shape: str
    line: bytes


def line_of(required: Tuple[Written, ...], barred: Tuple[Written, ...]) -> bytes:
    """The line of two lists."""
    return f"{divisors_text(required)} {divisors_text(barred)}".encode()


def fold_in_order(rng: Random) -> bytes:
    """Two lists that can be folded and thinned; the second often has to do with the first."""
    required = draw.divisors(rng)
    barred = draw.related_divisors(rng, required) if rng.random() < 0.3 else draw.divisors(rng)
    return line_of(required, barred)


def large_fold(rng: Random) -> bytes:
    """Two lists of large divisors."""
    return line_of(draw.large_divisors(rng), draw.large_divisors(rng))


def edge_fold(rng: Random) -> bytes:
    """Two lists with joins at the highest numerator and just above it."""
    return line_of(draw.edge_divisors(rng), draw.edge_divisors(rng))


def refused_fold(rng: Random) -> bytes:
    """Two lists, in one or both of which there are divisors that are refused, or more of them than six."""
    lists = [list(draw.divisors(rng)), list(draw.divisors(rng))]
    for _ in range(rng.choice((1, 1, 2))):
        broken = rng.choice(lists)
        if rng.random() < 0.5:
            broken += [draw.divisor(rng) for _ in range(MOST_DIVISORS + rng.randint(0, 2) - len(broken))]
        else:
            number = rng.choice((0, HIGHEST, HIGHEST + 1, 2**64 - 1, 2**64, 10**40))
            broken.insert(rng.randint(0, len(broken)), rng.choice(((number, 1), (3, number), (number, number))))
    return line_of(tuple(lists[0]), tuple(lists[1]))


def strange_fold(rng: Random) -> bytes:
    """Two lists of which one or both are strange."""
    fields = fold_in_order(rng).decode().split(" ")
    for _ in range(rng.choice((1, 1, 2))):
        fields[rng.randrange(2)] = rng.choice(STRANGE_LISTS)
    return " ".join(fields).encode()


def malformed_fold(rng: Random) -> bytes:
    """A line that was scrambled, or that has a list more or less."""
    line = fold_in_order(rng)
    if rng.random() < 0.7:
        return scramble_text(rng, line)
    fields = line.split(b" ")
    others = (fields[:1], fields[1:], [*fields, b"3"], [*fields, b""], [b"", *fields], [b""])
    return b" ".join(rng.choice(others))


SHAPES = (
    *(("in order", fold_in_order),) * 8,
    *(("large", large_fold),) * 4,
    *(("edge", edge_fold),) * 2,
    *(("refused", refused_fold),) * 2,
    *(("strange", strange_fold),) * 2,
    *(("malformed", malformed_fold),) * 2,
)


def folds(rng: Random) -> Iterator[Fold]:
    """Lines without end."""
    while True:
        shape, make = rng.choice(SHAPES)
        yield Fold(shape, make(rng))
