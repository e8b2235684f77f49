"""Divisors and lists of them: joins, strips, folding and thinning.

A divisor as written is a pair (p, q) of whole numbers of any size. Kept, it is a `Fraction`, which Python holds in
lowest terms and orders by size.
"""

from __future__ import annotations

from fractions import Fraction
from math import gcd, lcm
from typing import Optional, Sequence, Tuple

Written = Tuple[int, int]
Divisors = Tuple[Fraction, ...]

HIGHEST = 2**63 - 1
MOST_DIVISORS = 6


def is_written_multiple(value: int, written: Written) -> bool:
    """Whether the integer is a multiple of p/q: value·q is a multiple of p."""
    p, q = written
    return value * q % p == 0


def divides(one: Fraction, other: Fraction) -> bool:
    """Whether `other` is a whole multiple of `one`."""
    return other.numerator * one.denominator % (one.numerator * other.denominator) == 0


def join(one: Fraction, other: Fraction) -> Optional[Fraction]:
    """lcm of the numerators by gcd of the denominators; absent exactly where that lcm exceeds 2^63 − 1."""
    numerator = lcm(one.numerator, other.numerator)
    if numerator > HIGHEST:
        return None
    return Fraction(numerator, gcd(one.denominator, other.denominator))


def shared_part(number: int, other: int) -> int:
    """The largest divisor of `number` that is built only from primes of `other`."""
    rest = number
    while (common := gcd(rest, other)) > 1:
        rest //= common
    return number // rest


def strip(one: Fraction, other: Fraction) -> Optional[Fraction]:
    """What is left of `one` where `other` strips it, and nothing where it does not; both have to be whole."""
    if one.denominator != 1 or other.denominator != 1:
        return None
    shared = shared_part(one.numerator, other.numerator)
    if shared == 1 or other.numerator % shared != 0:
        return None
    return one / shared


def in_order(divisors: Sequence[Fraction]) -> list[Fraction]:
    """Ascending and without repeats."""
    return sorted(set(divisors))


def after_join(divisors: list[Fraction]) -> Optional[list[Fraction]]:
    """The list after its first pair that has a join is joined, if there is one."""
    for left in range(len(divisors)):
        for right in range(left + 1, len(divisors)):
            joined = join(divisors[left], divisors[right])
            if joined is not None:
                return in_order(divisors[:left] + [joined] + divisors[left + 1 : right] + divisors[right + 1 :])
    return None


def after_strip(divisors: list[Fraction]) -> Optional[list[Fraction]]:
    """The list after the first divisor that another strips is stripped by the lowest that can, if there is one."""
    for place, stripped in enumerate(divisors):
        for other_place, other in enumerate(divisors):
            left = strip(stripped, other) if other_place != place else None
            if left is not None:
                return in_order(divisors[:place] + [left] + divisors[place + 1 :])
    return None


def fold(written: Sequence[Written]) -> Divisors:
    """The folded list of required divisors."""
    kept = [Fraction(p, q) for p, q in written]
    divisors = in_order([divisor for divisor in kept if divisor.numerator != 1])
    while True:
        stepped = after_join(divisors) or after_strip(divisors)
        if stepped is None:
            return tuple(divisors)
        divisors = stepped


def thin(written: Sequence[Written]) -> Divisors:
    """The thinned list of barred divisors."""
    divisors = in_order([Fraction(p, q) for p, q in written])
    return tuple(
        divisor for divisor in divisors if not any(divides(other, divisor) for other in divisors if other != divisor)
    )


def required_covers(one: Divisors, other: Divisors) -> bool:
    """Whether each divisor of `one` divides one of `other`."""
    return all(any(divides(mine, theirs) for theirs in other) for mine in one)


def barred_covers(one: Divisors, other: Divisors) -> bool:
    """Whether each divisor of `one` is divided by one of `other`."""
    return all(any(divides(theirs, mine) for theirs in other) for mine in one)


def is_number_of_divisor(number: int) -> bool:
    """Whether the number may be a numerator or a denominator as written; if not, it is refused 5."""
    return 1 <= number <= HIGHEST
