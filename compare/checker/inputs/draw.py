"""Draws of amounts, divisors, lists of divisors, and dates, with a taste for small numbers and for the limits."""

from __future__ import annotations

import math
from random import Random
from typing import Optional, Sequence, Tuple

from ..rules.days import FIRST, LAST, WrittenDate, date_of
from ..rules.divisors import HIGHEST, MOST_DIVISORS, Written
from ..rules.makers import HIGHEST_AMOUNT, LOWEST_AMOUNT

SMALL_PRIMES = (2, 2, 2, 3, 3, 5, 7, 11, 13)
LAST_DAY = (LAST - FIRST).days


def near(rng: Random, middle: int, reach: int) -> int:
    """A number at most `reach` away from the middle."""
    return middle + rng.randint(-reach, reach)


def clamp(value: int, lowest: int, highest: int) -> int:
    """The nearest value within the limits."""
    return max(lowest, min(highest, value))


def amount(rng: Random) -> int:
    """An amount."""
    shape = rng.random()
    if shape < 0.55:
        drawn = near(rng, 0, 60)
    elif shape < 0.7:
        drawn = near(rng, 0, 10**6)
    elif shape < 0.8:
        drawn = rng.choice((-1, 1)) * near(rng, 1 << rng.randrange(64), 2)
    elif shape < 0.9:
        drawn = near(rng, rng.choice((LOWEST_AMOUNT, HIGHEST_AMOUNT)), 40)
    else:
        drawn = rng.randint(LOWEST_AMOUNT, HIGHEST_AMOUNT)
    return clamp(drawn, LOWEST_AMOUNT, HIGHEST_AMOUNT)


def smooth(rng: Random, below: int) -> int:
    """A product of small primes, at most `below`."""
    product = 1
    for _ in range(rng.randint(0, 6)):
        factor = rng.choice(SMALL_PRIMES)
        product *= factor if product * factor <= below else 1
    return product


def numerator(rng: Random) -> int:
    """A numerator, from 1 to 2^63 − 1."""
    shape = rng.random()
    if shape < 0.65:
        return rng.randint(1, 30)
    if shape < 0.8:
        return smooth(rng, HIGHEST)
    if shape < 0.87:
        return clamp(near(rng, 1 << rng.randrange(1, 64), 2), 1, HIGHEST)
    if shape < 0.94:
        return near(rng, HIGHEST - 20, 20)
    return rng.randint(1, HIGHEST)


def denominator(rng: Random) -> int:
    """A denominator, from 1 to 2^63 − 1."""
    shape = rng.random()
    if shape < 0.65:
        return 1
    if shape < 0.85:
        return rng.randint(1, 12)
    if shape < 0.95:
        return rng.choice((2, 4, 8, 16, 10, 100, 1000, 1 << 40))
    return numerator(rng)


def divisor(rng: Random) -> Written:
    """A divisor as written, not always in lowest terms."""
    p, q = numerator(rng), denominator(rng)
    times = rng.randint(2, 9) if rng.random() < 0.1 else 1
    return (p * times, q * times) if max(p, q) * times <= HIGHEST else (p, q)


def count_of_divisors(rng: Random) -> int:
    """How many divisors a list has, mostly few."""
    return rng.choice((0, 0, 1, 1, 1, 1, 2, 2, 3, rng.randint(0, MOST_DIVISORS)))


def few_divisors(rng: Random) -> Tuple[Written, ...]:
    """A list of mostly few divisors."""
    return tuple(divisor(rng) for _ in range(count_of_divisors(rng)))


def large_divisors(rng: Random) -> Tuple[Written, ...]:
    """Up to six divisors of large parts and shared small primes: of these, joins are absent and strips happen."""
    parts = [rng.randrange(1 << (bits - 1), 1 << bits) for bits in rng.choices(range(20, 62), k=rng.randint(1, 4))]
    drawn = []
    for _ in range(rng.randint(2, MOST_DIVISORS)):
        part = rng.choice(parts + [1])
        whole = part * smooth(rng, HIGHEST // part)
        drawn.append((whole, rng.choice((1, 1, 1, 1, 1, 2, 3))))
    return tuple(drawn)


def edge_divisors(rng: Random) -> Tuple[Written, ...]:
    """Two or three divisors, of which two have a least common multiple at 2^63 or near it."""
    while True:
        multiple = near(rng, HIGHEST, 1 if rng.random() < 0.6 else 30)
        one = math.gcd(multiple, math.prod(rng.sample(range(2, 700), 60)))
        other = multiple // one
        if 1 < one <= HIGHEST and other <= HIGHEST:
            break
    shared = math.gcd(other, smooth(rng, HIGHEST // one))
    drawn = [(one * shared, rng.choice((1, 1, 2))), (other, rng.choice((1, 1, 3)))]
    drawn += [divisor(rng)] * rng.randint(0, 1)
    rng.shuffle(drawn)
    return tuple(drawn)


def small_divisors(rng: Random) -> Tuple[Written, ...]:
    """Up to six divisors of small numbers."""
    count = rng.randint(0, MOST_DIVISORS)
    return tuple((rng.randint(1, 40), rng.choice((1, 1, 1, 2, 3, 4, 10))) for _ in range(count))


def divisors(rng: Random) -> Tuple[Written, ...]:
    """A list of divisors of any of these shapes."""
    shapes = (few_divisors, few_divisors, few_divisors, small_divisors, small_divisors, large_divisors, large_divisors)
    return rng.choice((*shapes, edge_divisors))(rng)


def related_divisors(rng: Random, written: Sequence[Written]) -> Tuple[Written, ...]:
    """A list that likely covers the given one, or is covered by it: a divisor more, less, or one multiplied."""
    changed = list(written)
    place = rng.randrange(len(changed)) if changed else 0
    shape = rng.random()
    if shape < 0.3 and len(changed) < MOST_DIVISORS:
        changed.insert(place, divisor(rng))
    elif shape < 0.5 and changed:
        changed.pop(place)
    elif changed:
        p, q = changed[place]
        times = rng.choice((2, 2, 3, 5))
        changed[place] = (p * times, q) if p * times <= HIGHEST else (p, 1)
    rng.shuffle(changed)
    return tuple(changed)


def day(rng: Random) -> int:
    """The number of a day."""
    shape = rng.random()
    if shape < 0.7:
        return rng.randint(8000, 9500)
    if shape < 0.85:
        return clamp(near(rng, rng.choice((0, LAST_DAY)), 20), 0, LAST_DAY)
    return rng.randint(0, LAST_DAY)


def written_date(number: Optional[int]) -> Optional[WrittenDate]:
    """The date of a day's number as written; an absent one stays absent."""
    if number is None:
        return None
    found = date_of(number)
    return found.year, found.month, found.day


def no_date(rng: Random) -> WrittenDate:
    """A date that likely is no day."""
    known = ((2100, 2, 29), (2001, 2, 29), (1999, 12, 31), (2200, 1, 1), (2024, 4, 31), (2024, 2, 30), (0, 0, 0))
    if rng.random() < 0.6:
        return rng.choice(known)
    return rng.choice((1999, 2000, 2024, 2100, 2199, 2200, 9999)), rng.randint(0, 13), rng.randint(0, 32)
