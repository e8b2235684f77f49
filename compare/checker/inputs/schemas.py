"""Questions about amount leaves in two forms: a line for `ask`, and a JSON Schema with an instance.

Python's jsonschema computes `multipleOf` as `instance % divisor` where the divisor is a whole number, which is exact
for numbers of any size. Where it is a float it divides, and looks whether the quotient is whole. That is exact where
the divisor is p/q with q a power of 2 and p at most 2^53, and |instance|·q is below 2^53: the float is then p/q; a
whole quotient is below 2^53 and comes out as it is; any other is at least 1/p away from every whole number, and
rounding moves it by less than that. So there are three shapes of questions: whole divisors, floats within these limits,
and any fractions with all numbers multiplied by a common denominator, which makes them whole.
"""

from __future__ import annotations

from dataclasses import replace
from fractions import Fraction
from math import lcm
from random import Random
from typing import Any, Iterator, NamedTuple, Sequence, Union

from ..rules.divisors import Written
from ..rules.makers import AmountLeafAsWritten, amount_of
from . import draw
from .encode import leaf_text
from .questions import amount_leaf_and_value

# Every whole number below is a float.
EXACT_BELOW = 2**53

Number = Union[int, float]


class SchemaQuestion(NamedTuple):
    """A question in both forms, and what it is an example of."""

    shape: str
    line: bytes
    schema: dict[str, Any]
    instance: int


def schema_of(leaf: AmountLeafAsWritten, scale: int) -> dict[str, Any]:
    """The schema of the leaf, all of it multiplied by a whole number."""
    schema: dict[str, Any] = {}
    for keyword, written in (("minimum", leaf.minimum), ("maximum", leaf.maximum)):
        bound = None if written is None else amount_of(written)
        if bound is not None:
            schema[keyword] = bound * scale
    if leaf.required:
        schema["allOf"] = multiples_of(leaf.required, scale)
    if leaf.barred:
        schema["not"] = {"anyOf": multiples_of(leaf.barred, scale)}
    return schema


def multiples_of(divisors: Sequence[Written], scale: int) -> list[dict[str, Number]]:
    """A schema for the multiples of each divisor, all of it multiplied."""
    return [{"multipleOf": number_of(Fraction(p, q) * scale)} for p, q in divisors]


def number_of(divisor: Fraction) -> Number:
    """A whole divisor as it is, and a fraction as a float."""
    return divisor.numerator if divisor.denominator == 1 else divisor.numerator / divisor.denominator


def is_exact_in_floats(divisors: Sequence[Written], value: int) -> bool:
    """Whether jsonschema computes exactly whether the value is a multiple of each of the divisors."""
    for divisor in (Fraction(p, q) for p, q in divisors):
        p, q = divisor.numerator, divisor.denominator
        is_binary = q & (q - 1) == 0
        if q != 1 and not (is_binary and p <= EXACT_BELOW and abs(value) * q < EXACT_BELOW):
            return False
    return True


def whole(rng: Random) -> SchemaQuestion:
    """A question about whole divisors of any size."""
    leaf, value = amount_leaf_and_value(rng)
    required, barred = (tuple((p, 1) for p, _ in divisors) for divisors in (leaf.required, leaf.barred))
    leaf = replace(leaf, required=required, barred=barred)
    return SchemaQuestion("whole", line_of(leaf, value), schema_of(leaf, 1), value)


def in_floats(rng: Random) -> SchemaQuestion:
    """A question about divisors of which at least one is a fraction, as a float."""
    while True:
        leaf, value = amount_leaf_and_value(rng)
        required, barred = (tuple((p, binary(rng)) for p, _ in divisors) for divisors in (leaf.required, leaf.barred))
        is_fraction = any(p % q != 0 for p, q in required + barred)
        if is_fraction and is_exact_in_floats(required + barred, value):
            leaf = replace(leaf, required=required, barred=barred)
            return SchemaQuestion("floats", line_of(leaf, value), schema_of(leaf, 1), value)


def scaled(rng: Random) -> SchemaQuestion:
    """A question about any fractions, multiplied by their common denominator for the schema."""
    leaf, value = amount_leaf_and_value(rng)
    scale = lcm(*(q for _, q in leaf.required + leaf.barred))
    return SchemaQuestion("scaled", line_of(leaf, value), schema_of(leaf, scale), value * scale)


def binary(rng: Random) -> int:
    """A denominator that is a power of 2."""
    return 1 << rng.choice((0, 1, 1, 2, 3, rng.randint(4, 40)))


def line_of(leaf: AmountLeafAsWritten, value: int) -> bytes:
    """The question as a line for `ask`."""
    return f"{leaf_text(leaf)} {value}".encode()


def schema_questions(rng: Random) -> Iterator[SchemaQuestion]:
    """Questions without end."""
    while True:
        yield rng.choice((whole, in_floats, scaled))(rng)
