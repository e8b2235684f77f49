"""Cases in which one field of the answer that is expected is wrong."""

from __future__ import annotations

from dataclasses import replace
from random import Random

from ..rules.programs import Case
from ..rules.refusals import LAYERS

NONE = "-"
FIELDS = ("accepted", "start", "number", "byte", "layer", "output", "output")


def wrong_case(rng: Random, case: Case) -> Case:
    """The case with one field of its answer made wrong."""
    field = rng.choice(FIELDS)
    right = getattr(case, field)
    wrong = right
    while wrong == right:
        wrong = wrong_output(rng, right) if field == "output" else wrong_word(rng, field, right)
    return replace(case, **{field: wrong})


def wrong_word(rng: Random, field: str, right: str) -> str:
    """Another word for a field of the answer but its output."""
    if field == "layer":
        return rng.choice([NONE, *LAYERS.values()])
    if field == "number":
        return rng.choice([NONE, *map(str, LAYERS)])
    if right == NONE:
        return str(rng.randint(0, 3))
    near = max(0, int(right) + rng.choice((-2, -1, 1, 2, 256, 65536)))
    return rng.choice((str(near), str(near), str(near), NONE)) if field == "byte" else str(near)


def wrong_output(rng: Random, right: str) -> str:
    """Another output in hexadecimal: a byte of it changed, cut off or added."""
    output = bytearray() if right == NONE else bytearray.fromhex(right)
    shape = rng.random()
    if output and shape < 0.5:
        output[rng.randrange(len(output))] ^= 1 << rng.randrange(8)
    elif output and shape < 0.7:
        del output[-1]
    elif output and shape < 0.8:
        output.clear()
    else:
        output += rng.choice((b"\n", b" ", b"* * - -\n", b"refused 2 at 0\n"))
    return output.hex() or NONE
