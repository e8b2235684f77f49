"""Leaves as written, put into the bytes of a sheet and into the text of a question."""

from __future__ import annotations

from typing import Iterable, Optional, Sequence, Union

from ..rules.days import WrittenDate
from ..rules.divisors import Written
from ..rules.makers import AmountLeafAsWritten, DayLeafAsWritten, WrittenAmount
from ..rules.sheets import (
    AMOUNTS,
    DAYS,
    HAS_MAXIMUM,
    HAS_MINIMUM,
    MAXIMUM_IS_NEGATIVE,
    MINIMUM_IS_NEGATIVE,
)
from ..rules.texts import print_weekdays

LeafAsWritten = Union[AmountLeafAsWritten, DayLeafAsWritten]


def number_bytes(number: int) -> bytes:
    """The shortest form of a number, of any size."""
    groups = [number & 0x7F]
    while number := number >> 7:
        groups.append(number & 0x7F)
    return bytes([group | 0x80 for group in groups[:-1]] + groups[-1:])


def numbers_bytes(numbers: Iterable[int]) -> bytes:
    """Numbers one after the other."""
    return b"".join(number_bytes(number) for number in numbers)


def divisors_bytes(divisors: Sequence[Written]) -> bytes:
    """A list of divisors: how many, then each."""
    return number_bytes(len(divisors)) + numbers_bytes(number for divisor in divisors for number in divisor)


def amount_leaf_bytes(leaf: AmountLeafAsWritten) -> bytes:
    """The bytes of an amount leaf."""
    flags = 0
    magnitudes = []
    for written, has, is_negative in (
        (leaf.minimum, HAS_MINIMUM, MINIMUM_IS_NEGATIVE),
        (leaf.maximum, HAS_MAXIMUM, MAXIMUM_IS_NEGATIVE),
    ):
        if written is not None:
            magnitude, negative = written
            flags |= has | (is_negative if negative else 0)
            magnitudes.append(magnitude)
    return bytes([flags]) + numbers_bytes(magnitudes) + divisors_bytes(leaf.required) + divisors_bytes(leaf.barred)


def day_leaf_bytes(leaf: DayLeafAsWritten) -> bytes:
    """The bytes of a day leaf."""
    flags = (HAS_MINIMUM if leaf.minimum else 0) | (HAS_MAXIMUM if leaf.maximum else 0)
    return bytes([flags]) + numbers_bytes((leaf.minimum or ()) + (leaf.maximum or ())) + number_bytes(leaf.weekdays)


def leaf_bytes(leaf: LeafAsWritten) -> bytes:
    """The bytes of a leaf of either kind."""
    return amount_leaf_bytes(leaf) if isinstance(leaf, AmountLeafAsWritten) else day_leaf_bytes(leaf)


def sheet_bytes(leaves: Sequence[LeafAsWritten]) -> bytes:
    """The sheet of leaves of one kind; of none, an empty sheet of amounts."""
    kind = DAYS if leaves and isinstance(leaves[0], DayLeafAsWritten) else AMOUNTS
    return bytes([kind.byte]) + b"".join(map(leaf_bytes, leaves))


def amount_text(written: Optional[WrittenAmount]) -> str:
    """A bound of an amount leaf as a question has it."""
    if written is None:
        return "*"
    magnitude, negative = written
    return f"-{magnitude}" if negative else str(magnitude)


def date_text(written: Optional[WrittenDate]) -> str:
    """A bound of a day leaf as a question has it."""
    return "*" if written is None else "{:04}-{:02}-{:02}".format(*written)


def divisors_text(divisors: Sequence[Written]) -> str:
    """A list of divisors as written."""
    return ",".join(str(p) if q == 1 else f"{p}/{q}" for p, q in divisors) or "-"


def leaf_text(leaf: LeafAsWritten) -> str:
    """The fields of a leaf in a question, without the value that is asked about."""
    if isinstance(leaf, AmountLeafAsWritten):
        fields = (amount_text(leaf.minimum), amount_text(leaf.maximum))
        return " ".join(fields + (divisors_text(leaf.required), divisors_text(leaf.barred)))
    fields = (date_text(leaf.minimum), date_text(leaf.maximum))
    return " ".join(fields + (print_weekdays(leaf.weekdays) or "-",))
