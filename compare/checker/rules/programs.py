"""What the programs print of their input.

The rules leave the words open in which `fold` and `ask` say what is wrong with a line and how many lines came to what,
and in which `cases` says which lines differ. The words here are those that the programs were seen to use.
"""

from __future__ import annotations

from dataclasses import dataclass
from typing import Callable, Optional, TypeVar

from .days import day_number
from .divisors import fold, thin
from .lists import LeafList
from .makers import AmountLeafAsWritten, DayLeafAsWritten, amount_of, judge_lists
from .refusals import Refused
from .sheets import AMOUNTS, DAYS, LONGEST_SHEET, Answer, kind_of, take_sheet
from .texts import (
    print_divisors,
    print_line,
    print_refusal,
    read_amount,
    read_date,
    read_divisors,
    read_hexadecimal,
    read_weekdays,
    split_lines,
)

PLACES_OF_LINES = 128
PLACES_OF_QUOTE = 1024

Field = TypeVar("Field")


class Malformed(Exception):
    """A line, or a part of it, is of another form than the program reads."""


def as_text(lines: list[str]) -> bytes:
    """The lines, each with a line feed."""
    return "".join(line + "\n" for line in lines).encode("ascii")


def answer_each(text: bytes, answer: Callable[[bytes], str], answered: str) -> bytes:
    """What each line of a text comes to, and then how many lines came to what."""
    told = []
    counts = {answered: 0, "refused": 0, "malformed": 0}
    for number, line in enumerate(split_lines(text), start=1):
        try:
            told.append(answer(line))
            counts[answered] += 1
        except Refused as refused:
            told.append(print_refusal(refused))
            counts["refused"] += 1
        except Malformed as wrong:
            told.append(f"line {number}: {wrong}")
            counts["malformed"] += 1
    return as_text(told + [", ".join(f"{what} {count}" for what, count in counts.items())])


def need(field: Optional[Field], wrong: str) -> Field:
    """The field that was read, or what is wrong where nothing was."""
    if field is None:
        raise Malformed(wrong)
    return field


def fold_output(text: bytes) -> bytes:
    """What `fold` prints."""
    return answer_each(text, fold_line, "folded")


def fold_line(line: bytes) -> str:
    """The folded and the thinned list of a line with a required and a barred one."""
    first, space, second = line.partition(b" ")
    if not space:
        raise Malformed("not two lists with a space between")
    required = need(read_divisors(first), "the required list is no list of divisors")
    barred = need(read_divisors(second), "the barred list is no list of divisors")
    judge_lists(required, barred)
    return f"{print_divisors(fold(required))} {print_divisors(thin(barred))}"


def ask_output(text: bytes) -> bytes:
    """What `ask` prints."""
    return answer_each(text, ask_line, "answered")


def ask_line(line: bytes) -> str:
    """The yes or no of a question of either form."""
    fields = line.split(b" ", 4)
    if len(fields) < 4:
        raise Malformed("neither four nor five fields with a space between")
    admitted = ask_about_days(fields) if len(fields) == 4 else ask_about_amounts(fields)
    return "yes" if admitted else "no"


def ask_about_amounts(fields: list[bytes]) -> bool:
    """Whether an amount leaf admits an amount; fields are looked at from first to last, before the leaf is made."""
    leaf = AmountLeafAsWritten(
        None if fields[0] == b"*" else need(read_amount(fields[0]), "the minimum is no amount"),
        None if fields[1] == b"*" else need(read_amount(fields[1]), "the maximum is no amount"),
        need(read_divisors(fields[2]), "the required list is no list of divisors"),
        need(read_divisors(fields[3]), "the barred list is no list of divisors"),
    )
    written = read_amount(fields[4])
    value = need(None if written is None else amount_of(written), "the value is no 64-bit amount")
    return leaf.admits(value)


def ask_about_days(fields: list[bytes]) -> bool:
    """Whether a day leaf admits a date; a date that is no day is refused only once the leaf is made."""
    leaf = DayLeafAsWritten(
        None if fields[0] == b"*" else need(read_date(fields[0]), "the minimum is no date"),
        None if fields[1] == b"*" else need(read_date(fields[1]), "the maximum is no date"),
        need(read_weekdays(fields[2]), "the weekdays are no ascending digits from 1 to 7"),
    )
    asked = need(read_date(fields[3]), "the value is no date")
    leaf.make()
    day = day_number(asked)
    if day is None:
        raise Refused(7)
    return leaf.admits(day)


@dataclass(frozen=True)
class Outcome:
    """What a sheet comes to on a new list of 128 places, and what `lines` prints of it."""

    answer: Answer
    output: bytes


def outcome_of(sheet: bytes) -> Outcome:
    """What a sheet comes to."""
    leaves = LeafList(PLACES_OF_LINES)
    answer = take_sheet(leaves, sheet, kind_of(sheet))
    told = [print_line(leaf) for leaf in leaves.read()]
    if answer.refused is not None:
        told.append(print_refusal(answer.refused))
    return Outcome(answer, as_text(told))


def outcome_of_input(text: bytes) -> Outcome:
    """What the input of `lines` comes to; of a longer one only the first 32,769 bytes matter."""
    return outcome_of(text[: LONGEST_SHEET + 1])


@dataclass(frozen=True)
class Quotation:
    """What `quote` prints of a batch, and the counts of its last line."""

    output: bytes
    totals: dict[str, int]


def quotation_of(text: bytes) -> Quotation:
    """What a batch of sheets comes to."""
    lists = {kind: LeafList(PLACES_OF_QUOTE) for kind in (AMOUNTS, DAYS)}
    totals = dict.fromkeys(("sheets taken", "leaves accepted", "lines billed", "refusals", "malformed lines"), 0)
    objections = []
    for number, line in enumerate(split_lines(text), start=1):
        sheet = read_hexadecimal(line.partition(b"#")[0])
        if sheet is None:
            totals["malformed lines"] += 1
            objections.append(f"line {number}: not hexadecimal")
        elif sheet:
            kind = kind_of(sheet)
            answer = take_sheet(lists[kind], sheet, kind)
            totals["sheets taken"] += 1
            totals["leaves accepted"] += answer.accepted
            if answer.refused is not None:
                totals["refusals"] += 1
                objections.append(f"sheet {totals['sheets taken']} on line {number}: {print_refusal(answer.refused)}")
    billed = [
        f"{kind.name} {place}: {print_line(leaf)}"
        for kind, leaves in lists.items()
        for place, leaf in enumerate(leaves.read(), start=1)
    ]
    totals["lines billed"] = len(billed)
    last = ", ".join(f"{what} {count}" for what, count in totals.items())
    return Quotation(as_text(billed + objections + [last]), totals)


@dataclass(frozen=True)
class Case:
    """A sheet with the answer that is expected of it, as `cases` reads it; the fields are texts."""

    sheet: str
    accepted: str
    start: str
    number: str
    byte: str
    layer: str
    output: str

    def line(self) -> str:
        """The line of the case."""
        return " ".join((self.sheet, self.accepted, self.start, self.number, self.byte, self.layer, self.output))


def case_of(sheet: bytes, outcome: Outcome) -> Case:
    """The case of a sheet of which this is the outcome."""
    answer = outcome.answer
    refused = answer.refused
    refusal = ("-", "-", "-") if refused is None else (str(refused.number), str(refused.byte), refused.layer)
    output = outcome.output.hex() or "-"
    return Case(sheet.hex() or "-", str(answer.accepted), str(answer.start), *refusal, output)


def cases_output(replayed: int, different: list[int]) -> bytes:
    """What `cases` prints of so many cases of which those on the named lines have another answer."""
    told = [f"line {number}: different" for number in different]
    return as_text(told + [f"replayed {replayed}, different {len(different)}"])
