"""The parts of the check: each makes inputs, runs a program on them, and compares what it prints with the rules."""

from __future__ import annotations

from dataclasses import dataclass
from itertools import islice, zip_longest
from random import Random
from typing import Callable, Iterable, Iterator, Optional, TypeVar, Union

from ..inputs.batches import batches
from ..inputs.folds import Fold, folds
from ..inputs.questions import Question, questions
from ..inputs.sheets import sheets
from ..rules import programs
from ..rules.refusals import Refused
from .executables import Executables, Ran
from .tally import Tally

LINES_IN_A_RUN = 500

Item = TypeVar("Item")


@dataclass
class Job:
    """What a part has to go by: the programs, a source to draw from, and how many inputs it makes."""

    executables: Executables
    rng: Random
    count: int


def in_groups(items: Iterable[Item], size: int) -> Iterator[list[Item]]:
    """The items in lists of so many, the last one perhaps shorter."""
    rest = iter(items)
    while group := list(islice(rest, size)):
        yield group


def refusal_name(refused: Optional[Refused]) -> str:
    """How the tally names what stopped a sheet."""
    return "taken whole" if refused is None else f"refused {refused.number}"


def check_lines(job: Job) -> Tally:
    """Program `lines`, one process for each sheet."""
    tally = Tally("lines", "sheets")
    for shape, sheet in sheets(job.rng, job.count):
        outcome = programs.outcome_of_input(sheet)
        tally.inputs[shape] += 1
        tally.answers[refusal_name(outcome.answer.refused)] += 1
        tally.compare(sheet.hex(), Ran(outcome.output, 0), job.executables.run("lines", sheet))
    return tally


def check_quote(job: Job) -> Tally:
    """Program `quote`, one process for each batch; the batches together have so many lines."""
    tally = Tally("quote", "batches")
    for batch in batches(job.rng):
        if tally.inputs["lines"] >= job.count:
            return tally
        text = b"\n".join(batch) + job.rng.choice((b"\n", b""))
        quotation = programs.quotation_of(text)
        tally.inputs["lines"] += len(batch)
        tally.answers.update(quotation.totals)
        tally.compare(str(text), Ran(quotation.output, 0), job.executables.run("quote", text))
    return tally


def check_ask(job: Job) -> Tally:
    """Program `ask`, many lines to a process."""
    return check_by_line(job, "ask", questions(job.rng), programs.ask_output)


def check_fold(job: Job) -> Tally:
    """Program `fold`, many lines to a process."""
    return check_by_line(job, "fold", folds(job.rng), programs.fold_output)


def check_by_line(
    job: Job, name: str, lines: Iterator[Union[Question, Fold]], output_of: Callable[[bytes], bytes]
) -> Tally:
    """A program that answers each line on a line of its own, and has a last line about all of them."""
    tally = Tally(name, "lines")
    for group in in_groups(islice(lines, job.count), LINES_IN_A_RUN):
        text = b"\n".join(item.line for item in group)
        text += b"" if group[-1].line and job.rng.random() < 0.5 else b"\n"
        expected = output_of(text).split(b"\n")
        ran = job.executables.run(name, text)
        got = ran.output.split(b"\n")
        for item, answer, told in zip_longest(group, expected[: len(group)], got[: len(group)]):
            tally.inputs[item.shape] += 1
            tally.answers[answer_name(answer)] += 1
            tally.compare(str(item.line), answer, told)
        end, got_end = (expected[len(group) :], 0), (got[len(group) :], ran.status)
        if end != got_end:
            tally.add_difference("(the last line and the status of a run of these)", str(end), str(got_end))
    return tally


def answer_name(answer: bytes) -> str:
    """How the tally names what a line came to."""
    told = answer.decode()
    if told.startswith("line "):
        return "malformed"
    return told if told in ("yes", "no") or told.startswith("refused") else "folded"
