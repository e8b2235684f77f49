"""Program `cases`: many sheets to a process, with right answers, and with wrong ones planted among them."""

from __future__ import annotations

import re
from random import Random
from typing import Iterator, NamedTuple

from ..inputs.sheets import sheets
from ..inputs.wrong_cases import wrong_case
from ..rules import programs
from ..rules.programs import Case
from .executables import Ran
from .parts import Job, in_groups, refusal_name
from .tally import Tally

CASES_IN_A_RUN = 500
BETWEEN_CASES = (b"", b"# a comment", b"#", b"# - 0 0 2 0 bytes -")

DIFFERENT = re.compile(rb"line ([0-9]+): different")


class Replay(NamedTuple):
    """Lines for `cases`, and by their numbers those that have cases."""

    text: bytes
    cases: dict[int, Case]


def replay_of(rng: Random, group: list[Case]) -> Replay:
    """The cases, with now and then a line between that has none."""
    lines: list[bytes] = []
    numbered = {}
    for case in group:
        if rng.random() < 0.05:
            lines.append(rng.choice(BETWEEN_CASES))
        lines.append(case.line().encode())
        numbered[len(lines)] = case
    return Replay(b"\n".join(lines) + rng.choice((b"\n", b"")), numbered)


def check_cases(job: Job) -> Tally:
    """Program `cases` on right answers, which it must find no different."""
    tally = Tally("cases", "sheets")
    for group in in_groups(right_cases(job, tally), CASES_IN_A_RUN):
        compare_replay(job, tally, replay_of(job.rng, group), set())
    return tally


def check_planted(job: Job) -> Tally:
    """Program `cases` on answers of which about half are wrong: it must name exactly those, and fail."""
    tally = Tally("planted", "cases")
    for group in in_groups(right_cases(job, Tally("", "")), CASES_IN_A_RUN):
        planted = [wrong_case(job.rng, case) if job.rng.random() < 0.5 else case for case in group]
        replay = replay_of(job.rng, planted)
        wrong = {number for number, right in zip(replay.cases, group) if replay.cases[number] != right}
        tally.inputs.update({"wrong": len(wrong), "right": len(group) - len(wrong)})
        compare_replay(job, tally, replay, wrong)
    return tally


def check_kept(job: Job) -> Tally:
    """The answers that stand in crates/cases/stdin, whatever the seed."""
    tally = Tally("kept", "cases", sides=("the rules", "crates/cases/stdin"))
    for line in (job.executables.crates / "cases" / "stdin").read_text().splitlines():
        if line and not line.startswith("#"):
            digits = line.split(" ", 1)[0]
            sheet = b"" if digits == "-" else bytes.fromhex(digits)
            tally.compare(digits, programs.case_of(sheet, programs.outcome_of(sheet)).line(), line)
    return tally


def right_cases(job: Job, tally: Tally) -> Iterator[Case]:
    """The cases of drawn sheets with their right answers, counted by the tally."""
    for shape, sheet in sheets(job.rng, job.count):
        outcome = programs.outcome_of(sheet)
        tally.inputs[shape] += 1
        tally.answers[refusal_name(outcome.answer.refused)] += 1
        yield programs.case_of(sheet, outcome)


def compare_replay(job: Job, tally: Tally, replay: Replay, wrong: set[int]) -> None:
    """Compares which cases the program names with those that are wrong, then all that it prints."""
    expected = Ran(programs.cases_output(len(replay.cases), sorted(wrong)), 1 if wrong else 0)
    ran = job.executables.run("cases", replay.text)
    named = {int(number) for number in DIFFERENT.findall(ran.output)}
    for number, case in replay.cases.items():
        tally.compared += 1
        if (number in wrong) != (number in named):
            printed = job.executables.run("lines", b"" if case.sheet == "-" else bytes.fromhex(case.sheet)).output
            got = f"{told(number in named)} (and `lines` prints {printed!r})"
            tally.add_difference(case.line(), told(number in wrong), got)
    if wrong == named and ran != expected:
        tally.add_difference("(all that is printed of a run of these)", str(expected), str(ran))


def told(is_different: bool) -> str:
    """What is said of a case."""
    return "different" if is_different else "no difference"
