"""The command: its options, the parts in turn, and what is printed of them."""

from __future__ import annotations

import argparse
from random import Random
from typing import Callable, Dict, Optional, Sequence

from .runs.against_jsonschema import check_against_jsonschema
from .runs.cases import check_cases, check_kept, check_planted
from .runs.executables import CannotBuild, Executables
from .runs.parts import Job, check_ask, check_fold, check_lines, check_quote
from .runs.tally import Tally

PARTS: Dict[str, Callable[[Job], Tally]] = {
    "cases": check_cases,
    "planted": check_planted,
    "kept": check_kept,
    "lines": check_lines,
    "quote": check_quote,
    "ask": check_ask,
    "fold": check_fold,
    "jsonschema": check_against_jsonschema,
}

SEED = 2026
COUNT = 20_000


def at_least_one(text: str) -> int:
    """The whole number of an option that has to be at least 1."""
    if not text.isdecimal() or int(text) < 1:
        raise argparse.ArgumentTypeError(f"{text} is no whole number from 1 on")
    return int(text)


def options(arguments: Optional[Sequence[str]]) -> argparse.Namespace:
    """The options of the command line."""
    parser = argparse.ArgumentParser(
        prog="check.py", description="Compares what the programs print with what the rules of docs/RULES.md say."
    )
    parser.add_argument("--seed", type=int, default=SEED, help=f"inputs are drawn from it (default {SEED})")
    parser.add_argument("--count", type=at_least_one, default=COUNT, help=f"how many inputs each part has (default {COUNT})")
    only = f"this part alone, one of {', '.join(PARTS)}; may be given more than once"
    parser.add_argument("--only", action="append", choices=PARTS, metavar="PART", help=only)
    return parser.parse_args(arguments)


def main(arguments: Optional[Sequence[str]] = None) -> int:
    """Runs the parts; the status is 1 where something differs, and 2 where a program cannot be built."""
    chosen = options(arguments)
    executables = Executables()
    tallies = []
    print(f"seed {chosen.seed}, count {chosen.count}", flush=True)
    try:
        for part in chosen.only or PARTS:
            # Each part draws from a source of its own, so that it has the same inputs whichever others run.
            tallies.append(PARTS[part](Job(executables, Random(f"{part} {chosen.seed}"), chosen.count)))
            print(tallies[-1].report(), flush=True)
    except CannotBuild as reason:
        print(reason)
        return 2
    differ = sum(tally.differ for tally in tallies)
    skipped = sum(1 for tally in tallies if tally.skipped)
    compared = len(tallies) - skipped
    print(f"parts compared {compared}, skipped {skipped}; differences {differ}")
    return 1 if differ else 0
