"""What came of a part: how many were compared, how many differ, and the first differences."""

from __future__ import annotations

from collections import Counter
from dataclasses import dataclass, field
from typing import NamedTuple

DIFFERENCES_SHOWN = 5
CHARACTERS_SHOWN = 10_000


class Difference(NamedTuple):
    """An input, what it comes to by the rules, and what the program printed."""

    given: str
    expected: str
    got: str


@dataclass
class Tally:
    """What came of a part so far."""

    part: str
    unit: str
    sides: tuple[str, str] = ("the rules", "the program")
    compared: int = 0
    differ: int = 0
    inputs: Counter[str] = field(default_factory=Counter)
    answers: Counter[str] = field(default_factory=Counter)
    first: list[Difference] = field(default_factory=list)
    skipped: str = ""

    def add_difference(self, given: str, expected: str, got: str) -> None:
        """Counts a difference, and keeps it if it is one of the first."""
        self.differ += 1
        if len(self.first) < DIFFERENCES_SHOWN:
            self.first.append(Difference(given, expected, got))

    def compare(self, given: str, expected: object, got: object) -> None:
        """Counts one comparison, and a difference where it is one."""
        self.compared += 1
        if expected != got:
            self.add_difference(given, str(expected), str(got))

    def report(self) -> str:
        """The part in a few lines."""
        if self.skipped:
            return f"{self.part}: SKIPPED, nothing compared: {self.skipped}"
        lines = [f"{self.part}: {self.compared} {self.unit} compared ({' | '.join(self.sides)}), {self.differ} differ"]
        for what, counts in (("inputs", self.inputs), ("answers", self.answers)):
            if counts:
                lines.append(f"  {what}: " + ", ".join(f"{name} {counts[name]}" for name in sorted(counts)))
        for number, difference in enumerate(self.first, start=1):
            lines.append(f"  difference {number}")
            lines += [f"    {name}: {shown(text)}" for name, text in zip(("input", *self.sides), difference)]
        return "\n".join(lines)


def shown(text: str) -> str:
    """The text, without its middle where it is long."""
    if len(text) <= CHARACTERS_SHOWN:
        return text
    half = CHARACTERS_SHOWN // 2
    return f"{text[:half]} .. ({len(text)} characters) .. {text[-half:]}"
