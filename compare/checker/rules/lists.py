"""A list of leaves in a table of fixed length, and its reading."""

from __future__ import annotations

from .leaves import Leaf
from .refusals import Refused


class LeafList:
    """Leaves of one kind in a table of so many places."""

    def __init__(self, places: int) -> None:
        self.places = places
        self.held: list[Leaf] = []

    def insert(self, leaf: Leaf) -> None:
        """Takes the leaf, or refuses 10 where the leaves held fill the table. `read` puts them in order."""
        if len(self.held) == self.places:
            raise Refused(10)
        self.held.append(leaf)

    def read(self) -> list[Leaf]:
        """The lines, which are then what is held."""
        self.held = uncovered(joined(sorted(self.held, key=Leaf.order)))
        return self.held


def joined(leaves: list[Leaf]) -> list[Leaf]:
    """Each leaf in turn joined to the one before it, as joined so far, where it joins."""
    lines: list[Leaf] = []
    for leaf in leaves:
        if lines and leaf.joins(lines[-1]):
            lines[-1] = leaf.joined_to(lines[-1])
        else:
            lines.append(leaf)
    return lines


def uncovered(lines: list[Leaf]) -> list[Leaf]:
    """The lines that no other one covers."""
    return [
        line
        for place, line in enumerate(lines)
        if not any(other.covers(line) for other_place, other in enumerate(lines) if other_place != place)
    ]
