"""Refusals: a number, the byte that is named, and the layer that the number belongs to."""

from __future__ import annotations

from typing import Optional

LAYERS = {
    1: "bytes",
    2: "bytes",
    3: "bytes",
    4: "bytes",
    5: "leaf",
    6: "leaf",
    7: "leaf",
    8: "leaf",
    9: "leaf",
    10: "list",
}


class Refused(Exception):
    """What a reader, a maker or a list refuses; makers name no byte."""

    def __init__(self, number: int, byte: Optional[int] = None) -> None:
        super().__init__(number, byte)
        self.number = number
        self.byte = byte

    @property
    def layer(self) -> str:
        """The layer of the refusal's number."""
        return LAYERS[self.number]
