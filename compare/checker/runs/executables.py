"""The programs of this repository: built where they are missing or older than their files, and run."""

from __future__ import annotations

import subprocess
from pathlib import Path
from typing import NamedTuple, Optional

REPOSITORY = Path(__file__).resolve().parents[3]
SECONDS_TO_RUN = 120


class CannotBuild(Exception):
    """A program is not there and could not be built."""


class Ran(NamedTuple):
    """What a program printed, and its exit status: none where it did not end in time."""

    output: bytes
    status: Optional[int]


def run(command: list[str], text: bytes) -> Ran:
    """Runs a command with the text as its standard input."""
    try:
        done = subprocess.run(command, input=text, capture_output=True, timeout=SECONDS_TO_RUN, check=False)
    except subprocess.TimeoutExpired:
        return Ran(b"", None)
    return Ran(done.stdout, done.returncode)


class Executables:
    """The executables, each looked at once."""

    def __init__(self, repository: Path = REPOSITORY) -> None:
        self.crates = repository / "crates"
        self.uses = uses_of_crates(repository / "crates.txt")
        self.ready: set[str] = set()

    def run(self, name: str, text: bytes) -> Ran:
        """Runs a program with the text as its standard input."""
        return run([str(self.path(name))], text)

    def path(self, name: str) -> Path:
        """Where the executable is, built if need be."""
        path = self.crates / name / "out" / name
        if name not in self.ready:
            if not path.exists() or path.stat().st_mtime < self.changed(name):
                build(self.crates / name)
            if not path.exists():
                raise CannotBuild(f"{path} is not there after `rt run` in {path.parent.parent}")
            self.ready.add(name)
        return path

    def changed(self, name: str) -> float:
        """When a file of the crate, or of a crate that it stands on, was changed last."""
        below = {name}
        while more := {used for crate in below for used in self.uses.get(crate, [])} - below:
            below |= more
        folders = [self.crates / crate / part for crate in below for part in ("src", "specs", "proofs")]
        return max(file.stat().st_mtime for folder in folders for file in folder.rglob("*") if file.is_file())


def uses_of_crates(file: Path) -> dict[str, list[str]]:
    """Which crates each crate uses, by the lines `NAME: CRATE..` of crates.txt; NAME may be followed by more."""
    uses = {}
    for line in file.read_text().splitlines():
        name, colon, used = line.partition(":")
        if colon:
            uses[name.split()[0]] = used.split()
    return uses


def build(crate: Path) -> None:
    """Proves, builds and runs a crate by the toolchain's own command."""
    print(f"building {crate.name}: `rt run` in {crate} (proving takes minutes the first time)", flush=True)
    try:
        done = subprocess.run(["rt", "run"], cwd=crate, stdin=subprocess.DEVNULL, capture_output=True, check=False)
    except FileNotFoundError:
        raise CannotBuild(f"{crate.name} is to be built, and `rt` is not on the path") from None
    if done.returncode != 0:
        said = (done.stdout + done.stderr).decode(errors="replace")
        raise CannotBuild(f"`rt run` in {crate} ended with status {done.returncode}:\n{said[-2000:]}")
