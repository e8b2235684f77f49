#!/usr/bin/env python3
"""Brings the repository's own definitions, fields and lemmas to one spelling: values in snake case.

usage: python3 /PATH/TO/respell.py [--list]     at the top of the repository; with --list it only says what it would rename

A name is the repository's own where a file of specs/ or proofs/ declares it (the answers to goals, whose names the check makes, are not).
Functions of src/, strings, inputs and outputs keep their names. Names that would fall together are listed and kept apart by OTHERWISE.
"""

import glob
import re
import sys

WORD = r"[\w'\-\u25cc]"

# Names that would fall together with another one, and what they are called in its place.
OTHERWISE = {
    "Kind-laws": "KindLaws",
    "is-window": "is_value_window",
    "onGrid": "is_on_grid",
    "window-of": "is_window_of",
    "refusal-of": "refused_with",
    "date-text": "date_text_lem",
    "flags-in": "flags_in_lem",
    "fold-of": "fold_of_lem",
    "in-range": "in_range_lem",
    "row-of": "row_of_lem",
    "thin-of": "thin_of_lem",
}

# A declaration at the left, in a module, in a record or data type, or in a where.
DECLARED = re.compile(r"^\s*(?:(?:abbrev|unfoldable|instance|pub|private)\s+)*([a-z][\w'\-]*)(?=\s+:\s)", re.M)
RENAMED_USE = re.compile(r"^use [^\n]*$", re.M)
ALIAS = re.compile(r"\bas ([A-Za-z][\w'\-]*)")
GOAL = re.compile(r"^\s*(?:(?:abbrev|unfoldable|pub)\s+)*([a-z][\w'\-]*)\s+:\s+(?:goal|needs?)\.", re.M)


def snake(name):
    if name[0].isupper():
        return name
    name = re.sub(r"(?<=[a-z0-9'])([A-Z])", lambda m: "_" + m.group(1).lower(), name)
    return name.replace("-", "_").replace("\u2032", "'")


def files(*patterns):
    return sorted(f for p in patterns for f in glob.glob(p, recursive=True) if "/out/" not in f)


def own_names():
    own, goals = set(), set()
    for f in files("crates/*/specs/**/*.antt", "crates/*/proofs/**/*.antt"):
        text = open(f, encoding="utf-8").read()
        goals |= set(GOAL.findall(text))
        own |= set(DECLARED.findall(text))
        own |= {a for line in RENAMED_USE.findall(text) for a in ALIAS.findall(line)}
    return own - goals


def main(argv):
    own = own_names()
    turned = {n: OTHERWISE.get(n, snake(n)) for n in own if snake(n) != n}
    back = {}
    for old, new in sorted(turned.items()):
        if new in own or new in back:
            print(f"fall together: {old} and {back.get(new, new)} as {new}")
        back[new] = old
    if "--list" in argv:
        for old, new in sorted(turned.items()):
            print(f"{old} {new}")
        return 0
    if not turned:
        print("nothing to respell")
        return 0
    any_of = "|".join(re.escape(n) for n in sorted(turned, key=len, reverse=True))
    word = re.compile(rf"(?<!{WORD})(?:{any_of})(?!{WORD})")
    changed = 0
    for f in files("crates/*/specs/**/*.antt", "crates/*/proofs/**/*.antt", "crates/*/src/**/*.rt"):
        text = open(f, encoding="utf-8").read()
        new = word.sub(lambda m: turned[m.group(0)], text)
        if new != text:
            open(f, "w", encoding="utf-8").write(new)
            changed += 1
    print(f"{len(turned)} names respelt in {changed} files")
    return 0


if __name__ == "__main__":
    raise SystemExit(main(sys.argv[1:]))
