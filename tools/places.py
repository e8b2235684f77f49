"""Lists the places that docs/DESIGN-PASS.md counts: python3 tools/places.py POINT [FOLDER], POINT from 1 to 7.

Each line is a place to look at, and no verdict. Point 2 lists functions of one shape: the same body once names, types, strings and numbers are left out."""
import pathlib
import re
import sys

SEARCHES = {
    "1": {
        "enums": r"^ *(pub(\(crate\))? )?enum ",
        "flags beside a change": r"fn .*&mut .*-> bool",
        "places lent": r"(place|into|required|barred|answer): &mut [A-Z]",
        "numbers for refusals": r"=> [0-9]+,$",
        "no answer as a number": r"^ +text\.len\(\)$",
        "refusals that cannot come": r"unreachable\(\)|unwrap\(\)",
    },
    "3": {"loops that count or go by a place": r"for \w+ in [^{]*\.\.|while |loop \{"},
    "4": {
        "equality and order": r"fn (cmp|is_same\w*|is_lower|is_at_most|is_up_to|has_at)\b",
        "conversion": r"fn (amount|amount_of|digit|layer_of|yes_or_no)\b",
        "printing": r"fn (number|what|layer_name|put_\w+|write_\w+)\b",
        "tests of bytes": r"fn (is_dash|is_star|starts_with_dash)\b",
    },
    "5": {
        "requires": r"^ +requires",
        "a sheet and a start": r"start: usize",
        "a buffer and a place": r"buf: &mut \[u8\], at: usize",
        "clauses on the table": r"ensures (table|places) ",
        "year, month, day": r"year: u64, month: u64",
    },
    "6": {"arrays and counts": r"\[\w+; \w+\]|count: usize|held: usize"},
    "7": {"loops over lines": r"while !rest\.is_empty", "steps": r"while self\.step"},
}


def functions(path):
    lines = path.read_text().split("\n")
    for i, line in enumerate(lines):
        found = re.match(r"( *)(pub(\(crate\))? )?(final )?fn (\w+)", line)
        if not found:
            continue
        end = next((j for j in range(i, len(lines)) if lines[j] == found[1] + "}"), i)
        start = next(j for j in range(i, len(lines)) if re.search(r"[{;]$", lines[j].rstrip()))
        if lines[start].rstrip().endswith(";"):
            continue  # a function that a trait asks for
        yield f"{path}:{i + 1} {found[5]}", " ".join(lines[start + 1 : end])


def shape(body):
    body = re.sub(r'"[^"]*"|b?\'[^\']*\'|\b\d\w*', "0", body)
    kept = r"\b(if|else|match|for|while|loop|in|let|return|None|Some|Ok|Err|true|false|break|mut)\b"
    words = re.findall(r"\w+|[^\w\s]", body)
    return " ".join(w if re.fullmatch(kept, w) or not re.match(r"\w", w) else "x" for w in words)


def main():
    point = sys.argv[1]
    root = pathlib.Path(sys.argv[2] if len(sys.argv) > 2 else ".")
    files = sorted(root.glob("crates/*/src/*.rt"))
    if point == "2":
        shapes = {}
        for path in files:
            for name, body in functions(path):
                shapes.setdefault(shape(body), []).append(name)
        for body, names in sorted(shapes.items(), key=lambda e: -len(e[0])):
            if len(names) > 1 and len(body.split()) >= 10:
                print(f"{len(names)} of one shape: " + "; ".join(names))
        return
    for what, pattern in SEARCHES[point].items():
        hits = [f"{p}:{i + 1}:{l.strip()}" for p in files for i, l in enumerate(p.read_text().split("\n")) if re.search(pattern, l)]
        print(f"{what}: {len(hits)}")
        for hit in hits:
            print("  " + hit)


main()
