#!/bin/sh
# Builds the library for C and a program that calls all of it, runs that, and compares what it prints with c/try_rule_lines.stdout.
cd "$(dirname "$0")/.." || exit 1
cc=${CC:-cc}
if ! command -v "$cc" >/dev/null; then
    echo "c/try_rule_lines.c is not run: there is no C compiler"
    exit 0
fi
(cd crates/foreign && rt lib >/dev/null) || { echo "crates/foreign is not built"; exit 1; }

made=$(mktemp -d)
trap 'rm -rf "$made"' EXIT
flags="-std=c11 -O2 -Wall -Wextra -Werror -Icrates/foreign/include"
"$cc" $flags c/try_rule_lines.c crates/foreign/out/libforeign.a "$(dirname "$(rt doc)")/c/liblibc_c.a" \
    -Wl,--wrap=malloc,--wrap=realloc -o "$made/try_rule_lines" || exit 1
if "$cc" $flags -DNULL_LIST -c c/try_rule_lines.c -o "$made/null.o" 2>/dev/null; then
    echo "c/try_rule_lines.c: a null pointer is taken"
    exit 1
fi
"$made/try_rule_lines" >"$made/stdout" || { echo "c/try_rule_lines.c fails"; exit 1; }
if ! diff c/try_rule_lines.stdout "$made/stdout"; then
    echo "c/try_rule_lines.c prints something else"
    exit 1
fi
echo "c/try_rule_lines.c prints what it must"
