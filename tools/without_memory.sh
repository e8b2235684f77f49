#!/bin/sh
# Calls that take memory, with each of their allocations failing in turn (`rt try --fail-alloc`): the tests of crates/memory_tests, and each program on a short input.
# A run must end by itself, either with an error, what it printed before being the beginning of what it prints else, or with just what it prints else: std's `collect`
# does without room that it asked for in vain. `tools/without_memory.sh NAME..` tries these crates alone. All take about half an hour, since each run is built anew.
cd "$(dirname "$0")/../crates" || exit 1
made=$(mktemp -d)
trap 'rm -rf "$made"' EXIT
bad=0

tell() {
    echo "$1"
    bad=1
}

# The status with which a run ended, nothing where it did not end by itself.
status_of() {
    sed -n 's/^run=ended status=\([0-9]*\) .*/\1/p' "$1"
}

try_program() {
    (cd "$1" && rt try <"$made/stdin" >"$made/whole" 2>"$made/said")
    [ "$(status_of "$made/said")" = 0 ] || { tell "$1: fails with memory"; return; }
    n=1
    while :; do
        (cd "$1" && rt try --fail-alloc "$n" <"$made/stdin" >"$made/out" 2>"$made/said")
        status=$(status_of "$made/said")
        if [ "$status" = 0 ]; then
            cmp -s "$made/whole" "$made/out" || tell "$1: allocation $n: another answer"
            [ "$n" -gt "$(sed -n 's/^allocations: //p' "$made/said")" ] && break
            n=$((n + 1))
            continue
        fi
        [ "$status" = 1 ] || tell "$1: allocation $n: $(tail -n 1 "$made/said")"
        head -c "$(wc -c <"$made/out")" "$made/whole" | cmp -s - "$made/out" || tell "$1: allocation $n: prints something else"
        n=$((n + 1))
    done
    echo "$1: $((n - 1)) allocations fail in turn"
}

try_tests() {
    n=1
    while :; do
        (cd "$1" && rt try --test --fail-alloc "$n" >"$made/out" 2>&1)
        status=$(status_of "$made/out")
        [ "$status" = 0 ] && break
        [ "$status" = 101 ] || tell "$1: allocation $n: $(tail -n 1 "$made/out")"
        failed=$(grep -c 'FAILED$' "$made/out")
        [ "$(grep -cE 'error: (AllocError|Kind\(OutOfMemory\))$' "$made/out")" = "$failed" ] || tell "$1: allocation $n: a test fails otherwise"
        n=$((n + 1))
    done
    echo "$1: $((n - 1)) allocations fail in turn in its tests"
}

# A short input of each program.
input_of() {
    case $1 in
    fold) printf '25/2,10 4,6\n' ;;
    ask) printf '0 100 25/2,10 4,6 50\n2024-05-03 * 12345 2024-05-06\n' ;;
    lines) printf '\101\002\004\001\002\001\000\003' ;;
    quote) printf '41 02 04 01 02 01 00 03 # cut short\nno sheet\n' ;;
    cases) printf '41020401020100 1 7 - - - 2a20342032202d0a\n' ;;
    crate_answers) printf 'lines 41020401020100=* 4 2 -;\nfold 25/2,10 4,6=50 4,6\nadmit 41020401020100 2=yes\n' ;;
    *) tell "$1: no input" >&2 ;;
    esac
}

[ $# -gt 0 ] || set -- memory_tests fold ask lines quote cases crate_answers
for crate in "$@"; do
    if [ "$crate" = memory_tests ]; then
        try_tests "$crate"
    else
        input_of "$crate" >"$made/stdin"
        try_program "$crate"
    fi
done
exit $bad
