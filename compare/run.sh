#!/bin/sh
# Builds and runs the comparison: run.sh CRATE_FILES NUM_CRATES WHAT.. (README.md).
set -e
if [ $# -lt 3 ]; then
  echo "usage: run.sh CRATE_FILES NUM_CRATES compare SEED COUNT | compare-large SEED COUNT | differences | answers SEED COUNT | bench SIZE" >&2
  exit 2
fi
CRATE_FILES=$(realpath "$1")
NUM_CRATES=$(realpath "$2")
shift 2
cd "$(dirname "$0")"
KIT_C=$(dirname "$(rt doc)")/c
RULE_LINES_LIB=$(realpath ../crates/foreign)/out
export CRATE_FILES KIT_C RULE_LINES_LIB
(cd ../crates/foreign && rt lib >/dev/null)

# Comparing runs with the crate's debug assertions, the benchmark without them.
profile=checked
[ "$1" = bench ] && profile=release
build() {
  cargo build --quiet --offline --profile "$profile" --target-dir "$@" \
    --config 'source.crates-io.replace-with="unpacked"' --config "source.unpacked.directory=\"$NUM_CRATES\""
}
if [ "$1" = compare-large ]; then
  # With every divisor exact as a float.
  export ALL_EXACT=yes
  build target-exact
  exec target-exact/$profile/compare "$@"
fi
build target
if [ "$1" = differences ]; then
  # The crate's other build too, whose numbers have 64 bits; and both with every divisor exact as a float.
  build target-64 --no-default-features
  export ALL_EXACT=yes
  build target-exact
  build target-64-exact --no-default-features
  for folder in target target-64 target-exact target-64-exact; do
    $folder/$profile/compare differences
    echo
  done
  exit
fi
exec "target/$profile/compare" "$@"
