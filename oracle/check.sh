#!/bin/sh
# Holds the sample to its copy that the program `replay` reads. Then builds the oracle,
# runs the case table and a short comparison, and remakes the sample beside the recorded
# one. Without cargo or the crate's source there is nothing more to run: build.sh says
# so in a line, and that is no failure.
set -eu

here=$(cd "$(dirname "$0")" && pwd)
out="$here/../target/oracle"

cmp "$here/sample.txt" "$here/../crates/replay/stdin"
status=0
sh "$here/build.sh" || status=$?
if [ "$status" -eq 3 ]; then exit 0; fi
if [ "$status" -ne 0 ]; then exit "$status"; fi

oracle="$out/build/release/oracle"
"$oracle" cases
"$oracle" compare 200
"$oracle" sample > "$out/sample.txt"
cmp "$out/sample.txt" "$here/sample.txt"
echo "sample: remade byte for byte"
