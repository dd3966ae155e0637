#!/bin/sh
# Remakes the recorded sample. The old one is replaced only by a whole new one. A copy
# of it lies where the program `replay` reads it.
set -eu

here=$(cd "$(dirname "$0")" && pwd)
out="$here/../target/oracle"

sh "$here/build.sh"
"$out/build/release/oracle" sample > "$out/sample.txt"
cp "$out/sample.txt" "$here/../crates/replay/stdin"
mv "$out/sample.txt" "$here/sample.txt"
echo "oracle: sample remade"
