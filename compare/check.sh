#!/bin/sh
# The tests of the Rust crate, and short runs of both comparisons. What is not at hand is told in a
# line, and that is no failure.
set -eu

here=$(cd "$(dirname "$0")" && pwd)
top="$here/.."
archive="${ROTSPANGLE_LIB:-$top/crates/exports/out}/libexports.a"

if command -v cargo > /dev/null 2>&1 && [ -f "$archive" ]; then
    told=$(cargo test --offline --manifest-path "$top/rust/Cargo.toml" --target-dir "$top/target/rust" 2>&1) || {
        echo "$told"
        exit 1
    }
    echo "rust: the tests of the crate pass"
else
    echo "rust: not run, there is no cargo here or no static library"
fi
for run in differential damage; do
    status=0
    sh "$here/$run.sh" short || status=$?
    if [ "$status" -eq 3 ]; then exit 0; fi
    if [ "$status" -ne 0 ]; then exit "$status"; fi
done
