#!/bin/sh
# The differential run: our build and searches, through the static library, beside the crate. With
# `short` a small part of it, and faults that are planted to be seen. The first difference ends it
# with status 1. Where something is not at hand a line says what, and the exit status is 3.
set -eu

here=$(cd "$(dirname "$0")" && pwd)
sh "$here/build.sh"
compare="$here/../target/compare/build/release/compare"

if [ "${1:-}" != short ]; then exec "$compare" differential; fi

"$compare" differential short

# Each planted fault must end the run with status 1 and a case, and that case must agree without it.
case="$here/../target/compare/case.txt"
for fault in cell depth output record order moves slot refusal; do
    status=0
    "$compare" differential short --fault "$fault" > /dev/null 2> "$case.told" || status=$?
    sed -n "/<<'CASE'/,/^CASE/p" "$case.told" | sed '1d;$d' > "$case"
    if [ "$status" -ne 1 ] || ! "$compare" replay "$case" > /dev/null; then
        echo "differential: the planted fault '$fault' was not seen"
        exit 1
    fi
done
echo "differential: eight planted faults were seen"
