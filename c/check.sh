#!/bin/sh
# Compiles the C example against the static library, runs it, and holds what it prints to example.txt. Where there is no C compiler it says so.
set -eu

here=$(cd "$(dirname "$0")" && pwd)
library="$here/../crates/exports/out/libexports.a"
compiler=${CC:-cc}

if ! command -v "$compiler" >/dev/null 2>&1; then
    echo "c: not run, there is no C compiler here"
    exit 0
fi
if [ ! -f "$library" ]; then
    echo "c: there is no static library yet: (cd crates/exports && rt lib)"
    exit 1
fi
out=$(mktemp -d)
trap 'rm -rf "$out"' EXIT
"$compiler" -std=c11 -Wall -Wextra -Werror -pedantic -O2 "$here/example.c" "$library" -o "$out/example"
"$out/example" > "$out/printed"
diff "$here/example.txt" "$out/printed"
echo "c: the example compiles, links and prints what it must"
