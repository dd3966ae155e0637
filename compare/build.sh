#!/bin/sh
# Builds the comparison into target/compare/: the oracle first, with the crate, then our safe Rust
# crate over the static library. Exit status 3: something is not at hand, and a line says what.
set -eu

here=$(cd "$(dirname "$0")" && pwd)
out="$here/../target/compare"
archive="${ROTSPANGLE_LIB:-$here/../crates/exports/out}/libexports.a"

nothing_to_build() {
    echo "compare: not built, $1"
    exit 3
}

sh "$here/../oracle/build.sh"
[ -f "$archive" ] || nothing_to_build "there is no static library (rt lib in crates/exports makes it)"

mkdir -p "$out/package"
cmp -s "$here/Cargo.toml" "$out/package/Cargo.toml" || cp "$here/Cargo.toml" "$out/package/Cargo.toml"
cargo build --quiet --release --offline \
    --manifest-path "$out/package/Cargo.toml" --target-dir "$out/build"
echo "compare: built with our static library"
