#!/bin/sh
# Builds the bench for release into target/bench/. The oracle's build takes the crate daachorse
# 5.1.0, and the bench names it as the oracle's package does, so both have the same crate.
# Exit status 3: cargo, the crate's source or our archive is missing; one line says which.
set -eu

here=$(cd "$(dirname "$0")" && pwd)
top=$(dirname "$here")
out="$top/target/bench"

nothing_to_build() {
    echo "bench: not built, $1"
    exit 3
}

archive="${ROTSPANGLE_LIB:-$top/crates/exports/out}/libexports.a"
[ -f "$archive" ] || nothing_to_build "there is no libexports.a (rt lib in crates/exports makes it)"
told=$(sh "$top/oracle/build.sh") || nothing_to_build "${told#oracle: not built, }"

crate=$(sed -n 's|"\.\./daachorse"|"../../oracle/daachorse"|; /^daachorse = /p' "$top/target/oracle/package/Cargo.toml")
mkdir -p "$out/package"
sed "s|^daachorse = .*|$crate|" "$here/Cargo.toml" > "$out/package/Cargo.toml"

cargo build --quiet --release --offline \
    --manifest-path "$out/package/Cargo.toml" --target-dir "$out/build"
echo "bench: built with ${told#oracle: built with }"
