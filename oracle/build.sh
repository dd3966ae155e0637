#!/bin/sh
# Builds the oracle into target/oracle/. The crate daachorse 5.1.0 is taken
# unchanged: from the folder that DAACHORSE_SRC names, else as published.
# Exit status 3: there is no cargo, or the crate's source is not at hand.
set -eu

here=$(cd "$(dirname "$0")" && pwd)
out="$here/../target/oracle"

nothing_to_build() {
    echo "oracle: not built, $1"
    exit 3
}

# Copies the folder's source as it is and writes a manifest beside it. Times are
# kept, so that cargo builds the crate again only when its source has changed.
take_folder() {
    rm -rf "$out/daachorse"
    mkdir -p "$out/daachorse"
    cp -pR "$DAACHORSE_SRC/src" "$out/daachorse/src"
    for licence in "$DAACHORSE_SRC"/LICENSE*; do
        if [ -f "$licence" ]; then cp -p "$licence" "$out/daachorse/"; fi
    done
    cat > "$out/daachorse/Cargo.toml" <<'MANIFEST'
[package]
name = "daachorse"
version = "5.1.0"
edition = "2021"
publish = false

[workspace]

[features]
default = ["alloc"]
alloc = []
MANIFEST
    sed 's|^daachorse = .*|daachorse = { path = "../daachorse" }|' \
        "$here/Cargo.toml" > "$out/package/Cargo.toml"
}

# Asks cargo for the published crate, once and with little patience.
take_published() {
    cp "$here/Cargo.toml" "$out/package/Cargo.toml"
    (
        cd "$out/package"
        cargo fetch --quiet --offline 2>/dev/null ||
            CARGO_NET_RETRY=0 CARGO_HTTP_TIMEOUT=10 cargo fetch --quiet 2>/dev/null
    )
}

command -v cargo >/dev/null 2>&1 || nothing_to_build "there is no cargo here"
mkdir -p "$out/package"
if [ -n "${DAACHORSE_SRC:-}" ] && [ -f "${DAACHORSE_SRC:-}/src/lib.rs" ]; then
    take_folder
    origin="the folder that DAACHORSE_SRC names"
elif take_published; then
    origin="the published crate"
else
    nothing_to_build "DAACHORSE_SRC names no source and the published crate cannot be had"
fi

cargo build --quiet --release --offline \
    --manifest-path "$out/package/Cargo.toml" --target-dir "$out/build"
echo "oracle: built with daachorse 5.1.0 from $origin"
