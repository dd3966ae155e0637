#!/bin/sh
# The bench in one command: builds it, runs it, prints its tables.
#   sh bench/run.sh           a whole run, about two minutes
#   sh bench/run.sh --write   the same, and docs/BENCH.md and docs/bench.svg get its figures
#   sh bench/run.sh quick     a short one, for trying; its figures are not for the documents
set -eu

here=$(cd "$(dirname "$0")" && pwd)
top=$(dirname "$here")

case "$*" in
    "" | quick) ;;
    --write) set -- write "$top/docs" "$(date -u +%F)" ;;
    *)
        echo "usage: sh bench/run.sh [quick | --write]" >&2
        exit 2
        ;;
esac
sh "$here/build.sh"
exec "$top/target/bench/build/release/bench" "$@"
