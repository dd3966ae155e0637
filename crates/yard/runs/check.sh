#!/bin/sh
# check.sh BINARY: runs the command once for each folder beside this file, in a copy of that folder with the crew's files in it, and holds both of its
# streams to `out` and `err`. `args` has a word a line; `make`, where there is one, makes the files that are too long or too odd to keep. Where the
# oracle is built, it tells from the same two files what `--numbers` must print, or which refusal is due.
set -eu

binary=$(cd "$(dirname "$1")" && pwd)/$(basename "$1")
here=$(cd "$(dirname "$0")" && pwd)
oracle="$here/../../../target/oracle/build/release/oracle"
room=$(mktemp -d)
trap 'rm -rf "$room"' EXIT

differs() {
    echo "yard: run $1 differs in $2"
    exit 1
}

# The words of a run without the options: its search and its two names.
take_words() {
    search=overlapping
    list=
    sheet=
    options=yes
    while [ $# -gt 0 ]; do
        if [ "$options" = yes ]; then
            case $1 in
            --) options=no && shift && continue ;;
            --search) search=$2 && shift 2 && continue ;;
            -*) shift && continue ;;
            esac
        fi
        if [ -z "$list" ]; then list=$1; else sheet=$1; fi
        shift
    done
    if [ -z "$list" ]; then
        list=crew/codes.txt
        sheet=crew/sheet.txt
    fi
}

# What the oracle says of the two files: numbers, or a refusal.
judge() {
    name=$1
    shift
    take_words "$@"
    if "$oracle" yard "$list" "$sheet" "$search" > "$room/judged" 2> "$room/told"; then
        "$binary" --numbers "$@" > "$room/numbers" 2> /dev/null
        cmp -s "$room/numbers" "$room/judged" || differs "$name" "its numbers from the oracle"
    else
        grep -qF "$(cat "$room/told"): " "$here/$name/err" || differs "$name" "its refusal from the oracle"
    fi
    judged=$((judged + 1))
}

# A run that prints matches, or is refused by a number.
is_judged() {
    if [ -s out ]; then ! grep -q '^usage: ' out; else grep -q ': refusal ' err; fi
}

runs=0
judged=0
for folder in "$here"/*/; do
    name=$(basename "$folder")
    rm -rf "$room/run"
    cp -R "$folder" "$room/run"
    cp -R "$here/../data/crew" "$room/run/crew"
    cd "$room/run"
    if [ -f make ]; then sh ./make; fi
    set --
    while IFS= read -r word; do set -- "$@" "$word"; done < args
    "$binary" "$@" > "$room/out" 2> "$room/err"
    cmp -s "$room/out" "$here/$name/out" || differs "$name" out
    cmp -s "$room/err" "$here/$name/err" || differs "$name" err
    if [ -x "$oracle" ] && is_judged; then judge "$name" "$@"; fi
    runs=$((runs + 1))
done

# A result that cannot be written is told.
if [ -w /dev/full ]; then
    "$binary" > /dev/full 2> "$room/err"
    echo 'yard: standard output: No space left on device' | cmp -s - "$room/err" || differs full err
    runs=$((runs + 1))
fi

if [ -x "$oracle" ]; then judges="$judged of them by the oracle too"; else judges="the oracle is not built"; fi
echo "yard: $runs runs are as recorded, $judges"
