#!/bin/sh
# Damage at scale: `damage.sh [N]` plays N cases between guard pages (a million if none is said) and
# a fifth as many others under valgrind; `damage.sh short` a small part of both. Then come faults that
# are planted to be seen. Where something is not at hand a line says what, and the exit status is 3.
set -eu

here=$(cd "$(dirname "$0")" && pwd)
sh "$here/build.sh"
compare="$here/../target/compare/build/release/compare"

has_valgrind=yes
command -v valgrind > /dev/null 2>&1 || has_valgrind=no

# An error that valgrind tells has a status of its own.
under_valgrind() {
    valgrind -q --error-exitcode=99 "$compare" damage exact "$@"
}

# A planted fault must end the run with this status.
must_be_seen() {
    wanted=$1
    shift
    status=0
    "$@" > /dev/null 2>&1 || status=$?
    if [ "$status" -ne "$wanted" ]; then
        echo "damage: a planted fault was not seen: $*"
        exit 1
    fi
}

guarded=${1:-1000000}
if [ "$guarded" = short ]; then guarded=20000; exact=400; else exact=$((guarded / 5)); fi

"$compare" damage guarded 1 "$guarded"
if [ "$has_valgrind" = yes ]; then under_valgrind "$((guarded + 1))" "$exact"; fi

for fault in past before write sheet slot answer hang; do
    must_be_seen 1 "$compare" damage guarded 1 200 --fault "$fault"
done
echo "damage: seven planted faults were seen between guard pages"
if [ "$has_valgrind" = no ]; then
    echo "damage: there is no valgrind here"
    exit 3
fi
for fault in past before sheet; do
    must_be_seen 99 under_valgrind 100 1 --fault "$fault"
done
echo "damage: three planted faults were seen under valgrind"
