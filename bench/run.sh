#!/bin/sh
# Counts processor instructions by callgrind: bench/run.sh NAME [WORD..]
#
# bench/NAME/main.rt.txt is a program whose first argument is a number of rounds, and which writes how many items, such as
# bytes, one round goes through. It is built as `rt run` builds any program of this repository, in a copy of the
# repository with the dependencies that bench/NAME/uses lists, and run with one round and with three: the difference is
# two rounds alone. The WORDs follow the number of rounds.
set -eu

name=$1
shift
top=$(cd "$(dirname "$0")/.." && pwd)
copy=$(mktemp -d)
trap 'rm -rf "$copy"' EXIT

cp -a "$top/crates" "$top/crates.txt" "$copy"
crate="$copy/crates/bench_$name"
"$top/bench/place.sh" "$name" "$copy"

cd "$crate"
rt run -- 1 "$@" >"$copy/log" 2>&1 || {
    cat "$copy/log"
    exit 1
}

# instructions in so many rounds
count() {
    valgrind --tool=callgrind --callgrind-out-file=/dev/null "out/bench_$name" "$@" 2>&1 >/dev/null |
        sed -n 's/.*Collected : //p'
}

one=$(count 1 "$@")
three=$(count 3 "$@")
items=$("out/bench_$name" 1 "$@")
awk -v name="$name $*" -v one="$one" -v three="$three" -v items="$items" \
    'BEGIN { printf "%s: %.2f instructions an item (%d in a round of %d)\n", name, (three - one) / 2 / items, (three - one) / 2, items }'
