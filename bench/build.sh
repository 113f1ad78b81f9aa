#!/bin/sh
# bench/build.sh [--prove] [NAME..]: sees that the benchmarks, or those named, are still programs of this repository: each is built in a copy
# of it and begins to run, as `rt try` does, which proves nothing; with --prove each is proved, as `rt check` proves any crate, and not run.
# The last line is 'N passed, M failed'; which one is built stands on standard error.
set -eu
top=$(cd "$(dirname "$0")/.." && pwd)
# shellcheck source=scripts/say.sh
. "$top/scripts/say.sh"
copy=$(mktemp -d)
trap 'hush; rm -rf "$copy"' EXIT
verb=try
if [ "${1:-}" = --prove ]; then
    verb=check
    shift
fi
# one that is built has run, to its end or up to the word or file that it misses
builds() {
    if [ "$verb" = check ]; then
        rt check
    else
        rt try -- 1 >"$copy/told" 2>&1
        cat "$copy/told"
        grep -q '^run=ended' "$copy/told"
    fi
}
if [ $# = 0 ]; then
    # shellcheck disable=SC2046
    set -- $(cd "$top/bench" && ls -d */uses | cut -d / -f 1)
fi
# the sources alone: what is proved of them is found by itself
(cd "$top" && tar cf - --exclude=out crates crates.txt) | tar xf - -C "$copy"
passed=0
failed=0
of=$#
for name; do
    say "bench/$name is built, $((passed + failed + 1)) of $of"
    tell_while echo "bench/$name is built"
    "$top/bench/place.sh" "$name" "$copy"
    if (cd "$copy/crates/bench_$name" && builds) >"$copy/log" 2>&1 </dev/null; then
        passed=$((passed + 1))
    else
        failed=$((failed + 1))
        echo "failed: bench/$name"
        cat "$copy/log"
    fi
    hush
done
echo "$passed passed, $failed failed"
[ "$failed" = 0 ] && [ "$passed" -gt 0 ]
