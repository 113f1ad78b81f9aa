#!/bin/sh
# Refuses each growth of memory once, from the first to the last: of the program, on small streams, of the library, fed in pieces and unit
# by unit with its planes lent, and of the tests about want of memory. The program must end with status 4 and one line, behind the first of the refusals that it tells with ample memory, having written a first
# part of what it writes then, or do all as with ample memory, where it can do without that growth; the tests say themselves what must
# stand. Then each read of the program fails once, though those after it would not: it must end with status 3 and one line, behind the
# first refusals, having written a first part. At last growths as large as a plane of luma are counted: a long stream, and one with many
# refusals, take no more of them than the decoder has frames, by README's formula for memory. Wants a C compiler,
# and the program, the library and the tests: what is not proved and built yet is so first. The last line is 'N passed, M failed', where N
# counts growths and reads; how far it is stands on standard error.
set -u
here=$(cd "$(dirname "$0")" && pwd)
top=$(dirname "$here")
# shellcheck source=scripts/say.sh
. "$top/scripts/say.sh"
room=$(mktemp -d)
trap 'hush; rm -rf "$room"' EXIT
trap 'exit 130' INT TERM

cat >"$room/refuse.c" <<'C'
#define _GNU_SOURCE
#include <dlfcn.h>
#include <errno.h>
#include <stdio.h>
#include <stdlib.h>
#include <unistd.h>

static long count, refused, reads, large;
static size_t least;

// Whether this growth is the one to refuse. Those of LEAST bytes and more are counted apart, where that is given.
static int refuses(size_t size) {
    if (!count) {
        char *text = getenv("REFUSED"), *bytes = getenv("LEAST");
        refused = text ? atol(text) : 0;
        least = bytes ? (size_t)atol(bytes) : 0;
    }
    if (size >= least) large++;
    return ++count == refused;
}

void *malloc(size_t size) {
    static void *(*real)(size_t);
    if (!real) real = (void *(*)(size_t))dlsym(RTLD_NEXT, "malloc");
    return refuses(size) ? NULL : real(size);
}

void *realloc(void *old, size_t size) {
    static void *(*real)(void *, size_t);
    if (!real) real = (void *(*)(void *, size_t))dlsym(RTLD_NEXT, "realloc");
    return refuses(size) ? NULL : real(old, size);
}

// Where a read is to fail, or the reads are counted, the standard input gives at most 100 bytes a read.
ssize_t read(int file, void *to, size_t size) {
    static ssize_t (*real)(int, void *, size_t);
    char *failing = getenv("FAILING");
    if (!real) real = (ssize_t (*)(int, void *, size_t))dlsym(RTLD_NEXT, "read");
    if (file || !failing) return real(file, to, size);
    if (++reads == atol(failing)) {
        errno = EIO;
        return -1;
    }
    return real(file, to, size < 100 ? size : 100);
}

__attribute__((destructor)) static void tell(void) {
    long growths = large;
    char *file = getenv("COUNTED");
    FILE *out = file ? fopen(file, "w") : NULL;
    if (out) fprintf(out, "%ld\n", getenv("FAILING") ? reads : growths);
}
C
cc=${CC:-}
for name in cc gcc clang; do
    [ -n "$cc" ] || cc=$(command -v "$name" || true)
done
if [ -z "$cc" ] || ! "$cc" -O2 -shared -fPIC -o "$room/refuse.so" "$room/refuse.c" -ldl 2>"$room/told"; then
    echo 'want of memory and failing reads are not tried: there is no C compiler'
    exit 0
fi

# Does these words beside all others, in a folder of their own, which holds afterwards what they told and how many passed and failed.
jobs=0
started=
beside() {
    jobs=$((jobs + 1))
    work=$room/$jobs
    mkdir "$work"
    (
        passed=0
        failed=0
        "$@"
        echo "$passed $failed" >"$work/counts"
    ) >"$work/log" 2>&1 &
    started="$started $!"
}

# how many of them have ended
how_far() {
    echo "$(find "$room" -name counts | wc -l) of $jobs parts have ended"
}

# counts one growth, or one read
judge() {
    if [ "$1" = 0 ]; then
        passed=$((passed + 1))
    else
        failed=$((failed + 1))
        echo "failed: $2, number $number"
        cat "$work/told"
    fi
}

# whether this line was told last, behind the first of the lines of a file
ends_by() {
    tail -n 1 "$work/told" | grep -qxF "$1" && head -n -1 "$work/told" >"$work/before" && cmp -s -n "$(wc -c <"$work/before")" "$work/before" "$2"
}

# the words of a command on a stream, each growth refused
refused_in_program() {
    what="$*"
    stream=$1
    shift
    "$program" "$@" <"$stream" >"$work/whole" 2>"$work/told_with_memory"
    ample=$?
    COUNTED=$work/count LD_PRELOAD=$room/refuse.so "$program" "$@" <"$stream" >/dev/null 2>&1
    growths=$(cat "$work/count")
    number=1
    while [ "$number" -le "$growths" ]; do
        REFUSED=$number LD_PRELOAD=$room/refuse.so "$program" "$@" <"$stream" >"$work/part" 2>"$work/told"
        status=$?
        if [ "$status" = 4 ]; then
            ends_by 'avcdec: out of memory' "$work/told_with_memory" && cmp -s -n "$(wc -c <"$work/part")" "$work/part" "$work/whole"
        else
            [ "$status" = "$ample" ] && cmp -s "$work/told" "$work/told_with_memory" && cmp -s "$work/part" "$work/whole"
        fi
        judge $? "a growth in ${what#"$here"/}: status $status"
        number=$((number + 1))
    done
}

# the same, each read failing; before that, as number 0, none
failing_in_program() {
    what="$*"
    stream=$1
    shift
    "$program" "$@" <"$stream" >"$work/whole" 2>"$work/told_without"
    ample=$?
    number=0
    FAILING=0 COUNTED=$work/count LD_PRELOAD=$room/refuse.so "$program" "$@" <"$stream" >"$work/part" 2>"$work/told"
    [ $? = "$ample" ] && cmp -s "$work/told" "$work/told_without" && cmp -s "$work/part" "$work/whole"
    judge $? "short reads in ${what#"$here"/}"
    reads=$(cat "$work/count")
    while [ "$number" -lt "$reads" ]; do
        number=$((number + 1))
        FAILING=$number LD_PRELOAD=$room/refuse.so "$program" "$@" <"$stream" >"$work/part" 2>"$work/told"
        status=$?
        [ "$status" = 3 ] && ends_by 'avcdec: read fault' "$work/told_without" && cmp -s -n "$(wc -c <"$work/part")" "$work/part" "$work/whole"
        judge $? "a read in ${what#"$here"/}: status $status"
    done
}

# a stream in the library, each growth refused: bindings/c/tests/growths.c says itself what must stand, and how many growths there were
refused_in_library() {
    number=all
    "$room/growths" "$1" >"$work/count" 2>"$work/told"
    judge $? "the library on ${1#"$here"/}"
    [ "$failed" != 0 ] || passed=$(cat "$work/count")
}

# a test, each growth refused: it ends well, or in the want of memory of a growth that is its own
refused_in_test() {
    tests=$top/crates/$1/out/$1_tests
    test=$2
    COUNTED=$work/count LD_PRELOAD=$room/refuse.so "$tests" "$test" >/dev/null 2>&1
    growths=$(cat "$work/count")
    number=1
    while [ "$number" -le "$growths" ]; do
        REFUSED=$number LD_PRELOAD=$room/refuse.so "$tests" "$test" >"$work/told" 2>&1 || grep -q 'AllocError' "$work/told"
        judge $? "a growth in $test"
        number=$((number + 1))
    done
}

# a test that takes no more growths than these
growing_at_most() {
    REFUSED=$(($1 + 1)) LD_PRELOAD=$room/refuse.so "$top/crates/$2/out/$2_tests" "$3" >"$work/told" 2>&1
    number=$1
    judge $? "growths in $3"
}

# A stream of 352x288, of whose pictures the buffer holds at most so many, and in which so much is refused: the growths as large as a plane of
# luma, s(352)(288 + 32) bytes with s(352) = 384 (README), are no more than the decoder has frames at once. These are those in the buffer and the
# open one, and as many that went out and were not yet written, which the program takes after each unit.
planes_at_most() {
    LEAST=122880 COUNTED=$work/count LD_PRELOAD=$room/refuse.so "$program" decode <"$3" >/dev/null 2>"$work/told"
    number=$(cat "$work/count")
    [ "$(grep -c '^refused unit ' "$work/told")" = "$2" ] && [ "$number" -ge 1 ] && [ "$number" -le $((2 * ($1 + 1))) ]
    judge $? "planes of ${3##*/}, of which $2 pictures are refused"
}

say 'refuses each growth of memory once: of the program, of the library, of tests'
"$top/avcdec" compare --help >/dev/null || exit 1
program=$top/crates/avc_cli/out/avc_cli
library=$top/crates/avc_c/out/libavc_c.a
[ -e "$library" ] || "$top/scripts/prove.py" avc_c || exit 1
# The tests' programs are those that the gate has built, or are built now.
wanted=
for crate in avc_syntax_tests avc_stream_tests; do
    [ -x "$top/crates/$crate/out/${crate}_tests" ] || wanted="$wanted $crate"
done
if [ -n "$wanted" ]; then
    say "the tests of$wanted are proved and built first, which takes up to 40 minutes"
    # shellcheck disable=SC2086 # they are words
    "$top/scripts/prove.py" --tests $wanted || exit 1
fi
"$cc" -O2 -I "$top/include" -o "$room/growths" "$top/bindings/c/tests/growths.c" "$top/bindings/c/heap.c" "$library" || exit 1
for name in cases/gap encoder/pub_x_crop_18x34; do
    beside refused_in_library "$here/$name.264"
done
for name in cases/held_before_refusal corners/gap_and_order_g89 corners/operations_k39 corners/five_g121; do
    beside refused_in_program "$here/$name.264" decode
    beside refused_in_program "$here/$name.264" decode --early
done
for name in cases/held_before_refusal corners/operations_k39; do
    beside refused_in_program "$here/$name.264" units
    beside refused_in_program "$here/$name.264" headers
    beside refused_in_program "$here/$name.264" cut 0
done
for words in decode 'decode --early' 'decode --from 0' units headers 'cut 0'; do
    # shellcheck disable=SC2086
    beside failing_in_program "$here/corners/five_g121.264" $words
done
for test in calls_that_begin_anew slices_begin_anew pictures_begin_anew splitters_want_memory_from_then_on tables_stay_as_they_are bit_makers_want_memory_from_then_on; do
    beside refused_in_test avc_syntax_tests "want_of_memory::$test"
done
beside refused_in_test avc_stream_tests stream_texts::texts_and_pieces
beside refused_in_test avc_stream_tests decoder_calls::decodes_again_after_want_of_memory
beside refused_in_test avc_stream_tests worked_streams::the_first_again_after_want_of_memory
beside growing_at_most 20000 avc_stream_tests decoder_calls::two_hundred_pictures_byte_by_byte
# ten coded video sequences of 30 pictures each; and forty times the first two pictures and a part of the third, which is refused
i=0
while [ "$i" -lt 40 ]; do
    i=$((i + 1))
    [ "$i" -gt 10 ] || cat "$here/speed/cif.264" >>"$room/long.264"
    head -c 6200 "$here/speed/cif.264" >>"$room/refused.264"
done
beside planes_at_most 3 0 "$room/long.264"
beside planes_at_most 3 40 "$room/refused.264"
say "$jobs parts side by side"
tell_while how_far
# shellcheck disable=SC2086 # they are words
wait $started
hush

passed=0
failed=0
job=0
while [ "$job" -lt "$jobs" ]; do
    job=$((job + 1))
    cat "$room/$job/log"
    [ -e "$room/$job/counts" ] || echo '0 1' >"$room/$job/counts"
    read -r more_passed more_failed <"$room/$job/counts"
    passed=$((passed + more_passed))
    failed=$((failed + more_failed))
done
echo "$passed passed, $failed failed"
[ "$failed" = 0 ] && [ "$passed" -gt 0 ]
