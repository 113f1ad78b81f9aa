#!/bin/sh
# Tests the library as its callers have it: installed, and through the examples, the C tests, and the bindings. Each part ends in a
# line 'N passed, M failed', or says that it was left out and why; how far it is stands on standard error. Built is what is not built yet.
# CC and CXX are the compilers.
set -u
top=$(cd "$(dirname "$0")/.." && pwd)
# shellcheck source=scripts/say.sh
. "$top/scripts/say.sh"
# shellcheck source=scripts/counting.sh
. "$top/scripts/counting.sh"
cc=${CC:-cc}
cxx=${CXX:-c++}
work=$(mktemp -d)
trap 'hush; rm -rf "$work"' EXIT
trap 'exit 130' INT TERM
vectors=$top/vectors
all_well=true
tests=library

if ! has "$cc"; then
    left_out 'all of it' 'there is no C compiler'
    exit 0
fi
{ "$top/scripts/install.sh" "$work/usr" 2>&1 || : >"$work/not_installed"; } | tee "$work/installing" >&2
[ ! -e "$work/not_installed" ] || exit 1
flags="-std=c99 -O2 -Wall -Wextra -Wpedantic -Werror -I$work/usr/include"
library=$work/usr/lib/libavcdec.a
sanitizer=
if echo 'int main(void) { return 0; }' >"$work/try.c" && "$cc" -fsanitize=address,undefined "$work/try.c" -o "$work/try" 2>/dev/null && "$work/try"; then
    sanitizer='-g -fsanitize=address,undefined'
fi

threads_sanitizer=
if [ -e "$work/try.c" ] && "$cc" -fsanitize=thread "$work/try.c" -o "$work/try" 2>/dev/null && "$work/try"; then
    threads_sanitizer='-g -fsanitize=thread'
fi

# compiles a C file with the static library
compile() {
    # flags are words
    # shellcheck disable=SC2086
    "$cc" $flags $3 "$1" -o "$work/$2" "$library"
}

# the status and the standard error that are wanted of a stream
wanted_status() {
    if [ -e "$1.refused" ]; then echo 1; else echo 0; fi
}

wanted_text() {
    if [ -e "$1.refused" ]; then cat "$1.refused"; fi
}

# whether a program that wrote $work/out, told $work/told and ended with this status did what is wanted of a stream
is_decoded() {
    [ "$2" = "$(wanted_status "$1")" ] && wanted_text "$1" | cmp -s - "$work/told" &&
        [ "$(md5sum <"$work/out" | cut -d ' ' -f 1)" = "$(cut -d ' ' -f 1 <"$3")" ]
}

part 'compiling for C and C++'
for file in decode call; do
    holds "$file" compile "$top/examples/c/$file.c" "$file" "$sanitizer"
    holds "$file for C++" "$cxx" -x c++ -std=c++11 -Wall -Wextra -Wpedantic -Werror -I"$work/usr/include" -c "$top/examples/c/$file.c" -o "$work/$file.o"
done
for file in pieces growths packets faults marks access_units; do
    holds "$file" compile "$top/bindings/c/tests/$file.c" "$file" "$sanitizer"
done
holds threads compile "$top/bindings/c/tests/threads.c" threads "-pthread $threads_sanitizer"
told
[ -n "$threads_sanitizer" ] || left_out 'ThreadSanitizer' "$cc has none"
[ -n "$sanitizer" ] || left_out 'AddressSanitizer' "$cc has none"

# The installation said what it was at, by lines of its own and of what proves, and nothing else: not what the prover told of each crate.
is_said_short() {
    grep -q '^install.sh: to ' "$work/installing" && ! grep -v -e '^install.sh: ' -e '^avcdec: ' "$work/installing"
}

part 'what install.sh says'
holds 'its own lines' is_said_short
told

# whether the static library shows the names of the header and no others
shows_its_names() {
    if nm -g --defined-only "$library" | awk 'NF == 3 { print $3 }' | grep -v '^avcdec_'; then return 1; fi
    grep -o '^[a-z].*avcdec_[a-z0-9_]*(' "$work/usr/include/avcdec.h" | grep -v 'static inline' | grep -o 'avcdec_[a-z0-9_]*(' | tr -d '(' | sort -u >"$work/declared"
    nm -g --defined-only "$library" | awk 'NF == 3 { print $3 }' | sort -u | cmp -s - "$work/declared"
}

if has nm; then
    part 'names of the static library'
    holds 'those of the header' shows_its_names
    told
else
    left_out 'names of the static library' 'there is no nm'
fi

# whether a program with this library tells a processor below x86-64-v2 that it is, and ends
tells_level() {
    for words in "$1" "-L$work/usr/lib -lavcdec"; do
        # shellcheck disable=SC2086 # they are words
        "$cc" -O2 -I"$work/usr/include" "$top/examples/c/decode.c" -o "$work/leveled" $words || return 1
        LD_LIBRARY_PATH=$work/usr/lib qemu-x86_64 -cpu core2duo "$work/leveled" "$vectors/cases/gap.264" "$work/out" >"$work/told" 2>&1
        [ $? = 127 ] && grep -q 'CPU ISA level is lower than required' "$work/told" || return 1
        LD_LIBRARY_PATH=$work/usr/lib qemu-x86_64 -cpu Nehalem "$work/leveled" "$vectors/cases/gap.264" "$work/out" 2>"$work/told"
        is_decoded "$vectors/cases/gap" $? "$vectors/cases/gap.md5" || return 1
    done
}

if [ "$(uname -m)" = x86_64 ] && has qemu-x86_64; then
    part 'a processor below x86-64-v2'
    holds 'told' tells_level "$library"
    told
else
    left_out 'a processor below x86-64-v2' 'there is no qemu-x86_64'
fi

# whether the list of faults that is installed has the numbers and names of the library
has_all_faults() {
    "$work/faults" >"$work/named" && cut -f 1,2 "$work/usr/share/doc/avcdec/faults.tsv" | cmp -s - "$work/named"
}

part 'list of faults'
holds 'that of the library' has_all_faults
told

part 'examples/c/decode.c'
for stream in "$vectors"/*/*.264; do
    base=${stream%.264}
    [ -e "$base.md5" ] || continue
    "$work/decode" "$stream" "$work/out" 2>"$work/told"
    holds "$base" is_decoded "$base" $? "$base.md5"
    if [ -e "$base.early" ]; then
        "$work/decode" --early "$stream" "$work/out" 2>"$work/told"
        holds "$base --early" is_decoded "$base" $? "$base.early"
    fi
done
told

# whether the loader takes the library for x86-64-v3 where it finds that of this prefix
is_library_of_level() {
    LD_DEBUG=libs LD_LIBRARY_PATH=$work/v3/lib "$work/shared" "$vectors/cases/gap.264" "$work/out" 2>&1 | grep -q 'calling init: .*/glibc-hwcaps/x86-64-v3/libavcdec.so'
}

# whether bin/avcdec of this prefix runs the program for x86-64-v3
is_program_of_level() {
    rm -f "$work/pipe" && mkfifo "$work/pipe" || return 1
    "$work/v3/bin/avcdec" units <"$work/pipe" >/dev/null &
    exec 3>"$work/pipe"
    sleep 1
    ran=$(readlink "/proc/$!/exe")
    exec 3>&-
    wait
    [ "$ran" = "$work/v3/libexec/avcdec/x86-64-v3/avcdec" ]
}

if /lib64/ld-linux-x86-64.so.2 --help 2>/dev/null | grep -q 'x86-64-v3 (supported'; then
    X86_64_V3=1 "$top/scripts/install.sh" "$work/v3" || exit 1
    # shellcheck disable=SC2086 # flags are words
    "$cc" $flags "$top/examples/c/decode.c" -o "$work/shared" -L"$work/v3/lib" -lavcdec
    part 'x86-64-v3'
    holds 'the library' is_library_of_level
    holds 'the program' is_program_of_level
    for stream in "$vectors"/*/*.264; do
        base=${stream%.264}
        [ -e "$base.md5" ] || continue
        LD_LIBRARY_PATH=$work/v3/lib "$work/shared" "$stream" "$work/out" 2>"$work/told"
        holds "$base, by the library" is_decoded "$base" $? "$base.md5"
        "$work/v3/bin/avcdec" decode "$stream" -o "$work/out" 2>"$work/told"
        holds "$base, by the program" is_decoded "$base" $? "$base.md5"
    done
    told
else
    left_out 'x86-64-v3' 'this processor, or its loader, is of no such level'
fi

# the lines of the example in the header: its function (1) and the calls (2)
of_example() {
    awk -v wanted="$1" '/^ \*\// { exit } /^ \*$/ { part++ } /^ \*     / && part == wanted { print substr($0, 8) }' "$work/usr/include/avcdec.h"
}

# the lines of an example in README.md: from the one that begins by these words to the one that begins by those
of_readme() {
    awk -v first="$1" -v last="$2" 'index($0, first) == 5 { on = 1 } on { print } on && index($0, last) == 5 { exit }' "$top/README.md"
}

# a program of the example's calls, which writes what it shows and tells what is refused
program_of() {
    cat <<'C'
#include <avcdec.h>
#include <stdio.h>
static FILE *out;
static uint8_t bytes[1 << 22];
static int status;
static void show(uint32_t plane, size_t y, const uint8_t *row, size_t columns) {
    (void)plane, (void)y;
    fwrite(row, 1, columns, out);
}
static void refused(uint64_t unit, uint32_t fault) {
    char name[AVCDEC_NAME_SIZE];
    avcdec_fault_name(fault, name, sizeof name);
    fprintf(stderr, "refused unit %llu: %u %s\n", (unsigned long long)unit, (unsigned)fault, name);
    status = 1;
}
C
    of_example 1
    cat <<'C'
int main(int count, char **words) {
    FILE *in = count == 3 ? fopen(words[1], "rb") : NULL;
    out = in ? fopen(words[2], "wb") : NULL;
    if (!out)
        return 3;
    size_t length = fread(bytes, 1, sizeof bytes, in);
    fclose(in);
C
    "$@"
    echo '    return fclose(out) ? 3 : status; }'
}
program_of of_example 2 >"$work/header.c"
program_of of_readme 'avcdec_decoder decoder' avcdec_close >"$work/readme.c"
part 'the examples in the header and in README.md'
for example in header readme; do
    holds "$example, compiled" compile "$work/$example.c" "$example" "$sanitizer"
    for stream in cases/gap cases/held_before_refusal corners/five_g121 encoder/pub_x_crop_18x34; do
        "$work/$example" "$vectors/$stream.264" "$work/out" 2>"$work/told"
        holds "$example, $stream" is_decoded "$vectors/$stream" $? "$vectors/$stream.md5"
    done
done
told

part 'random pieces, and calls that do not fit'
seed=1
for stream in "$vectors"/*/*.264; do
    base=${stream%.264}
    [ -e "$base.md5" ] && [ "$(wc -c <"$stream")" -lt 2000000 ] || continue
    seed=$((seed + 1))
    "$work/pieces" "$seed" "$stream" "$work/out" 2>"$work/told"
    holds "$base, seed $seed" is_decoded "$base" $? "$base.md5"
done
told

part 'a decoder that goes from thread to thread and from place to place'
for stream in cases/gap cases/held_before_refusal corners/five_g121 encoder/pub_x_crop_18x34 encoder/pub_x_keyint3 speed/cif; do
    "$work/threads" "$vectors/$stream.264" "$work/out" 2>"$work/told"
    holds "$stream" is_decoded "$vectors/$stream" $? "$vectors/$stream.md5"
done
told

# whether the values of a stream's packets come back with its pictures as a line of marks.txt says
has_values() {
    # places are words
    # shellcheck disable=SC2086
    "$work/marks" "$vectors/$1.264" $2 >"$work/told" && [ "$(cat "$work/told")" = " $3" ]
}

# whether a stream is cut into access units at the places of a line of marks.txt, which are those where libavcodec's parser cuts it
has_access_units() {
    "$work/access_units" "$vectors/$1.264" >"$work/told" && [ "$(cat "$work/told")" = "$2" ]
}

# whether the events' values are those of marks at random places, by the units that the program counts itself
has_random_values() {
    "$work/marks" "$2" "$1" >/dev/null
}

part 'values of marks, and access units'
while IFS='|' read -r stream places wanted; do
    holds "$stream" has_values "$stream" "$places" "$wanted"
    holds "access units of $stream" has_access_units "$stream" "$places"
done <"$top/bindings/c/tests/marks.txt"
seed=1
for stream in "$vectors"/cases/*.264 "$vectors"/corners/*.264 "$vectors"/foreign/*.264; do
    [ "$(wc -c <"$stream")" -lt 20000 ] || continue
    seed=$((seed + 1))
    holds "$stream, seed $seed" has_random_values "$stream" "$seed"
done
told

part 'examples/c/call.c'
for stream in "$vectors"/encoder/*.264 "$vectors"/cases/*.264; do
    base=${stream%.264}
    [ -e "$base.md5" ] && [ ! -e "$base.refused" ] || continue
    md5=$base.md5
    [ ! -e "$base.early" ] || md5=$base.early
    "$work/packets" "$stream" "$work/cut" && "$work/call" "$work/cut" "$work/out" 2>"$work/told"
    holds "$base" is_decoded "$base" $? "$md5"
done
told

# whether a stream's decoding stands each refusal of a growth
stands_refusals() {
    "$work/growths" "$1" >"$work/count"
}

part 'each growth refused in turn'
for stream in cases/gap encoder/pub_x_crop_18x34; do
    holds "$stream" stands_refusals "$vectors/$stream.264"
done
told

# whether the programs that pkg-config's words build do as those above
by_pkg_config() {
    words=$(PKG_CONFIG_PATH=$work/usr/lib/pkgconfig pkg-config --cflags --libs avcdec) || return 1
    # shellcheck disable=SC2086
    "$cc" "$top/examples/c/decode.c" -o "$work/shared" $words || return 1
    LD_LIBRARY_PATH=$work/usr/lib "$work/shared" "$vectors/cases/gap.264" "$work/out" 2>"$work/told"
    is_decoded "$vectors/cases/gap" $? "$vectors/cases/gap.md5"
}

if has pkg-config; then
    part 'pkg-config and the shared library'
    holds 'decode.c' by_pkg_config
    told
else
    left_out 'pkg-config' 'it is not there'
fi

"$top/scripts/test-package.sh" || all_well=false

# whether a program takes at most 60 MB of memory on a small stream of many pictures, and decodes it
is_small() {
    /usr/bin/time -f %M -o "$work/memory" "$@" "$vectors/hostile/many_pictures_in_one_piece.264" "$work/out" 2>"$work/told"
    cmp -s "$work/out" "$work/many" && [ "$(tail -n 1 "$work/memory")" -le 61440 ]
}

memory=
if [ -x /usr/bin/time ]; then
    memory=1
    part 'memory on a stream of many pictures'
    # AddressSanitizer takes memory of its own
    holds 'decode.c' compile "$top/examples/c/decode.c" plain ''
    "$work/plain" "$vectors/hostile/many_pictures_in_one_piece.264" "$work/many"
    holds 'examples/c/decode.c' is_small "$work/plain"
    told
else
    left_out 'memory on a stream of many pictures' 'there is no /usr/bin/time'
fi

# whether an example of a binding decodes some streams, and takes little memory
decodes() {
    for stream in cases/gap cases/held_before_refusal encoder/pub_x_crop_18x34; do
        "$@" "$vectors/$stream.264" "$work/out" 2>"$work/told"
        is_decoded "$vectors/$stream" $? "$vectors/$stream.md5" || return 1
    done
    [ -z "$memory" ] || is_small "$@"
}

# the tests of the crate in a folder, which are counted
cargo_tests() {
    AVCDEC_LIB_DIR=$work/usr/lib CARGO_TARGET_DIR=$work/cargo cargo test --offline --release --manifest-path "$1/Cargo.toml" >"$work/cargo.log" 2>&1 ||
        { cat "$work/cargo.log"; failed=1; }
    passed=$((passed + $(awk '/^test result:/ { count += $4 } END { print count + 0 }' "$work/cargo.log")))
}

# whether the build says what to set where the library is not
says_what_to_set() {
    ! AVCDEC_LIB_DIR=$work CARGO_TARGET_DIR=$work/lacking cargo build --offline --manifest-path "$top/bindings/rust/Cargo.toml" 2>"$work/told" &&
        grep -q "AVCDEC_LIB_DIR names the folder '$work', where it is not" "$work/told" && grep -q 'AVCDEC_LIB_DIR=PREFIX/lib' "$work/told"
}

# whether the crate is packed whole, with the streams of its tests: they pass where it is unpacked
is_packed() {
    mkdir "$work/packing" && tar -C "$top/bindings/rust" -c --exclude=target . | tar -C "$work/packing" -x && cp -R "$vectors/cases" "$work/packing/tests/cases"
    AVCDEC_LIB_DIR=$work/usr/lib CARGO_TARGET_DIR=$work/cargo cargo package --offline --allow-dirty --quiet --manifest-path "$work/packing/Cargo.toml" \
        >"$work/told" 2>&1 || { cat "$work/told"; return 1; }
    mkdir "$work/crate" && tar -C "$work/crate" --strip-components 1 -xzf "$work"/cargo/package/avcdec-*.crate
}

# An example of README.md decodes in.264, in a folder of its own, and tells a line for each picture and each refusal.
tells_events() {
    mkdir -p "$work/reading"
    for stream in cases/gap cases/held_before_refusal; do
        cp "$vectors/$stream.264" "$work/reading/in.264"
        (cd "$work/reading" && "$@") >"$work/lines" 2>"$work/told" || { cat "$work/told"; return 1; }
        pictures=$("$work/decode" "$vectors/$stream.264" - 2>/dev/null | wc -c)
        [ "$(grep -c '^[0-9P]' "$work/lines")" = $((pictures / 384)) ] || return 1
        cat "$work/told" "$work/lines" | grep '^refused' | cmp -s - "$vectors/$stream.refused" || return 1
    done
}

# the example of README.md in Rust, in a crate of its own
is_read_by_rust() {
    mkdir -p "$work/readme_crate/src"
    printf '[package]\nname = "readme"\nversion = "0.1.0"\nedition = "2021"\n[dependencies]\navcdec = { path = "%s" }\n' "$top/bindings/rust" \
        >"$work/readme_crate/Cargo.toml"
    {
        echo 'use std::fs::File;'
        echo "fn show<'a>(rows: impl Iterator<Item = &'a [u8]>) -> std::io::Result<()> { Ok(println!(\"{} rows\", rows.count())) }"
        echo 'fn main() -> std::io::Result<()> {'
        of_readme 'avcdec::decode(' '})?;'
        echo 'Ok(()) }'
    } >"$work/readme_crate/src/main.rs"
    AVCDEC_LIB_DIR=$work/usr/lib CARGO_TARGET_DIR=$work/cargo cargo build --offline --release --quiet --manifest-path "$work/readme_crate/Cargo.toml" \
        >"$work/told" 2>&1 || { cat "$work/told"; return 1; }
    tells_events "$work/cargo/release/readme"
}

if has cargo; then
    part 'bindings/rust'
    cargo_tests "$top/bindings/rust"
    [ "$passed" -gt 0 ] || failed=1
    holds 'a missing library' says_what_to_set
    holds 'cargo package' is_packed
    before=$passed
    cargo_tests "$work/crate"
    [ "$passed" -gt "$before" ] || failed=1
    holds 'the example in README.md' is_read_by_rust
    holds 'bindings/rust/examples/decode.rs' decodes "$work/cargo/release/examples/decode"
    told
else
    left_out 'bindings/rust' 'there is no cargo'
fi

# the first Python with numpy, else the first
python=
for each in python3 /usr/bin/python3; do
    has "$each" || continue
    [ -n "$python" ] || python=$each
    if "$each" -c 'import numpy' 2>/dev/null; then
        python=$each
        break
    fi
done
# whether pip installs the package without a network, with the library in it, and its tests pass there
is_installed_by_pip() {
    if AVCDEC_LIBRARY='' "$python" -m pip install --quiet --disable-pip-version-check --no-index --target "$work/site" "$top/bindings/python" >"$work/told" 2>&1 &&
        [ -e "$work/site/avcdec/libavcdec.so.0" ] &&
        (cd "$work" && AVCDEC_LIBRARY='' AVCDEC_VECTORS=$vectors PYTHONPATH=$work/site "$python" -m unittest discover -s "$top/bindings/python/tests" >"$work/told" 2>&1); then
        return 0
    fi
    cat "$work/told"
    return 1
}

# the example of README.md in Python
is_read_by_python() {
    { echo 'import avcdec' && of_readme 'for event in avcdec.decode(' 'for event in avcdec.decode(' | sed 's/^    //'; } >"$work/readme.py"
    tells_events env AVCDEC_LIBRARY="$work/usr/lib/libavcdec.so" PYTHONPATH="$top/bindings/python" PYTHONDONTWRITEBYTECODE=1 "$python" "$work/readme.py"
}

is_typed() {
    (cd "$top/bindings/python" && "$@" --strict --cache-dir "$work/mypy" avcdec make_wheel.py >"$work/told" 2>&1) || { cat "$work/told"; return 1; }
}

if [ -n "$python" ]; then
    part 'bindings/python'
    AVCDEC_LIBRARY=$work/usr/lib/libavcdec.so AVCDEC_VECTORS=$vectors PYTHONPATH=$top/bindings/python PYTHONDONTWRITEBYTECODE=1 \
        "$python" -m unittest discover -s "$top/bindings/python/tests" >"$work/python.log" 2>&1 || { cat "$work/python.log"; failed=1; }
    passed=$(sed -n 's/^Ran \([0-9]*\) test.*/\1/p' "$work/python.log")
    passed=${passed:-0}
    [ "$passed" -gt 0 ] || failed=1
    if "$python" -m pip --version >/dev/null 2>&1; then
        holds 'pip install' is_installed_by_pip
    else
        left_out 'pip install' 'there is no pip'
    fi
    if "$python" -m mypy --version >/dev/null 2>&1; then
        holds 'mypy --strict' is_typed "$python" -m mypy
    elif has mypy; then
        holds 'mypy --strict' is_typed mypy
    else
        left_out 'mypy --strict' 'it is not there'
    fi
    holds 'the example in README.md' is_read_by_python
    holds 'examples/python/decode.py' decodes env AVCDEC_LIBRARY="$work/usr/lib/libavcdec.so" PYTHONPATH="$top/bindings/python" PYTHONDONTWRITEBYTECODE=1 \
        "$python" "$top/examples/python/decode.py"
    told
    "$python" -c 'import numpy' 2>/dev/null || left_out 'arrays of numpy' 'it is not installed'
else
    left_out 'bindings/python' 'there is no python3'
fi
"$top/scripts/test-arm64.sh" || all_well=false
if "$top/scripts/first-steps.sh" check; then
    echo 'library, docs/first-steps.md: 1 passed, 0 failed'
else
    echo 'library, docs/first-steps.md: 0 passed, 1 failed'
    all_well=false
fi
"$all_well"
