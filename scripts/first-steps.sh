#!/bin/sh
# first-steps.sh [check]: makes docs/first-steps.md, the first ten minutes at the shell, in C, in Rust and in Python, of real runs over streams
# of vectors/. With `check` it changes nothing, and shows what is other than in the document. A part whose tools are not there stays as it is in
# the document, which is said.
set -u
export LC_ALL=C
top=$(cd "$(dirname "$0")/.." && pwd)
# shellcheck source=scripts/say.sh
. "$top/scripts/say.sh"
document=$top/docs/first-steps.md
work=$(mktemp -d)
trap 'hush; rm -rf "$work"' EXIT
trap 'exit 130' INT TERM
ln -s "$top" "$work/avcdec"
page=$work/page
cd "$work" || exit 1
unset AVCDEC_LIBRARY AVCDEC_LIB_DIR AVCDEC_VECTORS PKG_CONFIG_PATH PYTHONPATH LD_LIBRARY_PATH CARGO_TARGET_DIR

text() {
    cat >>"$page"
}

# which words are run now
now_run() {
    echo "runs '$(cat "$work/words")'"
}

# runs words of the shell, and shows them with what they tell
step() {
    echo "$1" >"$work/words"
    printf '$ %s\n' "$1" >>"$page"
    eval "$1" >"$work/told" 2>&1 </dev/null
    cat "$work/told" >>"$page"
}

# the same where what is told says how long it takes, and is left out; it must end well
done_quietly() {
    echo "$1" >"$work/words"
    printf '$ %s\n' "$1" >>"$page"
    eval "$1" >"$work/told" 2>&1 </dev/null || { cat "$work/told" >&2; exit 1; }
}

# a file that is written, and shown
file() {
    mkdir -p "$(dirname "$1")"
    cat >"$1"
    printf '\n`%s`:\n\n```%s\n' "$1" "$2" >>"$page"
    cat "$1" >>"$page"
    printf '```\n' >>"$page"
}

console() {
    # shellcheck disable=SC2016 # they are no commands
    printf '\n```console\n' >>"$page"
}

console_ends() {
    # shellcheck disable=SC2016
    printf '```\n' >>"$page"
}

has() {
    command -v "$1" >/dev/null 2>&1
}

# the part of the document that has this title, where it can't be made here
kept() {
    say "'$1' stays as it is in the document: there is no $2"
    awk -v title="## $1" '/^## / { on = $0 == title } on' "$document" >>"$page"
}

shell_part() {
    text <<'MD'
# The first ten minutes

At the shell, in C, in Rust and in Python. The repository lies in the folder `avcdec`, and the files are made beside it. `scripts/first-steps.sh`
has made this page of real runs; `scripts/first-steps.sh check`, which is one of the tests, sees that they still give what stands here.

## Install

The first time this proves the decoder, which takes as long as README.md says.
MD
    console
    # shellcheck disable=SC2016
    done_quietly 'avcdec/scripts/install.sh "$PWD/prefix"'
    # shellcheck disable=SC2016
    done_quietly 'PATH=$PWD/prefix/bin:$PATH'
    step '(cd prefix && find . -type f -o -type l | sort)'
    console_ends
    text <<'MD'

## At the shell

What a stream is, and its pictures as I420, as Y4M for players, and as a checksum:
MD
    console
    step 'cp avcdec/vectors/encoder/pub_o_crop_150x90.264 film.264'
    step 'avcdec info film.264'
    step 'avcdec decode film.264 -o film.yuv && wc -c film.yuv'
    step 'avcdec decode film.264 -o film.y4m && head -n 1 film.y4m'
    step 'avcdec decode --format md5 film.264'
    # shellcheck disable=SC2016
    step 'avcdec decode --verify $(md5sum <film.yuv | cut -d " " -f 1) film.264 && echo the same'
    step 'avcdec decode --skip 2 --limit 1 film.264 | wc -c'
    console_ends
    text <<'MD'

Its units (number, first byte, bytes, nal_unit_type, nal_ref_idc), and what the first of them say:
MD
    console
    step 'avcdec units film.264 | sed -n 1,4p'
    step 'avcdec headers film.264 | sed -n 1,3p'
    console_ends
    text <<'MD'

The piece that begins at an IDR picture, with the parameter sets that it needs, is a stream of its own:
MD
    console
    step 'avcdec cut 1 avcdec/vectors/encoder/pub_x_keyint3.264 -o piece.264 && avcdec decode --format md5 piece.264'
    console_ends
    text <<'MD'

A stream with a fault: the picture is refused, the status is 1, and decoding goes on at the next IDR picture. The list of faults says what it means.
MD
    console
    step 'cp avcdec/vectors/cases/gap_and_resumed.264 broken.264'
    # shellcheck disable=SC2016
    step 'avcdec decode broken.264 -o broken.yuv; echo "status $?"; wc -c broken.yuv'
    step 'avcdec decode --explain --format null broken.264'
    step 'grep FrameNumGap prefix/share/doc/avcdec/faults.tsv'
    console_ends
    text <<'MD'

What is no byte stream is named, with the words that make one of it:
MD
    console
    step "printf '\\000\\000\\000\\040ftypisom\\000\\000\\002\\000' >film.mp4"
    # shellcheck disable=SC2016
    step 'avcdec decode --explain film.mp4 -o nothing.yuv; echo "status $?"'
    console_ends
    text <<'MD'

MD
}

c_part() {
    text <<'MD'
## In C

Feed, take, flush, take. Each picture is lent: its rows are read where the decoder has them.
MD
    file first.c c <<'C'
#include <avcdec.h>
#include <stdio.h>

static uint8_t bytes[1 << 22];

static void tell_picture(avcdec_decoder *decoder) {
    avcdec_rows luma;
    uint64_t sum = 0;
    avcdec_lend_plane(decoder, AVCDEC_LUMA, &luma);
    for (size_t y = 0; y < luma.rows; y++)
        for (size_t x = 0; x < luma.columns; x++)
            sum += luma.samples[y * luma.stride + x];
    printf("%ux%u, mean of luma %u\n", luma.columns, luma.rows, (unsigned)(sum / ((uint64_t)luma.columns * luma.rows)));
}

static void take_events(avcdec_decoder *decoder) {
    avcdec_event event;
    char name[AVCDEC_NAME_SIZE];
    while (avcdec_take(decoder, &event) == AVCDEC_OK && event.kind != AVCDEC_NOTHING)
        if (event.kind == AVCDEC_PICTURE) {
            tell_picture(decoder);
        } else {
            avcdec_fault_name(event.fault, name, sizeof name);
            printf("refused unit %llu: %u %s\n", (unsigned long long)event.unit, event.fault, name);
        }
}

int main(void) {
    size_t length = fread(bytes, 1, sizeof bytes, stdin);
    avcdec_decoder decoder = AVCDEC_DECODER_CLOSED;
    avcdec_status status = avcdec_open(&decoder, false);
    for (size_t at = 0, used; status == AVCDEC_OK && at < length; at += used) {
        status = avcdec_feed_unit(&decoder, bytes + at, length - at, &used);
        take_events(&decoder);
    }
    if (status == AVCDEC_OK)
        status = avcdec_flush(&decoder);
    take_events(&decoder);
    avcdec_close(&decoder);
    puts(avcdec_status_name(status));
    return 0;
}
C
    console
    # shellcheck disable=SC2016
    step 'export PKG_CONFIG_PATH=$PWD/prefix/lib/pkgconfig LD_LIBRARY_PATH=$PWD/prefix/lib'
    # shellcheck disable=SC2016
    step 'cc -O2 -Wall -Wextra first.c -o first_c $(pkg-config --cflags --libs avcdec)'
    step './first_c <broken.264'
    console_ends
    text <<'MD'

`man -l prefix/share/man/man3/libavcdec.3` is the manual; `examples/c` has whole programs, one for a call that gives a packet at a time.

MD
}

rust_part() {
    text <<'MD'
## In Rust

The crate links the library that was installed; it needs no other crate.
MD
    file first/Cargo.toml toml <<'TOML'
[package]
name = "first"
version = "0.1.0"
edition = "2021"

[dependencies]
avcdec = { path = "../avcdec/bindings/rust" }
TOML
    file first/src/main.rs rust <<'RUST'
use avcdec::{Event, Output, Picture};

fn mean_of_luma(picture: Picture<'_>) -> u64 {
    let sum: u64 = picture.luma().rows().flatten().map(|sample| u64::from(*sample)).sum();
    sum / (picture.width() * picture.height()) as u64
}

fn main() -> std::io::Result<()> {
    avcdec::decode(std::io::stdin().lock(), Output::Full, |event| {
        match event {
            Event::Picture(picture) => {
                println!("{}x{}, mean of luma {}", picture.width(), picture.height(), mean_of_luma(picture));
            }
            Event::Refused(refusal) => println!("{refusal}"),
        }
        Ok(())
    })
}
RUST
    console
    # shellcheck disable=SC2016
    done_quietly 'AVCDEC_LIB_DIR=$PWD/prefix/lib cargo build --quiet --offline --manifest-path first/Cargo.toml'
    step './first/target/debug/first <broken.264'
    console_ends
    text <<'MD'

`avcdec::events` is the same as an iterator; `cargo doc` has the rest, and `bindings/rust/README.md` the beginning of it.

MD
}

python_part() {
    text <<'MD'
## In Python

pip puts the library into the package, and asks no network.
MD
    file first.py python <<'PY'
import sys

import avcdec

for event in avcdec.decode(sys.stdin.buffer):
    if isinstance(event, avcdec.Picture):
        print(f"{event.width}x{event.height}, mean of luma {sum(map(sum, event.luma.rows())) // (event.width * event.height)}")
    else:
        print(event)
PY
    console
    done_quietly 'python3 -m pip install --quiet --no-index --target site avcdec/bindings/python'
    step 'PYTHONPATH=site python3 first.py <broken.264'
    console_ends
    text <<'MD'

Without `--target site` it goes where pip puts packages. `bindings/python/README.md` has lending, calls and arrays of numpy.
MD
}

say 'makes the first steps, and installs the program and the library for them'
: >"$work/words"
tell_while now_run
shell_part
if has cc && has pkg-config; then c_part; else kept 'In C' 'cc and pkg-config'; fi
if has cargo; then rust_part; else kept 'In Rust' 'cargo'; fi
if has python3 && python3 -m pip --version >/dev/null 2>&1; then python_part; else kept 'In Python' 'python3 with pip'; fi
hush
if [ "${1:-}" = check ]; then
    diff "$document" "$page"
else
    cp "$page" "$document"
fi
