#!/bin/sh
# Writes docs/TRUSTED.md to standard output: what a reader must believe so that what is promised means what it says. scripts/definitions.awk
# follows the words of the public contracts from definition to definition, through the imports of their files; what a file is about is its
# first comment, and a definition whose comment names no clause, table or rule is listed as an aid.
set -eu
export LC_ALL=C
cd "$(dirname "$0")/.."
work=$(mktemp -d)
trap 'rm -rf "$work"' EXIT
scripts/definitions.sh all >"$work/all"
grep -v '^-' "$work/all" >"$work/reached"

# how many definitions, files and lines these rows are
count() {
    awk -F '\t' -v group="$1" '
        $6 != "type" && (group == 0 || $1 == group) { n++; files[$2] = 1; lines += $4 - $3 + 1 }
        END { for (file in files) m++; printf "%d definitions in %d files, %d lines", n, m, lines }
    ' "$work/reached"
}

# the table of the definitions of one group and, for the first, one kind; for the standard's the aids have a column of their own
table() {
    awk -F '\t' -v group="$1" -v kind="$2" '
        FILENAME ~ /trusted-kinds$/ { split($0, words, " "); kinds[words[2]] = words[1]; next }
        FILENAME ~ /\.antt$/ {
            if (/^--/ && !(FILENAME in over)) { line = $0; sub(/^-- ?/, "", line); about[FILENAME] = about[FILENAME] (about[FILENAME] == "" ? "" : " ") line }
            else over[FILENAME] = 1
            next
        }
        $1 == group && $6 != "type" {
            its_kind = ($2 in kinds) ? kinds[$2] : "standard"
            if (kind != "" && its_kind != kind) next
            if (!($2 in seen)) { seen[$2] = 1; files[++n] = $2 }
            name = "`" $5 "`"
            is_aid = kind == "standard" && $7 !~ /[0-9A-E]\.[0-9]|Annex|Tables? [0-9]|decoder.s rule|own rule/
            if (is_aid) aids[$2] = aids[$2] (aids[$2] == "" ? "" : " ") name
            else names[$2] = names[$2] (names[$2] == "" ? "" : " ") name
        }
        END {
            for (i = 1; i <= n; i++) {
                title = files[i]
                sub(/^crates\//, "", title)
                sub(/\/specs\//, ": ", title)
                sub(/\.antt$/, "", title)
                line = "| [" title "](../" files[i] ") | " about[files[i]] " | " names[files[i]] " |"
                if (kind == "standard") line = line " " aids[files[i]] " |"
                print line
            }
        }
    ' docs/trusted-kinds $(cut -f 2 "$work/reached" | grep '\.antt$' | sort -u) "$work/reached"
}

# the declared types that definitions use
types() {
    awk -F '\t' '$6 == "type" {
        title = $2
        sub(/^crates\//, "", title)
        sub(/\/src\//, ": ", title)
        sub(/\.rt$/, "", title)
        print "| [" title "](../" $2 ") | `" $5 "` | " $7 " |"
    }' "$work/reached" | sort
}

every=$(grep -vc '	type	' "$work/all")

cat <<TXT
# What a reader must believe

Made by \`scripts/trusted.sh\`; \`test.sh\` fails where it is out of date. docs/PROVED.md says what is promised.

Proofs are checked by the toolchain. What a person checks is that the definitions which the public contracts cite say what they are
meant to say: $(count 0), of the $every that there are. The others are used between the layers alone; a wrong one among them could stop a
proof, and not make what is promised false. By what is promised, each list without those before it:

| What is promised | By the contracts of | What has to be believed for it |
|---|---|---|
| the claim, and the laws of whole streams: resuming, early output | avc_decoder, avc_laws | $(count 1) |
| what C is told, and what is written into its memory | avc_c, avc_c_picture | $(count 2) more |
| what the program writes and tells, and the pieces of a stream | avc_yuv, avc_png, avc_tools, avc_pieces, avc_presentation, avc_sequence, avc_console, avc_formats, avc_events, avc_run, avc_compare, avc_info, avc_selection, avc_elements, avc_objects, avc_reading, avc_macroblocks, avc_stages, avc_replay, avc_container, avc_explain, avc_request, avc_shell, avc_progress, avc_program, avc_decode, avc_cli | $(count 3) more |
| what a picture shows that is still open | avc_picture | $(count 4) more |

Beside the definitions are believed the toolchain, with its logic, its compiler and the contracts of its library and crates; the C
library; and what C is trusted with, below.

That want of memory comes from an allocator's refusal is no clause but a type: \`OutOfMemory\` (crates/avc_types/src/memory.rt) is made of one
alone. For the kinds of error that hold no \`OutOfMemory\` it is read off the places that make them, which \`scripts/refusals.sh\` lists. That
the growth which was refused was needed, neither shows.

Two things are easier checked apart: docs/CODEWORDS.md prints the tables of codewords as the standard prints them. And
\`scripts/pages.sh\` makes pages to be read in a browser, on which each name leads to where it is defined.

## Definitions of the standard

A definition has its clause of Rec. ITU-T H.264 beside it. Aids have none: they are parts of sentences (the n-th of a list, a plane with one sample
changed, a value or none), and say nothing of video by themselves.

| File | About | Definitions by clause | Aids |
|---|---|---|---|
$(table 1 standard)

One line of them worked, for the flat matrix of this profile (8.5.12.1): the standard's LevelScale4x4 is 16 * normAdjust4x4, and d = (c *
LevelScale4x4 << (qP / 6 - 4)) from qP 24 on, below it (c * LevelScale4x4 + 2^(3 - qP / 6)) >> (4 - qP / 6). The 16 falls away and nothing is
rounded, so both are c * normAdjust4x4 * 2^(qP / 6), which is \`scaled\`: a level 3 at the place (0, 0) and qP 28 is 3 * 16 * 2^4 = 768, by the
standard's first form 3 * 256 << 0 = 768; at qP 16 it is 3 * 16 * 2^2 = 192, by its second (3 * 256 + 2) >> 2 = 192.

## Rules of this profile

What this decoder fixes where the standard leaves a choice or speaks of conforming streams alone; docs/behaviour.md has them in plain words.

| File | About | Definitions |
|---|---|---|
$(table 1 profile)

## The machine and the laws of whole streams

How calls, bytes and events hang together, and what follows for streams that are cut, resumed or shown early.

| File | About | Definitions |
|---|---|---|
$(table 1 machine)

## What C is told

| File | About | Definitions |
|---|---|---|
$(table 2 '')

## What the program writes and tells

| File | About | Definitions |
|---|---|---|
$(table 3 '')

## A picture that is open

What \`PictureDecoder\` promises beyond what the claim needs: samples and filtered rows before a picture is closed, and why it is refused.

| File | About | Definitions |
|---|---|---|
$(table 4 '')

## Types of the code that definitions use

| File | Type | What it is |
|---|---|---|
$(types)

## What C is trusted with

The library for C (avc_c) asks this of its callers, and nothing checks it: that each pointer leads to memory as long as the call says,
that nobody else writes there while the call runs, that the decoder's struct is zero before it is opened and is not changed while it is
open (it may be moved between calls), that there is one call of a decoder at a time, each seen by the next, and that of lent rows C reads
only, only the bytes told, and only until the next take, reset or close of that decoder. That a decoder may go from thread to thread is
believed: all that counts the holders of its pictures lies inside it. Of the heap (bindings/c/heap.c, over \`malloc\`, \`realloc\` and \`free\` or what the
caller gives in their place) it is believed that a block is as long as was asked, aligned to 16 bytes, apart from all others, that it
stays until it is freed, and that a growth that fails leaves it. That closing frees all memory is tested and not proved. The functions that the
header defines itself, the bindings for Rust and Python, the GStreamer element, and the examples are tested.

## What other machines are trusted with

For ARM64 the same crates are proved anew; trusted beside are the toolchain's lowering for it, LLVM's back end for it, and the C compiler for
bindings/c/heap.c. The module for pages (bindings/web) is made of the library proved for x86-64, and rests on what no proof covers:
bindings/web/make/port.py, and that the module means on WebAssembly what it means on x86-64 (addresses of 64 bits; on wasm32 the lower
half of them); make/tune.py, which rewrites the optimized module before LLVM's back end (constants of addresses, short copies, the order of 8
bytes, the low bytes of lanes), and that nothing lies in the first 65,536 bytes, on which that rests; LLVM's optimizer, which is told that the target is ARM64, its back
end for WebAssembly, and wasm-ld; the heap (make/heap.c, tested) and make/multi3.c; make/stack.py and wasm-objdump, which bound the stack of the linked module; avcdec.mjs, and where they are used
the worker, AvcVideoDecoder and its avcC; the engine; and that nobody else writes to the module's memory.

## Statements that are still open

Stated in the definitions, and not yet the contract of a function:

$(sed -n 's/^open //p' docs/trusted-kinds | sed 's/^/- /' | grep . || echo 'None.')
TXT
