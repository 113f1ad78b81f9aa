#!/bin/sh
# Plants differences in pictures, and compares what `avcdec compare` writes of them, its standard error and its status with what must come.
# The pictures are those of streams whose md5 other decoders gave; what is planted where, and what must be told of it, is worked out by
# the python below. Wants python3, and for the last rows ffmpeg. The last line is 'N passed, M failed'; how far it is stands on standard error.
set -u
here=$(cd "$(dirname "$0")" && pwd)
# shellcheck source=scripts/say.sh
. "$here/../scripts/say.sh"
program=$here/../avcdec
work=$(mktemp -d)
trap 'hush; rm -rf "$work"' EXIT
trap 'exit 130' INT TERM
passed=0
failed=0
say 'plants differences in pictures, and compares what is told of them, for a minute or two'
reached 'the start'
tell_while cat "$work/reached"

# judges the last run: its name, its status, and the one that is wanted; the texts that are wanted stand in two files
judge() {
    if [ "$2" = "$3" ] && cmp -s "$work/wanted" "$work/written" && cmp -s "$work/wanted_told" "$work/told"; then
        passed=$((passed + 1))
    else
        failed=$((failed + 1))
        echo "failed: $1: status $2"
        diff "$work/wanted" "$work/written"
        diff "$work/wanted_told" "$work/told"
    fi
    reached "$1"
}

cat >"$work/plant.py" <<'END'
import hashlib
import sys

# so many of the other's pictures, from the first that differs on, are looked for among as many of ours
SOUGHT = 17


class Pictures:
    """Pictures of one size as I420: width and height as coded, and what the crop leaves out, in luma samples. Each is a reference picture of
    one slice, in decoding order, and the first slice is in this unit: so count ffmpeg's trace_headers."""

    def __init__(self, name, width, height, left, right, top, bottom, unit, max_frame_num):
        self.unit, self.max_frame_num = unit, max_frame_num
        self.columns, self.rows = width // 16, height // 16
        self.left, self.top = left, top
        self.width, self.height = width - left - right, height - top - bottom
        self.size = self.width * self.height * 3 // 2
        with open(name, "rb") as file:
            self.bytes = bytearray(file.read())

    def plane(self, component):
        """Where a component begins in a picture, and how many columns and rows of it are shown."""
        luma, half = self.width * self.height, (self.width // 2, self.height // 2)
        return {"luma": (0, self.width, self.height), "Cb": (luma, *half), "Cr": (luma + half[0] * half[1], *half)}[component]

    def coded(self, component, column, row):
        part = 1 if component == "luma" else 2
        return column + self.left // part, row + self.top // part

    def macroblock(self, component, column, row):
        side = 16 if component == "luma" else 8
        x, y = self.coded(component, column, row)
        return x // side, y // side

    def change(self, picture, component, column, row, by):
        start, columns, _ = self.plane(component)
        place = picture * self.size + start + row * columns + column
        value = self.bytes[place]
        self.bytes[place] = value + by if value + by < 256 else max(value - by, 0)
        return value, self.bytes[place]

    def text_of(self, picture, ours, theirs, most):
        """What is told of two pictures, sample by sample."""
        count, first, marks = 0, None, {}
        for component in ("luma", "Cb", "Cr"):
            start, columns, rows = self.plane(component)
            for row in range(rows):
                for column in range(columns):
                    place = start + row * columns + column
                    if abs(ours[place] - theirs[place]) > most:
                        count += 1
                        where = self.macroblock(component, column, row)
                        first = first or (component, column, row, ours[place], theirs[place])
                        marks.setdefault(where, set()).add("L" if component == "luma" else "C")
        return self.text(picture, count, first, marks) if count else ""

    def displaced(self, first, ours, theirs):
        """A line for each of the other's whole pictures from the first that differs on that is another of ours: of those that were read, which
        ends at the first that is not whole there."""
        sums = [[hashlib.md5(data[n:n + self.size]).digest() for n in range(0, len(data) - self.size + 1, self.size)] for data in (ours, theirs)]
        last = min(first + SOUGHT, len(sums[0]), len(sums[1]) + 1)
        lines = ""
        for number in range(first, min(last, len(sums[1]))):
            here = [own for own in range(first, last) if sums[0][own] == sums[1][number]]
            if here and number not in here:
                lines += f"picture {number} is our picture {here[0]}\n"
        return lines

    def text(self, picture, count, first, marks):
        component, column, row, our, their = first
        x, y = self.coded(component, column, row)
        mb_x, mb_y = self.macroblock(component, column, row)
        letters = {frozenset(): ".", frozenset("L"): "L", frozenset("C"): "C", frozenset("LC"): "B"}
        lines = [
            f"picture {picture} has frame_num {picture % self.max_frame_num}, PicOrderCnt {2 * picture} and its first slice in unit"
            f" {picture + self.unit}",
            f"picture {picture}: {count} of {self.size} samples differ, in {len(marks)} of {self.columns * self.rows} macroblocks",
            f"first: macroblock {mb_y * self.columns + mb_x} (column {mb_x}, row {mb_y}), {component} sample at column {column}, row {row}"
            f" (coded column {x}, row {y}): {our}, the other's {their}",
        ]
        for mb_row in range(self.rows):
            lines.append("".join(letters[frozenset(marks.get((column, mb_row), ()))] for column in range(self.columns)))
        return "\n".join(lines) + "\n"


def main():
    name, other, wanted = sys.argv[1:4]
    pictures = Pictures(name, *(int(word) for word in sys.argv[4:12]))
    size, all_bytes = pictures.size, pictures.bytes
    count = len(all_bytes) // size
    kind, words = sys.argv[12], sys.argv[13:]
    ours = bytes(all_bytes)
    text = ""
    if kind == "change":  # PICTURE COMPONENT COLUMN ROW BY: one sample
        picture, component, column, row, by = int(words[0]), words[1], int(words[2]), int(words[3]), int(words[4])
        our, their = pictures.change(picture, component, column, row, by)
        letter = "L" if component == "luma" else "C"
        text = pictures.text(picture, 1, (component, column, row, our, their), {pictures.macroblock(component, column, row): {letter}})
    elif kind == "exchange":  # PICTURE PICTURE
        a, b = int(words[0]), int(words[1])
        all_bytes[a * size:(a + 1) * size] = ours[b * size:(b + 1) * size]
        all_bytes[b * size:(b + 1) * size] = ours[a * size:(a + 1) * size]
    elif kind == "order":  # PICTURE..: ours in this order
        all_bytes[:] = b"".join(ours[int(word) * size:(int(word) + 1) * size] for word in words)
    elif kind == "without":  # PICTURE
        a = int(words[0])
        del all_bytes[a * size:(a + 1) * size]
    elif kind == "cut":  # BYTES: so many less
        cut = len(ours) - int(words[0])
        del all_bytes[cut:]
        text = f"the other has fewer pictures: it ends before picture {cut // size} is whole\n"
    elif kind == "more":  # BYTES: so many more
        all_bytes += bytes(int(words[0]))
        text = f"the other has more pictures: it goes on behind all {count}\n"
    elif kind == "against":  # FILE MOST: the pictures of this file
        with open(words[0], "rb") as file:
            all_bytes[:] = file.read()
    most = int(words[1]) if kind == "against" else 0
    if not text:
        for picture in range(count):
            if len(all_bytes) < (picture + 1) * size:
                text = f"the other has fewer pictures: it ends before picture {picture} is whole\n"
                break
            text = pictures.text_of(picture, ours[picture * size:(picture + 1) * size], all_bytes[picture * size:(picture + 1) * size], most)
            if text:
                text += pictures.displaced(picture, ours, bytes(all_bytes))
                break
    with open(other, "wb") as file:
        file.write(all_bytes)
    with open(wanted, "w", encoding="ascii") as file:
        file.write(text)


main()
END

# NAME WIDTH HEIGHT LEFT RIGHT TOP BOTTOM UNIT MAXFRAMENUM: the stream that the rows below are about, and its pictures, by their md5
about() {
    stream=$here/encoder/$1.264
    shift
    shape=$*
    "$program" decode "$stream" -o "$work/ours"
    [ "$(md5sum <"$work/ours" | cut -d ' ' -f 1)" = "$(cut -d ' ' -f 1 <"${stream%.264}.md5")" ] || { echo "failed: the pictures of $stream"; failed=$((failed + 1)); }
    : >"$work/wanted_told"
}

# NAME STATUS WORD.. -- PLANTED..: a comparison with these words beside what is planted
row() {
    name=$1
    status=$2
    shift 2
    words=
    while [ "$1" != -- ]; do
        words="$words $1"
        shift
    done
    shift
    # shellcheck disable=SC2086
    python3 "$work/plant.py" "$work/ours" "$work/other" "$work/wanted" $shape "$@" || { echo "failed: $name"; failed=$((failed + 1)); return; }
    [ "$status" = 0 ] && : >"$work/wanted"
    # shellcheck disable=SC2086
    "$program" compare $words "$work/other" "$stream" >"$work/written" 2>"$work/told"
    judge "$name" $? "$status"
}

# NAME STATUS WORD.. -- PLANTED..: the same with a line on how near each picture is that is compared. They come by standard input, each the
# luma, Cb and Cr that the psnr filter of ffmpeg says of the picture, and are written before the verdict.
near_row() {
    name=$1
    awk '{ print "picture " NR - 1 " psnr Y " $1 " U " $2 " V " $3 }' >"$work/lines"
    near_status=$2
    shift 2
    words=--psnr
    while [ "$1" != -- ]; do
        words="$words $1"
        shift
    done
    shift
    # shellcheck disable=SC2086
    python3 "$work/plant.py" "$work/ours" "$work/other" "$work/verdict" $shape "$@" || { echo "failed: $name"; failed=$((failed + 1)); return; }
    [ "$near_status" = 0 ] && : >"$work/verdict"
    cat "$work/lines" "$work/verdict" >"$work/wanted"
    # shellcheck disable=SC2086
    "$program" compare $words "$work/other" "$stream" >"$work/written" 2>"$work/told"
    judge "$name" $? "$near_status"
}

# COUNT: so many pictures that are the same
same() {
    awk -v count="$1" 'BEGIN { for (n = 0; n < count; n++) print "inf inf inf" }'
}

# ten pictures of 150x90 of 160x96
about pub_o_crop_150x90 160 96 0 10 0 6 2 32768
row 'the same' 0 -- more 0
row 'a luma sample of the first macroblock' 1 -- change 0 luma 0 0 1
row 'a luma sample' 1 -- change 3 luma 77 41 5
row 'the last luma sample' 1 -- change 9 luma 149 89 200
row 'a Cb sample' 1 -- change 7 Cb 40 17 1
row 'a Cr sample' 1 -- change 2 Cr 8 8 255
row 'the last Cr sample' 1 -- change 9 Cr 74 44 1
row 'two pictures exchanged' 1 -- exchange 4 6
row 'the first and the last exchanged' 1 -- exchange 0 9
row 'a picture too late' 1 -- order 0 1 3 4 5 6 2 7 8 9
row 'groups that go out from the last on' 1 -- order 3 2 1 0 7 6 5 4 9 8
row 'a picture twice' 1 -- order 0 1 2 2 3 4 5 6 7 8 9
row 'a picture in place of the next' 1 -- order 0 1 2 2 4 5 6 7 8 9
row 'a picture of before' 1 -- order 0 1 2 3 0 5 6 7 8 9
row 'two exchanged, and the last left out' 1 -- order 0 1 3 2 4 5 6 7 8
row 'a picture left out' 1 -- without 5
row 'the last picture left out' 1 -- without 9
row 'all left out' 1 -- cut 202500
row 'the last byte left out' 1 -- cut 1
row 'a picture and a byte left out' 1 -- cut 20251
row 'one more' 1 -- more 20250
row 'a byte more' 1 -- more 1
row 'samples that are at most one apart' 0 --max-diff 1 -- change 3 luma 77 41 1
row 'at most four apart' 1 --max-diff 4 -- change 3 luma 77 41 5
row 'at most five apart' 0 --max-diff 5 -- change 3 luma 77 41 5
# the end of a line among the first bytes of samples
{ head -c 3 "$work/ours"; printf '\n'; tail -c +5 "$work/ours"; } >"$work/low"
row 'a luma sample of 10 among the first ten' 1 -- against "$work/low" 0

# how near they are
same 10 >"$work/near"
near_row 'the same, and how near' 0 -- more 0 <"$work/near"
{ same 3; echo 75.45 inf inf; same 6; } >"$work/near"
near_row 'how near to one luma sample' 1 -- change 3 luma 77 41 5 <"$work/near"
near_row 'how near, and none differs' 0 --max-diff 5 -- change 3 luma 77 41 5 <"$work/near"
{ same 4; echo 12.35 16.11 12.66; same 1; echo 12.35 16.11 12.66; same 3; } >"$work/near"
near_row 'how near where two are exchanged' 1 -- exchange 4 6 <"$work/near"
near_row 'how near all are' 0 --max-diff 255 -- exchange 4 6 <"$work/near"
same 9 >"$work/near"
near_row 'how near, and the last left out' 1 -- without 9 <"$work/near"

# one of the two by standard input
: >"$work/wanted"
"$program" compare "$work/ours" - <"$stream" >"$work/written" 2>"$work/told"
judge 'the stream by standard input' $? 0
"$program" compare "$work/ours" <"$stream" >"$work/written" 2>"$work/told"
judge 'the same, not named' $? 0
"$program" compare - "$stream" <"$work/ours" >"$work/written" 2>"$work/told"
judge 'the other by standard input' $? 0
dd if="$work/ours" bs=997 2>/dev/null | "$program" compare - "$stream" >"$work/written" 2>"$work/told"
judge 'the other in small reads' $? 0

# the other as YUV4MPEG2 with these words in its first line
as_y4m() {
    python3 - "$work/ours" "$work/other" "$1" <<'PY'
import sys
ours, other, words = sys.argv[1:]
pictures, size = open(ours, "rb").read(), 150 * 90 * 3 // 2
with open(other, "wb") as file:
    file.write(f"YUV4MPEG2 {words}\n".encode())
    for at in range(0, len(pictures), size):
        file.write((b"FRAME Ixyz\n" if at else b"FRAME\n") + pictures[at : at + size])
PY
}
for words in 'W150 H90' 'W150 H90 F25:1 Ip A1:1 C420jpeg' 'F25:1 C420mpeg2 H90 W150' 'W150 H90 C420paldv XYSCSS=C444'; do
    as_y4m "$words"
    : >"$work/wanted"
    "$program" compare "$work/other" "$stream" >"$work/written" 2>"$work/told"
    judge "the same as YUV4MPEG2: $words" $? 0
    "$program" compare - "$stream" <"$work/other" >"$work/written" 2>"$work/told"
    judge "by standard input: $words" $? 0
done
# a size that is not that of the pictures: no sample is compared
for words in 'W90 H150' 'W152 H90 C420jpeg' 'F25:1 H89 W150'; do
    as_y4m "$words"
    set -- $(printf '%s\n' $words | sed -n 's/^W//p') $(printf '%s\n' $words | sed -n 's/^H//p')
    echo "the other's pictures have $1x$2 samples, and ours 150x90" >"$work/wanted"
    "$program" compare "$work/other" "$stream" >"$work/written" 2>"$work/told"
    judge "another size: $words" $? 1
    "$program" compare --max-diff 255 - "$stream" <"$work/other" >"$work/written" 2>"$work/told"
    judge "another size by standard input: $words" $? 1
done
as_y4m 'W150 H90 C420paldv XYSCSS=C444'
truncate -s -7 "$work/other"
echo 'the other has fewer pictures: it ends before picture 9 is whole' >"$work/wanted"
"$program" compare "$work/other" "$stream" >"$work/written" 2>"$work/told"
judge 'YUV4MPEG2 that ends in a picture' $? 1
: >"$work/wanted"
printf 'avcdec: read fault: %s\navcdec: %s: it is YUV4MPEG2 whose samples are not 4:2:0 with 8 bits, or which is not whole\n' "$work/other" "$work/other" \
    >"$work/wanted_told"
for words in 'W150 H90 C444' 'W150 H90 C420p10' 'W150 C420jpeg' 'W15O H90' 'W1500000000 H90'; do
    as_y4m "$words"
    "$program" compare "$work/other" "$stream" >"$work/written" 2>"$work/told"
    judge "YUV4MPEG2 that is not read: $words" $? 3
done
printf 'YUV4MPEG2 W150 H90\nFROM\n' >"$work/other"
"$program" compare "$work/other" "$stream" >"$work/written" 2>"$work/told"
judge 'YUV4MPEG2 without the line of a picture' $? 3
printf 'YUV4MPEG2 W150 H90\nFRA' >"$work/other"
"$program" compare "$work/other" "$stream" >"$work/written" 2>"$work/told"
judge 'YUV4MPEG2 that ends in the line of a picture' $? 3
: >"$work/wanted_told"

# what cannot be read, and nothing
printf 'avcdec: read fault: %s\navcdec: %s: there is no such file\n' "$work/nothing" "$work/nothing" >"$work/wanted_told"
"$program" compare "$work/nothing" "$stream" >"$work/written" 2>"$work/told"
judge 'the other is no file' $? 3
"$program" compare "$work/ours" "$work/nothing" >"$work/written" 2>"$work/told"
judge 'the stream is no file' $? 3
printf 'avcdec: read fault: %s\navcdec: %s: it is a folder\n' "$work" "$work" >"$work/wanted_told"
"$program" compare "$work" "$stream" >"$work/written" 2>"$work/told"
judge 'the other is a folder' $? 3
printf 'avcdec: write fault\n' >"$work/wanted_told"
: >"$work/written"
"$program" compare /dev/null "$stream" >/dev/full 2>"$work/told"
judge 'a difference to a full device' $? 3
: >"$work/wanted_told"
"$program" compare /dev/null - </dev/null >"$work/written" 2>"$work/told"
judge 'nothing beside nothing' $? 1
for words in compare 'compare -' 'compare - -' "compare --max-diff 256 $work/ours $stream"; do
    # shellcheck disable=SC2086
    "$program" $words <"$stream" >"$work/written" 2>"$work/told"
    status=$?
    [ -s "$work/told" ] && : >"$work/told"
    judge "wrong words: $words" "$status" 2
done

# 168x130 of 176x144, cropped on all sides: the last sample of a macroblock, and the first of the next
about pub_f_cropleft 176 144 6 2 10 4 3 16
row 'the last luma sample of the first macroblock' 1 -- change 1 luma 9 5 3
row 'the first of another' 1 -- change 1 luma 10 6 3
row 'the last Cb sample of the first macroblock' 1 -- change 4 Cb 4 2 1
row 'the first Cr sample of another' 1 -- change 19 Cr 5 3 1
row 'two cropped pictures exchanged' 1 -- exchange 3 11
row 'the last that is sought' 1 -- exchange 1 17
row 'one behind it' 1 -- exchange 1 18
row 'the same, cropped' 0 -- more 0

# a refusal is told, and the pictures around it are compared
refusing=$here/cases/held_before_refusal
"$program" decode "$refusing.264" >"$work/around" 2>"$work/told"
cp "$refusing.refused" "$work/wanted_told"
"$program" compare "$work/around" "$refusing.264" >"$work/written" 2>"$work/told"
judge 'the same, and a refusal' $? 1
# what refusals mean stands behind them, and then how many pictures are the same
refusing=$here/cases/gap_and_resumed
"$program" decode "$refusing.264" >"$work/around" 2>"$work/told"
cat >"$work/wanted_told" <<'END'
refused unit 3: 32 FrameNumGap
unit 3: 32 FrameNumGap: a gap in frame_num where gaps are not allowed (7.4.3)
refused unit 5: 3 OutOfRange
unit 5: 3 OutOfRange: a value is outside the range that its semantics give (7.4)
2 pictures, 2 refusals
END
"$program" compare --explain "$work/around" "$refusing.264" >"$work/written" 2>"$work/told"
judge 'compare --explain' $? 1

# the stage of a Cb sample of picture 5 in column 2 and row 6 of its macroblock: no filter changes it (8.7.2)
python3 - "$work/ours" "$work/other" <<'PY'
import sys
ours, other = sys.argv[1:]
pictures = bytearray(open(ours, "rb").read())
size, place = 168 * 130 * 3 // 2, 168 * 130 + (30 - 5) * 84 + (34 - 3)
pictures[5 * size + place] ^= 4
open(other, "wb").write(pictures)
PY
"$program" compare --explain "$work/other" "$stream" >"$work/all" 2>/dev/null
sed -n 's/^stage: \([a-z ]*\).*/\1/p; s/^macroblock [0-9]*: \(.* differ, .*\);.*/\1/p' "$work/all" >"$work/written"
printf '%s\n' '1 of its 384 samples differ, 1 of these are not changed by our deblocking' 'before deblocking' >"$work/wanted"
: >"$work/wanted_told"
: >"$work/told"
judge 'the stage of a sample that no filter changes' 0 0
"$program" compare --explain "$work/other" - <"$stream" 2>/dev/null | tail -n 1 >"$work/written"
echo 'the stage of the first difference is told of files with names alone' >"$work/wanted"
judge 'the stage, the stream by standard input' 0 0

# the stage where two pictures are exchanged: 2 and 5 of it
python3 - "$work/ours" "$work/other" <<'PY'
import sys
ours, other = sys.argv[1:]
pictures, size = open(ours, "rb").read(), 168 * 130 * 3 // 2
each = [pictures[at:at + size] for at in range(0, len(pictures), size)]
each[2], each[5] = each[5], each[2]
open(other, "wb").write(b"".join(each))
PY
"$program" compare --explain "$work/other" "$stream" 2>/dev/null | tail -n 3 >"$work/written"
printf '%s\n' 'picture 2 is our picture 5' 'picture 5 is our picture 2' "stage: output (C.4): the other's picture is ours of another number" >"$work/wanted"
judge 'the stage, two pictures exchanged' 0 0

if command -v ffmpeg >/dev/null; then
    # the deblocking filter left out: the first picture has another sample
    ffmpeg -v error -nostdin -skip_loop_filter all -flags unaligned -i "$stream" -fps_mode passthrough -f rawvideo "$work/unfiltered"
    : >"$work/wanted_told"
    row 'without the filter' 1 -- against "$work/unfiltered" 0
    row 'without the filter, at most three apart' 1 --max-diff 3 -- against "$work/unfiltered" 3
    # the stage: of all pictures, and of those alone that are no IDR pictures
    echo "stage: deblocking (8.7): the other's samples are ours before it, so its filter changed none" >"$work/wanted"
    ffmpeg -v error -nostdin -skip_loop_filter nokey -flags unaligned -i "$stream" -fps_mode passthrough -f rawvideo "$work/some_unfiltered"
    for other in unfiltered some_unfiltered; do
        "$program" compare --explain "$work/$other" "$stream" 2>/dev/null | grep '^stage: ' >"$work/written"
        : >"$work/told"
        judge "the stage, $other" 0 0
    done
    cat >"$work/near" <<'END'
49.92 51.05 51.29
48.66 50.55 49.84
47.77 49.87 49.60
46.65 49.22 48.83
45.76 48.65 48.48
45.06 47.63 48.01
44.69 47.37 47.93
43.88 47.14 47.58
43.46 46.99 47.41
42.62 46.83 47.32
41.98 46.38 47.27
41.67 46.30 47.31
41.92 45.91 47.13
41.65 45.47 47.10
41.46 45.32 46.65
41.55 45.30 46.47
41.41 45.03 46.00
41.26 44.88 45.94
41.19 44.79 45.76
40.91 44.34 45.01
END
    near_row 'how near without the filter' 1 -- against "$work/unfiltered" 0 <"$work/near"
    near_row 'how near all are without the filter' 0 --max-diff 255 -- against "$work/unfiltered" 255 <"$work/near"
fi

echo "$passed passed, $failed failed"
[ "$failed" = 0 ] && [ "$passed" -gt 0 ]
