#!/bin/sh
# Runs the built program and compares what it writes, its standard error and its status with what must come. NAME.264 is a stream,
# NAME.md5 the md5 of its pictures as I420, NAME.early, where there is one, the other md5 that `decode --early` gives, NAME.refused,
# where there is one, the standard error with status 1 (else nothing is written there, and the status is 0), NAME.units,
# NAME.headers, NAME.info and NAME.json, where there are such, what these commands (and `info --json`) write, NAME.y4m the md5 of
# ffmpeg's YUV4MPEG2, NAME.framemd5 its framemd5 and NAME.types the md5 of its macroblock types (formats.sh), NAME.rgb the md5 of red, green
# and blue of its pictures (png.py), and NAME.piece_0 and so on all pieces that `cut` writes. Words and
# faults of reading and writing are tried after that. The last line is 'N passed, M failed'; how far it is stands on standard error.
set -u
here=$(cd "$(dirname "$0")" && pwd)
# shellcheck source=scripts/say.sh
. "$here/../scripts/say.sh"
# shellcheck source=scripts/counting.sh
. "$here/../scripts/counting.sh"
program=$here/../avcdec
work=$(mktemp -d)
trap 'hush; rm -rf "$work"' EXIT
trap 'exit 130' INT TERM
passed=0
failed=0
say "decodes $(find "$here" -name '*.264' | wc -l) streams and tries the words of the command line, for some minutes"

# builds the whole program, where that has not been done
"$program" compare --help >"$work/help" || exit 1

reached 'the start'
tell_while cat "$work/reached"

# judges the last run: its name, its status, the status that is wanted, and the standard error that is wanted
judge() {
    if [ "$2" = "$3" ] && printf '%s' "$4" | cmp -s - "$work/told"; then
        passed=$((passed + 1))
    else
        failed=$((failed + 1))
        echo "failed: $1: status $2"
        cat "$work/told"
    fi
    reached "$1"
}

# whether the pictures have this md5, the status is the wanted one, and this was told
is_decoded() {
    [ "$(md5sum <"$work/pictures" | cut -d ' ' -f 1)" = "$(cut -d ' ' -f 1 <"$1")" ] && [ "$2" = "$3" ] && cmp -s "$work/told" "$4"
}

# A slice of a real encoder cut at each byte, and then the whole stream again: the cut slice alone is refused, and decoding resumes
# with the next IDR picture. A line of NAME.cuts is the least and the greatest number of bytes before the cut, and their fault.
is_refused_and_resumes() {
    "$program" decode <"$1.264" >"$work/whole"
    index=$(($("$program" units <"$1.264" | wc -l) - 1))
    while read -r bytes most fault; do
        while [ "$bytes" -le "$most" ]; do
            { head -c "$bytes" "$1.264" && cat "$1.264"; } | "$program" decode >"$work/pictures" 2>"$work/told"
            [ $? = 1 ] && cmp -s "$work/pictures" "$work/whole" || return 1
            echo "refused unit $index: $fault" | cmp -s - "$work/told" || return 1
            bytes=$((bytes + 1))
        done
    done <"$1.cuts"
}

# The unit of a slice of two macroblocks that is cut behind so many of its 58 bits, as octal escapes: rbsp_stop_one_bit and zeros come
# behind them (7.3.2.11), and an 03 in front of each byte below 4 that follows two zero bytes (7.4.1.1).
cut_slice() {
    awk -v count="$1" 'BEGIN {
        bits = substr("1000100010000100100100111001001100010100000000000000100101", 1, count) "1"
        while (length(bits) % 8) bits = bits "0"
        printf "\\145"
        for (at = 1; at < length(bits); at += 8) {
            byte = 0
            for (k = 0; k < 8; k++) byte = 2 * byte + substr(bits, at + k, 1)
            if (zeros == 2 && byte < 4) { printf "\\003"; zeros = 0 }
            printf "\\%03o", byte
            zeros = byte ? 0 : zeros + 1
        }
    }'
}

# Behind the sets of a 32x16 picture: without a bit the unit is dropped, since decoding has not begun; behind the header and the first
# macroblock, 25 bits, a macroblock is missing; any other cut is Truncated; whole, the slice is the picture.
is_cut_as_it_should() {
    case $1 in
    0) wanted='' ;;
    25) wanted='refused unit 2: 22 MissingMacroblocks' ;;
    58) wanted='' ;;
    *) wanted='refused unit 2: 1 Truncated' ;;
    esac
    printf "\\000\\000\\000\\001\\147\\102\\300\\012\\332\\054\\100\\000\\000\\000\\001\\150\\316\\070\\200\\000\\000\\001$(cut_slice "$1")" |
        "$program" decode >"$work/pictures" 2>"$work/told"
    [ "$(cat "$work/told")" = "$wanted" ] || return 1
    if [ "$1" = 58 ]; then
        cmp -s "$work/pictures" "$work/two_macroblocks"
    else
        [ ! -s "$work/pictures" ]
    fi
}

# What `macroblocks` tells of the same slice. By hand: its header has 17 bits, and each macroblock is Intra 16x16 with DC prediction
# (00100 is mb_type 3), intra_chroma_pred_mode 0, mb_qp_delta 0 and no pattern; of the first no level is coded, of the second one of
# Intra16x16DCLevel (000101 is coeff_token with total_coeff 1). What was read stands before the fault.
tells_its_macroblocks() {
    none='luma 0 0 0 0 0 0 0 0 0 0 0 0 0 0 0 0 cb 0 0 0 0 cr 0 0 0 0 cbdc 0 crdc 0'
    {
        [ "$1" -ge 25 ] && echo "2 slice 0 mb 0 I_16x16_2_0_0 qp 26 chroma 0 dc 0 cbp 0 $none"
        case $1 in
        ? | 1[0-6]) echo '2 refused 1 Truncated' ;;
        25) ;;
        58) echo "2 slice 0 mb 1 I_16x16_2_0_0 qp 26 chroma 0 dc 1 cbp 0 $none" ;;
        *) echo "2 slice 0 fault 1 Truncated at macroblock $(($1 > 25))" ;;
        esac
    } >"$work/expected"
    printf "\\000\\000\\000\\001\\147\\102\\300\\012\\332\\054\\100\\000\\000\\000\\001\\150\\316\\070\\200\\000\\000\\001$(cut_slice "$1")" |
        "$program" macroblocks >"$work/lines" 2>"$work/told" && cmp -s "$work/lines" "$work/expected"
}

# The one level of its second macroblock is 10: by it each sample is 8 above the predicted 128 (8.5.10).
tells_its_level() {
    printf "\\000\\000\\000\\001\\147\\102\\300\\012\\332\\054\\100\\000\\000\\000\\001\\150\\316\\070\\200\\000\\000\\001$(cut_slice 58)" |
        "$program" macroblocks --coefficients 2>"$work/told" | tail -n 1 |
        grep -q ' levels dc 10 luma\( -\)\{16\} cb\( -\)\{4\} cr\( -\)\{4\} cbdc - crdc -$'
}

# QP_Y and the type of each macroblock, by the lines of `macroblocks`, as ffmpeg shows them (formats.sh)
types_in_lines() {
    awk '$2 == "slice" && $4 == "mb" {
        if ($6 == "I_PCM") print "P"
        else if ($6 == "I_NxN") print $8 "i"
        else if ($6 ~ /^I_16x16/) print $8 "I"
        else if ($6 == "P_Skip") print $8 "S"
        else if ($6 == "P_L0_16x16") print $8 ">"
        else if ($6 == "P_L0_L0_16x8") print $8 ">-"
        else if ($6 == "P_L0_L0_8x16") print $8 ">|"
        else print $8 ">+"
    }'
}

# The vectors of each inter macroblock with its address, by the lines of `macroblocks`, as vectors.c shows those that libavcodec finds: of
# each quarter with parts that of the first part.
vectors_in_lines() {
    awk '$2 == "slice" && $4 == "mb" {
        text = $5
        for (k = 7; k <= NF && $k != "mv"; k++)
            if ($k == "sub")
                for (q = 1; q <= 4; q++) parts[q] = $(k + q) ~ /8x8$/ ? 1 : $(k + q) ~ /4x4$/ ? 4 : 2
        if (k > NF) next
        k++
        if ($6 ~ /^P_8x8/)
            for (q = 1; q <= 4; k += parts[q++]) text = text " " $k
        else
            for (; $k ~ /,/; k++) text = text " " $k
        print text
    }'
}

# Each picture alone has its lines of all, one after another; behind the last one there is none.
pictures_are_told_alone() {
    picture=0
    : >"$work/joined"
    while "$program" macroblocks --picture "$picture" <"$1" >"$work/alone" 2>"$work/told" && [ -s "$work/alone" ]; do
        cat "$work/alone" >>"$work/joined"
        picture=$((picture + 1))
    done
    [ "$picture" = "$(python3 -c 'import json, sys; print(json.load(sys.stdin)["pictures"])' <"$work/facts")" ] &&
        cmp -s "$work/joined" "$work/lines"
}

# The pieces of a stream with several IDR pictures, decoded one by one, give what the whole gives.
pieces_decode_alike() {
    "$program" decode <"$1.264" >"$work/whole"
    : >"$work/joined"
    number=0
    while "$program" cut "$number" <"$1.264" >"$work/piece" 2>"$work/told"; do
        "$program" decode <"$work/piece" >>"$work/joined" || return 1
        number=$((number + 1))
    done
    [ "$number" -gt 1 ] && cmp -s "$work/joined" "$work/whole"
}

# The plain lines of a command, by lines of JSON that are each what python writes of the same members in the order of their names.
cat >"$work/plain.py" <<'END'
import json, sys

PLAIN = {
    "units": "{unit} {first_byte} {bytes} {nal_unit_type} {nal_ref_idc}",
    "pieces": "{piece} {unit} {first_byte} pictures {pictures}",
    "sps": "{unit} sps {seq_parameter_set_id} profile {profile_idc} level {level_idc} size {width}x{height} "
    "refs {max_num_ref_frames} poc {pic_order_cnt_type} dpb {dpb_size}",
    "pps": "{unit} pps {pic_parameter_set_id} sps {seq_parameter_set_id} qp {qp} refs {refs} "
    "control {deblocking_filter_control_present_flag} constrained {constrained_intra_pred_flag}",
    "slice": "{unit} slice {first_mb_in_slice} type {slice_type} pps {pic_parameter_set_id} frame {frame_num} qp {SliceQPY} "
    "idr {IdrPicFlag}",
    "refused": "{unit} refused {number} {name}",
}
for line in sys.stdin:
    told = json.loads(line)
    if json.dumps(told, sort_keys=True, separators=(",", ":")) + "\n" != line:
        sys.exit(f"not as python writes it: {line}")
    if told.get("kind") == "pps":
        told |= {"qp": 26 + told["pic_init_qp_minus26"], "refs": told["num_ref_idx_l0_default_active_minus1"] + 1}
    print(PLAIN[told.get("kind", sys.argv[1])].format(**told))
END

# the plain lines of macroblocks, by their JSON
cat >"$work/plain_macroblocks.py" <<'END'
import json, sys

def listed(word, values):
    return f" {word} " + " ".join(str(value) for value in values) if values else ""

def word(levels, count):
    if sum(level != 0 for level in levels) != count or levels[-1:] == [0]:
        sys.exit(f"no levels of total_coeff {count}: {levels}")
    return ",".join(map(str, levels)) or "-"

for line in sys.stdin:
    told = json.loads(line)
    if json.dumps(told, sort_keys=True, separators=(",", ":")) + "\n" != line:
        sys.exit(f"not as python writes it: {line}")
    if told["kind"] == "refused":
        print(f"{told['unit']} refused {told['number']} {told['name']}")
        continue
    place = f"{told['unit']} slice {told['slice']}"
    if told["kind"] == "fault":
        print(f"{place} fault {told['number']} {told['name']} at macroblock {told['mbAddr']}")
        continue
    text = f"{place} mb {told['mbAddr']} {told['mb_type']} qp {told['QPY']}"
    text += listed("modes", ["-" if mode is None else mode for mode in told["rem_intra4x4_pred_mode"]])
    text += listed("intra4x4", told["Intra4x4PredMode"])
    if told["intra_chroma_pred_mode"] is not None:
        text += f" chroma {told['intra_chroma_pred_mode']}"
    text += listed("sub", told["sub_mb_type"])
    text += listed("ref", told["ref_idx_l0"])
    text += listed("mvd", [f"{x},{y}" for x, y in told["mvd_l0"]])
    text += listed("mv", ["-" if vector is None else f"{vector[0]},{vector[1]}" for vector in told["mv_l0"]])
    counts = told["total_coeff"]
    if counts is not None:
        if counts["luma_dc"] is not None:
            text += f" dc {counts['luma_dc']}"
        text += f" cbp {told['coded_block_pattern']}"
        for blocks in ("luma", "cb", "cr"):
            text += listed(blocks, counts[blocks])
        text += f" cbdc {counts['cb_dc']} crdc {counts['cr_dc']}"
    levels = told.get("coeffLevel")
    if levels is not None:
        text += " levels"
        if levels["luma_dc"] is not None:
            text += f" dc {word(levels['luma_dc'], counts['luma_dc'])}"
        for blocks in ("luma", "cb", "cr"):
            text += listed(blocks, map(word, levels[blocks], counts[blocks]))
        text += f" cbdc {word(levels['cb_dc'], counts['cb_dc'])} crdc {word(levels['cr_dc'], counts['cr_dc'])}"
    print(text)
END

for stream in "$here"/*/*.264; do
    name=${stream%.264}
    wanted=0
    refused=/dev/null
    if [ -f "$name.refused" ]; then
        wanted=1
        refused=$name.refused
    fi
    if [ -f "$name.md5" ]; then
        early=$name.md5
        if [ -f "$name.early" ]; then
            early=$name.early
        fi
        "$program" decode <"$stream" >"$work/pictures" 2>"$work/told"
        holds "${name#"$here"/}" is_decoded "$name.md5" $? "$wanted" "$refused"
        "$program" decode --early <"$stream" >"$work/pictures" 2>"$work/told"
        holds "early: ${name#"$here"/}" is_decoded "$early" $? "$wanted" "$refused"
    fi
    for command in units headers info; do
        if [ -f "$name.$command" ]; then
            "$program" "$command" <"$stream" >"$work/lines" 2>"$work/told"
            judge "$command of ${name#"$here"/}" $? 0 ''
            holds "lines of ${name#"$here"/}" cmp -s "$work/lines" "$name.$command"
        fi
    done
    for command in units headers; do
        if [ -f "$name.$command" ] && command -v python3 >/dev/null; then
            "$program" "$command" --json <"$stream" >"$work/lines" 2>"$work/told"
            judge "$command --json of ${name#"$here"/}" $? 0 ''
            python3 "$work/plain.py" "$command" <"$work/lines" >"$work/written"
            holds "JSON of $command of ${name#"$here"/}" cmp -s "$work/written" "$name.$command"
        fi
    done
    if [ -f "$name.json" ]; then
        "$program" info --json <"$stream" >"$work/lines" 2>"$work/told"
        judge "info --json of ${name#"$here"/}" $? 0 ''
        holds "JSON of ${name#"$here"/}" cmp -s "$work/lines" "$name.json"
    fi
    if [ -f "$name.types" ]; then
        "$program" macroblocks <"$stream" >"$work/lines" 2>"$work/told"
        judge "macroblocks of ${name#"$here"/}" $? 0 ''
        types_in_lines <"$work/lines" | md5sum >"$work/written"
        holds "types of ${name#"$here"/}" cmp -s "$work/written" "$name.types"
        if [ -f "$name.vectors" ]; then
            vectors_in_lines <"$work/lines" | md5sum >"$work/written"
            holds "vectors of ${name#"$here"/}" cmp -s "$work/written" "$name.vectors"
        fi
        if [ -f "$name.types_1" ]; then
            "$program" macroblocks --picture 1 <"$stream" 2>"$work/told" | types_in_lines | md5sum >"$work/written"
            holds "types of picture 1 of ${name#"$here"/}" cmp -s "$work/written" "$name.types_1"
            "$program" info --json <"$stream" >"$work/facts" 2>"$work/told"
            holds "each picture of ${name#"$here"/} alone" pictures_are_told_alone "$stream"
            "$program" macroblocks --picture 1000000 <"$stream" >"$work/alone" 2>"$work/told"
            judge "macroblocks of an absent picture of ${name#"$here"/}" $? 1 'avcdec: no picture 1000000
'
            holds "no line of it" cmp -s "$work/alone" /dev/null
        fi
        if command -v python3 >/dev/null; then
            "$program" macroblocks --json <"$stream" >"$work/written" 2>"$work/told"
            judge "macroblocks --json of ${name#"$here"/}" $? 0 ''
            python3 "$work/plain_macroblocks.py" <"$work/written" >"$work/expected"
            holds "JSON of macroblocks of ${name#"$here"/}" cmp -s "$work/lines" "$work/expected"
            "$program" macroblocks --coefficients <"$stream" >"$work/lines" 2>"$work/told"
            judge "macroblocks --coefficients of ${name#"$here"/}" $? 0 ''
            "$program" macroblocks --coefficients --json <"$stream" >"$work/written" 2>"$work/told"
            judge "macroblocks --coefficients --json of ${name#"$here"/}" $? 0 ''
            python3 "$work/plain_macroblocks.py" <"$work/written" >"$work/expected"
            holds "levels of ${name#"$here"/}" cmp -s "$work/lines" "$work/expected"
        fi
    fi
    if [ -f "$name.y4m" ]; then
        "$program" decode --format y4m <"$stream" >"$work/pictures" 2>"$work/told"
        holds "y4m of ${name#"$here"/}" is_decoded "$name.y4m" $? 0 /dev/null
    fi
    if [ -f "$name.framemd5" ]; then
        "$program" decode --format framemd5 <"$stream" >"$work/lines" 2>"$work/told"
        [ $? = "$wanted" ] && cmp -s "$work/told" "$refused" && cmp -s "$work/lines" "$name.framemd5"
        holds "framemd5 of ${name#"$here"/}" [ $? = 0 ]
    fi
    if [ -f "$name.rgb" ] && command -v python3 >/dev/null; then
        "$program" decode --format png <"$stream" >"$work/png" 2>"$work/told"
        judge "png of ${name#"$here"/}" $? 0 ''
        python3 "$here/png.py" --read <"$work/png" >"$work/pictures" 2>"$work/told"
        holds "pixels of ${name#"$here"/}" is_decoded "$name.rgb" $? 0 /dev/null
        if command -v ffmpeg >/dev/null; then
            ffmpeg -v error -nostdin -f png_pipe -i "$work/png" -fps_mode passthrough -f rawvideo -pix_fmt rgb24 - \
                >"$work/pictures" 2>"$work/told"
            holds "pixels that ffmpeg reads of ${name#"$here"/}" is_decoded "$name.rgb" $? 0 /dev/null
        fi
    fi
    number=0
    while [ -f "$name.piece_$number" ]; do
        "$program" cut "$number" <"$stream" >"$work/piece" 2>"$work/told"
        judge "piece $number of ${name#"$here"/}" $? 0 ''
        holds "its bytes" cmp -s "$work/piece" "$name.piece_$number"
        "$program" decode <"$work/piece" >"$work/pictures" 2>"$work/told"
        judge "its pictures" $? 0 ''
        holds "its picture, which is 16x16" [ "$(wc -c <"$work/pictures")" = 384 ]
        number=$((number + 1))
    done
    if [ "$number" -gt 0 ]; then
        "$program" cut "$number" <"$stream" >"$work/piece" 2>"$work/told"
        judge "no further piece of ${name#"$here"/}" $? 1 "avcdec: no piece $number
"
        holds "nothing is written" [ ! -s "$work/piece" ]
    fi
done

for stream in "$here"/first_picture/*.264; do
    holds "each cut of ${stream#"$here"/}" is_refused_and_resumes "${stream%.264}"
done

# each luma row of two macroblocks, of which the second has 136, after the filter; then chroma
LC_ALL=C awk 'BEGIN {
    for (y = 0; y < 16; y++) for (x = 0; x < 32; x++) printf x < 15 ? "\200" : x == 15 ? "\202" : x == 16 ? "\206" : "\210"
    for (k = 0; k < 256; k++) printf "\200"
}' >"$work/two_macroblocks"
bits=0
while [ "$bits" -le 58 ]; do
    holds "a slice of two macroblocks cut behind $bits bits" is_cut_as_it_should "$bits"
    holds "its macroblocks" tells_its_macroblocks "$bits"
    bits=$((bits + 1))
done
holds 'its level' tells_its_level

for stream in "$here"/encoder/*.264; do
    dd bs=1 if="$stream" 2>/dev/null | "$program" decode >"$work/pictures" 2>"$work/told"
    holds "byte by byte: ${stream#"$here"/}" is_decoded "${stream%.264}.md5" 0 0 /dev/null
done

# more reads of one byte than a read may have bytes
grey=$here/listing/two_pieces
{ head -c 65537 /dev/zero && cat "$grey.264"; } | dd bs=1 2>/dev/null | "$program" decode >"$work/pictures" 2>"$work/told"
holds "many reads" is_decoded "$grey.md5" 0 0 /dev/null

for name in \
    encoder/pub_c_sizes encoder/pub_o_idr_idstrat encoder/pub_o_idr_listing encoder/pub_o_ltr_rec encoder/pub_o_screen_ltr \
    encoder/pub_x_allintra encoder/pub_x_aud encoder/pub_x_keyint3 generated/pubgen_11 generated/pubgen_22; do
    holds "pieces of $name" pieces_decode_alike "$here/$name"
done

# Of 13 pictures each third is an IDR picture: from piece N on all but the first 3N are written, and no picture where there is no such piece.
thirds=$here/encoder/pub_x_keyint3
"$program" decode <"$thirds.264" >"$work/whole"
holds 'the whole stream' [ "$(md5sum <"$work/whole" | cut -d ' ' -f 1)" = "$(cut -d ' ' -f 1 <"$thirds.md5")" ]
for number in 0 1 2 3 4; do
    tail -c $(((13 - 3 * number) * $(wc -c <"$work/whole") / 13)) "$work/whole" >"$work/expected"
    "$program" decode --from "$number" "$thirds.264" >"$work/pictures" 2>"$work/told"
    judge "decode --from $number" $? 0 ''
    holds 'the last pictures' cmp -s "$work/pictures" "$work/expected"
    dd bs=1 if="$thirds.264" 2>/dev/null | "$program" decode --from "$number" >"$work/pictures" 2>"$work/told"
    judge "decode --from $number byte by byte" $? 0 ''
    holds 'the last pictures' cmp -s "$work/pictures" "$work/expected"
    "$program" cut "$number" "$thirds.264" | "$program" decode -f y4m >"$work/expected"
    "$program" decode --from "$number" --limit 3 -f y4m "$thirds.264" >"$work/pictures" 2>"$work/told"
    judge "decode --from $number -f y4m" $? 0 ''
    holds 'those of a piece' cmp -s "$work/pictures" "$work/expected"
done
for format in i420 y4m framemd5 null; do
    "$program" decode --explain --from 5 -f "$format" "$thirds.264" >"$work/pictures" 2>"$work/told"
    judge "decode --from 5 -f $format" $? 1 'avcdec: no piece 5
'
    holds 'no picture is written' [ ! -s "$work/pictures" ]
done
# from the second IDR picture on: two parameter sets, that picture, and a unit that is refused
"$program" decode --from 1 --explain "$here/cases/gap_and_resumed.264" >"$work/pictures" 2>"$work/told"
judge 'a refusal behind a cut point' $? 1 'refused unit 3: 3 OutOfRange
unit 3: 3 OutOfRange: a value is outside the range that its semantics give (7.4)
unit 3 begins at byte 31, in coded picture 0
waits for an IDR picture from unit 3 on
1 pictures, 1 refusals, 0 slices passed over
'
holds 'its picture, which is 16x16' [ "$(wc -c <"$work/pictures")" = 384 ]

# Between two pictures of 16x16 a unit of more than 134,217,728 bytes, a slice or a parameter set: it is refused, and takes no set out
# of force.
head -c 768 /dev/zero | tr '\000' '\200' >"$work/two_grey"
for header in 145 147 150; do
    {
        printf '\000\000\000\001\147\102\300\012\332\161\000\000\000\001\150\316\070\200\000\000\001\145\210\204\223\300'
        printf "\\000\\000\\001\\$header"
        head -c 134217728 /dev/zero | tr '\000' 'U'
        printf '\000\000\001\145\210\202\044\360'
    } | "$program" decode >"$work/pictures" 2>"$work/told"
    judge "a unit that is too long, of first byte $header" $? 1 'refused unit 3: 5 NalTooLong
'
    holds 'the pictures around it' cmp -s "$work/pictures" "$work/two_grey"
done

picture=$here/pcm/pcm_1.264
for command in decode units; do
    "$program" "$command" <"$here" >"$work/written" 2>"$work/told"
    judge "$command of what cannot be read" $? 3 'avcdec: read fault
'
    holds "nothing is written" [ ! -s "$work/written" ]
    "$program" "$command" <"$picture" >/dev/full 2>"$work/told"
    judge "$command to a full device" $? 3 'avcdec: write fault
'
    "$program" "$command" <"$picture" >/dev/full 2>/dev/full
    status=$?
    : >"$work/told"
    judge "$command where nothing can be told" "$status" 3 ''
    "$program" "$command" </dev/null >"$work/written" 2>"$work/told"
    judge "$command of nothing" $? 0 ''
    holds "nothing is written" [ ! -s "$work/written" ]
done

# lines come while the stream goes on
mkfifo "$work/live"
for command in units headers pieces macroblocks; do
    : >"$work/lines"
    "$program" "$command" <"$work/live" >"$work/lines" &
    exec 9>"$work/live"
    cat "$picture" >&9
    # the line of a piece comes where the next one begins
    [ "$command" != pieces ] || cat "$picture" "$picture" >&9
    tries=0
    until [ -s "$work/lines" ] || [ "$tries" = 100 ]; do
        sleep 0.1
        tries=$((tries + 1))
    done
    holds "$command of a stream that goes on" [ -s "$work/lines" ]
    exec 9>&-
    wait
done

# a refusal is told while the stream goes on, and stands before the fault that ends the run
refusing=$here/cases/held_before_refusal
: >"$work/told"
"$program" decode <"$work/live" >"$work/pictures" 2>"$work/told" &
exec 9>"$work/live"
cat "$refusing.264" "$picture" >&9
tries=0
until [ -s "$work/told" ] || [ "$tries" = 100 ]; do
    sleep 0.1
    tries=$((tries + 1))
done
holds 'a refusal of a stream that goes on' cmp -s "$work/told" "$refusing.refused"
exec 9>&-
wait
# nor is it lost by Ctrl-C
{ cat "$refusing.264" "$picture"; sleep 4; } | timeout -s INT 2 "$program" decode >"$work/pictures" 2>"$work/told"
judge 'a refusal before Ctrl-C' $? 124 "$(cat "$refusing.refused")
"
{
    { printf '\000\000\001\346\102' && cat "$here/encoder/pub_o_crop_150x90.264"; } | "$program" decode 2>"$work/told"
    echo $? >"$work/status"
} | head -c 100 >"$work/written"
judge 'a refusal before a reader leaves' "$(cat "$work/status")" 3 'refused unit 0: 4 ForbiddenBit
avcdec: write fault
'

# refusals take no memory: that of 400,000 units of five bytes, forbidden_zero_bit of each 1, is that of 4,000
if command -v python3 >/dev/null; then
    # the last unit has no end yet: once all others are told, the peak of the program's own memory is asked for
    cat >"$work/peak.py" <<'END'
import re, subprocess, sys, time

program, count, told = sys.argv[1], int(sys.argv[2]), sys.argv[3]
with open(told, "wb") as errors:
    run = subprocess.Popen([program, "decode"], stdin=subprocess.PIPE, stdout=subprocess.DEVNULL, stderr=errors)
    run.stdin.write(b"\0\0\1\xe6\x42" * count)
    run.stdin.flush()
    for _ in range(600):
        with open(told, "rb") as file:
            if file.read().count(b"\n") >= count - 1:
                break
        time.sleep(0.1)
    with open(f"/proc/{run.pid}/status", encoding="ascii") as file:
        peak = int(re.search(r"VmHWM:\s+(\d+)", file.read())[1])
    run.stdin.close()
    status = run.wait()
with open(told, encoding="ascii") as file:
    whole = status == 1 and file.read().splitlines() == [f"refused unit {unit}: 4 ForbiddenBit" for unit in range(count)]
print(peak if whole else "no")
END
    few=$(python3 "$work/peak.py" "$(readlink -f "$here/../crates/avc_cli/out/avc_cli")" 4000 "$work/told")
    many=$(python3 "$work/peak.py" "$(readlink -f "$here/../crates/avc_cli/out/avc_cli")" 400000 "$work/told")
    holds "refusals take no memory: $few and $many KiB" [ "$many" -le $((few + 1024)) ]
fi

# a piece ends where the next begins, though the stream goes on
pieces=$here/encoder/pub_x_keyint3.264
# each IDR picture of it is one slice: a piece begins with each unit of type 5; how many pictures each has is ffprobe's count of packets
# from one with the flag K to the next
"$program" units "$pieces" | awk 'BEGIN { split("3 3 3 3 1", pictures) } $4 == 5 { print number + 0, $1, $2, "pictures", pictures[++number] }' >"$work/expected"
"$program" pieces "$pieces" >"$work/lines" 2>"$work/told"
judge 'pieces' $? 0 ''
holds 'lines of pieces' cmp -s "$work/lines" "$work/expected"
holds 'more than one' [ "$(wc -l <"$work/lines")" -gt 1 ]
# the same of pictures of several sizes, and of pictures of several slices each
for counted in 'encoder/pub_c_sizes 10 20 12 3 3 3 3 1' 'encoder/pub_o_idr_listing 5 5 5 5 4' 'generated/pubgen_15 6 5 2 3' 'generated/pubgen_11 12 2 2'; do
    name=${counted%% *}
    "$program" pieces "$here/$name.264" >"$work/lines" 2>"$work/told"
    judge "pieces of $name" $? 0 ''
    holds "their pictures" [ "$(sed 's/.* pictures //' "$work/lines" | tr '\n' ' ')" = "${counted#* } " ]
done
# the JSON of listings says what the plain lines do: of pieces, of refusals, of a pic_init_qp_minus26 of -5
if command -v python3 >/dev/null; then
    for stream in "$pieces" "$here/cases/gap_and_resumed.264" "$here/cases/sps_truncated.264" "$here/corners/i_pcm_in_p_e0.264"; do
        for command in units headers pieces; do
            "$program" "$command" "$stream" >"$work/expected"
            "$program" "$command" --json "$stream" >"$work/lines" 2>"$work/told"
            judge "$command --json of ${stream#"$here"/}" $? 0 ''
            python3 "$work/plain.py" "$command" <"$work/lines" >"$work/written"
            holds "JSON of $command of ${stream#"$here"/}" cmp -s "$work/written" "$work/expected"
        done
    done
fi
# a slice of type 5 that is not the first of its picture begins no piece
"$program" units "$picture" | awk '$4 == 5 { print number++, $1, $2, "pictures 1" }' >"$work/expected"
{ cat "$picture" && printf '\000\000\001\145\100\200'; } | "$program" pieces >"$work/lines" 2>"$work/told"
judge 'pieces of pictures, the last with a second slice' $? 0 ''
holds 'their lines' cmp -s "$work/lines" "$work/expected"
"$program" cut 0 "$pieces" >"$work/piece"
timeout 20 "$program" cut 0 <"$work/live" >"$work/written" 2>"$work/told" &
cutting=$!
exec 9>"$work/live"
cat "$pieces" >&9
wait "$cutting"
judge 'cut 0 of a stream that goes on' $? 0 ''
holds 'the whole piece' cmp -s "$work/written" "$work/piece"
exec 9>&-

# a stream without an end, whose second picture is its last of type 5
endless() {
    cat "$picture"
    while printf '\000\000\001\101\232\042\240'; do :; done
}

# whoever reads the first of it ends a command with a write fault, though the stream goes on
for command in units headers 'cut 1'; do
    # shellcheck disable=SC2086
    endless 2>/dev/null | { timeout 20 "$program" $command 2>"$work/told"; echo $? >"$work/status"; } | head -c 100 >"$work/written"
    judge "$command for a reader that ends" "$(cat "$work/status")" 3 'avcdec: write fault
'
    holds "100 bytes by $command" [ "$(wc -c <"$work/written")" = 100 ]
done

some_md5=d41d8cd98f00b204e9800998ecf8427e
# wrong words have a text on the standard error, and help that is asked for on the standard output
for words in '' unit 'units in more' 'decode --fast' 'decode --format jpeg' 'decode --limit x' 'decode --skip' 'units --skip 1' 'cut 0 --json' \
    'decode --verify 0' "decode --verify $some_md5 --format md5" "decode --verify $some_md5 -o $work/out"; do
    # shellcheck disable=SC2086
    "$program" $words <"$picture" >"$work/written" 2>"$work/told"
    holds "status of '$words'" [ $? = 2 ]
    holds "text of '$words'" [ -s "$work/told" ]
    holds "nothing is written after '$words'" [ ! -s "$work/written" ]
done
for words in --help --version -V 'help units' 'decode --help' 'info --help'; do
    # shellcheck disable=SC2086
    "$program" $words <"$picture" >"$work/written" 2>"$work/told"
    judge "$words" $? 0 ''
    holds "text of $words" [ -s "$work/written" ]
done
"$program" --help </dev/null >/dev/full 2>"$work/told"
judge 'help to a full device' $? 3 'avcdec: write fault
'
# each word of `headers` that has a value behind it, at each second place, stands in the manual with what the value is
for name in listing/three_units encoder/pub_x_keyint3 cases/gap_and_resumed; do
    "$program" headers "$here/$name.264"
done | awk '$2 == "refused" { print $2; next } { for (place = 2; place < NF; place += 2) print $place }' | sort -u >"$work/words"
holds 'words of headers' [ "$(wc -l <"$work/words")" -ge 16 ]
while read -r word; do
    holds "$word, by the manual" grep -q "^$word  *[a-zA-Z0-9]" "$here/../docs/avcdec.1"
done <"$work/words"
"$program" --version >"$work/written"
holds 'version as Cargo has it' grep -qx 'avcdec [0-9]*\.[0-9]*\.[0-9]*' "$work/written"
"$program" --help >"$work/written"
holds 'exit statuses in the help' grep -q '^Exit status: 0 ' "$work/written"
for command in decode units headers macroblocks info cut compare; do
    "$program" "$command" --help >"$work/written"
    holds "an example in the help of $command" grep -q "^Example: avcdec $command " "$work/written"
done

# The script avcdec in a repository of its own, where what proves tells only that it was asked, and makes a program that tells its name and
# its words. It is started through a symbolic link from elsewhere. Where the stamp stands, the sources are not looked through: no find names
# their folders.
if command -v git >/dev/null; then
    made=$work/made
    mkdir -p "$made/scripts" "$made/crates/avc_cli/src" "$work/tools"
    cp "$here/../avcdec" "$made/avcdec"
    echo 'the first' >"$made/crates/avc_cli/src/main.rt"
    echo avc_cli >"$made/crates.txt"
    cat >"$made/scripts/prove.py" <<'END'
#!/bin/sh
cd "$(dirname "$0")/.." && echo "$*" >>proved && mkdir -p "crates/$1/out" &&
    printf '#!/bin/sh\necho "%s of %s: $*"\n' "$1" "$(cat crates/avc_cli/src/main.rt)" >"crates/$1/out/$1" && chmod 755 "crates/$1/out/$1"
END
    printf '#!/bin/sh\necho "$*" >>"%s"\nexec "%s" "$@"\n' "$work/found" "$(command -v find)" >"$work/tools/find"
    chmod 755 "$made/scripts/prove.py" "$work/tools/find"
    in_made() {
        git -C "$made" -c user.name=a -c user.email=a@example.org "$@" >"$work/git" 2>&1
    }
    in_made init && echo out/ >"$made/.gitignore" && in_made add . && in_made commit -m first
    ln -s "$made/avcdec" "$work/link"
    # is_told COMMAND PROGRAM SOURCES PROVED FOUND: the command is that program's of these sources, which so often was proved since the script
    # was asked for the first time, and so often are the sources looked through
    is_told() {
        : >"$work/found"
        [ "$(cd "$work/tools" && PATH=$work/tools:$PATH ../link "$1" in.264)" = "$2 of $3: $1 in.264" ] &&
            [ "$(grep -cx "$2" "$made/proved")" = "$4" ] && [ "$(grep -c crates.txt "$work/found")" = "$5" ]
    }
    holds 'avcdec by a symbolic link: what it stands beside is proved' is_told units avc_decode 'the first' 1 0
    holds 'and not again' is_told units avc_decode 'the first' 1 0
    holds 'the whole program for what the other has not' is_told compare avc_cli 'the first' 1 0
    holds 'which does the rest too' is_told units avc_cli 'the first' 1 0
    touch -d '10 seconds ago' "$made"/crates/*/out/*
    echo 'another' >"$made/crates/avc_cli/src/main.rt"
    holds 'a change is proved' is_told units avc_decode 'another' 2 2
    holds 'and where it is wanted for the whole' is_told macroblocks avc_cli 'another' 2 1
    in_made commit -a -m second
    touch -d '10 seconds ago' "$made/crates.txt" "$made/crates/avc_cli/src/main.rt"
    holds 'a program that is newer than the sources is theirs' is_told units avc_cli 'another' 2 1
    holds 'which is not looked at again' is_told units avc_cli 'another' 2 0
    rm "$made/crates/avc_cli/out/avc_cli"
    holds 'the same of the other program' is_told units avc_decode 'another' 2 1
    holds 'which is not looked at again' is_told units avc_decode 'another' 2 0
    touch -d '5 seconds ago' "$made/crates/avc_decode/out/proved-from"
    sed -i 's/another/of other sources/' "$made/crates/avc_decode/out/avc_decode"
    touch -d '2 seconds' "$made/crates.txt"
    holds 'a program made behind its stamp is not taken for that of the sources' is_told units avc_decode 'another' 3 1
    holds 'nor is one taken that is not there' is_told compare avc_cli 'another' 3 0
fi

# files: the same bytes as by the standard streams, and - is one of these. An output that exists is emptied first.
"$program" decode <"$picture" >"$work/pictures"
cat "$picture" "$picture" "$picture" >"$work/out"
"$program" decode "$picture" -o "$work/out" >"$work/written" 2>"$work/told"
judge 'decode from file to file' $? 0 ''
holds 'the file has the pictures' cmp -s "$work/out" "$work/pictures"
holds 'nothing is written beside it' [ ! -s "$work/written" ]
"$program" decode - --output - <"$picture" >"$work/written" 2>"$work/told"
judge 'decode - -o -' $? 0 ''
holds 'the same pictures' cmp -s "$work/written" "$work/pictures"
"$program" decode --format null "$picture" >"$work/written" 2>"$work/told"
judge 'decode --format null' $? 0 ''
holds 'nothing is written' [ ! -s "$work/written" ]

# ten pictures of 150x90, cropped
moving=$here/encoder/pub_o_crop_150x90.264

# the program without what is for test benches: it does what the whole one does, and tells of the two commands that it has not that alone
small=$here/../crates/avc_decode/out/avc_decode
if [ ! -x "$small" ] || [ -n "$(find "$here/../crates.txt" "$here"/../crates/*/src "$here"/../crates/*/specs -newer "$small" -print -quit)" ]; then
    "$here/../scripts/prove.py" avc_decode </dev/null || exit 1
fi
is_same() {
    "$program" "$@" >"$work/written" 2>"$work/told"
    whole=$?
    "$small" "$@" >"$work/out" 2>"$work/lines"
    [ $? = "$whole" ] && cmp -s "$work/written" "$work/out" && cmp -s "$work/told" "$work/lines"
}
holds 'both decode alike' is_same decode "$moving"
holds 'and to pictures of their own form' is_same decode --early --format framemd5 "$moving"
holds 'and list alike' is_same headers --json "$moving"
holds 'and tell alike of a file that is not there' is_same units "$work/nothing"
holds 'and have the same help' is_same compare --help
holds 'and know the same words' is_same macroblocks --nothing
for words in "compare $work/pictures $moving" "macroblocks $moving" 'macroblocks --json nothing'; do
    # shellcheck disable=SC2086
    "$small" $words >"$work/written" 2>"$work/told"
    # shellcheck disable=SC2016
    judge "not in the small program: $words" $? 2 'avcdec: the commands `compare` and `macroblocks` are not in this program
'
    holds 'nothing is written' [ ! -s "$work/written" ]
done

# checksums: the line that md5sum writes of the same pictures
"$program" decode "$moving" | md5sum >"$work/sum"
"$program" decode --format md5 "$moving" >"$work/written" 2>"$work/told"
judge 'decode --format md5' $? 0 ''
holds 'the same line as by md5sum' cmp -s "$work/written" "$work/sum"
"$program" decode --verify "$(cut -d ' ' -f 1 <"$work/sum")" "$moving" >"$work/written" 2>"$work/told"
judge 'decode --verify' $? 0 ''
holds 'nothing is written by --verify' [ ! -s "$work/written" ]
"$program" decode --verify "$some_md5" "$moving" >"$work/written" 2>"$work/told"
judge 'decode --verify of another MD5' $? 1 "avcdec: the MD5 is $(cut -d ' ' -f 1 <"$work/sum")
"
"$program" decode --format md5 "$moving" >/dev/full 2>"$work/told"
judge 'decode --format md5 to a full device' $? 3 'avcdec: write fault
'

# the MD5 of each picture: numbered from 0 also where some are left out; of what cannot be read, of nothing, and of two sizes
"$program" decode --format framemd5 "$moving" >"$work/whole" 2>"$work/told"
judge 'decode --format framemd5' $? 0 ''
holds 'a line for each of ten pictures behind nine' [ "$(wc -l <"$work/whole")" = 19 ]
"$program" decode --format framemd5 --skip 2 --limit 1 "$moving" >"$work/written" 2>"$work/told"
judge 'decode --format framemd5 --skip 2 --limit 1' $? 0 ''
{
    head -n 9 "$work/whole"
    sed -n 's/^0,          2,          2,/0,          0,          0,/p' "$work/whole"
} | cmp -s - "$work/written"
holds 'the third picture is the first' [ $? = 0 ]
"$program" decode --limit 1 "$moving" | md5sum | cut -d ' ' -f 1 >"$work/sum"
holds 'the MD5 of the first picture' [ "$(sed -n '10s/.*, //p' "$work/whole")" = "$(cat "$work/sum")" ]
"$program" decode --format framemd5 "$moving" >/dev/full 2>"$work/told"
judge 'decode --format framemd5 to a full device' $? 3 'avcdec: write fault
'
"$program" decode --format framemd5 <"$here" >"$work/written" 2>"$work/told"
judge 'decode --format framemd5 of what cannot be read' $? 3 'avcdec: read fault
'
"$program" decode --format framemd5 </dev/null >"$work/written" 2>"$work/told"
judge 'decode --format framemd5 of nothing' $? 0 ''
holds 'nothing is written' [ ! -s "$work/written" ]
{ cat "$moving" && cat "$here/pcm/pcm_3.264"; } | "$program" decode --format framemd5 >"$work/written" 2>"$work/told"
judge 'decode --format framemd5 of two sizes' $? 3 'avcdec: a picture of another size
'
holds 'the pictures before' cmp -s "$work/written" "$work/whole"
if command -v ffmpeg >/dev/null; then
    ffmpeg -v error -nostdin -flags unaligned -i "$moving" -vf setpts=N/FRAME_RATE/TB -fps_mode passthrough -fflags +bitexact -f framemd5 - >"$work/lines" 2>"$work/told"
    holds 'framemd5 by ffmpeg' cmp -s "$work/lines" "$work/whole"
fi

# Y4M: also by the output's name, unless another format is given; some of the pictures with the same first line
"$program" decode --format y4m "$moving" >"$work/whole" 2>"$work/told"
judge 'decode --format y4m' $? 0 ''
"$program" decode "$moving" -o "$work/out.y4m" >"$work/written" 2>"$work/told"
judge 'decode -o out.y4m' $? 0 ''
holds 'the same' cmp -s "$work/out.y4m" "$work/whole"
"$program" decode --format i420 "$moving" -o "$work/out.y4m" >"$work/written" 2>"$work/told"
judge 'decode --format i420 -o out.y4m' $? 0 ''
"$program" decode "$moving" >"$work/pictures"
holds 'I420' cmp -s "$work/out.y4m" "$work/pictures"
"$program" decode --format y4m --skip 2 --limit 1 "$moving" >"$work/written" 2>"$work/told"
judge 'decode --format y4m --skip 2 --limit 1' $? 0 ''
size=$((150 * 90 * 3 / 2))
{
    head -n 1 "$work/whole"
    echo FRAME
    tail -c +$((2 * size + 1)) "$work/pictures" | head -c "$size"
} | cmp -s - "$work/written"
holds 'the third picture' [ $? = 0 ]
"$program" decode --format y4m "$moving" >/dev/full 2>"$work/told"
judge "decode --format y4m to a full device" $? 3 'avcdec: write fault
'
"$program" decode --format y4m <"$here" >"$work/written" 2>"$work/told"
judge "decode --format y4m of what cannot be read" $? 3 'avcdec: read fault
'
"$program" decode --format y4m </dev/null >"$work/written" 2>"$work/told"
judge "decode --format y4m of nothing" $? 0 ''
holds 'nothing is written' [ ! -s "$work/written" ]
# another size ends it, behind the pictures before, which the IDR picture of that size lets go out
{ cat "$moving" && cat "$here/pcm/pcm_3.264"; } | "$program" decode --format y4m >"$work/written" 2>"$work/told"
judge 'decode --format y4m of two sizes' $? 3 'avcdec: a picture of another size
'
holds 'the pictures before' cmp -s "$work/written" "$work/whole"
# ffmpeg reads it with no further word
if command -v ffmpeg >/dev/null; then
    ffmpeg -v error -nostdin -i "$work/whole" -f rawvideo -pix_fmt yuv420p - >"$work/written" 2>"$work/lines"
    holds 'ffmpeg reads Y4M' cmp -s "$work/written" "$work/pictures"
fi

# some of the pictures: their bytes are those that head and tail take
"$program" decode "$moving" >"$work/pictures"
size=$((150 * 90 * 3 / 2))
for range in '0 1' '1 1' '2 3' '0 0' '1000 1'; do
    skip=${range% *}
    limit=${range#* }
    "$program" decode --skip "$skip" --limit "$limit" "$moving" >"$work/written" 2>"$work/told"
    judge "decode --skip $skip --limit $limit" $? 0 ''
    tail -c +$((skip * size + 1)) "$work/pictures" | head -c $((limit * size)) >"$work/lines"
    holds "pictures $skip and so on, $limit" cmp -s "$work/written" "$work/lines"
done
"$program" decode --skip 2 "$moving" >"$work/written" 2>"$work/told"
judge 'decode --skip 2' $? 0 ''
tail -c +$((2 * size + 1)) "$work/pictures" >"$work/lines"
holds 'all but two pictures' cmp -s "$work/written" "$work/lines"
# decoding stops: the rest of the stream, which would be refused, is not read
{ cat "$moving" && head -c 200000 /dev/zero && cat "$here/foreign/for_cabac_main.264"; } >"$work/long"
"$program" decode --limit 1 <"$work/long" >"$work/written" 2>"$work/told"
judge 'decode --limit 1 of more' $? 0 ''
for command in units headers 'cut 0'; do
    # shellcheck disable=SC2086
    "$program" $command <"$picture" >"$work/lines"
    # shellcheck disable=SC2086
    "$program" $command "$picture" >"$work/written" 2>"$work/told"
    judge "$command of a file" $? 0 ''
    holds "the same by $command" cmp -s "$work/written" "$work/lines"
done
"$program" decode "$work/none" >"$work/written" 2>"$work/told"
judge 'a file that is not there' $? 3 "avcdec: read fault: $work/none
avcdec: $work/none: there is no such file
"
"$program" decode "$picture" -o "$work" >"$work/written" 2>"$work/told"
judge 'a directory to be written' $? 3 "avcdec: write fault: $work
avcdec: $work: it is a folder
"

# an output is made where there is something to write; else an old one stays as it was
echo old >"$work/old"
cp "$work/old" "$work/kept"
for words in "decode /dev/null" 'decode -f y4m /dev/null' 'decode -f framemd5 /dev/null' 'decode -f png /dev/null' "decode $here" \
    "decode $here/cases/sps_truncated.264" "decode -f y4m $here/cases/sps_truncated.264" "decode -s 9 $here/listing/two_pieces.264" \
    "decode --from 9 $here/listing/two_pieces.264" "picture 9 $here/listing/two_pieces.264" "cut 9 $here/listing/two_pieces.264"; do
    # shellcheck disable=SC2086
    "$program" $words -o "$work/kept" >"$work/written" 2>"$work/told"
    holds "$words: the old output stays" cmp -s "$work/kept" "$work/old"
    # shellcheck disable=SC2086
    "$program" $words -o "$work/new" >"$work/written" 2>"$work/told"
    holds "$words: no output is made" [ ! -e "$work/new" ]
done

# of a stream that goes on no output is made before a picture goes out, though a refusal is told
: >"$work/told"
"$program" decode -o "$work/late" <"$work/live" 2>"$work/told" &
exec 9>"$work/live"
{ cat "$here/cases/sps_truncated.264" && head -c 4 "$here/listing/two_pieces.264"; } >&9
tries=0
until [ -s "$work/told" ] || [ "$tries" = 100 ]; do
    sleep 0.1
    tries=$((tries + 1))
done
holds 'no output before a picture' [ ! -e "$work/late" ]
tail -c +5 "$here/listing/two_pieces.264" >&9
exec 9>&-
wait
holds 'the refusal before the pictures' cmp -s "$work/told" "$here/cases/sps_truncated.refused"
holds 'the pictures behind it' cmp -s "$work/late" "$work/two_grey"

# what is read is not written over, by its name, through a link, or as the standard input
cp "$picture" "$work/same.264"
ln -s same.264 "$work/link.264"
ln "$work/same.264" "$work/hard.264"
for command in decode 'decode --format md5' 'decode --format y4m' 'picture 0' 'cut 0'; do
    for output in same link hard; do
        # shellcheck disable=SC2086
        "$program" $command "$work/same.264" -o "$work/$output.264" >"$work/written" 2>"$work/told"
        judge "$command into its input by $output.264" $? 2 "avcdec: $work/$output.264 is the file that is read
"
    done
done
for command in decode 'picture 0' 'cut 0'; do
    # shellcheck disable=SC2086
    "$program" $command -o "$work/same.264" <"$work/same.264" >"$work/written" 2>"$work/told"
    judge "$command into its standard input" $? 2 "avcdec: $work/same.264 is the file that is read
"
done
holds 'the input is whole' cmp -s "$work/same.264" "$picture"

# the line of a fault has the name of the file, also where that could be opened, and one more says why
for command in decode 'decode --format md5' 'decode --format framemd5' 'decode --limit 1' "decode --verify $some_md5" units headers info 'info --json' pieces 'cut 0'; do
    # shellcheck disable=SC2086
    "$program" $command "$here" >"$work/written" 2>"$work/told"
    judge "$command of a directory" $? 3 "avcdec: read fault: $here
avcdec: $here: it is a folder
"
    # shellcheck disable=SC2086
    "$program" $command "$work/none" >"$work/written" 2>"$work/told"
    judge "$command of a file that is not there" $? 3 "avcdec: read fault: $work/none
avcdec: $work/none: there is no such file
"
done
for command in decode 'decode --format md5' 'decode --format framemd5' 'decode --limit 1' 'cut 0'; do
    # shellcheck disable=SC2086
    "$program" $command "$picture" -o /dev/full >"$work/written" 2>"$work/told"
    judge "$command to a full device by name" $? 3 'avcdec: write fault: /dev/full
avcdec: /dev/full: there is no space left
'
done
"$program" decode "$here" -o "$work/out" 2>"$work/told"
judge 'decode of a directory to a file' $? 3 "avcdec: read fault: $here
avcdec: $here: it is a folder
"
"$program" decode "$picture/in" 2>"$work/told"
judge 'a file in what is no folder' $? 3 "avcdec: read fault: $picture/in
avcdec: $picture/in: a part of its name is no folder
"
# root may read all, unless it is root without its capabilities
if [ "$(id -u)" != 0 ]; then
    bounded='env'
else
    bounded='setpriv --inh-caps=-all --bounding-set=-all'
fi
: >"$work/locked"
chmod 0 "$work/locked"
if $bounded "$program" --version >/dev/null 2>&1 && ! $bounded cat "$work/locked" >/dev/null 2>&1; then
    $bounded "$program" decode "$work/locked" 2>"$work/told"
    judge 'a file that may not be read' $? 3 "avcdec: read fault: $work/locked
avcdec: $work/locked: there is no permission
"
    $bounded "$program" decode "$picture" -o "$work/locked" 2>"$work/told"
    judge 'a file that may not be written' $? 3 "avcdec: write fault: $work/locked
avcdec: $work/locked: there is no permission
"
fi

# words that do not go together: the text says which
while IFS=: read -r wrong words; do
    # shellcheck disable=SC2086
    "$program" $words <"$picture" >"$work/written" 2>"$work/told"
    holds "status of '$words'" [ $? = 2 ]
    holds "'$words' says $wrong" grep -q -e "$wrong" "$work/told"
    holds "nothing is written after '$words'" [ ! -s "$work/written" ]
done <<END
--verify:decode --verify $some_md5 --format null
--format:decode --format null --verify $some_md5
--verify:decode --verify $some_md5 --format framemd5
--format:units --format framemd5
--format:decode --format framemd5 --format y4m
--output:decode --verify $some_md5 --output $work/out
--quiet:decode --progress --quiet
.y4m:decode -o $work/out.mp4
.y4m:decode --format i420 -o $work/out.MKV
.y4m:cut 0 -o $work/out.ts
%09d:decode -o $work/100%.yuv
%09d:decode -o $work/%d-%d.yuv
%09d:decode -o $work/%5d.yuv
%09d:decode -o $work/%00d.yuv
%09d:decode -o $work/%d.txt -f md5
--skip:units --skip 1
--limit:info --limit 1
--early:headers --early
--json:decode --json
--progress:info --json --progress
--output:units --output $work/out
--quiet:cut 0 --quiet
--strict:info --strict
--from:units --from 1
--frametimes:info --frametimes times
--from:decode --from second
--explain:units --explain
END
holds 'no container is made' [ ! -e "$work/out.mp4" ]
"$program" decode "$picture" "$(printf -- '-oa\377b')" >"$work/written" 2>"$work/told"
holds 'status of a word that is no text' [ $? = 2 ]
holds 'it says which word' grep -q 'word 3 is not UTF-8' "$work/told"

# what is no H.264, by its first bytes: nothing is told of it and the status is 0, unless more is wanted
pipe='; a byte stream of its H.264: ffmpeg -i FILE -c:v copy -bsf:v h264_mp4toannexb -f h264 - | avcdec decode -'
while IFS='|' read -r bytes what; do
    # shellcheck disable=SC2059
    printf "$bytes" >"$work/other"
    "$program" decode "$work/other" >"$work/written" 2>"$work/told"
    judge "decode of what begins with $bytes" $? 0 ''
    for format in i420 y4m framemd5 null; do
        "$program" decode --explain --format "$format" "$work/other" >"$work/written" 2>"$work/told"
        judge "decode --explain --format $format of what begins with $bytes" $? 0 "0 pictures, 0 refusals, 0 slices passed over
avcdec: no picture was found; $what
"
        holds 'nothing is written' [ ! -s "$work/written" ]
    done
    for format in i420 y4m framemd5 png null; do
        "$program" decode --strict --format "$format" - <"$work/other" >"$work/written" 2>"$work/told"
        judge "decode --strict --format $format of what begins with $bytes" $? 1 ''
    done
    "$program" info "$work/other" >"$work/written" 2>"$work/told"
    case $what in
    'the first bytes are those of a byte stream' | 'the first bytes are of no '* | 'there is nothing '*) wanted='' ;;
    *)
        wanted="avcdec: $what
"
        ;;
    esac
    judge "info of what begins with $bytes" $? 0 "$wanted"
    "$program" info --json - <"$work/other" >"$work/written" 2>"$work/told"
    judge "info --json of what begins with $bytes" $? 0 "$wanted"
done <<END
\\000\\000\\000\\034ftypisom|the first bytes are those of an MP4 file$pipe
\\032\\105\\337\\243|the first bytes are those of a Matroska or WebM file$pipe
G%187sG|the first bytes are those of an MPEG transport stream$pipe
FLV\\001|the first bytes are those of an FLV file$pipe
RIFF\\000\\001\\000\\000AVI LIST|the first bytes are those of an AVI file$pipe
DKIF\\000|the first bytes are those of an IVF file$pipe
YUV4MPEG2 W16 H16|the first bytes are those of a YUV4MPEG2 file, which holds no H.264
\\377\\330\\377\\340|the first bytes are those of a JPEG picture, which holds no H.264
\\211PNG\\r\\n\\032\\n|the first bytes are those of a PNG picture, which holds no H.264
\\000\\000\\001\\011\\020|the first bytes are those of a byte stream
\\000\\000\\000\\001\\011|the first bytes are those of a byte stream
|there is nothing to read
RIFF\\000\\001\\000\\000WAVEfmt|the first bytes are of no known file; a byte stream begins with 00 00 01 or 00 00 00 01
G%188sG|the first bytes are of no known file; a byte stream begins with 00 00 01 or 00 00 00 01
#!/bin/sh|the first bytes are of no known file; a byte stream begins with 00 00 01 or 00 00 00 01
END
"$program" decode --strict "$picture" >"$work/written" 2>"$work/told"
judge 'decode --strict of a picture' $? 0 ''
# an MP4 file in which a unit seems to stand: what is told without more is as ever
printf '\000\000\000\034ftypisom\000\000\001\346\102' >"$work/other"
"$program" decode "$work/other" -o "$work/new" 2>"$work/told"
judge 'decode of an MP4 file with a refusal' $? 1 'refused unit 0: 4 ForbiddenBit
'
"$program" decode --explain "$work/other" -o "$work/new" 2>"$work/told"
judge 'decode --explain of an MP4 file with a refusal' $? 1 "refused unit 0: 4 ForbiddenBit
unit 0: 4 ForbiddenBit: forbidden_zero_bit is 1; nothing else changes (7.4.1)
unit 0 begins at byte 15, before coded picture 0
0 pictures, 1 refusals, 0 slices passed over
avcdec: no picture was found; the first bytes are those of an MP4 file$pipe
"
holds 'no output is made' [ ! -e "$work/new" ]
"$program" info "$work/other" >"$work/written" 2>"$work/told"
judge 'info of an MP4 file with a refusal' $? 0 "avcdec: the first bytes are those of an MP4 file$pipe
"

# no pictures are equal to nothing: some_md5 is the MD5 of no bytes
"$program" decode --verify "$some_md5" </dev/null >"$work/written" 2>"$work/told"
judge 'decode --verify of nothing' $? 1 ''
"$program" decode --verify "$some_md5" --skip 1000 "$moving" >"$work/written" 2>"$work/told"
judge 'decode --verify of no picture' $? 1 ''
"$program" decode --verify "$some_md5" --limit 0 "$moving" >"$work/written" 2>"$work/told"
judge 'decode --verify --limit 0' $? 1 ''

# What each refusal means is told in the words of docs/behaviour.md, behind its line, then where its unit stands, by places.py, and that
# decoding waits where it is that of a slice whose forbidden_zero_bit is 0; and then how many pictures and refusals there are, and slices with which no piece begins and which are
# passed over: such that come before the first piece begins, or with a loss between them and the last that began before them.
explained_as() {
    pictures=$("$program" decode --format framemd5 "${1%.refused}.264" 2>"$work/others" | grep -vc '^#')
    "$program" units "${1%.refused}.264" >"$work/its_units"
    "$program" pieces "${1%.refused}.264" >"$work/its_pieces"
    "$here/places.py" "${1%.refused}.264" >"$work/its_places"
    awk -F '|' -v pictures="$pictures" -v placed=0 '
        FILENAME == ARGV[2] { split($0, part, " "); type[part[1]] = part[4]; units++; next }
        FILENAME == ARGV[3] { split($0, part, " "); begins[part[2]] = 1; next }
        FILENAME == ARGV[4] { place[placed] = $1; profile[placed] = $2; level[placed++] = $3; next }
        FILENAME == ARGV[1] {
            if ($2 ~ /^ [0-9]+ [A-Za-z]+ $/) {
                split($2, head, " ")
                text = substr($3, 2, length($3) - 2)
                clause = $4
                gsub(/^ +| +$/, "", clause)
                meaning[head[1]] = text (clause == "" ? "" : " (" clause ")")
            }
            next
        }
        {
            print
            sub(/^refused /, "")
            split($0, part, /[: ]+/)
            print $0 ": " meaning[part[3]]
            print place[part[2]] (part[3] == 10 ? profile[part[2]] : part[3] == 11 ? level[part[2]] : "")
            refusals++
            if (part[3] == 4) forbidden[part[2]] = 1
            else if (type[part[2]] >= 1 && type[part[2]] <= 5) {
                lost[part[2]] = 1
                print "waits for an IDR picture from unit " part[2] " on"
            }
        }
        END {
            for (slice = 0; slice < units; slice++) {
                if (type[slice] < 1 || type[slice] > 5 || slice in begins || slice in forbidden) continue
                is_passed = 1
                for (before = slice - 1; before >= 0; before--) {
                    if (before in lost) break
                    if (before in begins) { is_passed = 0; break }
                }
                passed += is_passed
            }
            printf "%d pictures, %d refusals, %d slices passed over\n", pictures, refusals, passed
        }
    ' "$here/../docs/behaviour.md" "$work/its_units" "$work/its_pieces" "$work/its_places" "$1"
    if [ "$pictures" = 0 ]; then
        echo 'avcdec: no picture was found; the first bytes are those of a byte stream'
    fi
}
for refused in "$here"/cases/*.refused; do
    explained_as "$refused" >"$work/wanted"
    "$program" decode --explain "${refused%.refused}.264" >"$work/written" 2>"$work/told"
    judge "decode --explain of ${refused#"$here"/}" $? 1 "$(cat "$work/wanted")
"
done
"$program" decode --explain "$moving" >"$work/written" 2>"$work/told"
judge 'decode --explain of ten pictures' $? 0 '10 pictures, 0 refusals, 0 slices passed over
'
# where a fault ends the run nothing is counted
"$program" decode --explain "$moving" >/dev/full 2>"$work/told"
judge 'decode --explain to a full device' $? 3 'avcdec: write fault
'
# the slice with the gap, which is bytes 26 to 32, two times more: they are passed over
gap=$here/cases/gap_and_resumed.264
{ head -c 33 "$gap"; tail -c +27 "$gap" | head -c 7; tail -c +27 "$gap" | head -c 7; tail -c +34 "$gap"; } | "$program" decode --explain >"$work/written" 2>"$work/told"
judge 'decode --explain of slices behind a loss' $? 1 'refused unit 3: 32 FrameNumGap
unit 3: 32 FrameNumGap: a gap in frame_num where gaps are not allowed (7.4.3)
unit 3 begins at byte 29, in coded picture 1
waits for an IDR picture from unit 3 on
refused unit 7: 3 OutOfRange
unit 7: 3 OutOfRange: a value is outside the range that its semantics give (7.4)
unit 7 begins at byte 58, in coded picture 4
waits for an IDR picture from unit 7 on
2 pictures, 2 refusals, 2 slices passed over
'
# in each form what is told is the same, also where the front of the stream is read first
for format in i420 null md5 y4m framemd5; do
    "$program" decode --explain --format "$format" "$gap" >"$work/written" 2>"$work/told"
    judge "decode --explain --format $format of slices behind a loss" $? 1 'refused unit 3: 32 FrameNumGap
unit 3: 32 FrameNumGap: a gap in frame_num where gaps are not allowed (7.4.3)
unit 3 begins at byte 29, in coded picture 1
waits for an IDR picture from unit 3 on
refused unit 5: 3 OutOfRange
unit 5: 3 OutOfRange: a value is outside the range that its semantics give (7.4)
unit 5 begins at byte 44, in coded picture 2
waits for an IDR picture from unit 5 on
2 pictures, 2 refusals, 0 slices passed over
'
done
# a slice whose forbidden_zero_bit is 1 behind the slices of a picture, whose last one is refused when it is closed, and then the same without it
closed=$here/cases/closing_names_last_slice.264
{ head -c 45 "$closed"; printf '\000\000\001\341\232'; tail -c +46 "$closed"; cat "$closed"; } | "$program" decode --explain >"$work/written" 2>"$work/told"
judge 'decode --explain of a slice refused alone in a refused picture' $? 1 "refused unit 5: 4 ForbiddenBit
unit 5: 4 ForbiddenBit: forbidden_zero_bit is 1; nothing else changes (7.4.1)
unit 5 begins at byte 48, in coded picture 1
refused unit 4: 37 BadMarking
unit 4: 37 BadMarking: a marking operation that can't be carried out, or more than 64 (8.2.5.4)
unit 4 begins at byte 40, in coded picture 1
waits for an IDR picture from unit 4 on
refused unit 11: 37 BadMarking
unit 11: 37 BadMarking: a marking operation that can't be carried out, or more than 64 (8.2.5.4)
unit 11 begins at byte 96, in coded picture 3
waits for an IDR picture from unit 11 on
2 pictures, 3 refusals, 0 slices passed over
"
# sequence parameter sets of other profiles and levels, and one of a profile without a name, in front of ten pictures and behind them
{
    for first in '144\000\036' '156\000\036' '172\000\036' '364\000\036' '054\000\036' '123\000\036' '126\000\036' '166\000\036' '200\000\036' '001\000\036' '102\300\143'; do
        printf '\000\000\001\147\'"$first"'\254'
    done
    cat "$moving"
    printf '\000\000\001\147\102\300\143\332'
} >"$work/sets.264"
"$program" decode "$work/sets.264" 2>"$work/sets.refused" >"$work/written"
explained_as "$work/sets.refused" >"$work/wanted"
"$program" decode --explain "$work/sets.264" >"$work/written" 2>"$work/told"
judge 'decode --explain of other profiles and levels' $? 1 "$(cat "$work/wanted")
"
holds 'it names them' [ "$(grep -c 'profile_idc [0-9]* ([A-Za-z0-9: ]*); 66, 77 and 88 are taken\|profile_idc 1; \|level_idc 99$' "$work/told")" = 12 ]
# two slices of type 1 before the first IDR picture, and a unit between them that is none
{ printf '\000\000\001\101\232\042\240\000\000\001\014\377\000\000\001\101\232\042\240' && cat "$moving"; } |
    "$program" decode --explain >"$work/written" 2>"$work/told"
judge 'decode --explain of a stream that begins late' $? 0 '10 pictures, 0 refusals, 2 slices passed over
'

# letters stand for words
"$program" decode --skip 2 --limit 3 --format md5 "$moving" >"$work/lines"
"$program" decode -q -s 2 -l 3 -f md5 "$moving" >"$work/written" 2>"$work/told"
judge 'decode -q -s 2 -l 3 -f md5' $? 0 ''
holds 'the same as by words' cmp -s "$work/written" "$work/lines"
"$program" decode "$moving" -o "$work/out.Y4M" 2>"$work/told"
judge 'decode -o out.Y4M' $? 0 ''
holds 'Y4M' cmp -s "$work/out.Y4M" "$work/whole"
for options in '--limit 2' '--skip 2'; do
    # shellcheck disable=SC2086
    "$program" decode --format null $options "$moving" >"$work/written" 2>"$work/told"
    judge "decode --format null $options" $? 0 ''
    holds 'nothing is written' [ ! -s "$work/written" ]
done
for early in "$here"/*/*.early; do
    if [ ! -f "${early%.early}.refused" ]; then
        "$program" decode --early --format md5 --skip 0 "${early%.early}.264" >"$work/written" 2>"$work/told"
        judge "decode --early --format md5 of ${early#"$here"/}" $? 0 ''
        holds 'the MD5 of early output' [ "$(cut -d ' ' -f 1 <"$work/written")" = "$(cut -d ' ' -f 1 <"$early")" ]
    fi
done

# that whoever reads has left is a write fault; told, unless the program is to be quiet
for quiet in '' --quiet; do
    # shellcheck disable=SC2086
    { "$program" decode $quiet "$moving" 2>"$work/told"; echo $? >"$work/status"; } | head -c 100 >"$work/written"
    wanted='avcdec: write fault
'
    [ -z "$quiet" ] || wanted=''
    judge "decode $quiet for a reader that leaves" "$(cat "$work/status")" 3 "$wanted"
done
"$program" decode --quiet "$moving" >/dev/full 2>"$work/told"
judge 'decode --quiet to a full device' $? 3 'avcdec: write fault
'

# one file a picture: together they are the whole, and each has the bytes of one picture of 150x90
mkdir "$work/files"
"$program" decode "$moving" -o "$work/files/out-%03d.yuv" 2>"$work/told"
judge 'decode -o out-%03d.yuv' $? 0 ''
holds 'ten files' [ "$(cd "$work/files" && echo *)" = 'out-000.yuv out-001.yuv out-002.yuv out-003.yuv out-004.yuv out-005.yuv out-006.yuv out-007.yuv out-008.yuv out-009.yuv' ]
holds 'each of one picture' [ "$(wc -c "$work/files"/*.yuv | grep -cw $((150 * 90 * 3 / 2)))" = 10 ]
holds 'together the whole' [ "$(cat "$work/files"/*.yuv | md5sum | cut -d ' ' -f 1)" = "$(cut -d ' ' -f 1 <"${moving%.264}.md5")" ]
"$program" decode --skip 7 --limit 2 "$moving" -o "$work/files/some-%d" 2>"$work/told"
judge 'decode --skip 7 --limit 2 -o some-%d' $? 0 ''
holds 'the eighth' cmp -s "$work/files/some-0" "$work/files/out-007.yuv"
holds 'the ninth' cmp -s "$work/files/some-1" "$work/files/out-008.yuv"
holds 'no more' [ ! -e "$work/files/some-2" ]
"$program" decode "$moving" -o "$work/files/%d.y4m" 2>"$work/told"
judge 'decode -o %d.y4m' $? 0 ''
for number in 0 9; do
    { "$program" decode -f y4m --limit 1 "$moving" 2>"$work/told" | head -n 2; cat "$work/files/out-00$number.yuv"; } >"$work/expected"
    holds "picture $number is a whole file" cmp -s "$work/files/$number.y4m" "$work/expected"
done
cp "$moving" "$work/files/read-1"
"$program" decode "$work/files/read-1" -o "$work/files/read-%d" 2>"$work/told"
judge 'a file of a picture that is the one that is read' $? 3 "avcdec: write fault: $work/files/read-%d
avcdec: $work/files/read-%d: there is no permission
"
holds 'it is as it was' cmp -s "$moving" "$work/files/read-1"
"$program" decode -o "$work/files/read-%d" <"$work/files/read-1" 2>"$work/told"
judge 'a file of a picture that is the standard input' $? 3 "avcdec: write fault: $work/files/read-%d
avcdec: $work/files/read-%d: there is no permission
"
holds 'that is as it was, too' cmp -s "$moving" "$work/files/read-1"

# how long each picture took: a number for each, and no more together than what passed
before=$(date +%s%N)
"$program" decode --frametimes "$work/times" "$moving" >"$work/pictures" 2>"$work/told"
holds 'decode --frametimes' is_decoded "${moving%.264}.md5" $? 0 /dev/null
passed_time=$(($(date +%s%N) - before))
holds 'ten times' [ "$(grep -cx '[0-9][0-9]*' "$work/times")" = 10 ]
holds 'no other line' [ "$(wc -l <"$work/times")" = 10 ]
holds 'they are not above what was measured' [ "$(awk '{ all += $1 } END { print all }' "$work/times")" -le "$passed_time" ]
# from a reader that waits two seconds before its last bytes; the program may begin later than it
{ head -c "$(($(wc -c <"$moving") - 1))" "$moving"; sleep 2; tail -c 1 "$moving"; } | "$program" decode --frametimes - >"$work/pictures" 2>"$work/told"
holds 'times of a stream that waits' [ "$(awk '{ all += $1 } END { print (all >= 900000000) }' "$work/told")" = 1 ]
# from one that waits before its first bytes: that time is the first picture's alone
before=$(date +%s%N)
{ sleep 2; cat "$moving"; } | "$program" decode --frametimes - >"$work/pictures" 2>"$work/told"
passed_time=$(($(date +%s%N) - before))
holds 'times of a stream that comes late' [ "$(awk '{ all += $1 } END { print all }' "$work/told")" -le "$passed_time" ]
holds 'the first picture waited' [ "$(head -n 1 "$work/told")" -ge 900000000 ]
# a full device takes no times: the pictures are written, and the fault is told
"$program" decode --frametimes /dev/full "$moving" >"$work/pictures" 2>"$work/told"
judge 'times to a full device' $? 3 'avcdec: write fault: /dev/full
avcdec: /dev/full: there is no space left
'
holds 'the pictures are written' [ "$(md5sum <"$work/pictures" | cut -d ' ' -f 1)" = "$(cut -d ' ' -f 1 <"${moving%.264}.md5")" ]
"$program" decode --frametimes "$work" "$moving" >"$work/pictures" 2>"$work/told"
judge 'times into a folder' $? 3 "avcdec: write fault: $work
avcdec: $work: it is a folder
"
cp "$moving" "$work/times.264"
"$program" decode --frametimes "$work/times.264" "$work/times.264" >"$work/pictures" 2>"$work/told"
judge 'times into the file that is read' $? 2 "avcdec: $work/times.264 is the file that is read
"
holds 'it is as it was' cmp -s "$moving" "$work/times.264"

# how far decoding is: the last line stays, and nothing else changes
rate_known=$here/encoder/pub_x_keyint3
# by a reader that takes some time
slowly() {
    cat "$1"
    sleep 1
}
before=$(date +%s)
slowly "$rate_known.264" | "$program" decode --progress >"$work/pictures" 2>"$work/told"
holds 'decode --progress' is_decoded "$rate_known.md5" $? 0 "$work/told"
after=$(date +%s)
tr '\r' '\n' <"$work/told" | tail -n 1 >"$work/last"
cp "$work/last" "$work/first_speed"
holds 'the last line of progress' grep -q '^pictures 13, refused 0, [0-9]*\.[0-9] a second, [0-9]*\.[0-9] times the frame rate.\[K$' "$work/last"
holds 'it is ended' [ "$(tail -c 1 "$work/told" | od -An -tx1 | tr -d ' ')" = 0a ]
slowly "$moving" | "$program" decode --progress >"$work/written" 2>"$work/told"
tr '\r' '\n' <"$work/told" | tail -n 1 >"$work/last"
holds 'progress without a frame rate' grep -q '^pictures 10, refused 0, [0-9]*\.[0-9] a second.\[K$' "$work/last"
# most of a second at least for 13 pictures, and no more than was measured
speed=$(sed -n 's/^pictures 13, refused 0, \([0-9]*\)\..*/\1/p' "$work/first_speed")
holds 'the speed is not above what was measured' [ "$speed" -le 50 ]
holds 'the speed is not below what was measured' [ "$speed" -ge $((13 / (after - before + 1))) ]
# of a file also how much of it was read, and how long the rest takes
"$program" decode --progress "$moving" >"$work/written" 2>"$work/told"
tr '\r' '\n' <"$work/told" | tail -n 1 >"$work/last"
holds 'all of a file was read' grep -q '^pictures 10, refused 0.*, 100%.\[K$' "$work/last"
"$program" decode --progress --limit 1 "$work/long" >"$work/written" 2>"$work/told"
tr '\r' '\n' <"$work/told" | tail -n 1 >"$work/last"
holds 'a part of a file was read' grep -q "^pictures [0-9]*, .*, $((100 * 65536 / $(wc -c <"$work/long")))%, [0-9]*:[0-9][0-9] left.\\[K\$" "$work/last"
# also where the front of it is read first, or no picture is written; not where the pieces before one are left out
for words in '--format y4m' '--format null' '--format md5'; do
    # shellcheck disable=SC2086
    "$program" decode --progress $words "$moving" >"$work/written" 2>"$work/told"
    tr '\r' '\n' <"$work/told" | tail -n 1 >"$work/last"
    holds "all of a file was read by decode $words" grep -q '^pictures 10, refused 0.*, 100%.\[K$' "$work/last"
done
"$program" decode --progress --from 0 "$moving" >"$work/written" 2>"$work/told"
tr '\r' '\n' <"$work/told" | tail -n 1 >"$work/last"
grep -q '^pictures 10, refused 0' "$work/last" && ! grep -q '%' "$work/last"
holds 'no part of a file from a piece on' [ $? = 0 ]
refusing=$here/foreign/for_cabac_main
"$program" decode --progress "$refusing.264" >"$work/pictures" 2>"$work/all"
status=$?
# without what the line of progress writes, erases and ends
tr '\r' '\n' <"$work/all" | sed 's/.*\[K//' | grep '^refused unit' >"$work/told"
holds 'refusals with the line of progress' is_decoded "$refusing.md5" "$status" 1 "$refusing.refused"
tr '\r' '\n' <"$work/all" | tail -n 1 >"$work/last"
holds 'they are counted' grep -q "^pictures [0-9]*, refused $(wc -l <"$refusing.refused" | tr -d ' ')[^0-9]" "$work/last"
before=$(date +%s)
dd bs=1 if="$moving" 2>/dev/null | "$program" decode --progress 2>"$work/told" >"$work/written"
holds 'at most four lines a second' [ "$(tr -dc '\r' <"$work/told" | wc -c)" -le $((4 * ($(date +%s) - before + 1) + 1)) ]
"$program" decode --quiet "$refusing.264" >"$work/pictures" 2>"$work/told"
holds 'refusals with --quiet' is_decoded "$refusing.md5" $? 1 "$refusing.refused"
if command -v script >/dev/null; then
    # standard error is a terminal
    on_terminal() {
        script -qec "'$program' decode $1 '$rate_known.264' >'$work/pictures'" /dev/null </dev/null >"$work/told" 2>&1
    }
    on_terminal ''
    holds 'progress on a terminal' grep -q 'pictures 13, refused 0' "$work/told"
    holds 'the same pictures' [ "$(md5sum <"$work/pictures" | cut -d ' ' -f 1)" = "$(cut -d ' ' -f 1 <"$rate_known.md5")" ]
    on_terminal --quiet
    holds 'none with --quiet' [ ! -s "$work/told" ]
    script -qec "'$program' decode -f null </dev/null" /dev/null </dev/null >"$work/told" 2>&1
    holds 'on a terminal it is told where no picture was found' grep -q 'avcdec: no picture was found; there is nothing to read' "$work/told"
    script -qec "'$program' decode --quiet -f null </dev/null" /dev/null </dev/null >"$work/told" 2>&1
    holds 'not with --quiet' [ ! -s "$work/told" ]
    printf '\000\000\000\034ftypisom' >"$work/other"
    script -qec "'$program' decode -f null '$work/other'" /dev/null </dev/null >"$work/told" 2>&1
    holds 'on a terminal a container is named, with the pipe' grep -qF "avcdec: no picture was found; the first bytes are those of an MP4 file$pipe" "$work/told"
    script -qec "'$program' decode --verify '$some_md5' '$moving'" /dev/null </dev/null >"$work/told" 2>&1
    holds 'on a terminal the MD5 is told, too' grep -qF "avcdec: the MD5 is $(cut -d ' ' -f 1 <"${moving%.264}.md5")" "$work/told"
    script -qec "'$program' decode -f null '$here/cases/gap_and_resumed.264'" /dev/null </dev/null >"$work/told" 2>&1
    holds 'on a terminal it is told where decoding waits' grep -q 'waits for an IDR picture from unit 3 on' "$work/told"
    holds 'and how many slices are passed over' grep -q '2 pictures, 2 refusals, 0 slices passed over' "$work/told"
    script -qec "'$program' decode --quiet -f null '$here/cases/gap_and_resumed.264'" /dev/null </dev/null >"$work/told" 2>&1
    holds 'with --quiet the refusals alone' [ "$(grep -c . "$work/told")" = 2 ]
    # standard output is a terminal
    for command in decode 'decode -f y4m' 'decode -l 1' 'cut 0'; do
        script -qec "'$program' $command '$picture' 2>'$work/told'" /dev/null </dev/null >"$work/written"
        judge "$command to a terminal" $? 2 'avcdec: what is no text is written to a terminal by -o - alone
'
        script -qec "'$program' $command '$picture' -o - 2>'$work/told'" /dev/null </dev/null >"$work/written"
        judge "$command -o - to a terminal" $? 0 ''
        holds 'it is written' [ -s "$work/written" ]
    done
    script -qec "'$program' decode -f md5 '$picture' 2>'$work/told'" /dev/null </dev/null >"$work/written"
    judge 'a text to a terminal' $? 0 ''
fi

# each option in the help of a command, and each form, stands in the completion for bash
if command -v bash >/dev/null; then
    cat >"$work/complete" <<'END'
. "$1"
shift
COMP_WORDS=("$@")
COMP_CWORD=$(($# - 1))
_avcdec
printf '%s\n' "${COMPREPLY[@]}"
END
    completes() {
        bash "$work/complete" "$here/../docs/avcdec.bash" "$@"
    }
    for command in decode units headers macroblocks info cut compare; do
        completes avcdec '' | grep -qx "$command"
        holds "$command is completed" [ $? = 0 ]
        "$program" "$command" --help >"$work/help"
        for option in $(grep -o -e '^ *\(-[a-zA-Z], \)\{0,1\}--[a-z0-9-]*' "$work/help" | grep -o -e '--.*'); do
            completes avcdec "$command" - | grep -qx -e "$option"
            holds "$option of $command is completed" [ $? = 0 ]
        done
    done
    for form in $("$program" decode --help | sed -n 's/.*--format.*possible values: \([^]]*\)\].*/\1/p' | tr -d ,); do
        completes avcdec decode --format '' | grep -qx "$form"
        holds "--format $form is completed" [ $? = 0 ]
    done
fi

# The commands of README.md and the examples of the manual, as they stand there, on streams of full range and cropped at the left: each
# ends well, and what compares finds no difference. A player is one that keeps what it is given.
commands_of_readme() {
    sed -n 's/^    \(.*\.\/avcdec .*\)$/\1/p' "$here/../README.md" | sed 's/  *# .*$//'
}

commands_of_manual() {
    awk '/^\.nf$/ { part = 1; next } part == 1 && /^\.RS$/ { part = 2; next } /^\.(RE|fi)$/ { part = 0 } part == 2' "$here/../docs/avcdec.1" |
        sed 's/\\-/-/g'
}

# the command of the manual, in the text on this format, that writes what the program does
command_of_format() {
    awk '/^\.EX$/ { on = 1; next } /^\.EE$/ { on = 0 } on' "$here/../docs/avcdec.1" | sed 's/\\-/-/g' | grep -e "-f $1 -"
}

# whether the last command, of this text, ended well, and without a difference where it compares
is_used() {
    [ "$2" = 0 ] || return 1
    case $1 in
    *' compare '* | *diff*) [ ! -s "$work/written" ] ;;
    esac
}

# uses NAME: runs the commands, which come by standard input, on a stream
uses() {
    while read -r command; do
        case $command in
        *jq*) command -v jq >/dev/null || continue ;;
        esac
        (cd "$work/use" && PATH=$work/tools:$PATH sh -c "$command" </dev/null) >"$work/written" 2>"$work/told"
        holds "$command, of $1" is_used "$command" $?
    done
}

if command -v ffmpeg >/dev/null; then
    mkdir -p "$work/tools"
    # shellcheck disable=SC2016
    printf '#!/bin/sh\n[ "$*" = - ] && cat >played.y4m\n' >"$work/tools/ffplay"
    chmod 755 "$work/tools/ffplay"
    ln -s "$program" "$work/tools/avcdec"
    for used in encoder/pub_f_aud_fullrange encoder/pub_f_cropleft; do
        rm -rf "$work/use"
        mkdir "$work/use"
        ln -s "$program" "$work/use/avcdec"
        cp "$here/$used.264" "$work/use/in.264"
        cp "$here/$used.264" "$work/use/stream"
        ffmpeg -v error -nostdin -i "$here/$used.264" -c copy "$work/use/in.mp4" 2>"$work/told"
        ffmpeg -v error -nostdin -flags unaligned -i "$here/$used.264" -fps_mode passthrough -f rawvideo "$work/use/other.yuv" 2>"$work/told"
        commands_of_readme >"$work/commands"
        holds "commands of README.md" [ "$(wc -l <"$work/commands")" -ge 5 ]
        uses "$used" <"$work/commands"
        holds 'the pictures by README.md' [ "$(md5sum <"$work/use/out.yuv" | cut -d ' ' -f 1)" = "$(cut -d ' ' -f 1 <"$here/$used.md5")" ]
        "$program" decode --format y4m "$here/$used.264" >"$work/whole"
        holds 'a player is given Y4M' cmp -s "$work/use/played.y4m" "$work/whole"
        (cd "$work/use" && sh -c "$(command_of_format yuv4mpegpipe)" </dev/null >other.y4m 2>"$work/told")
        holds "Y4M by the manual's command, of $used" cmp -s "$work/use/other.y4m" "$work/whole"
        "$program" decode --format framemd5 "$here/$used.264" >"$work/whole"
        (cd "$work/use" && sh -c "$(command_of_format framemd5)" </dev/null >"$work/written" 2>"$work/told")
        holds "framemd5 by the manual's command, of $used" cmp -s "$work/written" "$work/whole"
        rm "$work/use/other.yuv"
        commands_of_manual >"$work/commands"
        holds 'examples of the manual' [ "$(wc -l <"$work/commands")" -ge 10 ]
        uses "$used" <"$work/commands"
        holds 'the pictures by the manual' [ "$(md5sum <"$work/use/out.yuv" | cut -d ' ' -f 1)" = "$(cut -d ' ' -f 1 <"$here/$used.md5")" ]
    done
fi

# the most frequent uses: to decode to a file, to watch (as ffplay reads it), and to compare with another decoder, whose MD5 is expected
other=$(cut -d ' ' -f 1 <"${moving%.264}.md5")
"$program" decode "$moving" -o "$work/pictures" 2>"$work/told"
holds 'decoding to a file' is_decoded "${moving%.264}.md5" $? 0 /dev/null
if command -v ffmpeg >/dev/null; then
    size=$("$program" info "$moving" | sed -n 's/^size \([0-9]*x[0-9]*\),.*/\1/p')
    "$program" decode "$moving" | ffmpeg -v error -f rawvideo -pixel_format yuv420p -video_size "$size" -i - -f md5 - >"$work/sum"
    holds 'watching' grep -qx "MD5=$other" "$work/sum"
fi
"$program" decode --verify "$other" "$moving" >"$work/written" 2>"$work/told"
judge 'comparing with another decoder' $? 0 ''

# pictures of 12 bytes of stream each do not wait for one another: memory stays below what 40 of them take (1920x1080)
many=$here/hostile/many_pictures_in_one_piece.264
(ulimit -v 160000 && exec "$program" decode "$many") 2>"$work/told" | md5sum >"$work/sum"
holds 'many pictures in one piece' grep -q '^a88c79335722cf88e0eabdc690415f37 ' "$work/sum"

echo "$passed passed, $failed failed"
[ "$failed" = 0 ] && [ "$passed" -gt 0 ]
