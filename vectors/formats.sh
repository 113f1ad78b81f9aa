#!/bin/sh
# Makes anew what ffmpeg (5.1) writes of the streams below: NAME.y4m, the md5 of its YUV4MPEG2, and NAME.framemd5, its framemd5. Pictures
# are neither dropped nor repeated (-fps_mode passthrough). Of a stream without a VUI ffmpeg takes chroma samples to lie as in JPEG; it
# is told type 0 (E.2.1). At the left it leaves out as many columns as alignment allows; it is told to leave out all (-flags unaligned).
# What it decodes of a stream in which something is refused is its own matter: of these are here such as have the same pictures. No stream
# is here whose frame rate has numbers of more than 30 bits, which it rounds, that has several sizes, which it scales to the first, or
# whose no_output_of_prior_pics_flag drops a picture, which it writes.
set -eu
here=$(cd "$(dirname "$0")" && pwd)

for name in \
    encoder/pub_f_aud_fullrange encoder/pub_f_cropleft encoder/pub_o_crop_150x90 encoder/pub_o_ltr_rec encoder/pub_o_tl3_prefix \
    encoder/pub_x_allintra encoder/pub_x_aud encoder/pub_x_crop_130x98 encoder/pub_x_crop_174x142 encoder/pub_x_crop_18x34 \
    encoder/pub_x_intrarefresh encoder/pub_x_keyint3 generated/pubgen_28 large/pub_l_16000x64 pcm/pcm_1 pcm/pcm_14 pcm/pcm_3 pcm/pcm_4 \
    pcm/pcm_7 speed/1080i speed/720p speed/cif speed/still weighted/wgt_fade_in; do
    site=
    if [ "$name" = pcm/pcm_1 ]; then
        site='-chroma_sample_location left'
    fi
    # shellcheck disable=SC2086
    ffmpeg -v error -nostdin -flags unaligned -i "$here/$name.264" $site -fps_mode passthrough -f yuv4mpegpipe - | md5sum >"$here/$name.y4m"
done

for name in \
    cases/cropped_10x10 cases/data_partition cases/default_count_17 cases/operation_5 cases/output_two_places \
    cases/redundant_slice cases/resumed_from_idr cases/set_repeated cases/wide_16880x16 encoder/pub_f_cropleft \
    encoder/pub_o_crop_150x90 encoder/pub_o_ltr_rec encoder/pub_o_tl3_prefix encoder/pub_x_crop_130x98 encoder/pub_x_crop_174x142 \
    encoder/pub_x_crop_18x34 encoder/pub_x_hrd_vui encoder/pub_x_keyint3 encoder/pub_x_tiny16 generated/pubgen_13 \
    generated/pubgen_28 grouping/type_2_behind hostile/gaps pcm/pcm_14 pcm/pcm_3 pcm/pcm_4 pcm/pcm_6 pcm/pcm_7 speed/cif \
    weighted/wgt_fade_in; do
    ffmpeg -v quiet -nostdin -flags unaligned -i "$here/$name.264" -vf setpts=N/FRAME_RATE/TB -fps_mode passthrough -fflags +bitexact \
        -f framemd5 - >"$here/$name.framemd5"
done

# NAME.types: the md5 of QP_Y and type of each macroblock that ffmpeg decodes, one a line, in decoding order: i is I_NxN, I Intra 16x16, P I_PCM
# (without its QP, for which ffmpeg shows that of deblocking), S P_Skip, > another inter macroblock, with -, | or + where it is 16x8, 8x16 or
# 8x8. What its first reading of the stream shows, by another decoder, is left out. It shows each picture as it goes out: no stream is here
# whose pictures go out in another order than they are decoded in.
types() { # of the picture of this number alone, counted from 0; all where it is -1
    ffmpeg -hide_banner -nostdin -threads 1 -debug qp+mb_type -i "$here/$1.264" -f null - 2>&1 | awk -v only="$2" '
        /^\[h264 @ [0-9a-fx]*\] New frame/ { rows = 1; if ($3 != decoder) { decoder = $3; count = 0; frame = -1 }; frame++; next }
        /^\[h264 @ [0-9a-fx]*\] ( *[0-9]+[iIPS>][-+| ][= ])+$/ && rows {
            line = $0
            sub(/^\[h264 @ [0-9a-fx]*\] /, "", line)
            while (match(line, /^ *[0-9]+[iIPS>][-+| ][= ]/)) {
                one = substr(line, 1, RLENGTH)
                line = substr(line, RLENGTH + 1)
                gsub(/[ =]/, "", one)
                sub(/^[0-9]*P$/, "P", one)
                if (only < 0 || frame == only) told[count++] = one
            }
            next
        }
        { rows = 0 }
        END { for (k = 0; k < count; k++) print told[k] }' | md5sum
}
for name in \
    corners/i_pcm_in_p_e0 encoder/pub_o_qp12 encoder/pub_o_rc_quality encoder/pub_o_rowslices encoder/pub_x_aud encoder/pub_x_tiny16 \
    encoder/pub_o_crop_150x90 encoder/pub_o_deblock2 encoder/pub_o_screen encoder/pub_o_tl2 encoder/pub_x_cintra_slices \
    encoder/pub_x_cqpoff_m12 encoder/pub_x_gradient encoder/pub_x_ipcm_deblock encoder/pub_x_main_ref5_sl encoder/pub_x_nonidr_i \
    encoder/pub_x_crop_130x98 encoder/pub_x_deblock_p6p6 encoder/pub_x_hrd_vui encoder/pub_x_ref4 generated/pubgen_24 generated/pubgen_29 pcm/pcm_3; do
    types "$name" -1 >"$here/$name.types"
done

# NAME.types_1: the same of the second picture alone
for name in encoder/pub_o_qp12 encoder/pub_o_rowslices generated/pubgen_29; do
    types "$name" 1 >"$here/$name.types_1"
done

# NAME.vectors: the md5 of the vectors that libavcodec finds (vectors.c). No stream is here whose pictures are put out in another order.
program=$(mktemp)
trap 'rm -f "$program"' EXIT
cc -o "$program" "$here/vectors.c" -lavcodec -lavutil
for name in \
    corners/i_pcm_in_p_e0 encoder/pub_o_qp12 encoder/pub_o_rc_quality encoder/pub_o_rowslices encoder/pub_x_aud \
    encoder/pub_o_crop_150x90 encoder/pub_o_deblock2 encoder/pub_o_screen encoder/pub_o_tl2 encoder/pub_x_cintra_slices \
    encoder/pub_x_cqpoff_m12 encoder/pub_x_gradient encoder/pub_x_ipcm_deblock encoder/pub_x_main_ref5_sl encoder/pub_x_nonidr_i \
    encoder/pub_x_crop_130x98 encoder/pub_x_deblock_p6p6 encoder/pub_x_hrd_vui encoder/pub_x_ref4 generated/pubgen_24; do
    "$program" <"$here/$name.264" 2>/dev/null | md5sum >"$here/$name.vectors"
done
