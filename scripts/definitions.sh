#!/bin/sh
# definitions.sh [all | links]: lists the definitions that what is promised rests on, a line each, as definitions.awk says; with `all` the others
# too, with `links` where each word of them leads.
# The groups are 1, the claim and the laws of whole streams; 2, what C is told; 3, what the program writes and tells; 4, a picture that is
# open.
set -eu
export LC_ALL=C
cd "$(dirname "$0")/.."
roots() {
    echo "group=$1"
    shift
    for crate in "$@"; do
        ls crates/"$crate"/src/*.rt
    done
}
claim='avc_decoder avc_laws'
c='avc_c_picture avc_c'
program='avc_yuv avc_png avc_tools avc_pieces avc_presentation avc_sequence avc_console avc_formats avc_events avc_run avc_compare avc_info avc_selection avc_elements avc_objects avc_reading avc_macroblocks avc_stages avc_replay avc_container avc_explain avc_request'
command='avc_shell avc_progress avc_program avc_decode avc_cli'
open_picture=avc_picture
below=
for folder in crates/*; do
    name=${folder#crates/}
    case " $claim $c $program $command $open_picture " in
    *" $name "*) ;;
    *) below="$below $name" ;;
    esac
done
# shellcheck disable=SC2046,SC2086
awk ${1:+-v "$1=1"} -f scripts/definitions.awk $(find crates -path '*/out' -prune -o -path '*/specs/*.antt' -print | sort) \
    group=0 crates/*/src/lib.rt $(roots 1 $claim) $(roots 2 $c) $(roots 3 $program) private=1 $(roots 3 $command) private=0 $(roots 4 $open_picture) $(roots 0 $below)
