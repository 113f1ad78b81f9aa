#!/bin/sh
# Where the instructions of the program go, by stage of decoding: instructions a macroblock on each stream of vectors/speed, by callgrind,
# reading and writing included. A function counts for the stage of its crate; what is inlined counts for the function that it stands in.
set -eu
top=$(cd "$(dirname "$0")/.." && pwd)
counts=$(mktemp)
table=$(mktemp)
trap 'rm -f "$counts" "$table"' EXIT
"$top/avcdec" compare --help >/dev/null
program=$top/crates/avc_cli/out/avc_cli
for stream in still:391680 call:36800 cif:11880 720p:21600 1080i:16320; do
    name=${stream%:*}
    valgrind --tool=callgrind --callgrind-out-file="$counts" "$program" decode <"$top/vectors/speed/$name.264" >/dev/null 2>&1
    callgrind_annotate --threshold=100 "$counts" | awk -v name="$name" -v macroblocks="${stream#*:}" '
        /PROGRAM TOTALS/ { gsub(",", "", $1); all = $1 }
        /^ *[0-9,]+ +\(/ && !/PROGRAM TOTALS/ {
            count = $1
            gsub(",", "", count)
            if (/avc_(bits|vlc|cavlc|mbsyntax|neigh)::/) stage = "syntax, residual blocks, neighbours"
            else if (/avc_motion::/) stage = "motion vectors"
            else if (/avc_inter::|avc_samples::|avc_picture_core::(inter|parts|rectangles|shape)::/) stage = "inter prediction"
            else if (/avc_intra::|avc_picture_core::(intra|luma4x4|luma16x16|chroma|around|sides|modes)::/) stage = "intra prediction"
            else if (/avc_transform::|avc_picture_core::residual::/) stage = "transforms and adding"
            else if (/avc_deblock::|avc_edges::|avc_picture::filter_rows::/) stage = "deblocking"
            else if (/__mem(set|cpy|move)/) stage = "clearing and copying"
            else next
            stages[stage] += count
        }
        END {
            rest = all
            for (stage in stages) { printf "%s\t%s\t%.0f\n", stage, name, stages[stage] / macroblocks; rest -= stages[stage] }
            printf "joining these, and output\t%s\t%.0f\n", name, rest / macroblocks
            printf "in all\t%s\t%.0f\n", name, all / macroblocks
        }' >>"$table"
done
printf '%-38s %8s %8s %8s %8s %8s\n' '' still call cif 720p 1080i
while read -r stage; do
    awk -F '\t' -v stage="$stage" '
        $1 == stage { of[$2] = $3 }
        END { printf "%-38s %8d %8d %8d %8d %8d\n", stage, of["still"], of["call"], of["cif"], of["720p"], of["1080i"] }' "$table"
done <<'STAGES'
syntax, residual blocks, neighbours
motion vectors
inter prediction
intra prediction
transforms and adding
deblocking
clearing and copying
joining these, and output
in all
STAGES
