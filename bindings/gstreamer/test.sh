#!/bin/sh
# Tests the element as it is used: test.sh [--short] [PREFIX], where the library is installed in PREFIX (else it is built and installed in
# a folder that goes again). --short leaves out what takes minutes or a network: live sources, seeking, RTP, valgrind, WebKit. Wants cc,
# pkg-config, GStreamer's tools, plugins (base, good, bad, ugly) and development files, and the program of the repository; a part that
# lacks something says so. The last line is 'N passed, M failed'; how far it is stands on standard error.
set -u
here=$(cd "$(dirname "$0")" && pwd)
top=$(cd "$here/../.." && pwd)
# shellcheck source=scripts/say.sh
. "$top/scripts/say.sh"
program=$top/crates/avc_cli/out/avc_cli
work=$(mktemp -d)
trap 'hush; rm -rf "$work"' EXIT
trap 'exit 130' INT TERM
passed=0
failed=0
short=
if [ "${1:-}" = --short ]; then
    short=1
    shift
fi

left_out() {
    echo "left out: $1: $2"
}

say 'what is there of GStreamer is looked for'
GST_REGISTRY=$work/registry
export GST_REGISTRY

# What is missing is named, with Debian's package that has it.
lacking=
lacks() {
    lacking="$lacking${lacking:+, }$1 (Debian: $2)"
}

# what of these elements GStreamer does not know
package_of() {
    case $1 in
    x264enc) echo gstreamer1.0-plugins-ugly ;;
    capssetter | qtmux | qtdemux | rtp* | udp*) echo gstreamer1.0-plugins-good ;;
    *) echo gstreamer1.0-plugins-bad ;;
    esac
}

has() {
    lacking=
    for element in "$@"; do
        gst-inspect-1.0 "$element" >/dev/null 2>&1 || lacks "the element $element" "$(package_of "$element")"
    done
    [ -z "$lacking" ]
}

command -v gst-launch-1.0 >/dev/null || lacks gst-launch-1.0 gstreamer1.0-tools
command -v pkg-config >/dev/null || lacks pkg-config pkgconf
command -v "${CC:-cc}" >/dev/null || lacks "${CC:-cc}" gcc
if command -v pkg-config >/dev/null; then
    for module in gstreamer-1.0:libgstreamer1.0-dev gstreamer-check-1.0:libgstreamer1.0-dev gstreamer-video-1.0:libgstreamer-plugins-base1.0-dev \
        gstreamer-app-1.0:libgstreamer-plugins-base1.0-dev; do
        why=$(pkg-config --print-errors --exists "${module%:*}" 2>&1) ||
            lacks "the development files ${module%:*}: $(echo "$why" | tail -n 1)" "${module#*:}"
    done
fi
if [ -n "$lacking" ] || ! has h264parse; then
    left_out 'the GStreamer element' "not there: $lacking"
    exit 0
fi
say 'the element is built and tried'
"$top/avcdec" compare --help >/dev/null || exit 1
prefix=${1:-$work/prefix}
[ $# -gt 0 ] || LIBRARY_ONLY=1 "$top/scripts/install.sh" "$prefix" || exit 1
PKG_CONFIG_PATH=$prefix/lib/pkgconfig${PKG_CONFIG_PATH:+:$PKG_CONFIG_PATH}
export PKG_CONFIG_PATH
"$here/build.sh" "$work" || exit 1
# shellcheck disable=SC2046
${CC:-cc} -O1 -Wall -Wextra -o "$work/element" "$here/tests/element.c" \
    $(pkg-config --cflags --libs gstreamer-1.0 gstreamer-video-1.0 gstreamer-check-1.0 gstreamer-app-1.0) || exit 1
GST_PLUGIN_PATH=$work
export GST_PLUGIN_PATH

holds() {
    name=$1
    shift
    if "$@"; then
        passed=$((passed + 1))
    else
        failed=$((failed + 1))
        echo "failed: $name"
    fi
    reached "$name"
}
reached 'the start'
tell_while cat "$work/reached"

# runs a test of element.c and adds what it counts
counted() {
    timeout 200 "$work/element" "$@" >"$work/told" 2>"$work/noise"
    line=$(grep -E '^[0-9]+ passed, [0-9]+ failed$' "$work/told" | tail -n 1)
    if [ -z "$line" ]; then
        failed=$((failed + 1))
        echo "failed: $1 did not end"
        return
    fi
    passed=$((passed + $(echo "$line" | cut -d ' ' -f 1)))
    failed=$((failed + $(echo "$line" | cut -d ' ' -f 3)))
    grep '^failed' "$work/told"
}

# whether a pipeline writes the pictures that the stream's md5 says
is_decoded() {
    timeout 100 gst-launch-1.0 -q filesrc location="$1.264" ! h264parse ! avcdec ! filesink location="$work/pictures" >"$work/told" 2>&1
    [ "$(md5sum <"$work/pictures" | cut -d ' ' -f 1)" = "$(cut -d ' ' -f 1 <"$1.md5")" ]
}

# whether the program finds as many pictures of 320x240 and refusals in the bytes that the element was given as came out of it
agrees() {
    "$program" decode <"$work/live.264" >"$work/pictures" 2>"$work/refused"
    echo "pictures $(($(wc -c <"$work/pictures") / 115200)) refusals $(wc -l <"$work/refused")" >"$work/of_program"
    grep '^pictures' "$work/told" | cut -d ' ' -f 1-4 | cmp -s - "$work/of_program"
}

# files: the same pictures as the program
for stream in encoder/pub_x_aud encoder/pub_x_keyint3 encoder/pub_x_allintra encoder/pub_o_idr_listing speed/cif speed/720p speed/call; do
    holds "pictures of $stream" is_decoded "$top/vectors/$stream"
done

# The two lines of README.md, as they stand there but for the folders: by them alone the element is known, with the licence and the origin
# that it has, and no file stands on the list of those that could not be loaded.
is_built_by_readme() {
    sed -n 's/^    \(PKG_CONFIG_PATH=PREFIX.*\)/\1/p; s/^    \(GST_PLUGIN_PATH=FOLDER.*\)/\1/p' "$here/README.md" |
        sed "s|PREFIX|$prefix|; s|FOLDER|$work/by_readme|" >"$work/lines"
    [ "$(wc -l <"$work/lines")" = 2 ] || return 1
    (
        unset GST_PLUGIN_PATH LD_LIBRARY_PATH
        GST_REGISTRY=$work/fresh
        export GST_REGISTRY
        cd "$top" && sh -e "$work/lines" >"$work/told" 2>"$work/noise" || { cat "$work/noise"; exit 1; }
        GST_PLUGIN_PATH=$work/by_readme gst-inspect-1.0 --print-blacklist >"$work/listed" 2>&1
        ! grep -q avcdec "$work/listed"
    ) && grep -q 'License  *unknown' "$work/told" && grep -q 'Origin URL  *Unknown package origin' "$work/told"
}

holds 'the two lines of README.md' is_built_by_readme

# the first pipeline of README.md, with a file for the screen
is_played_by_readme() {
    stream=$top/vectors/encoder/pub_x_keyint3
    mkdir -p "$work/film"
    ffmpeg -v error -nostdin -i "$stream.264" -c copy "$work/film/in.mp4" >"$work/told" 2>&1 || return 1
    line=$(sed -n 's/^    \(gst-launch-1.0 filesrc location=in.mp4 .*\)/\1/p' "$here/README.md" | sed 's/videoconvert ! autovideosink/filesink location=pictures/')
    (cd "$work/film" && timeout 100 sh -c "$line" >"$work/told" 2>&1)
    [ "$(md5sum <"$work/film/pictures" | cut -d ' ' -f 1)" = "$(cut -d ' ' -f 1 <"$stream.md5")" ]
}

has qtdemux
command -v ffmpeg >/dev/null || lacks ffmpeg ffmpeg
if [ -z "$lacking" ]; then
    holds 'the first pipeline of README.md' is_played_by_readme
else
    left_out 'the first pipeline of README.md' "not there: $lacking"
fi

# whether of a stream of profile Main that has none of its tools nothing is negotiated, and all pictures come where it is called Constrained
# Baseline, as README.md says
is_main_as_told() {
    timeout 100 gst-launch-1.0 -q filesrc location="$1.264" ! h264parse ! avcdec ! filesink location="$work/none" >"$work/told" 2>&1 && return 1
    grep -q 'not-negotiated' "$work/told" && [ ! -s "$work/none" ] || return 1
    # shellcheck disable=SC2016 # the marks are those of the text
    words=$(sed -n 's/.*`h264parse ! \(capssetter [^ ]*\) ! avcdec`.*/\1/p' "$here/README.md")
    # shellcheck disable=SC2086 # they are words
    timeout 100 gst-launch-1.0 -q filesrc location="$1.264" ! h264parse ! $words ! avcdec ! filesink location="$work/pictures" >"$work/told" 2>&1
    [ "$(md5sum <"$work/pictures" | cut -d ' ' -f 1)" = "$(cut -d ' ' -f 1 <"$1.md5")" ]
}

if has capssetter; then
    holds 'a stream of profile Main' is_main_as_told "$top/vectors/weighted/wgt_fade_in"
else
    left_out 'a stream of profile Main' "not there: $lacking"
fi

# by itself: caps, times, flush, end
counted caps
counted times
counted flush
counted end

if [ -n "$short" ]; then
    echo "$passed passed, $failed failed"
    [ "$failed" = 0 ] && [ "$passed" -gt 0 ]
    exit
fi

# live, with losses and damage
x264='x264enc tune=zerolatency aud=true key-int-max=30 bitrate=500 speed-preset=ultrafast ! video/x-h264,profile=constrained-baseline'
if has x264enc; then
    for words in '0 0' '0.1 0' '0 7'; do
        # shellcheck disable=SC2086
        counted live "$x264" $words "$work/live.264"
        holds "x264enc, lost and damaged: $words: as the program" agrees
    done
else
    left_out 'live by x264enc' "not there: $lacking"
fi
if has openh264enc; then
    for words in '0 0' '0.1 0' '0.05 9'; do
        # shellcheck disable=SC2086
        counted live 'openh264enc gop-size=30' $words "$work/live.264"
        holds "openh264enc, lost and damaged: $words: as the program" agrees
    done
else
    left_out 'live by openh264enc' "not there: $lacking"
fi

# a file, by seeking
if has x264enc qtmux qtdemux; then
    gst-launch-1.0 -q videotestsrc num-buffers=200 pattern=ball ! video/x-raw,format=I420,width=320,height=240,framerate=25/1 ! \
        x264enc key-int-max=25 ! video/x-h264,profile=constrained-baseline ! h264parse ! qtmux ! filesink location="$work/file.mp4" >/dev/null 2>&1
    counted seek "$work/file.mp4"
else
    left_out 'seeking' "not there: $lacking"
fi

# a call, with losses
if has x264enc rtph264pay rtph264depay rtpjitterbuffer udpsrc udpsink; then
    counted rtp
else
    left_out 'RTP' "not there: $lacking"
fi

# no error and no leak
if command -v valgrind >/dev/null; then
    checked() {
        G_SLICE=always-malloc timeout 300 valgrind -q --error-exitcode=99 --leak-check=full --show-leak-kinds=definite \
            --errors-for-leak-kinds=definite --suppressions="$here/tests/glib.supp" "$@" >"$work/told" 2>"$work/noise"
        [ $? != 99 ]
    }
    for words in caps times flush end; do
        holds "valgrind: $words" checked "$work/element" "$words"
    done
    holds 'valgrind: a file' checked gst-launch-1.0 -q filesrc location="$top/vectors/encoder/pub_x_aud.264" ! h264parse ! avcdec ! fakesink
    if has x264enc; then
        holds 'valgrind: live, lost and damaged' checked "$work/element" live "$x264" 0.05 9 "$work/live.264"
    fi
else
    left_out 'valgrind' 'not there: valgrind (Debian: valgrind)'
fi

# a page in WebKit; page.sh says itself what is missing
if [ -x "$here/tests/page.sh" ]; then
    "$here/tests/page.sh" "$work" >"$work/told" 2>&1
    case $? in
    0) passed=$((passed + 1)) ;;
    77) left_out 'a page in WebKit' "$(tail -n 1 "$work/told")" ;;
    *)
        failed=$((failed + 1))
        echo 'failed: a page in WebKit'
        tail -n 5 "$work/told"
        ;;
    esac
fi

echo "$passed passed, $failed failed"
[ "$failed" = 0 ] && [ "$passed" -gt 0 ]
