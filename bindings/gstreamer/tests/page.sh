#!/bin/sh
# A page with an H.264 file in WebKit, under Xvfb: page.sh FOLDER, where FOLDER has the plugin. Status 0 where the picture is shown and the
# element says that it decoded it, 77 where something is not there.
set -u
here=$(cd "$(dirname "$0")" && pwd)
work=$1/page
mkdir -p "$work"
for need in Xvfb dbus-run-session python3 gst-launch-1.0; do
    command -v "$need" >/dev/null || { echo "$need is not there"; exit 77; }
done
pkg-config --exists webkit2gtk-4.1 || { echo 'WebKit (libwebkit2gtk-4.1-dev) is not there'; exit 77; }
# shellcheck disable=SC2046
${CC:-cc} -O1 -Wall -Wextra -o "$work/page" "$here/page.c" $(pkg-config --cflags --libs webkit2gtk-4.1) || exit 1
cd "$work" || exit 1
gst-launch-1.0 -q videotestsrc num-buffers=250 pattern=solid-color foreground-color=0xff20a040 ! \
    video/x-raw,format=I420,width=320,height=240,framerate=25/1 ! x264enc key-int-max=25 ! video/x-h264,profile=constrained-baseline ! \
    h264parse ! mp4mux ! filesink location=video.mp4 >/dev/null 2>&1 || { echo 'no file could be made'; exit 77; }
cat >index.html <<'HTML'
<!doctype html><body style="margin:0"><video src="video.mp4" width="320" height="240" autoplay muted loop></video></body>
HTML
python3 -m http.server --bind 127.0.0.1 46466 >/dev/null 2>&1 &
server=$!
trap 'kill "$server" "$display" 2>/dev/null' EXIT
Xvfb :46 -screen 0 640x480x24 >/dev/null 2>&1 &
display=$!
sleep 2
AVCDEC_PRIMARY=1 GST_REGISTRY=$work/registry DISPLAY=:46 WEBKIT_DISABLE_SANDBOX_THIS_IS_DANGEROUS=1 LIBGL_ALWAYS_SOFTWARE=1 GST_DEBUG=avcdec:4 \
    GST_DEBUG_NO_COLOR=1 GST_DEBUG_FILE=$work/log timeout 90 dbus-run-session ./page http://127.0.0.1:46466/ 32 160 64
shown=$?
grep -q 'decodes video/x-h264' "$work/log" || { echo 'the element did not decode it'; exit 1; }
exit "$shown"
