#!/bin/sh
# Builds the plugin: build.sh [FOLDER], into FOLDER/libgstavcdec.so (here unless named). Wants cc, pkg-config, GStreamer's development
# files (Debian: libgstreamer-plugins-base1.0-dev) and the installed library, which pkg-config finds as avcdec, and the plugin where it
# was then.
set -eu
here=$(cd "$(dirname "$0")" && pwd)
to=${1:-$here}
mkdir -p "$to"
# shellcheck disable=SC2046
${CC:-cc} ${CFLAGS:--O2} -Wall -Wextra -Wno-missing-field-initializers -shared -fPIC -o "$to/libgstavcdec.so" "$here/gstavcdec.c" \
    "-Wl,-rpath,$(pkg-config --variable=libdir avcdec)" $(pkg-config --cflags --libs --static avcdec gstreamer-1.0 gstreamer-video-1.0)
