#!/bin/sh
# Sees that the documents that scripts make are up to date, and that nothing makes up want of memory; proves every crate from nothing,
# tries the edits that must fail, and runs the tests; then decodes the streams of vectors/ with the built program, refuses each growth of
# memory once, and tests the library with its bindings, for ARM64 too, the GStreamer element and the module for pages, where their tools
# are there, and builds the benchmarks. Each part that counts ends in a line 'N passed, 0 failed', and says all the time what it is at, which is
# tested by heard.py.
set -eu
cd "$(dirname "$0")"
scripts/documents.sh check
scripts/refusals.sh
# one processor a proof: two take a third more of their time for it
RT_JOBS=${RT_JOBS:-$(scripts/prove.py --at-once)} rt ci
scripts/heard.py vectors/run.sh
scripts/heard.py vectors/compare.sh
scripts/heard.py vectors/growths.sh
scripts/heard.py scripts/test-library.sh
scripts/heard.py bindings/gstreamer/test.sh --short
scripts/heard.py bindings/web/test.sh
scripts/heard.py bench/build.sh
