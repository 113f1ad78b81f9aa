#!/bin/sh
# Tests the module for pages as it is used: its heap natively, all streams and the wrapper in Node, and in Chromium without a screen all
# streams, the worker, the decoder beside Chromium's own VideoDecoder, and the demo by screenshots. Each part ends in a line 'N passed, M failed', or
# says that it was left out and why; what it is at stands on standard error. MODULE names a module that is built already; else build.sh makes it. CC is the C compiler.
# Debian's packages: wabt nodejs chromium ffmpeg.
set -u
here=$(cd "$(dirname "$0")" && pwd)
# shellcheck source=scripts/say.sh
. "$here/../../scripts/say.sh"
work=$(mktemp -d)
trap 'hush; rm -rf "$work"' EXIT
trap 'exit 130' INT TERM
cc=${CC:-cc}
all_well=true

left_out() {
    echo "web, $1: left out: $2"
}

has() {
    command -v "$1" >/dev/null 2>&1
}

# runs a part by its name, which tells in its last line how many passed
part() {
    name=$1
    shift
    say "$name"
    tell_while echo "$name"
    timeout 900 "$@" >"$work/told" 2>&1
    status=$?
    hush
    sed '$d' "$work/told"
    last=$(tail -n 1 "$work/told")
    case $last in
    [0-9]*' passed, '*' failed') echo "web, $name: $last" ;;
    *)
        echo "$last"
        echo "web, $name: 0 passed, 1 failed"
        status=1
        ;;
    esac
    [ $status = 0 ] || all_well=false
}

say 'the module for pages is tested: its heap, in Node, and in Chromium'
if has "$cc"; then
    sanitizer=
    if echo 'int main(void) { return 0; }' >"$work/try.c" && "$cc" -fsanitize=address,undefined "$work/try.c" -o "$work/try" 2>/dev/null && "$work/try"; then
        sanitizer='-g -fsanitize=address,undefined'
    else
        left_out 'AddressSanitizer' "$cc has none"
    fi
    # shellcheck disable=SC2086
    if "$cc" -std=c11 -O2 -Wall -Wextra -Werror $sanitizer "$here/tests/heap.c" -o "$work/heap"; then
        for seed in 1 2 3; do part "the heap, seed $seed" "$work/heap" "$seed" 30000; done
    else
        echo 'web, the heap: 0 passed, 1 failed'
        all_well=false
    fi
else
    left_out 'the heap' 'there is no C compiler'
fi

if ! has node || [ "$(node -p 'Number(process.versions.node.split(".")[0])')" -lt 18 ]; then
    left_out 'the module' 'there is no node of version 18 or later'
    "$all_well"
    exit
fi
module=${MODULE:-}
if [ -z "$module" ]; then
    if ! has wasm-objdump; then
        left_out 'the module' 'there is no wasm-objdump to bound its stack'
        "$all_well"
        exit
    fi
    module=$work/avcdec.wasm
    say 'the module is built'
    tell_while echo 'the module is built'
    "$here/build.sh" "$module" || exit 1
    hush
fi
part 'calls in Node' node --expose-gc "$here/tests/node.mjs" "$module" calls
part 'all streams in Node' node "$here/tests/node.mjs" "$module" streams
part 'all streams in Node, sequences side by side' node "$here/tests/node.mjs" "$module" sequences

if has "${CHROMIUM:-chromium}"; then
    for words in calls streams; do
        say "Chromium: $words"
        tell_while echo "Chromium: $words"
        timeout 900 node "$here/tests/pages.mjs" "$module" $words || all_well=false
        hush
    done
else
    left_out 'Chromium' 'it is not there'
fi
"$all_well"
