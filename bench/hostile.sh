#!/bin/sh
# What streams cost whose sender chose it: for each of vectors/hostile, decoded by the program, the millions of processor instructions by
# callgrind, the most resident memory in MiB, and how many writes the output took. Wants valgrind and a C compiler.
set -eu
top=$(cd "$(dirname "$0")/.." && pwd)
work=$(mktemp -d)
trap 'rm -rf "$work"' EXIT
cat >"$work/watch.c" <<'C'
#define _GNU_SOURCE
#include <dlfcn.h>
#include <stdio.h>
#include <stdlib.h>
#include <string.h>
#include <unistd.h>

static long writes;

ssize_t write(int file, const void *bytes, size_t count) {
    static ssize_t (*real)(int, const void *, size_t);
    if (!real) real = (ssize_t (*)(int, const void *, size_t))dlsym(RTLD_NEXT, "write");
    writes += file == 1;
    return real(file, bytes, count);
}

// the greatest resident size so far, in KiB (proc(5))
static long resident(void) {
    char line[256];
    long size = 0;
    FILE *status = fopen("/proc/self/status", "r");
    while (status && fgets(line, sizeof line, status))
        if (strncmp(line, "VmHWM:", 6) == 0) size = atol(line + 6);
    return size;
}

__attribute__((destructor)) static void tell(void) {
    FILE *out = fopen(getenv("WATCHED"), "w");
    if (out) fprintf(out, "%.1f %ld\n", resident() / 1024.0, writes);
}
C
${CC:-cc} -O2 -shared -fPIC -o "$work/watch.so" "$work/watch.c" -ldl
"$top/avcdec" compare --help >/dev/null
program=$top/crates/avc_cli/out/avc_cli
printf '%-28s %18s %14s %8s\n' stream 'million instructions' 'resident MiB' writes
for stream in "$top"/vectors/hostile/*.264; do
    count=$(valgrind --tool=callgrind --callgrind-out-file=/dev/null "$program" decode <"$stream" 2>&1 >/dev/null | sed -n 's/.*Collected : //p')
    WATCHED=$work/watched LD_PRELOAD=$work/watch.so "$program" decode <"$stream" >/dev/null 2>&1 || true
    read -r resident writes <"$work/watched"
    printf '%-28s %18.1f %14s %8s\n' "$(basename "$stream" .264)" "$(echo "$count" | awk '{ print $1 / 1e6 }')" "$resident" "$writes"
done
