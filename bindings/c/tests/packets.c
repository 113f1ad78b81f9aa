/* packets IN OUT: cuts a stream into packets for examples/c/call.c: four bytes with the length, and then one access unit. A slice
 * whose first_mb_in_slice is 0 begins one, with the units of other types before it. */
#include <stdbool.h>
#include <stdint.h>
#include <stdio.h>
#include <string.h>

static uint8_t stream[1 << 24];

/* Where the next start code begins, from a place on. */
static size_t next_start(size_t from, size_t length) {
    while (from + 3 <= length && memcmp(stream + from, "\0\0\1", 3) != 0)
        from++;
    return from + 3 <= length ? from : length;
}

static bool is_slice(size_t start) {
    uint8_t type = stream[start + 3] & 31;
    return type == 1 || type == 5;
}

static void put(size_t from, size_t to, FILE *out) {
    size_t size = to - from;
    for (int shift = 24; shift >= 0; shift -= 8)
        fputc((int)(size >> shift & 255), out);
    fwrite(stream + from, 1, size, out);
}

int main(int count, char **words) {
    FILE *in = count == 3 ? fopen(words[1], "rb") : NULL, *out = count == 3 ? fopen(words[2], "wb") : NULL;
    if (in == NULL || out == NULL)
        return 1;
    size_t length = fread(stream, 1, sizeof stream - 4, in);
    size_t from = next_start(0, length);
    bool full = false;
    for (size_t at = from; at < length; at = next_start(at + 3, length)) {
        if (full && (!is_slice(at) || stream[at + 4] >= 128)) {
            put(from, at, out);
            from = at;
            full = false;
        }
        full = full || is_slice(at);
    }
    put(from, length, out);
    fclose(in);
    return fclose(out);
}
