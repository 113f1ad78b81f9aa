/* access_units IN: tells where each access unit of a stream begins, in one line. It must be found alike where the bytes end with the first two
 * bytes of the next one's first unit, and not where they end before. Status: 0, else the line of the check that failed. */
#include <avcdec.h>
#include <stdio.h>
#include <stdlib.h>

#define CHECK(holds)            \
    do {                        \
        if (!(holds))           \
            exit(__LINE__);     \
    } while (0)

static uint8_t stream[1 << 24];

int main(int count, char **words) {
    FILE *in = count == 2 ? fopen(words[1], "rb") : NULL;
    CHECK(in != NULL);
    size_t length = fread(stream, 1, sizeof stream, in);
    CHECK(feof(in));
    fclose(in);
    for (size_t at = 0, size; at < length; at += size) {
        printf(at == 0 ? "%lu" : " %lu", (unsigned long)at);
        size = avcdec_access_unit_length(stream + at, length - at);
        if (size == 0)
            break;
        size_t start_code = stream[at + size + 2] == 1 ? 3 : 4;
        CHECK(avcdec_access_unit_length(stream + at, size + start_code + 2) == size);
        CHECK(avcdec_access_unit_length(stream + at, size + start_code + 1) == 0);
    }
    printf("\n");
    CHECK(avcdec_access_unit_length(stream, 0) == 0 && avcdec_access_unit_length(NULL, 0) == 0);
    return 0;
}
