/* pieces SEED IN OUT: decodes a stream in pieces of random sizes, some of them unit by unit, asks each question that does not fit on
 * the way, and compares each plane, copied and lent, with its part of the I420 copy. Writes and tells what examples/c/decode.c does. Status: 0 or 1 as that, else the line of the
 * check that failed. */
#include <avcdec.h>
#include <stdio.h>
#include <stdlib.h>
#include <string.h>

/* The number of lines must fit an exit status. */
#define CHECK(holds)            \
    do {                        \
        if (!(holds))           \
            exit(__LINE__);     \
    } while (0)

enum { GAP = 0xA5 };

static bool refused;

/* One plane with a stride of its own, against its part of the I420 copy. Answers where the next part begins. */
static const uint8_t *compare_plane(avcdec_decoder *decoder, const avcdec_event *picture, uint32_t plane, const uint8_t *part) {
    size_t columns = avcdec_plane_columns(picture, plane), rows = avcdec_plane_rows(picture, plane);
    size_t stride = columns + (size_t)(rand() % 5), size = stride * (rows - 1) + columns;
    uint8_t *memory = (uint8_t *)malloc(size + 1);
    CHECK(memory != NULL);
    memset(memory, GAP, size + 1);
    CHECK(avcdec_copy_plane(decoder, plane, memory, size - 1, stride) == AVCDEC_NO_ROOM);
    CHECK(avcdec_copy_plane(decoder, plane, memory, size, columns - 1) == AVCDEC_NO_ROOM);
    CHECK(rows == 1 || avcdec_copy_plane(decoder, plane, memory, size, SIZE_MAX) == AVCDEC_NO_ROOM);
    CHECK(memory[0] == GAP && memory[size - 1] == GAP);
    CHECK(avcdec_copy_plane(decoder, plane, memory, size, stride) == AVCDEC_OK);
    for (size_t at = 0; at <= size; at++) {
        size_t row = at / stride, column = at % stride;
        CHECK(memory[at] == (row < rows && column < columns ? part[row * columns + column] : GAP));
    }
    free(memory);
    avcdec_rows lent;
    CHECK(avcdec_lend_plane(decoder, plane, &lent) == AVCDEC_OK);
    CHECK(lent.columns == columns && lent.rows == rows && lent.stride >= columns && lent.length >= lent.stride * (rows - 1) + columns);
    for (size_t row = 0; row < rows; row++)
        CHECK(memcmp(lent.samples + row * lent.stride, part + row * columns, columns) == 0);
    return part + rows * columns;
}

/* Bytes that no call may touch. */
static bool is_untouched(const avcdec_rows *rows) {
    return rows->samples == NULL && rows->length == GAP && rows->stride == GAP && rows->columns == GAP && rows->rows == GAP;
}

static void write_picture(avcdec_decoder *decoder, const avcdec_event *picture, FILE *out) {
    size_t size = avcdec_i420_size(picture);
    uint8_t *samples = (uint8_t *)malloc(size + 1);
    CHECK(samples != NULL);
    samples[size] = GAP;
    CHECK(avcdec_copy_i420(decoder, samples, size - 1) == AVCDEC_NO_ROOM);
    CHECK(avcdec_copy_i420(decoder, samples, size + 1) == AVCDEC_OK);
    CHECK(samples[size] == GAP);
    const uint8_t *part = samples;
    for (uint32_t plane = AVCDEC_LUMA; plane <= AVCDEC_CR; plane++)
        part = compare_plane(decoder, picture, plane, part);
    CHECK(part == samples + size);
    avcdec_rows lent = {NULL, GAP, GAP, GAP, GAP};
    CHECK(avcdec_copy_plane(decoder, 3, samples, size, size) == AVCDEC_NO_PLANE);
    CHECK(avcdec_lend_plane(decoder, 3, &lent) == AVCDEC_NO_PLANE && avcdec_lend_plane(decoder, UINT32_MAX, &lent) == AVCDEC_NO_PLANE);
    CHECK(is_untouched(&lent));
    CHECK(fwrite(samples, 1, size, out) == size);
    free(samples);
}

static void tell_refusal(avcdec_decoder *decoder, const avcdec_event *refusal) {
    char name[AVCDEC_NAME_SIZE], other[AVCDEC_NAME_SIZE];
    uint8_t byte = 0;
    CHECK(avcdec_fault_name(refusal->fault, name, sizeof name) == AVCDEC_OK);
    CHECK(avcdec_fault_name(refusal->fault, other, strlen(name)) == AVCDEC_NO_ROOM);
    CHECK(avcdec_fault_name(refusal->fault, other, strlen(name) + 1) == AVCDEC_OK);
    CHECK(strcmp(name, other) == 0);
    CHECK(avcdec_fault_name(0, name, sizeof name) == AVCDEC_NO_FAULT && avcdec_fault_name(UINT32_MAX, name, sizeof name) == AVCDEC_NO_FAULT);
    CHECK(avcdec_copy_i420(decoder, &byte, 1) == AVCDEC_NO_PICTURE);
    CHECK(avcdec_copy_plane(decoder, AVCDEC_LUMA, &byte, 1, 1) == AVCDEC_NO_PICTURE);
    avcdec_rows lent = {NULL, GAP, GAP, GAP, GAP};
    CHECK(avcdec_lend_plane(decoder, AVCDEC_LUMA, &lent) == AVCDEC_NO_PICTURE && is_untouched(&lent));
    fprintf(stderr, "refused unit %llu: %u %s\n", (unsigned long long)refusal->unit, (unsigned)refusal->fault, other);
    refused = true;
}

static void take_events(avcdec_decoder *decoder, FILE *out) {
    for (;;) {
        avcdec_event event;
        memset(&event, GAP, sizeof event);
        CHECK(avcdec_take(decoder, &event) == AVCDEC_OK);
        if (event.kind == AVCDEC_NOTHING)
            return;
        if (event.kind == AVCDEC_PICTURE) {
            CHECK(event.fault == 0 && event.value == 0);
            write_picture(decoder, &event, out);
        } else {
            CHECK(event.kind == AVCDEC_REFUSED && event.width == 0 && event.crop_left == 0 && event.value == 0);
            tell_refusal(decoder, &event);
        }
    }
}

/* Each status has a name of its own, and no other number has. */
static void compare_status_names(void) {
    const char *none = avcdec_status_name(AVCDEC_NO_VALUE + 1);
    CHECK(strcmp(none, "no such status") == 0 && strcmp(avcdec_status_name(UINT32_MAX), none) == 0);
    for (avcdec_status status = AVCDEC_OK; status <= AVCDEC_NO_VALUE; status++)
        for (avcdec_status other = status + 1; other <= AVCDEC_NO_VALUE + 1; other++)
            CHECK(strcmp(avcdec_status_name(status), avcdec_status_name(other)) != 0);
    CHECK(strcmp(avcdec_status_name(AVCDEC_NO_ROOM), "too little room") == 0);
}

static void closed_calls(avcdec_decoder *decoder) {
    avcdec_event event;
    uint8_t byte = GAP;
    memset(&event, GAP, sizeof event);
    CHECK(avcdec_feed(decoder, &byte, 1) == AVCDEC_CLOSED);
    CHECK(avcdec_flush(decoder) == AVCDEC_CLOSED);
    CHECK(avcdec_reset(decoder) == AVCDEC_CLOSED);
    CHECK(avcdec_take(decoder, &event) == AVCDEC_CLOSED && event.kind == GAP * 0x01010101u);
    CHECK(avcdec_copy_i420(decoder, &byte, 1) == AVCDEC_CLOSED);
    CHECK(avcdec_copy_plane(decoder, AVCDEC_LUMA, &byte, 1, 1) == AVCDEC_CLOSED);
    avcdec_rows lent = {NULL, GAP, GAP, GAP, GAP};
    CHECK(avcdec_lend_plane(decoder, AVCDEC_LUMA, &lent) == AVCDEC_CLOSED && is_untouched(&lent));
    size_t used = GAP;
    CHECK(avcdec_feed_unit(decoder, &byte, 1, &used) == AVCDEC_CLOSED && used == 0);
    CHECK(avcdec_turns(decoder) == 0 && byte == GAP);
    avcdec_close(decoder);
}

/* Feeds unit by unit. After each the events are taken, or wait for a later one. */
static void feed_units(avcdec_decoder *decoder, const uint8_t *bytes, size_t length, FILE *out) {
    for (size_t at = 0; at < length;) {
        size_t used = 0;
        CHECK(avcdec_feed_unit(decoder, bytes + at, length - at, &used) == AVCDEC_OK);
        CHECK(used > 0 && used <= length - at);
        at += used;
        if (rand() % 4 != 0)
            take_events(decoder, out);
    }
}

/* Pieces of all sizes, the more small ones the smaller the stream may be. */
static size_t piece_size(size_t most) {
    size_t bound = rand() % 3 == 0 ? 8 : rand() % 2 == 0 ? 3000 : most;
    return (size_t)rand() % bound + 1;
}

int main(int count, char **words) {
    CHECK(count == 4);
    srand((unsigned)atoi(words[1]));
    FILE *in = fopen(words[2], "rb"), *out = fopen(words[3], "wb");
    CHECK(in != NULL && out != NULL);
    CHECK(avcdec_version() == 65536 * AVCDEC_VERSION_MAJOR + 256 * AVCDEC_VERSION_MINOR + AVCDEC_VERSION_PATCH);
    compare_status_names();
    avcdec_decoder decoder = AVCDEC_DECODER_CLOSED;
    closed_calls(&decoder);
    CHECK(avcdec_open(&decoder, false) == AVCDEC_OK);
    CHECK(avcdec_open(&decoder, true) == AVCDEC_IS_OPEN);
    static uint8_t piece[65536];
    size_t length;
    while ((length = fread(piece, 1, piece_size(sizeof piece), in)) > 0) {
        if (rand() % 2 == 0)
            feed_units(&decoder, piece, length, out);
        else
            CHECK(avcdec_feed(&decoder, piece, length) == AVCDEC_OK);
        if (rand() % 4 != 0)
            take_events(&decoder, out);
    }
    size_t used = GAP;
    CHECK(avcdec_feed(&decoder, NULL, 0) == AVCDEC_OK);
    CHECK(avcdec_feed_unit(&decoder, NULL, 0, &used) == AVCDEC_OK && used == 0);
    CHECK(avcdec_flush(&decoder) == AVCDEC_OK);
    CHECK(avcdec_feed(&decoder, piece, 1) == AVCDEC_ENDED && avcdec_flush(&decoder) == AVCDEC_ENDED);
    CHECK(avcdec_feed_unit(&decoder, piece, 1, &used) == AVCDEC_ENDED && used == 0);
    take_events(&decoder, out);
    avcdec_close(&decoder);
    closed_calls(&decoder);
    fclose(in);
    CHECK(fclose(out) == 0);
    return refused ? 1 : 0;
}
