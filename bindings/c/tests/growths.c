/* growths IN: each growth of a stream's decoding is refused in turn, fed in pieces and unit by unit. The call answers so, and each call
 * after it until the decoder is reset, or closed and opened again; then the same events come as where nothing is refused. Whenever a
 * decoder was closed, at the end or in mid-stream, no block is left. Prints how many growths there were. */
#include <avcdec.h>
#include <stdio.h>
#include <stdlib.h>
#include <string.h>

#define CHECK(holds)                                                    \
    do {                                                                \
        if (!(holds)) {                                                 \
            fprintf(stderr, "line %d, growth %ld\n", __LINE__, refuse); \
            exit(1);                                                    \
        }                                                               \
    } while (0)

/* How many growths there were, which one is refused (0: none), and how many blocks are there. */
static long growths, refuse, blocks;

static void *allocate(size_t size) {
    if (++growths == refuse)
        return NULL;
    blocks++;
    return malloc(size);
}

static void *reallocate(void *block, size_t size) {
    return ++growths == refuse ? NULL : realloc(block, size);
}

static void release(void *block) {
    blocks--;
    free(block);
}

static uint8_t stream[1 << 22];
static size_t length;

/* What came: events, and a sum over all that they say and show. */
typedef struct given {
    uint64_t events, sum;
} given;

static void add(given *to, const uint8_t *bytes, size_t count) {
    for (size_t at = 0; at < count; at++)
        to->sum = to->sum * 1099511628211u + bytes[at] + 1;
}

/* To lend, to copy, to tell and to count take no memory and free none, and what is lent is what is copied. */
static void compare_lent(avcdec_decoder *decoder, uint8_t *samples) {
    long before = growths, held = blocks;
    for (uint32_t plane = AVCDEC_LUMA; plane <= AVCDEC_CR; plane++) {
        avcdec_rows lent;
        CHECK(avcdec_lend_plane(decoder, plane, &lent) == AVCDEC_OK);
        size_t size = (size_t)lent.columns * lent.rows;
        for (size_t y = 0; y < lent.rows; y++)
            CHECK(memcmp(lent.samples + y * lent.stride, samples + y * lent.columns, lent.columns) == 0);
        CHECK(avcdec_copy_plane(decoder, plane, samples, size, lent.columns) == AVCDEC_OK);
        for (size_t y = 0; y < lent.rows; y++)
            CHECK(memcmp(lent.samples + y * lent.stride, samples + y * lent.columns, lent.columns) == 0);
        samples += size;
    }
    avcdec_info info;
    CHECK(avcdec_picture_info(decoder, &info) == AVCDEC_OK && avcdec_turns(decoder) > 0 && growths == before && blocks == held);
}

static avcdec_status take_events(avcdec_decoder *decoder, given *to) {
    avcdec_event event;
    avcdec_status status;
    while ((status = avcdec_take(decoder, &event)) == AVCDEC_OK && event.kind != AVCDEC_NOTHING) {
        to->events++;
        add(to, (const uint8_t *)&event, sizeof event);
        if (event.kind == AVCDEC_PICTURE) {
            size_t size = avcdec_i420_size(&event);
            uint8_t *samples = (uint8_t *)malloc(size);
            CHECK(samples != NULL && avcdec_copy_i420(decoder, samples, size) == AVCDEC_OK);
            add(to, samples, size);
            compare_lent(decoder, samples);
            free(samples);
        }
    }
    return status;
}

/* Feeds at most 500 bytes, or a unit, with a mark, which takes no memory; *used says how many. */
static avcdec_status feed(avcdec_decoder *decoder, size_t at, bool by_unit, size_t *used) {
    long before = growths, held = blocks;
    CHECK(avcdec_mark(decoder, at) == AVCDEC_OK && growths == before && blocks == held);
    if (by_unit)
        return avcdec_feed_unit(decoder, stream + at, length - at, used);
    *used = length - at < 500 ? length - at : 500;
    return avcdec_feed(decoder, stream + at, *used);
}

/* The first status that is not OK, or OK. */
static avcdec_status decode(avcdec_decoder *decoder, bool by_unit, given *to) {
    avcdec_status status;
    for (size_t at = 0, used; at < length; at += used) {
        if ((status = feed(decoder, at, by_unit, &used)) != AVCDEC_OK)
            return status;
        if ((status = take_events(decoder, to)) != AVCDEC_OK)
            return status;
    }
    if ((status = avcdec_flush(decoder)) != AVCDEC_OK)
        return status;
    return take_events(decoder, to);
}

/* Nothing is left of a decoder that was closed. */
static void close_decoder(avcdec_decoder *decoder) {
    avcdec_close(decoder);
    CHECK(!decoder->open && blocks == 0);
}

/* Begins anew behind want of memory: by a reset, or by closing, which frees what the stream so far has brought. */
static void begin_anew(avcdec_decoder *decoder, bool by_closing) {
    if (by_closing) {
        close_decoder(decoder);
        CHECK(avcdec_open(decoder, false) == AVCDEC_OK);
    } else {
        CHECK(avcdec_reset(decoder) == AVCDEC_OK);
    }
}

/* One decoding, where growth `refuse` is refused. */
static given try_decoding(bool by_unit) {
    avcdec_decoder decoder = AVCDEC_DECODER_CLOSED;
    avcdec_event event;
    given all = {0, 0};
    growths = 0;
    if (avcdec_open(&decoder, false) != AVCDEC_OK) {
        CHECK(growths == refuse && !decoder.open && blocks == 0);
        CHECK(avcdec_open(&decoder, false) == AVCDEC_OK);
    }
    CHECK(avcdec_open(&decoder, true) == AVCDEC_IS_OPEN);
    avcdec_status status = decode(&decoder, by_unit, &all);
    if (status != AVCDEC_OK) {
        CHECK(status == AVCDEC_OUT_OF_MEMORY && growths == refuse);
        size_t used = 1;
        CHECK(avcdec_feed(&decoder, stream, 1) == AVCDEC_OUT_OF_MEMORY && avcdec_flush(&decoder) == AVCDEC_OUT_OF_MEMORY);
        CHECK(avcdec_mark(&decoder, 1) == AVCDEC_OUT_OF_MEMORY);
        CHECK(avcdec_feed_unit(&decoder, stream, 1, &used) == AVCDEC_OUT_OF_MEMORY && used == 0);
        CHECK(avcdec_take(&decoder, &event) == AVCDEC_OUT_OF_MEMORY && event.kind == AVCDEC_NOTHING);
        begin_anew(&decoder, refuse % 2 == 1);
        all.events = all.sum = 0;
        CHECK(decode(&decoder, by_unit, &all) == AVCDEC_OK);
    }
    close_decoder(&decoder);
    close_decoder(&decoder);
    return all;
}

int main(int count, char **words) {
    FILE *in = count == 2 ? fopen(words[1], "rb") : NULL;
    CHECK(in != NULL);
    length = fread(stream, 1, sizeof stream, in);
    CHECK(feof(in));
    fclose(in);
    avcdec_heap heap = {allocate, reallocate, release};
    avcdec_use_heap(&heap);
    long all = 0;
    for (int by_unit = 0; by_unit <= 1; by_unit++) {
        refuse = 0;
        given whole = try_decoding(by_unit == 1);
        long last = growths;
        CHECK(whole.events > 0 && last > 0);
        for (refuse = 1; refuse <= last; refuse++) {
            given again = try_decoding(by_unit == 1);
            CHECK(again.events == whole.events && again.sum == whole.sum);
        }
        all += last;
    }
    avcdec_use_heap(NULL);
    printf("%ld\n", all);
    return 0;
}
