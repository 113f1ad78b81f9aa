/* threads IN OUT: decodes a stream by many threads. Each piece is fed by a thread of its own, which finds the decoder in another place than
 * the thread before it, and takes its events; the planes of a picture are read by three threads at once. Two such decodings run beside each
 * other, and give the same. Writes and tells what examples/c/decode.c does. Status: 0 or 1 as that, else the line of the check that failed. */
#include <avcdec.h>
#include <pthread.h>
#include <stdio.h>
#include <stdlib.h>
#include <string.h>

#define CHECK(holds)            \
    do {                        \
        if (!(holds))           \
            exit(__LINE__);     \
    } while (0)

enum { PLANES = 3, DECODINGS = 2, PIECE = 1500, GAP = 0xA5 };

static uint8_t stream[1 << 24];
static size_t length;

/* What grows. */
typedef struct text {
    uint8_t *bytes;
    size_t length, room;
} text;

/* One decoding: its decoder, which is moved from call to call, how much was fed, and what came. */
typedef struct decoding {
    avcdec_decoder *decoder;
    size_t at;
    text pictures, refusals;
} decoding;

/* One plane, to be copied from where it is lent. */
typedef struct reading {
    avcdec_rows lent;
    uint8_t *to;
} reading;

static uint8_t *grow(text *what, size_t size) {
    if (what->length + size > what->room) {
        what->room = 2 * what->room + size;
        what->bytes = (uint8_t *)realloc(what->bytes, what->room);
        CHECK(what->bytes != NULL);
    }
    what->length += size;
    return what->bytes + what->length - size;
}

static void *read_plane(void *data) {
    reading *plane = (reading *)data;
    for (size_t y = 0; y < plane->lent.rows; y++)
        memcpy(plane->to + y * plane->lent.columns, plane->lent.samples + y * plane->lent.stride, plane->lent.columns);
    return NULL;
}

static void keep_picture(decoding *own, const avcdec_event *picture) {
    uint8_t *to = grow(&own->pictures, avcdec_i420_size(picture));
    reading planes[PLANES];
    pthread_t threads[PLANES];
    for (uint32_t plane = 0; plane < PLANES; plane++) {
        CHECK(avcdec_lend_plane(own->decoder, plane, &planes[plane].lent) == AVCDEC_OK);
        planes[plane].to = to;
        to += (size_t)planes[plane].lent.columns * planes[plane].lent.rows;
        CHECK(pthread_create(&threads[plane], NULL, read_plane, &planes[plane]) == 0);
    }
    for (uint32_t plane = 0; plane < PLANES; plane++)
        CHECK(pthread_join(threads[plane], NULL) == 0);
}

static void keep_refusal(decoding *own, const avcdec_event *refusal) {
    char name[AVCDEC_NAME_SIZE], line[AVCDEC_NAME_SIZE + 64];
    CHECK(avcdec_fault_name(refusal->fault, name, sizeof name) == AVCDEC_OK);
    int size = snprintf(line, sizeof line, "refused unit %llu: %u %s\n", (unsigned long long)refusal->unit, (unsigned)refusal->fault, name);
    memcpy(grow(&own->refusals, (size_t)size), line, (size_t)size);
}

static void take_events(decoding *own) {
    avcdec_event event;
    for (;;) {
        CHECK(avcdec_take(own->decoder, &event) == AVCDEC_OK);
        if (event.kind == AVCDEC_NOTHING)
            return;
        if (event.kind == AVCDEC_PICTURE)
            keep_picture(own, &event);
        else
            keep_refusal(own, &event);
    }
}

/* Moves the decoder elsewhere; where it was, other bytes stand. */
static void move_decoder(decoding *own) {
    avcdec_decoder *to = (avcdec_decoder *)malloc(sizeof *to);
    CHECK(to != NULL);
    *to = *own->decoder;
    memset(own->decoder, GAP, sizeof *own->decoder);
    free(own->decoder);
    own->decoder = to;
}

/* Feeds the next piece, or ends the stream; takes the events. */
static void *go_on(void *data) {
    decoding *own = (decoding *)data;
    move_decoder(own);
    size_t size = length - own->at < PIECE ? length - own->at : PIECE;
    CHECK(size == 0 ? avcdec_flush(own->decoder) == AVCDEC_OK : avcdec_feed(own->decoder, stream + own->at, size) == AVCDEC_OK);
    own->at += size;
    move_decoder(own);
    take_events(own);
    return NULL;
}

static void *decode(void *data) {
    static const avcdec_decoder closed = AVCDEC_DECODER_CLOSED;
    decoding *own = (decoding *)data;
    own->decoder = (avcdec_decoder *)malloc(sizeof *own->decoder);
    CHECK(own->decoder != NULL);
    *own->decoder = closed;
    CHECK(avcdec_open(own->decoder, false) == AVCDEC_OK);
    for (bool ended = false; !ended;) {
        pthread_t thread;
        ended = own->at == length;
        CHECK(pthread_create(&thread, NULL, go_on, own) == 0 && pthread_join(thread, NULL) == 0);
    }
    avcdec_close(own->decoder);
    free(own->decoder);
    return NULL;
}

static bool is_same(const text *one, const text *other) {
    return one->length == other->length && (one->length == 0 || memcmp(one->bytes, other->bytes, one->length) == 0);
}

int main(int count, char **words) {
    CHECK(count == 3);
    FILE *in = fopen(words[1], "rb"), *out = fopen(words[2], "wb");
    CHECK(in != NULL && out != NULL);
    length = fread(stream, 1, sizeof stream, in);
    CHECK(feof(in));
    static decoding decodings[DECODINGS];
    pthread_t threads[DECODINGS];
    for (int n = 0; n < DECODINGS; n++)
        CHECK(pthread_create(&threads[n], NULL, decode, &decodings[n]) == 0);
    for (int n = 0; n < DECODINGS; n++)
        CHECK(pthread_join(threads[n], NULL) == 0);
    CHECK(is_same(&decodings[0].pictures, &decodings[1].pictures) && is_same(&decodings[0].refusals, &decodings[1].refusals));
    CHECK(fwrite(decodings[0].pictures.bytes, 1, decodings[0].pictures.length, out) == decodings[0].pictures.length);
    CHECK(fwrite(decodings[0].refusals.bytes, 1, decodings[0].refusals.length, stderr) == decodings[0].refusals.length);
    fclose(in);
    CHECK(fclose(out) == 0);
    int status = decodings[0].refusals.length != 0;
    for (int n = 0; n < DECODINGS; n++) {
        free(decodings[n].pictures.bytes);
        free(decodings[n].refusals.bytes);
    }
    return status;
}
