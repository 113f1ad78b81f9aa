/* call IN OUT: decodes as a call does. Packets come one at a time, and each picture is wanted at once. A packet stands in the file as
 * four bytes with its length, the first the most significant, and then one access unit (Annex B).
 *
 * Each picture is written as I420, row by row from where it lies, as a screen would take it. After a loss the decoder waits for the
 * next IDR picture by itself, so a call asks its sender for one and goes on feeding. Only want of memory needs a reset.
 *
 * Status as that of decode.c. */
#include <avcdec.h>
#include <stdio.h>
#include <stdlib.h>

/* Bytes that are gathered before they are written. */
enum { GATHERED = 262144 };

enum { WELL = 0, REFUSED = 1, WORDS = 2, FILE_FAULT = 3, MEMORY = 4 };

/* One packet of a call. */
typedef struct packet {
    uint8_t *bytes;
    size_t length, room;
} packet;

static bool make_room(uint8_t **memory, size_t *room, size_t size) {
    if (size > *room) {
        uint8_t *larger = (uint8_t *)realloc(*memory, size);
        if (larger == NULL)
            return false;
        *memory = larger;
        *room = size;
    }
    return true;
}

/* 1 for a packet, 0 at the end of the file, -1 where the file breaks off, -2 for want of memory. */
static int next_packet(FILE *in, packet *to) {
    uint8_t head[4];
    size_t got = fread(head, 1, sizeof head, in);
    if (got == 0)
        return 0;
    if (got < sizeof head)
        return -1;
    to->length = (size_t)head[0] << 24 | (size_t)head[1] << 16 | (size_t)head[2] << 8 | head[3];
    if (!make_room(&to->bytes, &to->room, to->length))
        return -2;
    return fread(to->bytes, 1, to->length, in) == to->length ? 1 : -1;
}

/* A screen would take each plane as it is lent: its address and its stride. */
static int show_picture(avcdec_decoder *decoder, FILE *out) {
    for (uint32_t plane = AVCDEC_LUMA; plane <= AVCDEC_CR; plane++) {
        avcdec_rows lent;
        if (avcdec_lend_plane(decoder, plane, &lent) != AVCDEC_OK)
            return MEMORY; /* does not come: the event was a picture */
        for (size_t y = 0; y < lent.rows; y++)
            if (fwrite(lent.samples + y * lent.stride, 1, lent.columns, out) != lent.columns)
                return FILE_FAULT;
    }
    return WELL;
}

/* A call would send a request for an IDR picture here (a picture loss indication). */
static void ask_for_idr_picture(const avcdec_event *refusal) {
    char name[AVCDEC_NAME_SIZE];
    avcdec_fault_name(refusal->fault, name, sizeof name);
    fprintf(stderr, "refused unit %llu: %u %s\n", (unsigned long long)refusal->unit, (unsigned)refusal->fault, name);
}

/* Takes all events that have come. */
static int take_events(avcdec_decoder *decoder, FILE *out, bool *refused) {
    avcdec_event event;
    while (avcdec_take(decoder, &event) == AVCDEC_OK) {
        int status = WELL;
        if (event.kind == AVCDEC_NOTHING)
            return WELL;
        if (event.kind == AVCDEC_PICTURE) {
            status = show_picture(decoder, out);
        } else {
            ask_for_idr_picture(&event);
            *refused = true;
        }
        if (status != WELL)
            return status;
    }
    return MEMORY;
}

/* Feeds one packet unit by unit, and its end. */
static int feed_packet(avcdec_decoder *decoder, const packet *given, FILE *out, bool *refused) {
    int status = WELL;
    for (size_t at = 0, used; status == WELL && at < given->length; at += used) {
        if (avcdec_feed_unit(decoder, given->bytes + at, given->length - at, &used) != AVCDEC_OK)
            return MEMORY;
        status = take_events(decoder, out, refused);
    }
    if (status == WELL && avcdec_end_access_unit(decoder) != AVCDEC_OK)
        return MEMORY;
    return status == WELL ? take_events(decoder, out, refused) : status;
}

/* Where no memory is found, the stream begins anew: what the packet held is lost, and so is what was decoded. */
static int take_packet(avcdec_decoder *decoder, const packet *given, FILE *out, bool *refused) {
    int status = feed_packet(decoder, given, out, refused);
    if (status != MEMORY)
        return status;
    fprintf(stderr, "out of memory: the call begins anew\n");
    *refused = true;
    avcdec_reset(decoder);
    return WELL;
}

int main(int count, char **words) {
    if (count != 3) {
        fprintf(stderr, "usage: call IN OUT\n");
        return WORDS;
    }
    FILE *in = fopen(words[1], "rb"), *out = fopen(words[2], "wb");
    avcdec_decoder decoder = AVCDEC_DECODER_CLOSED;
    static char gathered[GATHERED];
    packet given = {NULL, 0, 0};
    bool refused = false;
    int got = 0, status = in == NULL || out == NULL ? FILE_FAULT : WELL;
    if (status == WELL && setvbuf(out, gathered, _IOFBF, sizeof gathered) != 0)
        status = FILE_FAULT;
    if (status == WELL && avcdec_open(&decoder, true) != AVCDEC_OK)
        status = MEMORY;
    while (status == WELL && (got = next_packet(in, &given)) > 0)
        status = take_packet(&decoder, &given, out, &refused);
    if (status == WELL && got < 0)
        status = got == -1 ? FILE_FAULT : MEMORY;
    if (status == WELL && avcdec_flush(&decoder) == AVCDEC_OK)
        status = take_events(&decoder, out, &refused);
    avcdec_close(&decoder);
    free(given.bytes);
    if (out != NULL && fclose(out) != 0 && status == WELL)
        status = FILE_FAULT;
    if (in != NULL)
        fclose(in);
    return status != WELL ? status : refused ? REFUSED : WELL;
}
