/* decode [--early] IN OUT: decodes a byte stream (Annex B) and writes its pictures as I420, each as soon as it goes out; `-` is
 * standard input or output. Refusals go to standard error. Status: 0 all went well, 1 something was refused, 2 wrong words, 3 a file
 * cannot be read or written, 4 out of memory. */
#include <avcdec.h>
#include <stdio.h>
#include <string.h>

/* Bytes that are read at a time, and of rows that are gathered before they are written: more than a row has. */
enum { PIECE = 65536, GATHERED = 131072 };

enum { WELL = 0, REFUSED = 1, WORDS = 2, FILE_FAULT = 3, MEMORY = 4 };

/* Rows that wait to be written: a call of fwrite for each row would take a twentieth of the time. */
static uint8_t gathered[GATHERED];
static size_t waiting;

static bool write_gathered(FILE *out) {
    size_t length = waiting;
    waiting = 0;
    return fwrite(gathered, 1, length, out) == length;
}

/* Gathers the rows that are shown of a plane, from where they lie; writes where no more fit. */
static bool write_rows(const avcdec_rows *lent, FILE *out) {
    for (size_t y = 0; y < lent->rows; y++) {
        if (lent->columns > sizeof gathered - waiting && !write_gathered(out))
            return false;
        memcpy(gathered + waiting, lent->samples + y * lent->stride, lent->columns);
        waiting += lent->columns;
    }
    return true;
}

/* Writes what is shown of the picture that was taken last: luma, Cb, Cr. */
static int write_picture(avcdec_decoder *decoder, FILE *out) {
    for (uint32_t plane = AVCDEC_LUMA; plane <= AVCDEC_CR; plane++) {
        avcdec_rows lent;
        if (avcdec_lend_plane(decoder, plane, &lent) != AVCDEC_OK)
            return MEMORY; /* does not come: the event was a picture */
        if (!write_rows(&lent, out))
            return FILE_FAULT;
    }
    return write_gathered(out) ? WELL : FILE_FAULT;
}

static void tell_refusal(const avcdec_event *refusal) {
    char name[AVCDEC_NAME_SIZE];
    avcdec_fault_name(refusal->fault, name, sizeof name);
    fprintf(stderr, "refused unit %llu: %u %s\n", (unsigned long long)refusal->unit, (unsigned)refusal->fault, name);
}

/* Takes all events that have come. After a refusal the decoder goes on by itself. */
static int take_events(avcdec_decoder *decoder, FILE *out, bool *refused) {
    avcdec_event event;
    for (;;) {
        if (avcdec_take(decoder, &event) != AVCDEC_OK)
            return MEMORY;
        if (event.kind == AVCDEC_NOTHING)
            return WELL;
        if (event.kind == AVCDEC_PICTURE) {
            int status = write_picture(decoder, out);
            if (status != WELL)
                return status;
        } else {
            tell_refusal(&event);
            *refused = true;
        }
    }
}

/* Gives the bytes unit by unit, so that few pictures wait, however many the bytes bring. */
static int feed(avcdec_decoder *decoder, const uint8_t *bytes, size_t length, FILE *out, bool *refused) {
    int status = WELL;
    for (size_t at = 0, used; status == WELL && at < length; at += used) {
        if (avcdec_feed_unit(decoder, bytes + at, length - at, &used) != AVCDEC_OK)
            return MEMORY;
        status = take_events(decoder, out, refused);
    }
    return status;
}

static int decode(avcdec_decoder *decoder, FILE *in, FILE *out, bool *refused) {
    static uint8_t piece[PIECE];
    size_t length;
    while ((length = fread(piece, 1, sizeof piece, in)) > 0) {
        int status = feed(decoder, piece, length, out, refused);
        if (status != WELL)
            return status;
    }
    if (ferror(in))
        return FILE_FAULT;
    if (avcdec_flush(decoder) != AVCDEC_OK)
        return MEMORY;
    return take_events(decoder, out, refused);
}

int main(int count, char **words) {
    bool early = count > 1 && strcmp(words[1], "--early") == 0;
    if (count != (early ? 4 : 3)) {
        fprintf(stderr, "usage: decode [--early] IN OUT\n");
        return WORDS;
    }
    const char *from = words[count - 2], *to = words[count - 1];
    FILE *in = strcmp(from, "-") == 0 ? stdin : fopen(from, "rb");
    FILE *out = strcmp(to, "-") == 0 ? stdout : fopen(to, "wb");
    avcdec_decoder decoder = AVCDEC_DECODER_CLOSED;
    bool refused = false;
    int status = in == NULL || out == NULL ? FILE_FAULT : WELL;
    if (status == WELL && setvbuf(out, NULL, _IONBF, 0) != 0)
        status = FILE_FAULT;
    if (status == WELL && avcdec_open(&decoder, early) != AVCDEC_OK)
        status = MEMORY;
    if (status == WELL)
        status = decode(&decoder, in, out, &refused);
    avcdec_close(&decoder);
    if (out != NULL && fclose(out) != 0 && status == WELL)
        status = FILE_FAULT;
    if (in != NULL)
        fclose(in);
    return status != WELL ? status : refused ? REFUSED : WELL;
}
