/* bench IN SECONDS read|copied|cpu: pictures a second of the library, as page.mjs measures them: access units, early output; each picture's planes
 * are read where they lie, or it is copied as I420; or they are read and the time is that of the processor. */
#include <avcdec.h>
#include <stdio.h>
#include <stdlib.h>
#include <string.h>
#include <time.h>

static uint8_t bytes[1 << 22], *samples;
static size_t room, cuts[100000], count;
static unsigned long pictures, sum;
static bool copies;
static clockid_t clock_used = CLOCK_MONOTONIC;

static double now(void) {
    struct timespec time;
    clock_gettime(clock_used, &time);
    return (double)time.tv_sec + (double)time.tv_nsec * 1e-9;
}

static void take_events(avcdec_decoder *decoder) {
    avcdec_event event;
    avcdec_rows rows;
    while (avcdec_take(decoder, &event) == AVCDEC_OK && event.kind != AVCDEC_NOTHING) {
        if (event.kind != AVCDEC_PICTURE)
            continue;
        pictures++;
        if (!copies) {
            avcdec_lend_plane(decoder, AVCDEC_LUMA, &rows);
            sum += rows.samples[0];
            continue;
        }
        size_t size = avcdec_i420_size(&event);
        if (size > room) {
            free(samples);
            samples = malloc(size);
            room = size;
        }
        avcdec_copy_i420(decoder, samples, room);
        sum += samples[0];
    }
}

static double run(avcdec_decoder *decoder) {
    double start = now();
    pictures = 0;
    for (size_t i = 0; i + 1 < count; i++) {
        for (size_t at = cuts[i], used; at < cuts[i + 1]; at += used) {
            if (avcdec_feed_unit(decoder, bytes + at, cuts[i + 1] - at, &used) != AVCDEC_OK)
                exit(1);
            take_events(decoder);
        }
        avcdec_end_access_unit(decoder);
        take_events(decoder);
    }
    avcdec_flush(decoder);
    take_events(decoder);
    avcdec_reset(decoder);
    return (double)pictures / (now() - start);
}

/* Where access units begin (7.4.1.2.3). */
static void cut(size_t length) {
    bool coded = false;
    cuts[count++] = 0;
    for (size_t at = 2; at + 2 < length; at++) {
        if (bytes[at] != 1 || bytes[at - 1] || bytes[at - 2])
            continue;
        size_t start = at >= 3 && !bytes[at - 3] ? at - 3 : at - 2;
        int type = bytes[at + 1] & 31;
        bool slice = type == 1 || type == 5;
        if (coded && (slice ? bytes[at + 2] & 0x80 : type >= 6 && type <= 9)) {
            cuts[count++] = start;
            coded = false;
        }
        coded |= slice;
    }
    cuts[count++] = length;
}

int main(int words, char **word) {
    FILE *in = words == 4 ? fopen(word[1], "rb") : NULL;
    if (in == NULL)
        return 2;
    cut(fread(bytes, 1, sizeof bytes, in));
    fclose(in);
    copies = strcmp(word[3], "copied") == 0;
    if (strcmp(word[3], "cpu") == 0)
        clock_used = CLOCK_THREAD_CPUTIME_ID;
    avcdec_decoder decoder = AVCDEC_DECODER_CLOSED;
    avcdec_open(&decoder, true);
    double best = 0, start = now(), seconds = atof(word[2]);
    while (now() - start < 1)
        run(&decoder);
    for (start = now(); now() - start < seconds;) {
        double rate = run(&decoder);
        best = rate > best ? rate : best;
    }
    avcdec_close(&decoder);
    printf("%.1f\n", best);
    return 0;
}
