/* marks IN PACKET..: gives each packet of a stream its place in it as value, and tells of each event the value: of a picture with a star
 * where it is an IDR picture, of a refusal in brackets. The packets begin at the places that are given, the last one is the rest.
 * marks SEED IN: marks at random places. Of each event the value must be that of the newest mark made before its unit, by the units
 * that this program counts itself, and the unit of a picture must be one whose slice begins at macroblock 0. What avcdec_take_dropped tells
 * must be the oldest value before the newest IDR picture's that no event had, and no event may have it later. Tells how many events and
 * such values there were. Status: 0, else the line of the check that failed. */
#include <avcdec.h>
#include <stdio.h>
#include <stdlib.h>
#include <string.h>

#define CHECK(holds)            \
    do {                        \
        if (!(holds))           \
            exit(__LINE__);     \
    } while (0)

enum { MOST_KEPT = 1024, MOST = 1 << 16, GAP = 0xA5 };

static uint8_t stream[1 << 24];
static size_t length;

static void read_stream(const char *path) {
    FILE *in = fopen(path, "rb");
    CHECK(in != NULL);
    length = fread(stream, 1, sizeof stream, in);
    CHECK(feof(in));
    fclose(in);
}

static bool stands(size_t at, size_t end, uint8_t last) {
    return at + 3 <= end && stream[at] == 0 && stream[at + 1] == 0 && stream[at + 2] == last;
}

/* Where each unit begins in the first `end` bytes (B.1, B.2), and how many there are. What is left of a unit without its last zeros is not
 * empty. */
static size_t units_in(size_t end, size_t *begins) {
    size_t count = 0;
    for (size_t at = 0; at < end;) {
        if (!stands(at, end, 1)) {
            at++;
            continue;
        }
        size_t begin = at + 3, stop = begin;
        while (stop < end && !stands(stop, end, 0) && !stands(stop, end, 1))
            stop++;
        size_t last = stop;
        while (stop == end && last > begin && stream[last - 1] == 0)
            last--;
        if (last > begin)
            begins[count++] = begin;
        at = stop;
    }
    return count;
}

static void compare_info(avcdec_decoder *decoder, const avcdec_event *event, avcdec_info *info) {
    memset(info, GAP, sizeof *info);
    avcdec_info before = *info;
    avcdec_status status = avcdec_picture_info(decoder, info);
    if (event->kind != AVCDEC_PICTURE) {
        CHECK(status == AVCDEC_NO_PICTURE && memcmp(info, &before, sizeof before) == 0);
        return;
    }
    CHECK(status == AVCDEC_OK && info->unit == event->unit && info->is_idr <= 1 && info->video_full_range_flag <= 1);
    CHECK(info->has_max_num_reorder_frames <= 1 && (info->has_max_num_reorder_frames == 1 || info->max_num_reorder_frames == 0));
}

static void tell_packets(avcdec_decoder *decoder) {
    avcdec_event event;
    avcdec_info info;
    while (avcdec_take(decoder, &event) == AVCDEC_OK && event.kind != AVCDEC_NOTHING) {
        compare_info(decoder, &event, &info);
        bool is_picture = event.kind == AVCDEC_PICTURE;
        printf(is_picture ? " %llu%s" : " [%llu%s]", (unsigned long long)event.value, is_picture && info.is_idr ? "*" : "");
    }
}

static void decode_packets(int count, char **places) {
    avcdec_decoder decoder = AVCDEC_DECODER_CLOSED;
    CHECK(avcdec_open(&decoder, false) == AVCDEC_OK);
    for (int packet = 0; packet < count; packet++) {
        size_t at = (size_t)atol(places[packet]), end = packet + 1 < count ? (size_t)atol(places[packet + 1]) : length;
        CHECK(at < end && end <= length);
        CHECK(avcdec_mark(&decoder, at) == AVCDEC_OK);
        CHECK(avcdec_feed(&decoder, stream + at, end - at) == AVCDEC_OK);
        tell_packets(&decoder);
    }
    CHECK(avcdec_flush(&decoder) == AVCDEC_OK);
    tell_packets(&decoder);
    printf("\n");
    avcdec_close(&decoder);
}

/* The marks that were made: the first unit of each, and its value. */
static size_t first_units[MOST], begins[1 << 20], marks;
static uint64_t values[MOST];

/* Of which of them an event is awaited, and which were told as dropped; how many those are; and the mark of the newest IDR picture. */
static bool awaited[MOST], told[MOST];
static size_t dropped, idr_mark;

/* Whether it is the last of the marks at its unit. */
static bool is_last_of_unit(size_t mark) {
    return mark + 1 == marks || first_units[mark + 1] != first_units[mark];
}

/* The newest mark at the unit or before it, of those that are kept; MOST where there is none. */
static size_t mark_of(uint64_t unit) {
    size_t kept = 0;
    for (size_t at = marks; at > 0 && kept < MOST_KEPT; at--) {
        kept += is_last_of_unit(at - 1);
        if (is_last_of_unit(at - 1) && first_units[at - 1] <= unit)
            return at - 1;
    }
    return MOST;
}

/* The oldest mark of which an event is awaited; MOST where there is none. */
static size_t oldest_awaited(void) {
    for (size_t at = 0; at < marks; at++)
        if (awaited[at])
            return at;
    return MOST;
}

/* From a new mark on an event of it is awaited, and of the one at its unit and of the oldest of too many no more. */
static void await_mark(size_t mark) {
    size_t count = 0;
    for (size_t at = 0; at < mark; at++) {
        if (first_units[at] == first_units[mark])
            awaited[at] = false;
        count += awaited[at];
    }
    if (count == MOST_KEPT)
        awaited[oldest_awaited()] = false;
    awaited[mark] = true;
}

static void compare_dropped(avcdec_decoder *decoder) {
    for (;;) {
        uint64_t value = GAP;
        size_t oldest = oldest_awaited();
        avcdec_status status = avcdec_take_dropped(decoder, &value);
        if (oldest == MOST || first_units[oldest] >= first_units[idr_mark]) {
            CHECK(status == AVCDEC_NO_VALUE && value == GAP);
            return;
        }
        CHECK(status == AVCDEC_OK && value == values[oldest]);
        awaited[oldest] = false;
        told[oldest] = true;
        dropped++;
    }
}

static size_t compare_events(avcdec_decoder *decoder) {
    size_t events = 0;
    avcdec_event event;
    avcdec_info info;
    for (;; events++) {
        CHECK(avcdec_take(decoder, &event) == AVCDEC_OK);
        if (event.kind == AVCDEC_NOTHING)
            return events;
        compare_info(decoder, &event, &info);
        size_t mark = mark_of(event.unit);
        CHECK(event.value == (mark == MOST ? 0 : values[mark]));
        if (mark != MOST) {
            CHECK(!told[mark]);
            awaited[mark] = false;
            if (event.kind == AVCDEC_PICTURE && info.is_idr)
                idr_mark = mark;
        }
        if (event.kind == AVCDEC_PICTURE) {
            const uint8_t *unit = stream + begins[event.unit];
            CHECK((unit[0] & 31) == (info.is_idr ? 5 : 1) && unit[1] >= 128);
        }
    }
}

static void make_mark(avcdec_decoder *decoder, size_t at) {
    CHECK(marks < MOST);
    size_t *unused = (size_t *)malloc((length / 3 + 1) * sizeof *unused);
    CHECK(unused != NULL);
    first_units[marks] = units_in(at, unused);
    free(unused);
    values[marks] = (uint64_t)rand() << 40 | (uint64_t)at << 8 | (uint64_t)rand() % 256;
    CHECK(avcdec_mark(decoder, values[marks]) == AVCDEC_OK);
    marks++;
    await_mark(marks - 1);
}

static size_t decode_marked(avcdec_decoder *decoder) {
    size_t events = 0;
    int often = rand() % 3;
    for (size_t at = 0; at < length;) {
        size_t piece = (size_t)rand() % (often == 0 ? 7 : 3000) + 1, used = 0;
        piece = piece < length - at ? piece : length - at;
        if (rand() % 2 == 0)
            make_mark(decoder, at);
        if (rand() % 8 == 0)
            make_mark(decoder, at);
        CHECK(avcdec_feed_unit(decoder, stream + at, piece, &used) == AVCDEC_OK);
        at += used;
        if (rand() % 4 != 0)
            events += compare_events(decoder);
        if (rand() % 2 != 0)
            compare_dropped(decoder);
    }
    CHECK(avcdec_flush(decoder) == AVCDEC_OK);
    make_mark(decoder, length);
    events += compare_events(decoder);
    compare_dropped(decoder);
    return events;
}

static void decode_at_random(unsigned seed) {
    avcdec_decoder decoder = AVCDEC_DECODER_CLOSED;
    avcdec_info info = {0};
    uint64_t value = 1;
    CHECK(avcdec_take_dropped(&decoder, &value) == AVCDEC_CLOSED && value == 1);
    CHECK(avcdec_mark(&decoder, 1) == AVCDEC_CLOSED && avcdec_picture_info(&decoder, &info) == AVCDEC_CLOSED && info.unit == 0);
    CHECK(avcdec_open(&decoder, false) == AVCDEC_OK);
    CHECK(avcdec_picture_info(&decoder, &info) == AVCDEC_NO_PICTURE);
    CHECK(avcdec_take_dropped(&decoder, &value) == AVCDEC_NO_VALUE && value == 1);
    CHECK(length / 3 < sizeof begins / sizeof *begins);
    units_in(length, begins);
    srand(seed);
    size_t events = decode_marked(&decoder);
    /* a reset forgets marks, and units are counted anew */
    CHECK(avcdec_reset(&decoder) == AVCDEC_OK && avcdec_picture_info(&decoder, &info) == AVCDEC_NO_PICTURE);
    marks = 0;
    idr_mark = 0;
    memset(awaited, 0, sizeof awaited);
    memset(told, 0, sizeof told);
    CHECK(avcdec_take_dropped(&decoder, &value) == AVCDEC_NO_VALUE);
    CHECK(decode_marked(&decoder) == events);
    avcdec_close(&decoder);
    printf("%lu %lu\n", (unsigned long)events, (unsigned long)dropped);
}

int main(int count, char **words) {
    CHECK(count >= 3);
    bool by_packets = count > 3 || strtoul(words[1], NULL, 10) == 0;
    read_stream(words[by_packets ? 1 : 2]);
    if (by_packets)
        decode_packets(count - 2, words + 2);
    else
        decode_at_random((unsigned)strtoul(words[1], NULL, 10));
    return 0;
}
