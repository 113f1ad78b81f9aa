/* avcdec.h: a decoder for H.264 (Rec. ITU-T H.264), Constrained Baseline profile.
 *
 *     static void take_events(avcdec_decoder *decoder) {
 *         avcdec_event event;
 *         while (avcdec_take(decoder, &event) == AVCDEC_OK && event.kind != AVCDEC_NOTHING)
 *             if (event.kind == AVCDEC_PICTURE)
 *                 for (uint32_t plane = AVCDEC_LUMA; plane <= AVCDEC_CR; plane++) {
 *                     avcdec_rows lent;
 *                     avcdec_lend_plane(decoder, plane, &lent);
 *                     for (size_t y = 0; y < lent.rows; y++)
 *                         show(plane, y, lent.samples + y * lent.stride, lent.columns);
 *                 }
 *             else
 *                 refused(event.unit, event.fault);
 *     }
 *
 *     avcdec_decoder decoder = AVCDEC_DECODER_CLOSED;
 *     avcdec_open(&decoder, false);
 *     for (size_t at = 0, used; at < length && avcdec_feed_unit(&decoder, bytes + at, length - at, &used) == AVCDEC_OK; at += used)
 *         take_events(&decoder);
 *     avcdec_flush(&decoder);
 *     take_events(&decoder);
 *     avcdec_close(&decoder);
 *
 * The functions may be called in any order, on any bytes. A call that does not fit what the decoder holds answers a status and
 * changes nothing.
 *
 * Ownership. The caller owns the avcdec_decoder itself and all memory that it passes; no function keeps a pointer to it. The library
 * owns what it allocates and frees it in avcdec_close. Of it only the rows of avcdec_lend_plane are seen outside: they are to be
 * read, not written, and only until the next take, reset or close of their decoder.
 *
 * Threads. One call at a time for each decoder, and each call sees what the one before it did, whichever thread made it: as under a
 * lock, or where one thread starts or joins the other. So a decoder may go from thread to thread. Lent rows may be read by several
 * threads at once, and beside a feed or flush of their decoder. Two decoders may be used by two threads at once: they share nothing.
 *
 * Pointers. Each pointer leads to memory of the size that the function says, and is not null, except that bytes may be null where
 * their length is 0. While a call runs nobody else writes to that memory. Two pointers of one call lead to different memory.
 */
#ifndef AVCDEC_H
#define AVCDEC_H

#include <stdbool.h>
#include <stddef.h>
#include <stdint.h>

#ifdef __cplusplus
extern "C" {
#endif

#define AVCDEC_VERSION_MAJOR 0
#define AVCDEC_VERSION_MINOR 2
#define AVCDEC_VERSION_PATCH 0

/* Whether a decoder is open, and what the library holds of it. All zero, it is closed; so it is before avcdec_open. From then until
 * avcdec_close write nothing into it. Between two calls it may be moved: copied to another place, where alone it is used from then
 * on. */
typedef struct avcdec_decoder {
    bool open;
    void *state;
} avcdec_decoder;

#define AVCDEC_DECODER_CLOSED {false, NULL}

/* What a call answers. */
typedef uint32_t avcdec_status;
enum {
    AVCDEC_OK = 0,
    AVCDEC_OUT_OF_MEMORY = 1, /* no memory was found; feed, flush, mark and take answer so until avcdec_reset or avcdec_close */
    AVCDEC_ENDED = 2,         /* avcdec_flush has ended the stream; events may still be taken */
    AVCDEC_CLOSED = 3,        /* the decoder is closed */
    AVCDEC_IS_OPEN = 4,       /* the decoder is open already */
    AVCDEC_NO_PICTURE = 5,    /* the event that was taken last is no picture */
    AVCDEC_NO_ROOM = 6,       /* the memory given is too small, or its rows are */
    AVCDEC_NO_PLANE = 7,      /* no plane has this number */
    AVCDEC_NO_FAULT = 8,      /* no fault has this number */
    AVCDEC_NO_VALUE = 9       /* no value is known to come no more */
};

/* What an event is. */
enum {
    AVCDEC_NOTHING = 0, /* the bytes so far define no further event */
    AVCDEC_PICTURE = 1, /* a picture, in output order */
    AVCDEC_REFUSED = 2  /* a refusal of a picture, or of a unit: see unit and fault */
};

/* Planes of a picture. */
enum { AVCDEC_LUMA = 0, AVCDEC_CB = 1, AVCDEC_CR = 2 };

/* What was taken. A field that does not belong to its kind is 0. */
typedef struct avcdec_event {
    uint32_t kind;
    uint32_t fault;         /* of a refusal: number of the fault; avcdec_fault_name has its name */
    uint64_t unit;          /* the NAL unit in which the fault stands, or which brought the picture's first slice, counted from 0 since
                               open or reset */
    uint32_t width, height; /* of a picture: coded size in luma samples; a chroma plane has half of each */
    uint32_t crop_left, crop_right, crop_top, crop_bottom; /* of a picture: luma samples not shown, from each side; all even */
    uint64_t value;         /* the value that avcdec_mark gave to that unit, as a time; 0 where no mark was made before it */
} avcdec_event;

/* The name of a status, as "out of memory". What this header defines itself (static inline) is tested, and not proved as the rest is. */
static inline const char *avcdec_status_name(avcdec_status status) {
    switch (status) {
    case AVCDEC_OK: return "ok";
    case AVCDEC_OUT_OF_MEMORY: return "out of memory";
    case AVCDEC_ENDED: return "the stream has ended";
    case AVCDEC_CLOSED: return "the decoder is closed";
    case AVCDEC_IS_OPEN: return "the decoder is open already";
    case AVCDEC_NO_PICTURE: return "no picture was taken last";
    case AVCDEC_NO_ROOM: return "too little room";
    case AVCDEC_NO_PLANE: return "no such plane";
    case AVCDEC_NO_FAULT: return "no such fault";
    case AVCDEC_NO_VALUE: return "no such value";
    default: return "no such status";
    }
}

/* Opens a decoder that is closed. It begins as after avcdec_reset. With early false a picture goes out only once the decoded picture
 * buffer has no room for it, or at an IDR picture or the end; with early true as soon as the stream's max_num_reorder_frames allows:
 * for calls. Streams that do not give that number wait as with false.
 * OK; OUT_OF_MEMORY (still closed); IS_OPEN (nothing changes). */
avcdec_status avcdec_open(avcdec_decoder *decoder, bool early);

/* Closes a decoder and frees what it holds, pictures that were not taken too. A closed one stays closed. */
void avcdec_close(avcdec_decoder *decoder);

/* Gives the next bytes of the stream (Annex B: with start codes), cut anywhere. All units whose end they bring are decoded during the
 * call. A unit ends where the next start code begins: see avcdec_end_access_unit.
 * All pictures of the piece wait inside until they are taken, and a small piece can bring many. avcdec_feed_unit bounds them.
 * A unit may have at most 134,217,728 bytes; a longer one is refused with fault NalTooLong.
 * OK; OUT_OF_MEMORY; ENDED (nothing changes); CLOSED. */
avcdec_status avcdec_feed(avcdec_decoder *decoder, const uint8_t *bytes, size_t length);

/* Gives the next bytes of the stream as avcdec_feed does, but takes them only up to where the next unit has ended; *used says how many
 * it took: at least 1 where there are any, and all where no unit has ended. So at most one unit is decoded. Take all events, and give
 * the rest: then at most the pictures that one unit lets out wait.
 * OK; OUT_OF_MEMORY; ENDED (nothing changes); CLOSED. But for OK, *used is 0. */
avcdec_status avcdec_feed_unit(avcdec_decoder *decoder, const uint8_t *bytes, size_t length, size_t *used);

/* Gives a value, as the time of a packet, to all units that begin with the bytes given from here on, up to the next mark. An event has
 * the value of its unit, a picture that of its first slice's, in whichever order pictures come: mark before each packet is given. A unit
 * begins with its first byte behind a start code, and one that is under way keeps the value that it has.
 * The newest 1,024 marks are kept, of marks at one unit the last; a picture waits behind 16 others at most. avcdec_reset forgets them.
 * Not every value comes back: avcdec_take_dropped tells which do not.
 * OK; OUT_OF_MEMORY (where an earlier call found none; nothing changes); CLOSED. Asks for no memory. */
avcdec_status avcdec_mark(avcdec_decoder *decoder, uint64_t value);

/* Ends the stream: the last unit ends, and all pictures that are held go out, to be taken.
 * OK; OUT_OF_MEMORY; ENDED (nothing changes); CLOSED. */
avcdec_status avcdec_flush(avcdec_decoder *decoder);

/* Begins a new stream and forgets the old one: parameter sets, pictures, events that were not taken, marks, want of memory, and the
 * end.
 * The choice of early stays. Decoding begins at the next IDR picture that has its parameter sets.
 * OK; CLOSED. */
avcdec_status avcdec_reset(avcdec_decoder *decoder);

/* Takes the next event that the bytes so far define; its picture can be read and copied until the next take, reset or close. Asks for
 * no memory.
 * OK (*event is set; its kind is AVCDEC_NOTHING where there is none yet); OUT_OF_MEMORY (its kind is AVCDEC_NOTHING);
 * CLOSED (*event is not touched). */
avcdec_status avcdec_take(avcdec_decoder *decoder, avcdec_event *event);

/* Tells the oldest value that no event has had and none will have: its mark was made before that of the newest IDR picture that was taken,
 * and behind an IDR picture no event of an earlier unit comes (C.4.4). So a packet that brought parameter sets alone is told, a second
 * slice's, and one that was passed over while decoding waits for an IDR picture. The value goes: call until there is none. Behind the
 * last event after avcdec_flush none of the others comes either, and they are not told.
 * OK (*value is set); NO_VALUE; CLOSED. But for OK, *value is not touched. Asks for no memory. */
avcdec_status avcdec_take_dropped(avcdec_decoder *decoder, uint64_t *value);

/* What is known of a picture beside its samples. A flag is 0 or 1. What the stream's VUI parameters (E.2.1) do not give has the value
 * that the standard infers. */
typedef struct avcdec_info {
    uint64_t unit;                /* as that of the event: of the picture's first slice */
    int32_t pic_order_cnt;        /* PicOrderCnt (8.2.1): pictures from one IDR picture to the next go out in its order */
    uint32_t is_idr;              /* a flag: nothing before this picture is needed to decode what follows it */
    uint32_t frame_num;           /* of its slices (7.4.3) */
    uint32_t sar_width, sar_height; /* shape of a luma sample, of which only the ratio matters; both 0 where it is not given */
    uint32_t video_full_range_flag; /* samples take all values from 0 to 255 */
    uint32_t colour_primaries, transfer_characteristics, matrix_coefficients; /* Tables E-3 to E-5; 2 where they are not given */
    uint32_t chroma_sample_loc_type; /* figure E-1 */
    uint32_t num_units_in_tick, time_scale; /* time_scale / (2 * num_units_in_tick) frames a second; both 0 where they are not given */
    uint32_t has_max_num_reorder_frames, max_num_reorder_frames; /* a flag, and the number where it is given */
} avcdec_info;

/* Tells what is known of the picture that was taken last. Asks for no memory.
 * OK (*info is set); NO_PICTURE; CLOSED. But for OK, *info is not touched. */
avcdec_status avcdec_picture_info(avcdec_decoder *decoder, avcdec_info *info);

/* What is shown of a plane, where it lies in the library's memory: row y are the `columns` bytes from samples + y * stride on. */
typedef struct avcdec_rows {
    const uint8_t *samples; /* the first sample of the first row */
    size_t length;          /* how many bytes from there on may be read: all rows, and what is between them and says nothing */
    size_t stride;          /* bytes from one row to the next; at least columns */
    uint32_t columns, rows; /* as avcdec_plane_columns and avcdec_plane_rows say */
} avcdec_rows;

/* Lends one plane (AVCDEC_LUMA, AVCDEC_CB, AVCDEC_CR) of the picture that was taken last. Its rows are read where they lie and are
 * not copied; the decoder may go on reading them as a reference, so nobody writes there. They are there, and do not change, until
 * the next take, reset or close. Asks for no memory.
 * OK (*rows is set); NO_PICTURE; NO_PLANE; CLOSED. But for OK, *rows is not touched. */
avcdec_status avcdec_lend_plane(avcdec_decoder *decoder, uint32_t plane, avcdec_rows *rows);

/* Copies what is shown of the picture that was taken last, as I420 without gaps: luma, Cb, Cr, each row by row. It fills the first
 * avcdec_i420_size bytes of out, which has room for length bytes.
 * OK; NO_PICTURE; NO_ROOM (length is too small); CLOSED. But for OK no byte is written. */
avcdec_status avcdec_copy_i420(avcdec_decoder *decoder, uint8_t *out, size_t length);

/* Copies what is shown of one plane (AVCDEC_LUMA, AVCDEC_CB, AVCDEC_CR) of the picture that was taken last. Row y goes to the bytes
 * from y * stride on; the bytes between rows stay as they are. out has room for length bytes: stride * (rows - 1) + columns are
 * enough (avcdec_plane_rows, avcdec_plane_columns).
 * OK; NO_PICTURE; NO_PLANE; NO_ROOM (length is too small, or stride less than the columns); CLOSED. But for OK no byte is written. */
avcdec_status avcdec_copy_plane(avcdec_decoder *decoder, uint32_t plane, uint8_t *out, size_t length, size_t stride);

/* How many macroblocks of slices have been read since open or reset: a measure of the work done. 0 where the decoder is closed. */
uint64_t avcdec_turns(avcdec_decoder *decoder);

/* Copies the name of a fault, and a 0 behind it, to name, which has room for length bytes: AVCDEC_NAME_SIZE are enough.
 * OK; NO_FAULT; NO_ROOM. But for OK no byte is written. */
#define AVCDEC_NAME_SIZE 32
avcdec_status avcdec_fault_name(uint32_t fault, char *name, size_t length);

/* The version of the library that runs: 65536 * major + 256 * minor + patch. */
uint32_t avcdec_version(void);

/* The heap. It is the C library's, unless these are called in place of malloc, realloc and free. All three are given, from one
 * allocator; blocks are aligned to 16 bytes; null says that there is no memory; sizes are never 0. They may be called by several
 * threads where several threads use decoders.
 * Call this while no decoder is open and no other thread calls the library. Null gives the C library's back. */
typedef struct avcdec_heap {
    void *(*allocate)(size_t size);
    void *(*reallocate)(void *block, size_t size); /* as realloc: where it answers null the block stays */
    void (*release)(void *block);
} avcdec_heap;
void avcdec_use_heap(const avcdec_heap *heap);

/* How many columns and rows of luma samples are shown of a picture. */
static inline uint32_t avcdec_shown_width(const avcdec_event *picture) {
    return picture->width - picture->crop_left - picture->crop_right;
}
static inline uint32_t avcdec_shown_height(const avcdec_event *picture) {
    return picture->height - picture->crop_top - picture->crop_bottom;
}

/* How many columns and rows are shown of one plane of a picture. */
static inline uint32_t avcdec_plane_columns(const avcdec_event *picture, uint32_t plane) {
    return avcdec_shown_width(picture) / (plane == AVCDEC_LUMA ? 1u : 2u);
}
static inline uint32_t avcdec_plane_rows(const avcdec_event *picture, uint32_t plane) {
    return avcdec_shown_height(picture) / (plane == AVCDEC_LUMA ? 1u : 2u);
}

/* How many bytes avcdec_copy_i420 fills. */
static inline size_t avcdec_i420_size(const avcdec_event *picture) {
    size_t luma = (size_t)avcdec_shown_width(picture) * avcdec_shown_height(picture);
    size_t chroma = (size_t)avcdec_plane_columns(picture, AVCDEC_CB) * avcdec_plane_rows(picture, AVCDEC_CB);
    return luma + 2 * chroma;
}

/* Whether the unit whose nal_unit_type is this begins a new access unit where it stands behind a slice (7.4.1.2.3). Slices of a picture
 * come in the order of their macroblocks, so that a slice begins one where its first_mb_in_slice is 0: the first bit behind its header. */
static inline bool avcdec_begins_access_unit(uint32_t nal_unit_type, uint8_t first_byte) {
    if (nal_unit_type == 1 || nal_unit_type == 2 || nal_unit_type == 5)
        return first_byte >= 128;
    return (nal_unit_type >= 6 && nal_unit_type <= 9) || (nal_unit_type >= 14 && nal_unit_type <= 18);
}

/* How many of these bytes, which begin with a start code or zeros, are their first access unit (7.4.1.2.3): up to where the start code of
 * the next one stands. 0 where no next one begins in them: then wait for more bytes, or at the stream's end take all. Of a stream from a
 * file or a pipe it makes packets, to mark, to feed, and to end by avcdec_end_access_unit. A picture whose first slice is lost is taken
 * for a part of the one before. */
static inline size_t avcdec_access_unit_length(const uint8_t *bytes, size_t length) {
    bool has_slice = false;
    for (size_t at = 0; at + 4 < length; at++) {
        if (bytes[at] != 0 || bytes[at + 1] != 0 || bytes[at + 2] != 1)
            continue;
        uint32_t type = bytes[at + 3] & 31u;
        if (has_slice && avcdec_begins_access_unit(type, bytes[at + 4]))
            return bytes[at - 1] == 0 ? at - 1 : at;
        has_slice = has_slice || type == 1 || type == 2 || type == 5;
    }
    return 0;
}

/* Says that the bytes so far end with a whole access unit, as a packet of a call or a container does: its last unit ends and its
 * picture is decoded now, and not only once the next unit begins. It feeds an access unit delimiter (7.3.2.4) and a start code, so
 * it adds 1 to the count of units. Answers as avcdec_feed. */
static inline avcdec_status avcdec_end_access_unit(avcdec_decoder *decoder) {
    static const uint8_t delimiter[] = {0, 0, 1, 9, 0xF0, 0, 0, 1};
    return avcdec_feed(decoder, delimiter, sizeof delimiter);
}

#ifdef __cplusplus
}
#endif

#endif
