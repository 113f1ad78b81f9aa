/* Tests of the element avcdec as it is used: live with losses and damage, by seeking, over RTP, and by itself in a harness.
 *
 *     element caps | times | flush | end | live ENCODER DROPPED DAMAGED STREAM | seek FILE | rtp
 *
 * Each prints a line 'N passed, M failed' at its end. live writes to STREAM the bytes that the element was given. */
#include <gst/app/gstappsink.h>
#include <gst/check/gstharness.h>
#include <gst/gst.h>
#include <gst/video/video.h>
#include <stdio.h>
#include <string.h>

static int passed, failed;

static void holds(const char *what, gboolean right) {
    if (right) {
        passed++;
    } else {
        failed++;
        printf("failed: %s\n", what);
    }
}

/* What came out of the element. */
typedef struct {
    guint pictures, warnings, requests, bytes_fed;
    gboolean ended, broken;
    FILE *fed;
    guint32 random;
    guint damage; /* one buffer of so many is damaged; 0: none */
    guint buffers;
} Seen;

/* A generator of its own, so that a run can be repeated. */
static guint32 next_random(guint32 *state) {
    *state = *state * 1664525u + 1013904223u;
    return *state >> 8;
}

static GstPadProbeReturn count_picture(GstPad *pad, GstPadProbeInfo *info, gpointer data) {
    (void)pad;
    (void)info;
    ((Seen *)data)->pictures++;
    return GST_PAD_PROBE_OK;
}

/* Damages some buffers before the element, and keeps what it is given. */
static GstPadProbeReturn before_element(GstPad *pad, GstPadProbeInfo *info, gpointer data) {
    (void)pad;
    Seen *seen = data;
    GstBuffer *buffer = gst_buffer_make_writable(GST_PAD_PROBE_INFO_BUFFER(info));
    GstMapInfo map;
    seen->buffers++;
    gboolean damaged = seen->damage != 0 && seen->buffers % seen->damage == 0;
    if (gst_buffer_map(buffer, &map, GST_MAP_READWRITE)) {
        for (int k = 0; damaged && k < 3 && map.size > 64; k++)
            map.data[32 + next_random(&seen->random) % (map.size - 32)] ^= 1u << next_random(&seen->random) % 8;
        if (seen->fed != NULL)
            fwrite(map.data, 1, map.size, seen->fed);
        gst_buffer_unmap(buffer, &map);
    }
    GST_PAD_PROBE_INFO_DATA(info) = buffer;
    return GST_PAD_PROBE_OK;
}

static GstPadProbeReturn count_request(GstPad *pad, GstPadProbeInfo *info, gpointer data) {
    (void)pad;
    if (gst_video_event_is_force_key_unit(GST_PAD_PROBE_INFO_EVENT(info)))
        ((Seen *)data)->requests++;
    return GST_PAD_PROBE_OK;
}

static void watch(GstElement *pipeline, const char *name, Seen *seen) {
    GstElement *element = gst_bin_get_by_name(GST_BIN(pipeline), name);
    GstPad *source = gst_element_get_static_pad(element, "src");
    GstPad *sink = gst_element_get_static_pad(element, "sink");
    gst_pad_add_probe(source, GST_PAD_PROBE_TYPE_BUFFER, count_picture, seen, NULL);
    gst_pad_add_probe(sink, GST_PAD_PROBE_TYPE_BUFFER, before_element, seen, NULL);
    gst_pad_add_probe(sink, GST_PAD_PROBE_TYPE_EVENT_UPSTREAM, count_request, seen, NULL);
    gst_object_unref(source);
    gst_object_unref(sink);
    gst_object_unref(element);
}

/* Runs a pipeline to its end, for at most so many seconds. */
static void run(GstElement *pipeline, Seen *seen, int seconds) {
    gst_element_set_state(pipeline, GST_STATE_PLAYING);
    GstBus *bus = gst_element_get_bus(pipeline);
    gint64 until = g_get_monotonic_time() + seconds * G_TIME_SPAN_SECOND;
    while (!seen->ended && !seen->broken && g_get_monotonic_time() < until) {
        GstMessage *message = gst_bus_timed_pop(bus, 100 * GST_MSECOND);
        if (message == NULL)
            continue;
        switch (GST_MESSAGE_TYPE(message)) {
        case GST_MESSAGE_EOS:
            seen->ended = TRUE;
            break;
        case GST_MESSAGE_WARNING: {
            GError *error = NULL;
            gchar *words = NULL;
            gst_message_parse_warning(message, &error, &words);
            seen->warnings += words != NULL && strstr(words, "in unit ") != NULL;
            g_error_free(error);
            g_free(words);
            break;
        }
        case GST_MESSAGE_ERROR: {
            GError *error = NULL;
            gchar *words = NULL;
            gst_message_parse_error(message, &error, &words);
            printf("error: %s (%s)\n", error->message, words ? words : "");
            g_error_free(error);
            g_free(words);
            seen->broken = TRUE;
            break;
        }
        default:
            break;
        }
        gst_message_unref(message);
    }
    gst_object_unref(bus);
    gst_element_set_state(pipeline, GST_STATE_NULL);
}

static GstElement *made(const char *words) {
    GError *error = NULL;
    GstElement *pipeline = gst_parse_launch(words, &error);
    if (error != NULL) {
        printf("failed: %s\n", error->message);
        g_error_free(error);
        failed++;
    }
    return pipeline;
}

/* 300 pictures of a live source through an encoder, some lost and some damaged on the way. */
static void live(const char *encoder, const char *dropped, const char *damaged, const char *stream) {
    Seen seen = {.random = 1, .damage = (guint)atoi(damaged), .fed = fopen(stream, "wb")};
    gchar *words = g_strdup_printf(
        "videotestsrc num-buffers=300 is-live=true pattern=ball ! video/x-raw,format=I420,width=320,height=240,framerate=150/1 ! %s ! "
        "h264parse config-interval=-1 ! video/x-h264,stream-format=byte-stream,alignment=au ! identity drop-probability=%s ! avcdec name=d ! "
        "fakesink sync=false",
        encoder, dropped);
    GstElement *pipeline = made(words);
    g_free(words);
    if (pipeline == NULL)
        return;
    watch(pipeline, "d", &seen);
    run(pipeline, &seen, 120);
    gst_object_unref(pipeline);
    fclose(seen.fed);
    holds("the pipeline goes to its end", seen.ended && !seen.broken);
    holds("pictures come out", seen.pictures > 0);
    gboolean lossless = strcmp(dropped, "0") == 0 && seen.damage == 0;
    holds("all pictures of an undamaged stream come out", !lossless || (seen.pictures == 300 && seen.warnings == 0));
    holds("a loss asks for a key picture", seen.warnings == 0 || seen.requests > 0);
    printf("pictures %u refusals %u requests %u\n", seen.pictures, seen.warnings, seen.requests);
}

/* A picture's checksum by its time, of the whole file. */
static GHashTable *checksums;

static gchar *checksum_of(GstSample *sample) {
    GstMapInfo map;
    GstBuffer *buffer = gst_sample_get_buffer(sample);
    gst_buffer_map(buffer, &map, GST_MAP_READ);
    gchar *sum = g_compute_checksum_for_data(G_CHECKSUM_MD5, map.data, map.size);
    gst_buffer_unmap(buffer, &map);
    return sum;
}

/* The checksum of the picture that is shown at this time: of the last one that begins no later. */
static const gchar *shown_at(gint64 time) {
    gint64 best = -1;
    GHashTableIter each;
    gpointer begins;
    g_hash_table_iter_init(&each, checksums);
    while (g_hash_table_iter_next(&each, &begins, NULL))
        if (*(gint64 *)begins <= time)
            best = MAX(best, *(gint64 *)begins);
    return g_hash_table_lookup(checksums, &best);
}

static void seek(const char *file) {
    gchar *words = g_strdup_printf("filesrc location=%s ! qtdemux ! h264parse ! avcdec ! appsink name=s sync=false max-buffers=4", file);
    GstElement *pipeline = made(words);
    g_free(words);
    if (pipeline == NULL)
        return;
    GstAppSink *sink = GST_APP_SINK(gst_bin_get_by_name(GST_BIN(pipeline), "s"));
    checksums = g_hash_table_new_full(g_int64_hash, g_int64_equal, g_free, g_free);
    gst_element_set_state(pipeline, GST_STATE_PLAYING);
    GstSample *sample;
    GstClockTime last = 0;
    while ((sample = gst_app_sink_pull_sample(sink)) != NULL) {
        gint64 *time = g_new(gint64, 1);
        *time = (gint64)GST_BUFFER_PTS(gst_sample_get_buffer(sample));
        last = MAX(last, (GstClockTime)*time);
        g_hash_table_replace(checksums, time, checksum_of(sample));
        gst_sample_unref(sample);
    }
    holds("the file has pictures", g_hash_table_size(checksums) > 10);
    guint32 random = 7;
    for (int k = 0; k < 10; k++) {
        GstClockTime to = gst_util_uint64_scale(last, next_random(&random) % 1000, 1000);
        GstSeekFlags flags = GST_SEEK_FLAG_FLUSH | (k % 2 ? GST_SEEK_FLAG_ACCURATE : GST_SEEK_FLAG_KEY_UNIT);
        holds("seeking is answered", gst_element_seek_simple(pipeline, GST_FORMAT_TIME, flags, (gint64)to));
        gst_element_get_state(pipeline, NULL, NULL, 5 * GST_SECOND);
        for (int n = 0; n < 3; n++) {
            sample = gst_app_sink_try_pull_sample(sink, 5 * GST_SECOND);
            if (sample == NULL)
                break;
            gint64 time = (gint64)GST_BUFFER_PTS(gst_sample_get_buffer(sample));
            gchar *sum = checksum_of(sample);
            const gchar *wanted = shown_at(time);
            holds("the picture after a seek is the right one", wanted != NULL && strcmp(wanted, sum) == 0);
            if (n == 0 && k % 2)
                holds("an accurate seek begins where it was told", (GstClockTime)time + GST_SECOND / 5 >= to);
            g_free(sum);
            gst_sample_unref(sample);
        }
    }
    gst_element_set_state(pipeline, GST_STATE_NULL);
    gst_object_unref(sink);
    gst_object_unref(pipeline);
}

/* A call over RTP on this machine, with losses. */
static void rtp(void) {
    Seen seen = {.random = 1}, sent = {.random = 1};
    GstElement *to = made("udpsrc port=46464 address=127.0.0.1 caps=\"application/x-rtp,media=video,clock-rate=90000,encoding-name=H264,payload=96\" ! "
                          "rtpjitterbuffer latency=50 ! rtph264depay request-keyframe=true wait-for-keyframe=false ! h264parse ! "
                          "video/x-h264,stream-format=byte-stream,alignment=au ! avcdec name=d early=true ! fakesink sync=false");
    GstElement *from = made("videotestsrc num-buffers=300 is-live=true pattern=ball ! video/x-raw,format=I420,width=320,height=240,framerate=60/1 ! "
                            "x264enc tune=zerolatency sliced-threads=false bitrate=600 key-int-max=30 speed-preset=ultrafast ! video/x-h264,profile=constrained-baseline ! "
                            "rtph264pay config-interval=-1 mtu=600 ! identity drop-probability=0.02 ! udpsink host=127.0.0.1 port=46464");
    if (to == NULL || from == NULL)
        return;
    watch(to, "d", &seen);
    gst_element_set_state(to, GST_STATE_PLAYING);
    run(from, &sent, 60);
    run(to, &seen, 2);
    holds("the sender goes to its end", sent.ended);
    holds("the receiver has no error", !seen.broken);
    holds("most pictures come through", seen.pictures > 100);
    holds("losses are refused and ask for a key picture", seen.warnings > 0 && seen.requests > 0);
    printf("pictures %u refusals %u requests %u\n", seen.pictures, seen.warnings, seen.requests);
    gst_object_unref(from);
    gst_object_unref(to);
}

/* A 16x16 picture of one macroblock, all samples 128, with its parameter sets; then two more, each a copy of the one before. */
static const guint8 idr[] = {0, 0, 0, 1, 0x67, 0x42, 0xC0, 0x0A, 0xDA, 0x71, 0, 0, 0, 1, 0x68, 0xCE, 0x38, 0x80,
                             0, 0, 0, 1, 0x65, 0x88, 0x84, 0x93, 0xC0};
static const guint8 skipped[] = {0, 0, 0, 1, 0x41, 0x9A, 0x22, 0xA0};

static const char sink_caps[] =
    "video/x-h264,stream-format=byte-stream,alignment=au,profile=constrained-baseline,width=16,height=16,framerate=25/1,pixel-aspect-ratio=4/3";

/* The first picture with VUI parameters (E.1.1): aspect_ratio_idc 14 (4:3), full range, the colours of BT.709, 60 ticks a second. */
static const guint8 usable[] = {0, 0, 0, 1, 0x67, 0x42, 0xC0, 0x0A, 0xDA, 0x73, 0x0E, 0x6E, 2, 2, 2, 0x80, 0, 0, 3, 0, 0x80, 0,
                                0, 0x1E, 2, 0, 0, 0, 1, 0x68, 0xCE, 0x38, 0x80, 0, 0, 0, 1, 0x65, 0x88, 0x84, 0x93, 0xC0};

static GstBuffer *buffer_of(const guint8 *bytes, gsize length, guint number) {
    GstBuffer *buffer = gst_buffer_new_memdup(bytes, length);
    GST_BUFFER_PTS(buffer) = number * GST_SECOND / 25;
    GST_BUFFER_DURATION(buffer) = GST_SECOND / 25;
    return buffer;
}

static gboolean is_grey(GstBuffer *buffer) {
    GstMapInfo map;
    gst_buffer_map(buffer, &map, GST_MAP_READ);
    gboolean grey = map.size == 384;
    for (gsize k = 0; k < map.size; k++)
        grey = grey && map.data[k] == 128;
    gst_buffer_unmap(buffer, &map);
    return grey;
}

static void caps(void) {
    GstHarness *h = gst_harness_new("avcdec");
    gst_harness_set_src_caps_str(h, sink_caps);
    gst_harness_push(h, buffer_of(idr, sizeof idr, 0));
    gst_harness_push(h, buffer_of(skipped, sizeof skipped, 1));
    gst_harness_push_event(h, gst_event_new_eos());
    holds("two pictures", gst_harness_buffers_in_queue(h) == 2);
    for (guint k = 0; k < 2; k++) {
        GstBuffer *buffer = gst_harness_pull(h);
        holds("samples of 128", is_grey(buffer));
        holds("its own time", GST_BUFFER_PTS(buffer) == k * GST_SECOND / 25);
        gst_buffer_unref(buffer);
    }
    GstCaps *caps = gst_pad_get_current_caps(h->sinkpad);
    GstVideoInfo info;
    holds("I420 of 16x16 with the rate and aspect of the input",
          caps != NULL && gst_video_info_from_caps(&info, caps) && GST_VIDEO_INFO_FORMAT(&info) == GST_VIDEO_FORMAT_I420 &&
              info.width == 16 && info.height == 16 && info.fps_n == 25 && info.par_n == 4 && info.par_d == 3);
    if (caps != NULL)
        gst_caps_unref(caps);
    gst_harness_teardown(h);
    h = gst_harness_new("avcdec");
    GstCaps *high = gst_caps_from_string("video/x-h264,stream-format=byte-stream,alignment=au,profile=high");
    GstPad *sink = gst_element_get_static_pad(h->element, "sink");
    holds("other profiles are not negotiated", !gst_pad_query_accept_caps(sink, high));
    gst_object_unref(sink);
    gst_caps_unref(high);
    gst_harness_teardown(h);
}

/* What the input caps do not say is that of the stream's VUI parameters. */
static void usability(void) {
    GstHarness *h = gst_harness_new("avcdec");
    gst_harness_set_src_caps_str(h, "video/x-h264,stream-format=byte-stream,alignment=au,profile=constrained-baseline");
    gst_harness_push(h, buffer_of(usable, sizeof usable, 0));
    gst_harness_push_event(h, gst_event_new_eos());
    GstCaps *caps = gst_pad_get_current_caps(h->sinkpad);
    GstVideoInfo info;
    gboolean made = caps != NULL && gst_video_info_from_caps(&info, caps);
    holds("the stream's aspect ratio", made && info.par_n == 4 && info.par_d == 3);
    holds("the stream's frame rate", made && info.fps_n == 30 && info.fps_d == 1);
    holds("the stream's range", made && info.colorimetry.range == GST_VIDEO_COLOR_RANGE_0_255);
    holds("the stream's colours", made && info.colorimetry.matrix == GST_VIDEO_COLOR_MATRIX_BT709 &&
                                      info.colorimetry.primaries == GST_VIDEO_COLOR_PRIMARIES_BT709);
    if (caps != NULL)
        gst_caps_unref(caps);
    gst_harness_teardown(h);
}

/* Each picture has what came with its own buffer, whatever the times say: the stream of vectors/cases/order_type_0_twice.264, in which the
 * third of three pictures goes out second. */
static void times(void) {
    static const guint8 stream[] = {0, 0, 0, 1, 0x67, 0x42, 0xC0, 0x0A, 0xF4, 0xE2, 0, 0, 0, 1, 0x68, 0xCE, 0x38, 0x80, 0, 0, 1, 0x65, 0x88, 0x84,
                                    0x09, 0x3C, 0, 0, 1, 0x41, 0x88, 0x8A, 0x24, 0xD6, 0, 0, 1, 0x01, 0x88, 0x91, 0x49, 0xE0};
    static const gsize places[] = {0, 26, 34, sizeof stream};
    static const guint wanted[] = {0, 2, 1};
    for (int given = 0; given < 2; given++) {
        GstHarness *h = gst_harness_new("avcdec");
        gst_harness_set_src_caps_str(h, sink_caps);
        for (guint k = 0; k < 3; k++) {
            GstBuffer *buffer = buffer_of(stream + places[k], places[k + 1] - places[k], wanted[k]);
            GST_BUFFER_DURATION(buffer) = (k + 1) * GST_MSECOND;
            if (!given)
                GST_BUFFER_PTS(buffer) = GST_CLOCK_TIME_NONE;
            gst_harness_push(h, buffer);
        }
        gst_harness_push_event(h, gst_event_new_eos());
        holds("three pictures", gst_harness_buffers_in_queue(h) == 3);
        for (guint k = 0; k < 3 && gst_harness_buffers_in_queue(h) > 0; k++) {
            GstBuffer *buffer = gst_harness_pull(h);
            holds(given ? "the duration of its buffer" : "the duration of its buffer, without times",
                  GST_BUFFER_DURATION(buffer) == (wanted[k] + 1) * GST_MSECOND);
            holds("its time", !given || GST_BUFFER_PTS(buffer) == k * GST_SECOND / 25);
            gst_buffer_unref(buffer);
        }
        gst_harness_teardown(h);
    }
}

/* After a flush the parameter sets that came last still hold, and a picture that was held is forgotten. */
static void flush(void) {
    GstHarness *h = gst_harness_new("avcdec");
    gst_harness_set_src_caps_str(h, sink_caps);
    gst_harness_push(h, buffer_of(idr, sizeof idr, 0));
    guint before = gst_harness_buffers_in_queue(h);
    gst_harness_push_event(h, gst_event_new_flush_start());
    gst_harness_push_event(h, gst_event_new_flush_stop(TRUE));
    GstSegment segment;
    gst_segment_init(&segment, GST_FORMAT_TIME);
    gst_harness_push_event(h, gst_event_new_segment(&segment));
    gst_harness_push(h, buffer_of(skipped, sizeof skipped, 1));
    gst_harness_push(h, buffer_of(idr + 18, sizeof idr - 18, 2));
    gst_harness_push_event(h, gst_event_new_eos());
    holds("one picture after the flush", gst_harness_buffers_in_queue(h) == before + 1);
    GstBuffer *buffer = NULL;
    while (gst_harness_buffers_in_queue(h) > 0) {
        if (buffer != NULL)
            gst_buffer_unref(buffer);
        buffer = gst_harness_pull(h);
    }
    holds("that of the key picture", buffer != NULL && is_grey(buffer) && GST_BUFFER_PTS(buffer) == 2 * GST_SECOND / 25);
    if (buffer != NULL)
        gst_buffer_unref(buffer);
    gst_harness_teardown(h);
}

/* With early output each picture of a stream that says so goes out at once; what is held goes out at the end. */
static void end(void) {
    static const guint8 first[] = {0, 0, 0, 1, 0x67, 0x42, 0xC0, 0x0A, 0xDA, 0x72, 0x01, 0xFD, 0x40, 0, 0, 0, 1, 0x68, 0xCE, 0x38, 0x80,
                                   0, 0, 0, 1, 0x65, 0x88, 0x84, 0x93, 0xC0};
    for (int early = 0; early < 2; early++) {
        GstHarness *h = gst_harness_new_parse(early ? "avcdec early=true" : "avcdec");
        gst_harness_set_src_caps_str(h, sink_caps);
        gst_harness_push(h, buffer_of(first, sizeof first, 0));
        holds(early ? "early: at once" : "not before its place is needed", gst_harness_buffers_in_queue(h) == (guint)early);
        gst_harness_push_event(h, gst_event_new_eos());
        holds("at the end it is out", gst_harness_buffers_in_queue(h) == 1);
        gst_harness_teardown(h);
    }
}

int main(int count, char **words) {
    gst_init(&count, &words);
    const char *what = count > 1 ? words[1] : "";
    if (strcmp(what, "caps") == 0)
        caps(), usability();
    else if (strcmp(what, "times") == 0)
        times();
    else if (strcmp(what, "flush") == 0)
        flush();
    else if (strcmp(what, "end") == 0)
        end();
    else if (strcmp(what, "live") == 0 && count == 6)
        live(words[2], words[3], words[4], words[5]);
    else if (strcmp(what, "seek") == 0 && count == 3)
        seek(words[2]);
    else if (strcmp(what, "rtp") == 0)
        rtp();
    else
        failed++;
    printf("%d passed, %d failed\n", passed, failed);
    gst_deinit();
    return failed != 0;
}
