/* The element avcdec: a GstVideoDecoder over libavcdec.
 *
 * Each buffer is one access unit (alignment=au). It is given to the library unit by unit and ended at once, so that its picture is
 * decoded before the buffer is done with. A picture is copied once, from the library's rows into the buffer that goes out. Before each
 * access unit a mark is made with the number of its frame: that number comes back with its picture (avcdec_mark). */
#ifdef HAVE_CONFIG_H
#include "config.h"
#endif

#include <gst/gst.h>
#include <gst/video/gstvideodecoder.h>
#include <gst/video/video.h>

#include "avcdec.h"

#ifndef PACKAGE
#define PACKAGE "avcdec"
#endif
#ifndef VERSION
#define VERSION "0.2.0"
#endif

GST_DEBUG_CATEGORY_STATIC(avcdec_debug);
#define GST_CAT_DEFAULT avcdec_debug

/* A decoded picture buffer holds 16 frames at most (A.3.1): a frame that waits behind more was dropped by its stream. */
#define MAX_WAITING 17

/* nal_unit_type of parameter sets (Table 7-1). */
enum { NAL_SPS = 7, NAL_PPS = 8 };

/* The number of Tables E-3 to E-5 by which a stream leaves its colours open. */
enum { UNSPECIFIED = 2 };

/* What became of the access unit that was fed last. */
typedef struct {
    guint64 first_unit, end_unit; /* its units */
    guint64 turns;                /* how many macroblocks were read before it */
    gboolean read;                /* whether some of it were read */
    gboolean refused;
} AccessUnit;

#define GST_TYPE_AVCDEC (gst_avcdec_get_type())
G_DECLARE_FINAL_TYPE(GstAvcdec, gst_avcdec, GST, AVCDEC, GstVideoDecoder)

struct _GstAvcdec {
    GstVideoDecoder parent;

    avcdec_decoder decoder;
    gboolean early;

    GstVideoCodecState *input_state;
    guint64 units;       /* given to the decoder since it was opened or reset */
    GByteArray *sets;    /* the parameter sets that came last, with their start codes */
    GQueue waiting;      /* system frame numbers of access units that were decoded and not handed out, in decoding order */
    guint latency;       /* the most frames that waited, in frames */
    avcdec_event shown;  /* size and cropping of the output caps */
    avcdec_info told;    /* and what else they were made from */
};

G_DEFINE_TYPE(GstAvcdec, gst_avcdec, GST_TYPE_VIDEO_DECODER)

enum { PROP_0, PROP_EARLY };

static GstStaticPadTemplate sink_template = GST_STATIC_PAD_TEMPLATE(
    "sink", GST_PAD_SINK, GST_PAD_ALWAYS,
    GST_STATIC_CAPS("video/x-h264, stream-format = (string) byte-stream, alignment = (string) au, "
                    "profile = (string) { constrained-baseline, baseline }"));

static GstStaticPadTemplate src_template =
    GST_STATIC_PAD_TEMPLATE("src", GST_PAD_SRC, GST_PAD_ALWAYS, GST_STATIC_CAPS(GST_VIDEO_CAPS_MAKE("I420")));

/* Where the next start code prefix 00 00 01 begins, or the end. */
static gsize next_prefix(const guint8 *bytes, gsize length, gsize from) {
    for (gsize at = from; at + 3 <= length; at++)
        if (bytes[at] == 0 && bytes[at + 1] == 0 && bytes[at + 2] == 1)
            return at;
    return length;
}

/* Counts the units of an access unit as the library does (B.1), and keeps its parameter sets. */
static guint64 look_at_units(GstAvcdec *self, const guint8 *bytes, gsize length) {
    guint64 units = 0;
    gboolean replaced = FALSE;
    gsize prefix = next_prefix(bytes, length, 0);
    while (prefix < length) {
        gsize begin = prefix + 3;
        gsize end = begin;
        while (end < length && !(end + 3 <= length && bytes[end] == 0 && bytes[end + 1] == 0 && bytes[end + 2] <= 1))
            end++;
        gsize last = end;
        if (end == length)
            while (last > begin && bytes[last - 1] == 0)
                last--;
        if (last > begin) {
            guint type = bytes[begin] & 0x1f;
            units++;
            if (type == NAL_SPS || type == NAL_PPS) {
                static const guint8 start_code[] = {0, 0, 0, 1};
                if (!replaced && type == NAL_SPS)
                    g_byte_array_set_size(self->sets, 0);
                replaced = TRUE;
                g_byte_array_append(self->sets, start_code, sizeof start_code);
                g_byte_array_append(self->sets, bytes + begin, last - begin);
            }
        }
        prefix = next_prefix(bytes, length, end);
    }
    return units;
}

static GstFlowReturn wants_memory(GstAvcdec *self) {
    GST_ELEMENT_ERROR(self, RESOURCE, NO_SPACE_LEFT, ("There is no memory to decode with."), (NULL));
    return GST_FLOW_ERROR;
}

/* Begins anew, with the parameter sets that came last. */
static gboolean begin_anew(GstAvcdec *self) {
    g_queue_clear(&self->waiting);
    self->units = 0;
    if (avcdec_reset(&self->decoder) != AVCDEC_OK)
        return FALSE;
    if (self->sets->len == 0)
        return TRUE;
    GByteArray *sets = self->sets;
    self->sets = g_byte_array_new();
    self->units = look_at_units(self, sets->data, sets->len);
    avcdec_status status = avcdec_feed(&self->decoder, sets->data, sets->len);
    g_byte_array_unref(sets);
    return status == AVCDEC_OK;
}

static gboolean gst_avcdec_start(GstVideoDecoder *decoder) {
    GstAvcdec *self = GST_AVCDEC(decoder);
    self->units = 0;
    self->latency = 0;
    memset(&self->shown, 0, sizeof self->shown);
    g_byte_array_set_size(self->sets, 0);
    return avcdec_open(&self->decoder, self->early) == AVCDEC_OK;
}

static gboolean gst_avcdec_stop(GstVideoDecoder *decoder) {
    GstAvcdec *self = GST_AVCDEC(decoder);
    avcdec_close(&self->decoder);
    g_queue_clear(&self->waiting);
    g_clear_pointer(&self->input_state, gst_video_codec_state_unref);
    return TRUE;
}

static gboolean gst_avcdec_set_format(GstVideoDecoder *decoder, GstVideoCodecState *state) {
    GstAvcdec *self = GST_AVCDEC(decoder);
    g_clear_pointer(&self->input_state, gst_video_codec_state_unref);
    self->input_state = gst_video_codec_state_ref(state);
    memset(&self->shown, 0, sizeof self->shown);
    g_byte_array_set_size(self->sets, 0);
    if (!begin_anew(self))
        return FALSE;
    GST_INFO_OBJECT(self, "decodes %" GST_PTR_FORMAT, state->caps);
    return TRUE;
}

/* Whether the caps of two pictures are of the same size and cropping. */
static gboolean is_same_size(const avcdec_event *one, const avcdec_event *other) {
    return one->width == other->width && one->height == other->height && one->crop_left == other->crop_left &&
           one->crop_right == other->crop_right && one->crop_top == other->crop_top && one->crop_bottom == other->crop_bottom;
}

/* Whether their streams say the same of showing them. */
static gboolean is_shown_alike(const avcdec_info *one, const avcdec_info *other) {
    return one->sar_width == other->sar_width && one->sar_height == other->sar_height &&
           one->video_full_range_flag == other->video_full_range_flag && one->colour_primaries == other->colour_primaries &&
           one->transfer_characteristics == other->transfer_characteristics &&
           one->matrix_coefficients == other->matrix_coefficients &&
           one->chroma_sample_loc_type == other->chroma_sample_loc_type && one->num_units_in_tick == other->num_units_in_tick &&
           one->time_scale == other->time_scale;
}

/* The range, matrix, transfer and primaries that the stream gives; what it leaves open stays. */
static void set_colorimetry(GstVideoColorimetry *colorimetry, const avcdec_info *info) {
    if (info->video_full_range_flag)
        colorimetry->range = GST_VIDEO_COLOR_RANGE_0_255;
    if (info->matrix_coefficients != UNSPECIFIED)
        colorimetry->matrix = gst_video_color_matrix_from_iso(info->matrix_coefficients);
    if (info->transfer_characteristics != UNSPECIFIED)
        colorimetry->transfer = gst_video_transfer_function_from_iso(info->transfer_characteristics);
    if (info->colour_primaries != UNSPECIFIED)
        colorimetry->primaries = gst_video_color_primaries_from_iso(info->colour_primaries);
}

/* Where chroma samples lie (figure E-1): GStreamer has names for the first three places. */
static void set_chroma_site(GstVideoInfo *video, const avcdec_info *info) {
    static const GstVideoChromaSite sites[] = {GST_VIDEO_CHROMA_SITE_MPEG2, GST_VIDEO_CHROMA_SITE_JPEG, GST_VIDEO_CHROMA_SITE_COSITED};
    if (info->chroma_sample_loc_type < G_N_ELEMENTS(sites))
        GST_VIDEO_INFO_CHROMA_SITE(video) = sites[info->chroma_sample_loc_type];
}

/* What the stream's VUI says of showing a picture, where the input caps do not. */
static void set_usability(GstVideoInfo *video, const GstCaps *input, const avcdec_info *info) {
    const GstStructure *said = gst_caps_get_structure(input, 0);
    if (!gst_structure_has_field(said, "pixel-aspect-ratio") && info->sar_width > 0 && info->sar_width <= G_MAXINT16 &&
        info->sar_height > 0 && info->sar_height <= G_MAXINT16) {
        GST_VIDEO_INFO_PAR_N(video) = (gint)info->sar_width;
        GST_VIDEO_INFO_PAR_D(video) = (gint)info->sar_height;
    }
    if (!gst_structure_has_field(said, "colorimetry"))
        set_colorimetry(&GST_VIDEO_INFO_COLORIMETRY(video), info);
    if (!gst_structure_has_field(said, "chroma-site"))
        set_chroma_site(video, info);
    if (!gst_structure_has_field(said, "framerate") && info->time_scale > 0 && info->time_scale <= G_MAXINT32 &&
        info->num_units_in_tick > 0 && info->num_units_in_tick <= G_MAXINT32 / 2) {
        GST_VIDEO_INFO_FPS_N(video) = (gint)info->time_scale;
        GST_VIDEO_INFO_FPS_D(video) = (gint)info->num_units_in_tick * 2;
    }
}

/* Output caps for a picture that differs in them from the one before. */
static gboolean negotiate(GstAvcdec *self, const avcdec_event *picture) {
    avcdec_info info;
    if (avcdec_picture_info(&self->decoder, &info) != AVCDEC_OK)
        return FALSE;
    if (is_same_size(picture, &self->shown) && is_shown_alike(&info, &self->told))
        return TRUE;
    GstVideoDecoder *decoder = GST_VIDEO_DECODER(self);
    GstVideoCodecState *output = gst_video_decoder_set_output_state(
        decoder, GST_VIDEO_FORMAT_I420, avcdec_shown_width(picture), avcdec_shown_height(picture), self->input_state);
    if (output == NULL)
        return FALSE;
    set_usability(&output->info, self->input_state->caps, &info);
    gst_video_codec_state_unref(output);
    self->shown = *picture;
    self->told = info;
    return gst_video_decoder_negotiate(decoder);
}

/* Drops the frame that waits first: its picture never comes. The base class may have given it up. */
static void drop_first(GstAvcdec *self) {
    GstVideoDecoder *decoder = GST_VIDEO_DECODER(self);
    GstVideoCodecFrame *frame = gst_video_decoder_get_frame(decoder, (int)GPOINTER_TO_UINT(g_queue_pop_head(&self->waiting)));
    if (frame != NULL)
        gst_video_decoder_drop_frame(decoder, frame);
}

/* The frame of a picture. Once an IDR picture has come, none that was decoded before it comes any more. */
static GstVideoCodecFrame *frame_of(GstAvcdec *self, const avcdec_event *picture) {
    GList *link = g_queue_find(&self->waiting, GUINT_TO_POINTER((guint)picture->value));
    avcdec_info info;
    if (link == NULL)
        return NULL;
    if (avcdec_picture_info(&self->decoder, &info) == AVCDEC_OK && info.is_idr)
        while (self->waiting.head != link)
            drop_first(self);
    g_queue_delete_link(&self->waiting, link);
    return gst_video_decoder_get_frame(GST_VIDEO_DECODER(self), (int)picture->value);
}

static gboolean copy_picture(GstAvcdec *self, GstBuffer *buffer) {
    GstVideoDecoder *decoder = GST_VIDEO_DECODER(self);
    GstVideoCodecState *output = gst_video_decoder_get_output_state(decoder);
    GstVideoFrame video;
    gboolean copied = gst_video_frame_map(&video, &output->info, buffer, GST_MAP_WRITE);
    gst_video_codec_state_unref(output);
    if (!copied)
        return FALSE;
    for (guint plane = 0; plane < 3; plane++) {
        gsize stride = GST_VIDEO_FRAME_PLANE_STRIDE(&video, plane);
        gsize rows = GST_VIDEO_FRAME_COMP_HEIGHT(&video, plane);
        gsize columns = GST_VIDEO_FRAME_COMP_WIDTH(&video, plane);
        guint8 *data = GST_VIDEO_FRAME_PLANE_DATA(&video, plane);
        if (avcdec_copy_plane(&self->decoder, plane, data, stride * (rows - 1) + columns, stride) != AVCDEC_OK)
            copied = FALSE;
    }
    gst_video_frame_unmap(&video);
    return copied;
}

static GstFlowReturn hand_out(GstAvcdec *self, const avcdec_event *picture) {
    GstVideoDecoder *decoder = GST_VIDEO_DECODER(self);
    GstVideoCodecFrame *frame = frame_of(self, picture);
    if (frame == NULL) {
        GST_DEBUG_OBJECT(self, "a picture without a frame");
        return GST_FLOW_OK;
    }
    if (!negotiate(self, picture)) {
        gst_video_decoder_drop_frame(decoder, frame);
        return GST_FLOW_NOT_NEGOTIATED;
    }
    GstFlowReturn flow = gst_video_decoder_allocate_output_frame(decoder, frame);
    if (flow != GST_FLOW_OK) {
        gst_video_decoder_drop_frame(decoder, frame);
        return flow;
    }
    if (!copy_picture(self, frame->output_buffer)) {
        gst_video_decoder_drop_frame(decoder, frame);
        return wants_memory(self);
    }
    GST_LOG_OBJECT(self, "picture %ux%u of frame %u", avcdec_shown_width(picture), avcdec_shown_height(picture),
                   frame->system_frame_number);
    return gst_video_decoder_finish_frame(decoder, frame);
}

/* Takes all that the bytes so far define. */
static GstFlowReturn take_events(GstAvcdec *self, AccessUnit *fed) {
    GstFlowReturn flow = GST_FLOW_OK;
    avcdec_event event;
    for (;;) {
        if (avcdec_take(&self->decoder, &event) != AVCDEC_OK)
            return wants_memory(self);
        if (event.kind == AVCDEC_NOTHING)
            return flow;
        if (event.kind == AVCDEC_PICTURE) {
            if (flow == GST_FLOW_OK)
                flow = hand_out(self, &event);
            continue;
        }
        char name[AVCDEC_NAME_SIZE];
        avcdec_fault_name(event.fault, name, sizeof name);
        GST_ELEMENT_WARNING(self, STREAM, DECODE, ("Unit %" G_GUINT64_FORMAT " is refused: %s.", event.unit, name),
                            ("fault %u %s in unit %" G_GUINT64_FORMAT, event.fault, name, event.unit));
        if (fed != NULL && fed->first_unit <= event.unit && event.unit < fed->end_unit)
            fed->refused = TRUE;
    }
}

/* A latency of as many frames as have waited so far. */
static void follow_latency(GstAvcdec *self) {
    guint waiting = g_queue_get_length(&self->waiting);
    if (waiting <= self->latency || self->input_state == NULL)
        return;
    self->latency = waiting;
    gint n = GST_VIDEO_INFO_FPS_N(&self->input_state->info), d = GST_VIDEO_INFO_FPS_D(&self->input_state->info);
    if (n <= 0 || d <= 0) {
        n = 25;
        d = 1;
    }
    GstClockTime latency = gst_util_uint64_scale_int(waiting * GST_SECOND, d, n);
    gst_video_decoder_set_latency(GST_VIDEO_DECODER(self), latency, latency);
    GST_DEBUG_OBJECT(self, "latency of %u frames", waiting);
}

/* The frame of an access unit that gave no picture. */
static void give_up(GstAvcdec *self, GstVideoCodecFrame *frame, gboolean refused) {
    GstVideoDecoder *decoder = GST_VIDEO_DECODER(self);
    if (refused)
        gst_video_decoder_request_sync_point(decoder, frame, 0);
    gst_video_decoder_drop_frame(decoder, frame);
}

/* A frame whose macroblocks are read may be handed out at once: it waits from the first of them on. */
static void wait_once_read(GstAvcdec *self, const GstVideoCodecFrame *frame, AccessUnit *fed) {
    if (fed->read || avcdec_turns(&self->decoder) == fed->turns)
        return;
    fed->read = TRUE;
    g_queue_push_tail(&self->waiting, GUINT_TO_POINTER(frame->system_frame_number));
}

/* Feeds an access unit, unit by unit, and its end; takes all events after each. */
static GstFlowReturn feed_access_unit(GstAvcdec *self, const GstVideoCodecFrame *frame, const guint8 *bytes, gsize length, AccessUnit *fed) {
    GstFlowReturn flow = GST_FLOW_OK;
    if (avcdec_mark(&self->decoder, frame->system_frame_number) != AVCDEC_OK)
        return wants_memory(self);
    for (gsize at = 0, used; flow == GST_FLOW_OK && at < length; at += used) {
        if (avcdec_feed_unit(&self->decoder, bytes + at, length - at, &used) != AVCDEC_OK)
            return wants_memory(self);
        wait_once_read(self, frame, fed);
        flow = take_events(self, fed);
    }
    if (flow != GST_FLOW_OK)
        return flow;
    if (avcdec_end_access_unit(&self->decoder) != AVCDEC_OK)
        return wants_memory(self);
    wait_once_read(self, frame, fed);
    return take_events(self, fed);
}

static GstFlowReturn gst_avcdec_handle_frame(GstVideoDecoder *decoder, GstVideoCodecFrame *frame) {
    GstAvcdec *self = GST_AVCDEC(decoder);
    GstMapInfo map;
    if (!gst_buffer_map(frame->input_buffer, &map, GST_MAP_READ)) {
        gst_video_decoder_release_frame(decoder, frame);
        return GST_FLOW_ERROR;
    }
    AccessUnit fed = {.first_unit = self->units, .turns = avcdec_turns(&self->decoder), .read = FALSE, .refused = FALSE};
    // the library counts the delimiter that ends an access unit as one unit more
    fed.end_unit = fed.first_unit + look_at_units(self, map.data, map.size);
    self->units = fed.end_unit + 1;
    GstFlowReturn flow = feed_access_unit(self, frame, map.data, map.size, &fed);
    gst_buffer_unmap(frame->input_buffer, &map);
    // one whose macroblocks were not read gives no picture: the decoder waits for an IDR picture
    if (!fed.read || fed.refused) {
        g_queue_remove(&self->waiting, GUINT_TO_POINTER(frame->system_frame_number));
        give_up(self, frame, fed.refused);
    } else {
        gst_video_codec_frame_unref(frame);
    }
    while (g_queue_get_length(&self->waiting) > MAX_WAITING)
        drop_first(self);
    follow_latency(self);
    return flow;
}

/* All pictures that are held go out. */
static GstFlowReturn hand_out_all(GstAvcdec *self) {
    if (avcdec_flush(&self->decoder) == AVCDEC_OUT_OF_MEMORY)
        return wants_memory(self);
    return take_events(self, NULL);
}

static GstFlowReturn gst_avcdec_finish(GstVideoDecoder *decoder) {
    GstAvcdec *self = GST_AVCDEC(decoder);
    GstFlowReturn flow = hand_out_all(self);
    return begin_anew(self) ? flow : wants_memory(self);
}

static gboolean gst_avcdec_flush(GstVideoDecoder *decoder) {
    return begin_anew(GST_AVCDEC(decoder));
}

static void gst_avcdec_set_property(GObject *object, guint id, const GValue *value, GParamSpec *spec) {
    if (id == PROP_EARLY)
        GST_AVCDEC(object)->early = g_value_get_boolean(value);
    else
        G_OBJECT_WARN_INVALID_PROPERTY_ID(object, id, spec);
}

static void gst_avcdec_get_property(GObject *object, guint id, GValue *value, GParamSpec *spec) {
    if (id == PROP_EARLY)
        g_value_set_boolean(value, GST_AVCDEC(object)->early);
    else
        G_OBJECT_WARN_INVALID_PROPERTY_ID(object, id, spec);
}

static void gst_avcdec_finalize(GObject *object) {
    GstAvcdec *self = GST_AVCDEC(object);
    g_byte_array_unref(self->sets);
    g_queue_clear(&self->waiting);
    G_OBJECT_CLASS(gst_avcdec_parent_class)->finalize(object);
}

static void gst_avcdec_class_init(GstAvcdecClass *class) {
    GObjectClass *object = G_OBJECT_CLASS(class);
    GstElementClass *element = GST_ELEMENT_CLASS(class);
    GstVideoDecoderClass *decoder = GST_VIDEO_DECODER_CLASS(class);

    object->set_property = gst_avcdec_set_property;
    object->get_property = gst_avcdec_get_property;
    object->finalize = gst_avcdec_finalize;
    g_object_class_install_property(
        object, PROP_EARLY,
        g_param_spec_boolean("early", "Early output",
                             "Hand pictures out as soon as the stream's max_num_reorder_frames allows", FALSE,
                             G_PARAM_READWRITE | G_PARAM_STATIC_STRINGS | GST_PARAM_MUTABLE_READY));

    gst_element_class_add_static_pad_template(element, &sink_template);
    gst_element_class_add_static_pad_template(element, &src_template);
    gst_element_class_set_static_metadata(element, "avcdec H.264 decoder", "Codec/Decoder/Video",
                                          "Decodes H.264 Constrained Baseline video by the proved decoder avcdec", "avcdec");

    decoder->start = gst_avcdec_start;
    decoder->stop = gst_avcdec_stop;
    decoder->set_format = gst_avcdec_set_format;
    decoder->handle_frame = gst_avcdec_handle_frame;
    decoder->finish = gst_avcdec_finish;
    decoder->drain = gst_avcdec_finish;
    decoder->flush = gst_avcdec_flush;
    GST_DEBUG_CATEGORY_INIT(avcdec_debug, "avcdec", 0, "H.264 decoder avcdec");
}

static void gst_avcdec_init(GstAvcdec *self) {
    static const avcdec_decoder closed = AVCDEC_DECODER_CLOSED;
    self->decoder = closed;
    self->sets = g_byte_array_new();
    g_queue_init(&self->waiting);
    gst_video_decoder_set_packetized(GST_VIDEO_DECODER(self), TRUE);
    gst_video_decoder_set_needs_format(GST_VIDEO_DECODER(self), TRUE);
    gst_video_decoder_set_use_default_pad_acceptcaps(GST_VIDEO_DECODER_CAST(self), TRUE);
    GST_PAD_SET_ACCEPT_TEMPLATE(GST_VIDEO_DECODER_SINK_PAD(self));
}

/* Secondary: behind the decoders that are there, unless AVCDEC_PRIMARY is set (or GST_PLUGIN_FEATURE_RANK=avcdec:MAX). */
static gboolean plugin_init(GstPlugin *plugin) {
    guint rank = g_getenv("AVCDEC_PRIMARY") != NULL ? GST_RANK_PRIMARY + 100 : GST_RANK_SECONDARY;
    return gst_element_register(plugin, "avcdec", rank, GST_TYPE_AVCDEC);
}

GST_PLUGIN_DEFINE(GST_VERSION_MAJOR, GST_VERSION_MINOR, avcdec, "H.264 Constrained Baseline decoder that is proved right",
                  plugin_init, VERSION, GST_LICENSE_UNKNOWN, "avcdec", "Unknown package origin")
