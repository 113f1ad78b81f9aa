/* libavcodec IN OUT [-c]: decodes a byte stream with libavcodec on one thread and writes the pictures as I420; with -c without its
 * assembly. For bench/time.sh. */
#include <libavcodec/avcodec.h>
#include <libavutil/cpu.h>
#include <libavutil/log.h>
#include <stdint.h>
#include <stdio.h>
#include <string.h>

enum { PIECE = 65536 };

static void write_plane(const AVFrame *frame, int plane, FILE *out) {
    int columns = plane ? (frame->width + 1) / 2 : frame->width, rows = plane ? (frame->height + 1) / 2 : frame->height;
    for (int y = 0; y < rows; y++)
        fwrite(frame->data[plane] + (ptrdiff_t)y * frame->linesize[plane], 1, (size_t)columns, out);
}

static void write_frames(AVCodecContext *codec, AVFrame *frame, FILE *out) {
    while (avcodec_receive_frame(codec, frame) == 0) {
        for (int plane = 0; plane < 3; plane++)
            write_plane(frame, plane, out);
        av_frame_unref(frame);
    }
}

int main(int count, char **words) {
    if (count < 3)
        return 2;
    av_log_set_level(AV_LOG_QUIET);
    if (count > 3 && strcmp(words[3], "-c") == 0)
        av_force_cpu_flags(0);
    FILE *in = fopen(words[1], "rb"), *out = fopen(words[2], "wb");
    AVCodecContext *codec = avcodec_alloc_context3(avcodec_find_decoder(AV_CODEC_ID_H264));
    AVCodecParserContext *parser = av_parser_init(AV_CODEC_ID_H264);
    AVPacket *packet = av_packet_alloc();
    AVFrame *frame = av_frame_alloc();
    if (!in || !out || !codec || !parser || !packet || !frame)
        return 3;
    codec->thread_count = 1;
    codec->flags |= AV_CODEC_FLAG_UNALIGNED;
    if (avcodec_open2(codec, NULL, NULL) < 0)
        return 3;
    static uint8_t piece[PIECE + AV_INPUT_BUFFER_PADDING_SIZE];
    size_t length;
    do {
        length = fread(piece, 1, PIECE, in);
        memset(piece + length, 0, AV_INPUT_BUFFER_PADDING_SIZE);
        uint8_t *at = piece;
        size_t left = length;
        do {
            int used = av_parser_parse2(parser, codec, &packet->data, &packet->size, at, (int)left, AV_NOPTS_VALUE, AV_NOPTS_VALUE, 0);
            at += used;
            left -= (size_t)used;
            if (packet->size > 0 && avcodec_send_packet(codec, packet) == 0)
                write_frames(codec, frame, out);
        } while (left > 0);
    } while (length > 0);
    avcodec_send_packet(codec, NULL);
    write_frames(codec, frame, out);
    return fclose(out) == 0 ? 0 : 3;
}
