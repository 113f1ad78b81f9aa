/* vectors.c: the motion vectors that libavcodec (59) finds in a byte stream of H.264 on the standard input, picture by picture as they are put
 * out: of each inter macroblock its address and its vectors, in quarter luma samples: one, or two of halves, or that of the first part of each
 * quarter. A line is ADDRESS X,Y .. . cc vectors.c -lavcodec -lavutil
 */
#include <libavcodec/avcodec.h>
#include <libavutil/motion_vector.h>
#include <stdio.h>

enum { SIZE = 16, READ = 65536 };

static uint8_t bytes[READ + AV_INPUT_BUFFER_PADDING_SIZE];

static void show(const AVFrame *frame)
{
    const AVFrameSideData *data = av_frame_get_side_data(frame, AV_FRAME_DATA_MOTION_VECTORS);
    int width = (frame->width + frame->crop_left + frame->crop_right + SIZE - 1) / SIZE;
    long last = -1;
    if (!data)
        return;
    const AVMotionVector *vectors = (const AVMotionVector *)data->data;
    for (size_t k = 0; k < data->size / sizeof *vectors; k++) {
        const AVMotionVector *v = &vectors[k];
        long address = v->dst_y / SIZE * (long)width + v->dst_x / SIZE;
        if (address != last)
            printf(last < 0 ? "%ld" : "\n%ld", address);
        last = address;
        printf(" %d,%d", v->motion_x, v->motion_y);
    }
    if (last >= 0)
        printf("\n");
}

static void take(AVCodecContext *decoder, AVFrame *frame, const AVPacket *packet)
{
    avcodec_send_packet(decoder, packet);
    while (avcodec_receive_frame(decoder, frame) == 0)
        show(frame);
}

int main(void)
{
    const AVCodec *codec = avcodec_find_decoder(AV_CODEC_ID_H264);
    AVCodecContext *decoder = avcodec_alloc_context3(codec);
    AVCodecParserContext *parser = av_parser_init(AV_CODEC_ID_H264);
    AVFrame *frame = av_frame_alloc();
    AVPacket *packet = av_packet_alloc();
    size_t count;
    decoder->flags2 |= AV_CODEC_FLAG2_EXPORT_MVS;
    decoder->flags |= AV_CODEC_FLAG_UNALIGNED;
    decoder->thread_count = 1;
    if (avcodec_open2(decoder, codec, NULL) < 0)
        return 1;
    do {
        const uint8_t *next = bytes;
        count = fread(bytes, 1, READ, stdin);
        do {
            int used = av_parser_parse2(parser, decoder, &packet->data, &packet->size, next, (int)count,
                                        AV_NOPTS_VALUE, AV_NOPTS_VALUE, 0);
            next += used;
            count -= (size_t)used;
            if (packet->size)
                take(decoder, frame, packet);
        } while (count);
    } while (!feof(stdin));
    av_parser_parse2(parser, decoder, &packet->data, &packet->size, NULL, 0, AV_NOPTS_VALUE, AV_NOPTS_VALUE, 0);
    if (packet->size)
        take(decoder, frame, packet);
    take(decoder, frame, NULL);
    return 0;
}
