// openh264 IN OUT: decodes a byte stream with openh264, a unit at a time, and writes the pictures as I420. For bench/time.sh.
#include <cstdio>
#include <cstring>
#include <vector>
#include <wels/codec_api.h>

static void write_plane(const unsigned char *samples, int stride, int columns, int rows, FILE *out) {
    for (int y = 0; y < rows; y++)
        fwrite(samples + static_cast<size_t>(y) * stride, 1, columns, out);
}

static void write_picture(unsigned char **planes, const SBufferInfo &info, FILE *out) {
    if (info.iBufferStatus != 1 || !planes[0])
        return;
    const SSysMEMBuffer &is = info.UsrData.sSystemBuffer;
    write_plane(planes[0], is.iStride[0], is.iWidth, is.iHeight, out);
    for (int plane = 1; plane < 3; plane++)
        write_plane(planes[plane], is.iStride[1], is.iWidth / 2, is.iHeight / 2, out);
}

// Hands over a unit, or the end, and writes what comes.
static void decode(ISVCDecoder *decoder, const unsigned char *unit, int length, FILE *out) {
    unsigned char *planes[3] = {};
    SBufferInfo info = {};
    decoder->DecodeFrame2(unit, length, planes, &info);
    write_picture(planes, info, out);
}

static std::vector<unsigned char> bytes_of(FILE *in) {
    std::vector<unsigned char> bytes;
    unsigned char piece[65536];
    size_t length;
    while ((length = fread(piece, 1, sizeof piece, in)) > 0)
        bytes.insert(bytes.end(), piece, piece + length);
    return bytes;
}

int main(int count, char **words) {
    if (count < 3)
        return 2;
    FILE *in = fopen(words[1], "rb"), *out = fopen(words[2], "wb");
    ISVCDecoder *decoder = nullptr;
    if (!in || !out || WelsCreateDecoder(&decoder) != 0)
        return 3;
    int quiet = WELS_LOG_QUIET, ends = 1, waiting = 0;
    decoder->SetOption(DECODER_OPTION_TRACE_LEVEL, &quiet);
    SDecodingParam parameters = {};
    parameters.uiTargetDqLayer = static_cast<unsigned char>(-1);
    parameters.eEcActiveIdc = ERROR_CON_DISABLE;
    parameters.sVideoProperty.size = sizeof parameters.sVideoProperty;
    parameters.sVideoProperty.eVideoBsType = VIDEO_BITSTREAM_DEFAULT;
    if (decoder->Initialize(&parameters) != 0)
        return 3;
    const std::vector<unsigned char> bytes = bytes_of(in);
    size_t begun = bytes.size();
    for (size_t at = 0; at + 3 <= bytes.size(); at++) {
        if (bytes[at] != 0 || bytes[at + 1] != 0 || bytes[at + 2] != 1)
            continue;
        if (begun < at)
            decode(decoder, bytes.data() + begun, static_cast<int>(at - begun), out);
        begun = at;
        at += 2;
    }
    decode(decoder, bytes.data() + begun, static_cast<int>(bytes.size() - begun), out);
    decoder->SetOption(DECODER_OPTION_END_OF_STREAM, &ends);
    decode(decoder, nullptr, 0, out);
    decoder->GetOption(DECODER_OPTION_NUM_OF_FRAMES_REMAINING_IN_BUFFER, &waiting);
    for (int k = 0; k < waiting; k++) {
        unsigned char *planes[3] = {};
        SBufferInfo info = {};
        decoder->FlushFrame(planes, &info);
        write_picture(planes, info, out);
    }
    decoder->Uninitialize();
    WelsDestroyDecoder(decoder);
    return fclose(out) == 0 ? 0 : 3;
}
