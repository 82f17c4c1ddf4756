/* Decodes UTF-16 on standard input to UTF-8 on standard output, in chunks: decode le|be|auto. */
#include "dethrux.h"

#include <stdio.h>
#include <string.h>

/* Writes the text of a chunk, one buffer after another. */
static bool feed(dethrux_decoder *decoder, dethrux_byte_order order, const uint8_t *chunk, size_t len) {
    uint8_t utf8[1024];
    dethrux_progress progress;
    do {
        progress = dethrux_decoder_feed(decoder, order, chunk, len, utf8, sizeof utf8);
        if (fwrite(utf8, 1, progress.written, stdout) != progress.written) {
            return false;
        }
        chunk += progress.read;
        len -= progress.read;
    } while (progress.status == DETHRUX_NO_SPACE);
    return true;
}

/* Writes U+FFFD if the stream ends inside a character. */
static bool finish(dethrux_decoder *decoder, dethrux_byte_order order) {
    uint8_t utf8[DETHRUX_DECODER_FINISH_MAX];
    size_t len = dethrux_decoder_finish(decoder, order, utf8, sizeof utf8).written;
    return fwrite(utf8, 1, len, stdout) == len && fflush(stdout) == 0;
}

int main(int argc, char **argv) {
    uint8_t raw[4096];
    size_t len = fread(raw, 1, sizeof raw, stdin);
    size_t read = 0;
    dethrux_decoder decoder = DETHRUX_DECODER_INIT;
    dethrux_byte_order order = DETHRUX_LITTLE_ENDIAN;
    if (argc == 2 && strcmp(argv[1], "auto") == 0) {
        dethrux_bom bom = dethrux_detect_bom(DETHRUX_BIG_ENDIAN, raw, len);
        order = bom.byte_order;
        read = bom.len;
    } else if (argc == 2 && strcmp(argv[1], "be") == 0) {
        order = DETHRUX_BIG_ENDIAN;
    } else if (argc != 2 || strcmp(argv[1], "le") != 0) {
        fputs("usage: decode le|be|auto\n", stderr);
        return 2;
    }
    for (; len != 0; len = fread(raw, 1, sizeof raw, stdin), read = 0) {
        if (!feed(&decoder, order, raw + read, len - read)) {
            return 1;
        }
    }
    return !finish(&decoder, order) || ferror(stdin);
}
