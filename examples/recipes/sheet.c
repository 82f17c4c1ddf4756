/* Converts the "Unicode Text" of Excel on standard input, which has tabs and CR LF, to
 * comma-separated values in UTF-8, in constant memory. */
#include <dethrux.h>

#include <stdio.h>

/* Writes converted bytes. They are changed byte by byte, since every byte of a character that is
 * not ASCII is 0x80 or above. A field with a comma would need quotes. */
static void write_fields(const uint8_t *utf8, size_t len) {
    for (size_t i = 0; i < len; i++) {
        if (utf8[i] != '\r') {
            putchar(utf8[i] == '\t' ? ',' : utf8[i]);
        }
    }
}

int main(void) {
    uint8_t raw[4096], utf8[DETHRUX_DECODER_FEED_MAX(sizeof raw)];
    dethrux_decoder decoder = DETHRUX_DECODER_INIT;
    size_t len = fread(raw, 1, sizeof raw, stdin);
    dethrux_bom bom = dethrux_detect_bom(DETHRUX_LITTLE_ENDIAN, raw, len);
    for (size_t skip = bom.len; len != 0; len = fread(raw, 1, sizeof raw, stdin), skip = 0) {
        dethrux_progress part = dethrux_decoder_feed(
            &decoder, bom.byte_order, raw + skip, len - skip, utf8, sizeof utf8);
        write_fields(utf8, part.written);
    }
    dethrux_progress end = dethrux_decoder_finish(&decoder, bom.byte_order, utf8, sizeof utf8);
    write_fields(utf8, end.written);
    return ferror(stdin) || fflush(stdout) != 0 || ferror(stdout);
}
