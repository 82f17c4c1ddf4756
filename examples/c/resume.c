/* Converts UTF-16LE on standard input, at most 64 KiB, to UTF-8 through a small buffer. Leaves out
 * ill-formed sequences. Ends with status 1 if the input ends inside a character. */
#include <dethrux.h>

#include <stdio.h>

int main(void) {
    static uint8_t raw[1 << 16];
    const uint8_t *utf16 = raw;
    size_t len = fread(raw, 1, sizeof raw, stdin);
    uint8_t utf8[16];
    size_t capacity = sizeof utf8;
    while (len != 0) {
        dethrux_progress p = dethrux_to_utf8(DETHRUX_LITTLE_ENDIAN, utf16, len, utf8, capacity);
        size_t next = p.read; /* after DETHRUX_NO_SPACE: call again from utf16 + next */
        if (p.status == DETHRUX_ILL_FORMED) {
            next += p.error_len; /* the sequence is at utf16 + p.read: resume after it */
        }

        fwrite(utf8, 1, p.written, stdout);
        if (p.status == DETHRUX_INCOMPLETE) {
            return 1;
        }
        utf16 += next;
        len -= next;
    }
    return 0;
}
