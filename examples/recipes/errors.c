/* Prints where UTF-16LE on standard input is ill formed, and the text around it. The input must be
 * smaller than 64 KiB. */
#include <dethrux.h>

#include <stdio.h>

int main(void) {
    static uint8_t utf16[1 << 16], utf8[DETHRUX_UTF8_MAX(sizeof utf16)];
    size_t len = fread(utf16, 1, sizeof utf16, stdin);
    if (len == sizeof utf16) {
        fprintf(stderr, "errors: the input is not smaller than 64 KiB\n");
        return 2;
    }
    for (size_t at = 0;;) {
        dethrux_progress part =
            dethrux_to_utf8(DETHRUX_LITTLE_ENDIAN, utf16 + at, len - at, utf8, sizeof utf8);
        printf("text \"%.*s\"\n", (int)part.written, (const char *)utf8);
        at += part.read;
        if (part.status != DETHRUX_ILL_FORMED) {
            printf("%s at byte %zu\n", part.status == DETHRUX_DONE ? "end" : "incomplete", at);
            return ferror(stdin) || fflush(stdout) != 0 || ferror(stdout);
        }
        printf("ill formed at byte %zu, %u bytes\n", at, (unsigned)part.error_len);
        at += part.error_len;
    }
}
