/* Converts UTF-16 that is ill formed in one place: says where, and prints the text anyway. */
#include <dethrux.h>

#include <stdio.h>

int main(void) {
    /* "h", U+1F600, an unpaired surrogate and "!", in little endian. */
    const uint8_t utf16[] = {'h', 0, 0x3D, 0xD8, 0x00, 0xDE, 0x00, 0xDC, '!', 0};
    char utf8[DETHRUX_UTF8_MAX(sizeof utf16)];

    dethrux_progress strict =
        dethrux_to_utf8(DETHRUX_LITTLE_ENDIAN, utf16, sizeof utf16, utf8, sizeof utf8);
    if (strict.status == DETHRUX_ILL_FORMED) {
        printf("ill formed at byte %zu, %u bytes\n", strict.read, (unsigned)strict.error_len);
    }

    dethrux_progress lossy =
        dethrux_to_utf8_lossy(DETHRUX_LITTLE_ENDIAN, utf16, sizeof utf16, utf8, sizeof utf8);
    printf("%.*s\n", (int)lossy.written, utf8);

    /* Code units in the machine's byte order, as char16_t or uint16_t. */
    const uint16_t units[] = {0x48, 0x69, 0xD83D, 0xDE00};
    printf("%zu characters\n", dethrux_u16_count_chars(units, 4));
    return 0;
}
