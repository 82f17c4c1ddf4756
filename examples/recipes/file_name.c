/* Writes the file names of NTFS on standard input, each after a byte with its number of code units,
 * in WTF-8, each with a NUL after it. No two names become the same, and each can be read back. */
#include <dethrux.h>

#include <stdio.h>
#include <string.h>

/* Writes a name, and returns whether its WTF-8 gives the same name again. */
static bool write_name(const uint8_t *name, size_t len) {
    uint8_t wtf8[DETHRUX_WTF8_MAX(2 * 255)], again[2 * 255];
    dethrux_progress there =
        dethrux_to_wtf8(DETHRUX_LITTLE_ENDIAN, name, len, wtf8, sizeof wtf8);
    dethrux_progress back =
        dethrux_from_wtf8(DETHRUX_LITTLE_ENDIAN, wtf8, there.written, again, sizeof again);
    fwrite(wtf8, 1, there.written, stdout);
    putchar('\0');
    return back.written == len && memcmp(again, name, len) == 0;
}

int main(void) {
    uint8_t name[2 * 255];
    for (int units; (units = getchar()) != EOF;) {
        size_t len = 2 * (size_t)units;
        if (fread(name, 1, len, stdin) != len || !write_name(name, len)) {
            return 1;
        }
    }
    return ferror(stdin) || fflush(stdout) != 0 || ferror(stdout);
}
