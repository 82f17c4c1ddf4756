/* Converts two characters in both directions with the installed library. Exits with 0 if the bytes
 * are right according to the Unicode Standard and the library has the version of its header, and
 * with 4 if the processor is too old, which no loader tests for a program without one. */
#include <dethrux.h>
#include <string.h>

/* U+20AC and U+1F600. */
static const uint8_t utf16[] = {0xAC, 0x20, 0x3D, 0xD8, 0x00, 0xDE};
static const uint8_t utf8[] = {0xE2, 0x82, 0xAC, 0xF0, 0x9F, 0x98, 0x80};

static int is(dethrux_progress progress, size_t read, const uint8_t *found, const uint8_t *wanted,
    size_t len) {
    return progress.status == DETHRUX_DONE && progress.read == read && progress.written == len
        && memcmp(found, wanted, len) == 0;
}

int main(void) {
    uint8_t to[DETHRUX_UTF16_MAX(sizeof utf8)];
#if defined(__x86_64__) && defined(__linux__)
    if (!(__builtin_cpu_supports("sse4.2") && __builtin_cpu_supports("popcnt"))) {
        return 4;
    }
#endif
    if (dethrux_version() != DETHRUX_VERSION) {
        return 1;
    }
    if (!is(dethrux_to_utf8(DETHRUX_LITTLE_ENDIAN, utf16, sizeof utf16, to, sizeof to),
            sizeof utf16, to, utf8, sizeof utf8)) {
        return 2;
    }
    if (!is(dethrux_from_utf8(DETHRUX_LITTLE_ENDIAN, utf8, sizeof utf8, to, sizeof to),
            sizeof utf8, to, utf16, sizeof utf16)) {
        return 3;
    }
    return 0;
}
