// The program that `utf16_cat` and `utf16_enc` are compared with. `simdutf_cat le` and `simdutf_cat
// be` decode standard input with simdutf in chunks of 4 KiB, with U+FFFD for each ill-formed
// sequence, and write the text of each chunk. `enc-le` and `enc-be` encode well-formed UTF-8. The
// status is 1 if a read or a write fails, or if UTF-8 is ill formed.
#include <cstring>
#include <unistd.h>
#include "simdutf.h"

static const size_t PIECE = 4096;

// The bytes of the input that are not decoded yet, at the start, and the text of a chunk.
static char16_t input[PIECE / 2 + 2];
static char text[3 * (PIECE / 2 + 2)];

static bool is_leading(char16_t unit, bool big) {
    return ((big ? unit << 8 | unit >> 8 : unit) & 0xFC00) == 0xD800;
}

static size_t replacement(char *to) {
    memcpy(to, "\xEF\xBF\xBD", 3);
    return 3;
}

static bool write_all(const char *from, size_t len) {
    for (size_t at = 0; at < len;) {
        ssize_t written = write(1, from + at, len - at);
        if (written <= 0) return false;
        at += written;
    }
    return true;
}

static int encode(bool big) {
    static char bytes[PIECE + 4];
    static char16_t units[PIECE + 4];
    for (size_t kept = 0;;) {
        ssize_t read_len = read(0, bytes + kept, PIECE);
        if (read_len <= 0) return read_len < 0 || kept > 0;
        // Leaves out the first bytes of a character that the chunk cuts.
        size_t len = kept + read_len, whole = simdutf::trim_partial_utf8(bytes, len);
        simdutf::result answer = big ? simdutf::convert_utf8_to_utf16be_with_errors(bytes, whole, units)
                                     : simdutf::convert_utf8_to_utf16le_with_errors(bytes, whole, units);
        if (answer.error || !write_all((const char *)units, 2 * answer.count)) return 1;
        kept = len - whole;
        memmove(bytes, bytes + whole, kept);
    }
}

int main(int count, char **words) {
    if (count == 2 && strncmp(words[1], "enc-", 4) == 0) return encode(strcmp(words[1], "enc-be") == 0);
    bool big = count == 2 && strcmp(words[1], "be") == 0;
    for (size_t kept = 0;;) {
        ssize_t read_len = read(0, (char *)input + kept, PIECE);
        if (read_len < 0) return 1;
        // At the end of the input at most one character is left, and it is incomplete.
        if (read_len == 0) return !write_all(text, kept ? replacement(text) : 0);
        size_t bytes = kept + read_len, units = bytes / 2, at = 0, written = 0;
        while (at < units) {
            const char16_t *from = input + at;
            simdutf::result answer = big ? simdutf::convert_utf16be_to_utf8_with_errors(from, units - at, text + written)
                                         : simdutf::convert_utf16le_to_utf8_with_errors(from, units - at, text + written);
            if (!answer.error) {
                at = units, written += answer.count;
                break;
            }
            // Writes the text before the unpaired surrogate, whose length simdutf does not give,
            // and a replacement.
            written += big ? simdutf::convert_valid_utf16be_to_utf8(from, answer.count, text + written)
                           : simdutf::convert_valid_utf16le_to_utf8(from, answer.count, text + written);
            at += answer.count;
            if (at + 1 == units && is_leading(input[at], big)) break;
            written += replacement(text + written);
            at += 1;
        }
        if (!write_all(text, written)) return 1;
        kept = bytes - 2 * at;
        memmove(input, input + at, kept);
    }
}
