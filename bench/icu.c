// ICU's calls on code units in the machine's byte order. A conversion that fails returns SIZE_MAX.
#include <stdint.h>
#include <unicode/ustring.h>
#include <unicode/utf16.h>

// ICU has no call that validates; it has a macro that reads a character.
size_t icu_valid_up_to(const UChar *units, size_t len) {
    size_t at = 0, next = 0;
    for (UChar32 c; at < len; at = next) {
        U16_NEXT(units, next, len, c);
        if (U_IS_SURROGATE(c)) break;
    }
    return at;
}

size_t icu_count(const UChar *units, size_t len) {
    return u_countChar32(units, len);
}

size_t icu_to_utf8(const UChar *units, size_t len, char *to, size_t room) {
    UErrorCode error = U_ZERO_ERROR;
    int32_t written;
    u_strToUTF8(to, room, &written, units, len, &error);
    return U_FAILURE(error) ? SIZE_MAX : written;
}

size_t icu_from_utf8(const char *text, size_t len, UChar *to, size_t room) {
    UErrorCode error = U_ZERO_ERROR;
    int32_t written;
    u_strFromUTF8(to, room, &written, text, len, &error);
    return U_FAILURE(error) ? SIZE_MAX : written;
}
