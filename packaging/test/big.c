/* Makes the calls on a text of 17 MiB. Exits with 0 if the results are right. */
#include <dethrux.h>

#include <stdio.h>
#include <stdlib.h>
#include <string.h>

#define ORDER DETHRUX_LITTLE_ENDIAN

/* In UTF-16 and in UTF-8 these have eight bytes: "a", U+00E9, U+4E00 and U+00E9. */
#define UTF16 "a\0\xE9\0\0\x4E\xE9"
#define UTF8 "a\xC3\xA9\xE4\xB8\x80\xC3\xA9"

static const size_t len = (size_t)17 << 20;

static void require(int holds, const char *what) {
    if (!holds) {
        printf("%s, on %zu bytes\n", what, len);
        exit(1);
    }
}

/* Returns a text of these eight bytes, again and again. */
static uint8_t *repeated(const char *unit) {
    uint8_t *text = malloc(len);
    require(text != NULL, "malloc failed");
    for (size_t i = 0; i < len; i += 8) {
        memcpy(text + i, unit, 8);
    }
    return text;
}

static int has_text(const uint8_t *at, const char *unit) {
    return memcmp(at, unit, 8) == 0 && memcmp(at, at + 8, len - 8) == 0;
}

static int is(dethrux_progress got, dethrux_status status, size_t read, size_t written) {
    return got.status == status && got.read == read && got.written == written;
}

static void test_conversions(const uint8_t *utf16, const uint8_t *utf8, uint8_t *to) {
    dethrux_decoder decoder = DETHRUX_DECODER_INIT;
    dethrux_encoder encoder = DETHRUX_ENCODER_INIT;
    dethrux_progress got = dethrux_to_utf8(ORDER, utf16, len, to, len);
    require(is(got, DETHRUX_DONE, len, len) && has_text(to, UTF8), "dethrux_to_utf8");
    got = dethrux_from_utf8(ORDER, utf8, len, to, len);
    require(is(got, DETHRUX_DONE, len, len) && has_text(to, UTF16), "dethrux_from_utf8");
    got = dethrux_decoder_feed(&decoder, ORDER, utf16, len, to, len);
    require(is(got, DETHRUX_DONE, len, len) && has_text(to, UTF8), "dethrux_decoder_feed");
    got = dethrux_encoder_feed(&encoder, ORDER, utf8, len, to, len);
    require(is(got, DETHRUX_DONE, len, len) && has_text(to, UTF16), "dethrux_encoder_feed");
    got = dethrux_to_utf8_lossy(ORDER, utf16, len, to, len - 1);
    require(is(got, DETHRUX_NO_SPACE, len - 2, len - 2), "dethrux_to_utf8_lossy without space");
}

static void test_lengths(const uint8_t *utf16, const uint8_t *utf8) {
    dethrux_validity valid = dethrux_validate(ORDER, utf16, len);
    require(valid.status == DETHRUX_DONE && valid.valid_up_to == len, "dethrux_validate");
    require(dethrux_count_chars(ORDER, utf16, len) == len / 2, "dethrux_count_chars");
    require(dethrux_to_utf8_lossy_len(ORDER, utf16, len) == len, "dethrux_to_utf8_lossy_len");
    require(dethrux_from_utf8_len(utf8, len) == len, "dethrux_from_utf8_len");
    require(dethrux_from_utf8_lossy_len(utf8, len) == len, "dethrux_from_utf8_lossy_len");
    require(dethrux_nul_offset(utf16, len) == len, "dethrux_nul_offset");
    require(dethrux_to_utf8_replacements(ORDER, utf16, len) == 0, "dethrux_to_utf8_replacements");
    require(dethrux_from_utf8_replacements(utf8, len) == 0, "dethrux_from_utf8_replacements");
    require(dethrux_floor_char_boundary(ORDER, utf16, len, len - 1) == len - 2,
        "dethrux_floor_char_boundary");
}

/* The end of the text is ill formed. */
static void test_end(uint8_t *utf16, const uint8_t *sound, uint8_t *to) {
    dethrux_validity valid = dethrux_validate(ORDER, utf16, len);
    require(valid.status == DETHRUX_ILL_FORMED && valid.valid_up_to == len - 2,
        "dethrux_validate, ill formed");
    require(is(dethrux_to_utf8(ORDER, utf16, len, to, len), DETHRUX_ILL_FORMED, len - 2, len - 2),
        "dethrux_to_utf8, ill formed");
    require(dethrux_to_utf8_lossy_len(ORDER, utf16, len) == len + 1,
        "dethrux_to_utf8_lossy_len, ill formed");
    require(dethrux_to_utf8_replacements(ORDER, utf16, len) == 1,
        "dethrux_to_utf8_replacements, ill formed");
    require(dethrux_compare(ORDER, sound, len, ORDER, utf16, len) == -1, "dethrux_compare");
    require(dethrux_find(ORDER, utf16, len, utf16 + len - 2, 2) == len - 2, "dethrux_find");
    require(dethrux_rfind(ORDER, sound, len, utf16 + len - 2, 2) == DETHRUX_NOT_FOUND,
        "dethrux_rfind");
    require(dethrux_make_well_formed(ORDER, utf16, len) == 1, "dethrux_make_well_formed");
    require(memcmp(utf16 + len - 2, "\xFD\xFF", 2) == 0, "the end that is well formed");
}

/* A pattern whose bytes are at each odd offset of the text, where it does not occur. A search that
 * began again at each of them would compare 4 MiB millions of times. */
static void test_search(void) {
    const uint8_t *text = repeated("a\0a\0a\0a");
    require(dethrux_find(ORDER, text, len - 1, text + 1, len / 4) == DETHRUX_NOT_FOUND,
        "dethrux_find at odd offsets");
    require(dethrux_rfind(ORDER, text, len - 1, text + 1, len / 4) == DETHRUX_NOT_FOUND,
        "dethrux_rfind at odd offsets");
}

int main(void) {
    uint8_t *utf16 = repeated(UTF16), *utf8 = repeated(UTF8), *to = repeated(UTF8);
    uint8_t *broken = repeated(UTF16);
    memcpy(broken + len - 2, "\x00\xDC", 2);
    test_lengths(utf16, utf8);
    test_conversions(utf16, utf8, to);
    test_end(broken, utf16, to);
    test_search();
    dethrux_swap_byte_order(utf16, len);
    require(has_text(utf16, "\0a\0\xE9\x4E\0\0\xE9"), "dethrux_swap_byte_order");
    return 0;
}
