/* A plain decoder of UTF-16 and of UTF-8, written from the Unicode Standard, and what each call of
 * the library must return according to it. */
#ifndef REFERENCE_H
#define REFERENCE_H

#include "dethrux.h"

enum { TEXT_MAX = 20480, REPLACEMENT = 0xFFFD };

/* One character, one sequence that U+FFFD replaces, or a character that Latin-1 does not have. */
typedef enum { CHARACTER, ILL_FORMED, INCOMPLETE, OTHER_CHARACTER } item_kind;

typedef struct {
    item_kind kind;
    uint32_t scalar; /* of a character; otherwise U+FFFD */
    size_t len;      /* of its bytes in the input */
    size_t out_len;  /* of what replaces it in the output */
} item;

/* A decoded text, with the pending bytes before it, and its conversion with U+FFFD. */
typedef struct {
    size_t item_count;
    item items[DETHRUX_PENDING_MAX + TEXT_MAX];
    size_t out_len;
    uint8_t out[4 * TEXT_MAX];
} decoded;

/* Where a call stops: always at a character that Latin-1 does not have, STRICT at an ill-formed
 * sequence and at an incomplete end, PARTIAL at an incomplete end, and LOSSY at neither. */
typedef enum { STRICT, PARTIAL, LOSSY } conversion_mode;

void decode_utf16(dethrux_byte_order order, const uint8_t *bytes, size_t len, decoded *to);
void decode_utf8(dethrux_byte_order order, const uint8_t *bytes, size_t len, decoded *to);

/* The same conversion of UTF-16 into UTF-32, whose code units `out_len` counts. */
void decoded_as_utf32(const decoded *utf16, decoded *to);

/* The same conversion of UTF-16 into Latin-1. */
void decoded_as_latin1(const decoded *utf16, decoded *to);

/* Decodes Latin-1. */
void decode_latin1(dethrux_byte_order order, const uint8_t *bytes, size_t len, decoded *to);

/* Writes the characters of a text as UTF-32, with a number above U+10FFFF or a surrogate for each
 * ill-formed sequence, and returns how many code units these are. */
size_t utf32_of(const decoded *utf8, uint32_t *to);

/* Decodes UTF-32. The lengths in the input are in code units. */
void decode_utf32(dethrux_byte_order order, const uint32_t *units, size_t len, decoded *to);

/* Decodes UTF-16 to WTF-8 and WTF-8 to UTF-16 ("The WTF-8 encoding" by Simon Sapin). An unpaired
 * surrogate is a character. If more bytes follow, a leading surrogate at the end is incomplete;
 * else only an odd byte is. */
void decode_to_wtf8(dethrux_byte_order order, const uint8_t *bytes, size_t len, bool more_follow,
                    decoded *to);
void decode_wtf8(dethrux_byte_order order, const uint8_t *bytes, size_t len, decoded *to);

/* Returns what a conversion of the text returns for a capacity. */
dethrux_progress expected_progress(const decoded *text, conversion_mode mode, size_t capacity);

/* Returns the first or the last offset at which a pattern occurs in bytes that were decoded to
 * `text`, or DETHRUX_NOT_FOUND: its bytes are there, and they begin and end at ends of items. */
size_t find_first(const decoded *text, const uint8_t *bytes, const uint8_t *pattern, size_t len);
size_t find_last(const decoded *text, const uint8_t *bytes, const uint8_t *pattern, size_t len);

/* Encode a scalar value, and return the length. */
size_t encode_utf8(uint32_t scalar, uint8_t *to);
size_t encode_utf16(dethrux_byte_order order, uint32_t scalar, uint8_t *to);

/* Encodes any code unit. */
void encode_unit(dethrux_byte_order order, uint32_t unit, uint8_t *to);

/* Returns the code unit at an offset. */
uint32_t unit_at(dethrux_byte_order order, const uint8_t *bytes, size_t at);
bool is_leading(uint32_t unit);
bool is_trailing(uint32_t unit);

#endif
