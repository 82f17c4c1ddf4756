#include "reference.h"

#include <string.h>

/* An item of the input, before its conversion. */
typedef struct {
    item_kind kind;
    size_t len;
    uint32_t scalar;
} sequence;

static const sequence NO_SEQUENCE = {INCOMPLETE, 0, REPLACEMENT};

uint32_t unit_at(dethrux_byte_order order, const uint8_t *bytes, size_t at) {
    return order == DETHRUX_BIG_ENDIAN ? (uint32_t)bytes[at] << 8 | bytes[at + 1]
                                       : (uint32_t)bytes[at + 1] << 8 | bytes[at];
}

bool is_leading(uint32_t unit) {
    return unit >= 0xD800 && unit <= 0xDBFF;
}

bool is_trailing(uint32_t unit) {
    return unit >= 0xDC00 && unit <= 0xDFFF;
}

/* Returns the first item of bytes that are not empty (the Unicode Standard, 3.9, D91). */
static sequence next_utf16(dethrux_byte_order order, const uint8_t *bytes, size_t len) {
    if (len < 2) {
        return (sequence){INCOMPLETE, len, REPLACEMENT};
    }
    uint32_t unit = unit_at(order, bytes, 0);
    if (is_trailing(unit)) {
        return (sequence){ILL_FORMED, 2, REPLACEMENT};
    }
    if (!is_leading(unit)) {
        return (sequence){CHARACTER, 2, unit};
    }
    if (len < 4) {
        return (sequence){INCOMPLETE, len, REPLACEMENT};
    }
    uint32_t next = unit_at(order, bytes, 2);
    if (!is_trailing(next)) {
        return (sequence){ILL_FORMED, 2, REPLACEMENT};
    }
    return (sequence){CHARACTER, 4, 0x10000 + ((unit - 0xD800) << 10) + (next - 0xDC00)};
}

/* A row of Table 3-7: the ranges of the first and the second byte, and the length. */
typedef struct {
    uint8_t first, last, second_from, second_to;
    size_t len;
} utf8_row;

static const utf8_row UTF8_ROWS[] = {
    {0x00, 0x7F, 0x00, 0x00, 1}, {0xC2, 0xDF, 0x80, 0xBF, 2}, {0xE0, 0xE0, 0xA0, 0xBF, 3},
    {0xE1, 0xEC, 0x80, 0xBF, 3}, {0xED, 0xED, 0x80, 0x9F, 3}, {0xEE, 0xEF, 0x80, 0xBF, 3},
    {0xF0, 0xF0, 0x90, 0xBF, 4}, {0xF1, 0xF3, 0x80, 0xBF, 4}, {0xF4, 0xF4, 0x80, 0x8F, 4},
};

static const utf8_row *row_of(uint8_t byte) {
    for (size_t i = 0; i < sizeof UTF8_ROWS / sizeof UTF8_ROWS[0]; i++) {
        if (byte >= UTF8_ROWS[i].first && byte <= UTF8_ROWS[i].last) {
            return &UTF8_ROWS[i];
        }
    }
    return NULL;
}

/* Returns the first item of bytes that are not empty (the Unicode Standard, 3.9, Table 3-7 and
 * "U+FFFD Substitution of Maximal Subparts"). */
static sequence next_utf8(dethrux_byte_order order, const uint8_t *bytes, size_t len) {
    (void)order;
    const utf8_row *row = row_of(bytes[0]);
    if (row == NULL) {
        return (sequence){ILL_FORMED, 1, REPLACEMENT};
    }
    static const uint8_t FIRST_BITS[] = {0, 0x7F, 0x1F, 0x0F, 0x07};
    uint32_t scalar = bytes[0] & FIRST_BITS[row->len];
    for (size_t i = 1; i < row->len; i++) {
        if (i == len) {
            return (sequence){INCOMPLETE, len, REPLACEMENT};
        }
        uint8_t from = i == 1 ? row->second_from : 0x80;
        uint8_t to = i == 1 ? row->second_to : 0xBF;
        if (bytes[i] < from || bytes[i] > to) {
            return (sequence){ILL_FORMED, i, REPLACEMENT};
        }
        scalar = scalar << 6 | (bytes[i] & 0x3F);
    }
    return (sequence){CHARACTER, row->len, scalar};
}

/* The Unicode Standard, 3.9, Table 3-6. */
size_t encode_utf8(uint32_t scalar, uint8_t *to) {
    static const uint8_t MARKS[] = {0, 0x00, 0xC0, 0xE0, 0xF0};
    size_t len = scalar < 0x80 ? 1 : scalar < 0x800 ? 2 : scalar < 0x10000 ? 3 : 4;
    for (size_t i = len; i > 1; i--) {
        to[i - 1] = (uint8_t)(0x80 | (scalar & 0x3F));
        scalar >>= 6;
    }
    to[0] = (uint8_t)(MARKS[len] | scalar);
    return len;
}

void encode_unit(dethrux_byte_order order, uint32_t unit, uint8_t *to) {
    bool big = order == DETHRUX_BIG_ENDIAN;
    to[big ? 0 : 1] = (uint8_t)(unit >> 8);
    to[big ? 1 : 0] = (uint8_t)unit;
}

/* The Unicode Standard, 3.9, Table 3-5. */
size_t encode_utf16(dethrux_byte_order order, uint32_t scalar, uint8_t *to) {
    if (scalar < 0x10000) {
        encode_unit(order, scalar, to);
        return 2;
    }
    encode_unit(order, 0xD800 + ((scalar - 0x10000) >> 10), to);
    encode_unit(order, 0xDC00 + ((scalar - 0x10000) & 0x3FF), to + 2);
    return 4;
}

static void append_item(decoded *to, sequence found, size_t out_len) {
    to->items[to->item_count++] = (item){found.kind, found.scalar, found.len, out_len};
    to->out_len += out_len;
}

void decode_utf16(dethrux_byte_order order, const uint8_t *bytes, size_t len, decoded *to) {
    to->item_count = 0;
    to->out_len = 0;
    sequence found = NO_SEQUENCE;
    for (size_t at = 0; at < len; at += found.len) {
        found = next_utf16(order, bytes + at, len - at);
        append_item(to, found, encode_utf8(found.scalar, to->out + to->out_len));
    }
}

void decode_utf8(dethrux_byte_order order, const uint8_t *bytes, size_t len, decoded *to) {
    to->item_count = 0;
    to->out_len = 0;
    sequence found = NO_SEQUENCE;
    for (size_t at = 0; at < len; at += found.len) {
        found = next_utf8(order, bytes + at, len - at);
        append_item(to, found, encode_utf16(order, found.scalar, to->out + to->out_len));
    }
}

void decoded_as_utf32(const decoded *utf16, decoded *to) {
    to->item_count = utf16->item_count;
    to->out_len = utf16->item_count;
    for (size_t i = 0; i < utf16->item_count; i++) {
        to->items[i] = utf16->items[i];
        to->items[i].out_len = 1;
        memcpy(to->out + 4 * i, &utf16->items[i].scalar, 4);
    }
}

void decoded_as_latin1(const decoded *utf16, decoded *to) {
    to->item_count = utf16->item_count;
    to->out_len = utf16->item_count;
    for (size_t i = 0; i < utf16->item_count; i++) {
        const item *from = &utf16->items[i];
        bool is_other = from->kind == CHARACTER && from->scalar > 0xFF;
        to->items[i] = (item){is_other ? OTHER_CHARACTER : from->kind, from->scalar, from->len, 1};
        to->out[i] = (uint8_t)from->scalar;
    }
}

void decode_latin1(dethrux_byte_order order, const uint8_t *bytes, size_t len, decoded *to) {
    to->item_count = 0;
    to->out_len = 0;
    for (size_t at = 0; at < len; at++) {
        sequence found = {CHARACTER, 1, bytes[at]};
        append_item(to, found, encode_utf16(order, found.scalar, to->out + to->out_len));
    }
}

size_t utf32_of(const decoded *utf8, uint32_t *to) {
    static const uint32_t NO_CHARACTERS[] = {0xD800, 0xDBFF,     0xDC00,     0xDFFF,
                                             0x110000, 0x7FFFFFFF, 0x80000061, 0xFFFFFFFF};
    for (size_t i = 0; i < utf8->item_count; i++) {
        const item *next = &utf8->items[i];
        to[i] = next->kind == CHARACTER ? next->scalar : NO_CHARACTERS[(i + next->len) % 8];
    }
    return utf8->item_count;
}

/* The Unicode Standard, 3.9, D76 and D90. */
void decode_utf32(dethrux_byte_order order, const uint32_t *units, size_t len, decoded *to) {
    to->item_count = 0;
    to->out_len = 0;
    for (size_t at = 0; at < len; at++) {
        bool is_character = units[at] <= 0x10FFFF && !is_leading(units[at]) && !is_trailing(units[at]);
        sequence found = {is_character ? CHARACTER : ILL_FORMED, 1,
                          is_character ? units[at] : REPLACEMENT};
        append_item(to, found, encode_utf16(order, found.scalar, to->out + to->out_len));
    }
}

static void append_unit(decoded *to, uint32_t unit) {
    sequence found = {CHARACTER, 2, unit};
    append_item(to, found, encode_utf8(unit, to->out + to->out_len));
}

/* The end of a stream: a leading surrogate is a code unit, and an odd byte is not. Of what is
 * incomplete, the code unit is written. */
static void append_end(decoded *to, uint32_t unit, size_t len, bool more_follow) {
    if (more_follow) {
        sequence found = {INCOMPLETE, len, unit};
        append_item(to, found, len >= 2 ? encode_utf8(unit, to->out + to->out_len) : 0);
        return;
    }
    if (len >= 2) {
        append_unit(to, unit);
    }
    if (len % 2 == 1) {
        append_item(to, (sequence){INCOMPLETE, 1, REPLACEMENT}, 0);
    }
}

void decode_to_wtf8(dethrux_byte_order order, const uint8_t *bytes, size_t len, bool more_follow,
                    decoded *to) {
    to->item_count = 0;
    to->out_len = 0;
    sequence found = NO_SEQUENCE;
    for (size_t at = 0; at < len; at += found.len) {
        found = next_utf16(order, bytes + at, len - at);
        uint32_t unit = len - at < 2 ? REPLACEMENT : unit_at(order, bytes, at);
        if (found.kind == INCOMPLETE) {
            append_end(to, unit, found.len, more_follow);
        } else if (found.kind == ILL_FORMED) {
            append_unit(to, unit);
        } else {
            append_item(to, found, encode_utf8(found.scalar, to->out + to->out_len));
        }
    }
}

/* Returns the first item of bytes that are not empty: in WTF-8 a second byte up to BF may follow
 * ED. */
static sequence next_wtf8(dethrux_byte_order order, const uint8_t *bytes, size_t len) {
    if (bytes[0] != 0xED || len < 2 || bytes[1] < 0xA0 || bytes[1] > 0xBF) {
        return next_utf8(order, bytes, len);
    }
    if (len < 3) {
        return (sequence){INCOMPLETE, len, REPLACEMENT};
    }
    if ((bytes[2] & 0xC0) != 0x80) {
        return (sequence){ILL_FORMED, 2, REPLACEMENT};
    }
    return (sequence){CHARACTER, 3, 0xD000 | (uint32_t)(bytes[1] & 0x3F) << 6 | (bytes[2] & 0x3F)};
}

void decode_wtf8(dethrux_byte_order order, const uint8_t *bytes, size_t len, decoded *to) {
    to->item_count = 0;
    to->out_len = 0;
    sequence found = NO_SEQUENCE, before = NO_SEQUENCE;
    for (size_t at = 0; at < len; at += found.len) {
        found = next_wtf8(order, bytes + at, len - at);
        if (is_leading(before.scalar) && is_trailing(found.scalar)) {
            found = (sequence){ILL_FORMED, 3, REPLACEMENT};
        }
        before = found;
        append_item(to, found, encode_utf16(order, found.scalar, to->out + to->out_len));
    }
}

/* Returns the first or the last place of a pattern. It begins and ends where items do. */
static size_t find(const decoded *text, const uint8_t *bytes, const uint8_t *pattern, size_t len,
                   bool is_last) {
    static bool begins[TEXT_MAX + 1];
    size_t end = 0, found = DETHRUX_NOT_FOUND;
    for (size_t i = 0; i < text->item_count; i++) {
        memset(begins + end, false, text->items[i].len);
        begins[end] = true;
        end += text->items[i].len;
    }
    begins[end] = true;
    for (size_t at = 0; at + len <= end && (is_last || found == DETHRUX_NOT_FOUND); at++) {
        if (begins[at] && begins[at + len] && (len == 0 || memcmp(bytes + at, pattern, len) == 0)) {
            found = at;
        }
    }
    return found;
}

size_t find_first(const decoded *text, const uint8_t *bytes, const uint8_t *pattern, size_t len) {
    return find(text, bytes, pattern, len, false);
}

size_t find_last(const decoded *text, const uint8_t *bytes, const uint8_t *pattern, size_t len) {
    return find(text, bytes, pattern, len, true);
}

static bool stops(conversion_mode mode, item_kind kind) {
    return (kind == ILL_FORMED && mode == STRICT) || (kind == INCOMPLETE && mode != LOSSY)
           || kind == OTHER_CHARACTER;
}

dethrux_progress expected_progress(const decoded *text, conversion_mode mode, size_t capacity) {
    dethrux_progress progress = {0, 0, DETHRUX_DONE, 0};
    for (size_t i = 0; i < text->item_count; i++) {
        const item *next = &text->items[i];
        if (stops(mode, next->kind)) {
            static const dethrux_status STATUSES[] = {DETHRUX_DONE, DETHRUX_ILL_FORMED,
                                                      DETHRUX_INCOMPLETE, DETHRUX_NOT_LATIN1};
            progress.status = STATUSES[next->kind];
            progress.error_len = next->kind == ILL_FORMED ? (uint32_t)next->len : 0;
            return progress;
        }
        if (next->out_len > capacity - progress.written) {
            progress.status = DETHRUX_NO_SPACE;
            return progress;
        }
        progress.read += next->len;
        progress.written += next->out_len;
    }
    return progress;
}
