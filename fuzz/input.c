#include "input.h"

#include <string.h>

static size_t two_bytes(const uint8_t *bytes) {
    return (size_t)bytes[0] | (size_t)bytes[1] << 8;
}

/* Returns a byte order for three of four values, and for the fourth a value that is neither. */
static dethrux_byte_order order_of(uint8_t byte) {
    static const uint32_t OTHERS[] = {2,       3,          256,        257,
                                      0x10000, 0x7FFFFFFF, 0x80000000, 0xFFFFFFFF};
    return (byte & 3) == 3   ? (dethrux_byte_order)OTHERS[byte >> 5]
           : (byte & 3) == 0 ? DETHRUX_LITTLE_ENDIAN
                             : DETHRUX_BIG_ENDIAN;
}

input parse_input(const uint8_t *bytes, size_t len) {
    uint8_t choices[CHOICES_LEN] = {0};
    size_t choices_len = len < CHOICES_LEN ? len : CHOICES_LEN;
    if (choices_len > 0) {
        memcpy(choices, bytes, choices_len);
    }
    input read = {.order = order_of(choices[0]),
                  .capacity = two_bytes(choices + 1),
                  .at = two_bytes(choices + 3),
                  .change = choices[13]};
    memcpy(read.cuts, choices + 5, CUTS);
    memcpy(&read.decoder, choices + 9, sizeof read.decoder);
    read.text = bytes + choices_len;
    read.len = len - choices_len < TEXT_MAX ? len - choices_len : TEXT_MAX;
    return read;
}

/* Returns a number below `limit`, with SplitMix64. */
static uint32_t below(uint64_t *seed, uint32_t limit) {
    uint64_t mixed = *seed += 0x9E3779B97F4A7C15;
    mixed = (mixed ^ mixed >> 30) * 0xBF58476D1CE4E5B9;
    mixed = (mixed ^ mixed >> 27) * 0x94D049BB133111EB;
    return (uint32_t)((mixed ^ mixed >> 31) % limit);
}

/* A text while it is written. */
typedef struct {
    uint8_t *bytes;
    size_t len, limit;
    bool utf8;
    dethrux_byte_order order;
} writer;

static void put(writer *to, const void *bytes, size_t len) {
    if (len <= to->limit - to->len) {
        memcpy(to->bytes + to->len, bytes, len);
        to->len += len;
    } else {
        to->limit = to->len;
    }
}

static void put_scalar(writer *to, uint32_t scalar) {
    uint8_t bytes[4];
    size_t len = to->utf8 ? encode_utf8(scalar, bytes) : encode_utf16(to->order, scalar, bytes);
    put(to, bytes, len);
}

/* The kinds of text. */
enum { OF_ASCII, OF_LATIN, OF_CJK, OF_EMOJI, OF_LIMITS, OF_ILL_FORMED, OF_NOISE, KINDS };

static const uint32_t LIMITS[] = {0x00,    0x7F,    0x80,    0xFF,    0x7FF,  0x800,
                                  0xD7FF,  0xE000,  0xFEFF,  0xFFFD,  0xFFFE, 0xFFFF,
                                  0x10000, 0x103FF, 0x10400, 0x10FFFF};

/* Every kind of ill-formed UTF-8 (the Unicode Standard, 3.9, Table 3-7): bytes that begin no
 * character, forms that are too long, surrogates, values above 10FFFF, and truncated characters. */
static const char *const ILL_FORMED_UTF8[] = {
    "\x80", "\xBF", "\xC0\x80", "\xC1\xBF", "\xE0\x80\x80", "\xE0\x9F\xBF", "\xED\xA0\x80",
    "\xED\xBF\xBF", "\xF0\x80\x80\x80", "\xF0\x8F\xBF\xBF", "\xF4\x90\x80\x80", "\xF5\x80\x80\x80",
    "\xF8\x88\x80\x80\x80", "\xFE", "\xFF", "\xC3", "\xE2\x98", "\xE2", "\xF0\x9F\x98", "\xF0\x9F",
    "\xF0",
};

static void put_ill_formed(uint64_t *seed, writer *to) {
    if (to->utf8) {
        const char *bytes =
            ILL_FORMED_UTF8[below(seed, sizeof ILL_FORMED_UTF8 / sizeof ILL_FORMED_UTF8[0])];
        put(to, bytes, strlen(bytes));
    } else {
        uint8_t unit[2];
        encode_unit(to->order, 0xD800 + below(seed, 0x800), unit);
        put(to, unit, 2);
    }
}

/* The first character of each kind before OF_LIMITS, and how many there are. */
static const uint32_t CHARACTERS[][2] = {
    {0, 0x80}, {0x80, 0x780}, {0x800, 0xD000}, {0x10000, 0x100000}};

static void put_kind(uint64_t *seed, writer *to, uint32_t kind) {
    if (kind < OF_LIMITS) {
        put_scalar(to, CHARACTERS[kind][0] + below(seed, CHARACTERS[kind][1]));
    } else if (kind == OF_LIMITS) {
        put_scalar(to, LIMITS[below(seed, sizeof LIMITS / sizeof LIMITS[0])]);
    } else if (kind == OF_ILL_FORMED) {
        put_ill_formed(seed, to);
    } else {
        uint8_t noise = (uint8_t)below(seed, 256);
        put(to, &noise, 1);
    }
}

/* Writes a text of mostly one kind: half or one in about 4, 16 or 64 items are of any kind. */
static void put_text(uint64_t *seed, writer *to) {
    uint32_t kind = below(seed, KINDS);
    uint32_t others = 1U << (2 * below(seed, 4));
    while (to->len < to->limit) {
        bool other = others > 1 ? below(seed, others) == 0 : below(seed, 2) == 0;
        put_kind(seed, to, other ? below(seed, KINDS) : kind);
    }
}

/* Returns a length: mostly up to 255 bytes, sometimes up to 4,096, and rarely up to TEXT_MAX. */
static size_t choose_len(uint64_t *seed) {
    uint32_t rank = below(seed, 512);
    uint32_t limit = rank == 0 ? TEXT_MAX + 1 : rank < 8 ? 4097 : 256;
    return below(seed, limit);
}

static void put_choices(uint64_t *seed, uint8_t *to) {
    for (size_t i = 0; i < CHOICES_LEN; i++) {
        to[i] = (uint8_t)below(seed, 256);
    }
    for (size_t i = 2; i <= 4; i += 2) {
        to[i] = (uint8_t)(below(seed, 8) == 0 ? below(seed, 16) : 0);
    }
    uint32_t cut_limit = 1U << below(seed, 9);
    for (size_t i = 5; i < 5 + CUTS; i++) {
        to[i] = (uint8_t)below(seed, cut_limit);
    }
    writer pending = {to + 9, 0, DETHRUX_PENDING_MAX, below(seed, 2) == 0, order_of(to[0])};
    put_text(seed, &pending);
    to[9 + DETHRUX_PENDING_MAX] = (uint8_t)below(seed, below(seed, 4) == 0 ? 256 : 5);
}

size_t generate_input(uint64_t *seed, uint8_t *to) {
    put_choices(seed, to);
    writer text = {to + CHOICES_LEN, 0, choose_len(seed), below(seed, 2) == 0, order_of(to[0])};
    put_text(seed, &text);
    size_t left_out = below(seed, 4);
    return CHOICES_LEN + (text.len > left_out ? text.len - left_out : 0);
}
