/* Makes each call on texts of 1,024 characters and of eight times as many, under callgrind, which
 * instructions.py starts and which writes a file of counts after each. A call of
 * dist/src/shapes.inc whose shape has no macro here does not compile. */
#include "dethrux.h"

#include <stdio.h>
#include <valgrind/callgrind.h>

enum { SHORT = 1024, LONG = 8 * SHORT, ROOM = 16 };

/* The code points of a text: of its first seven eighths, and of the rest. */
typedef struct {
    const char *name;
    uint32_t first, rest;
} text;

static const text texts[] = {{"ASCII", 'a', 'a'}, {"Latin-1", 0xE9, 0xE9}, {"CJK", 0x4E00, 0x4E00},
    {"pair", 0x1F600, 0x1F600}, {"NUL", 0, 0}, {"leading", 0xD800, 0xD800},
    {"trailing", 0xDC00, 0xDC00}, {"none", 0x110000, 0x110000}, {"ASCII-leading", 'a', 0xD800},
    {"ASCII-trailing", 'a', 0xDC00}, {"ASCII-none", 'a', 0x110000}};

/* A text in each form, a copy of its UTF-16, and room for what is written. */
static uint8_t utf16[4 * LONG], other[4 * LONG], wtf8[4 * LONG];
static uint32_t utf32[LONG], to[4 * LONG];
static size_t utf16_len, wtf8_len, utf32_len;

static void put_unit(uint32_t unit) {
    other[utf16_len] = utf16[utf16_len] = (uint8_t)unit;
    other[utf16_len + 1] = utf16[utf16_len + 1] = (uint8_t)(unit >> 8);
    utf16_len += 2;
}

/* Appends a code point. U+110000 is ill formed: in UTF-16 it is two trailing surrogates. */
static void put(uint32_t point) {
    utf32[utf32_len++] = point;
    if (point > 0xFFFF) {
        put_unit(point > 0x10FFFF ? 0xDC00 : 0xD7C0 + (point >> 10));
    }
    put_unit(point > 0xFFFF ? 0xDC00 + point % 0x400 : point);
    unsigned rest = (point > 0x7F) + (point > 0x7FF) + (point > 0xFFFF);
    wtf8[wtf8_len++] = (uint8_t)((rest == 0 ? 0 : 0xF0 << (3 - rest)) | point >> 6 * rest);
    while (rest-- > 0) {
        wtf8[wtf8_len++] = (uint8_t)(0x80 | (point >> 6 * rest & 0x3F));
    }
}

static void make(const text *it, size_t len) {
    utf16_len = wtf8_len = utf32_len = 0;
    for (size_t i = 0; i < len; i++) {
        put(i < len / 8 * 7 ? it->first : it->rest);
    }
}

/* A call gets a text at once, and what stops there is called again after it. In parts, a buffer has
 * 16 elements, and a chunk one byte. */
static bool in_parts;
static const dethrux_byte_order order = DETHRUX_LITTLE_ENDIAN;
static volatile size_t sink;

static bool is_at_end(dethrux_status status) {
    return status == DETHRUX_DONE || status == DETHRUX_INCOMPLETE;
}

#define CONVERT(call, from, from_len, To) { \
        dethrux_progress it = {0, 0, DETHRUX_NO_SPACE, 0}; \
        for (size_t at = 0; !is_at_end(it.status);) { \
            it = call(order, from + at, from_len - at, (To *)to, in_parts ? ROOM : LONG * 4); \
            at += it.read + it.error_len + 2 * (it.status == DETHRUX_NOT_LATIN1); \
        } \
    }
#define FEED(call, state, from, from_len) { \
        dethrux_##state state = {{0}, 0}; \
        for (size_t at = 0; at < from_len;) { \
            size_t len = in_parts ? 1 : from_len - at; \
            dethrux_progress it = \
                call(&state, order, from + at, len, to, in_parts ? ROOM : sizeof to); \
            at += it.read; \
            if (it.status == DETHRUX_ILL_FORMED) { \
                at += it.error_len - state.pending_len; \
                state.pending_len = 0; \
            } \
        } \
    }
#define VALIDATE(type, ...) { \
        type it = {.status = DETHRUX_ILL_FORMED}; \
        for (size_t at = 0; it.status == DETHRUX_ILL_FORMED;) { \
            it = __VA_ARGS__; \
            at += it.valid_up_to + it.error_len; \
        } \
    }
#define ASK(...) sink += (size_t)(__VA_ARGS__)
#define ONCE(...) in_parts ? 0 : (ASK(__VA_ARGS__))

/* The name of a call, and what is done with it, by its shape. */
#define CONVERSION(name, way, mode) RUN(name, way(dethrux_##name))
#define TO_UTF8(call) CONVERT(call, utf16, utf16_len, void)
#define TO_WTF8(call) CONVERT(call, utf16, utf16_len, void)
#define TO_LATIN1(call) CONVERT(call, utf16, utf16_len, void)
#define TO_UTF32(call) CONVERT(call, utf16, utf16_len, uint32_t)
#define FROM_UTF8(call) CONVERT(call, wtf8, wtf8_len, void)
#define FROM_WTF8(call) CONVERT(call, wtf8, wtf8_len, void)
#define FROM_LATIN1(call) CONVERT(call, wtf8, wtf8_len, void)
#define FROM_UTF32(call) CONVERT(call, utf32, utf32_len, void)
#define STREAM(name, step, state) step##_##state(name)
#define FEED_decoder(name) RUN(name, FEED(dethrux_##name, decoder, utf16, utf16_len))
#define FEED_encoder(name) RUN(name, FEED(dethrux_##name, encoder, wtf8, wtf8_len))
#define FEED_wtf8_encoder(name) RUN(name, FEED(dethrux_##name, wtf8_encoder, wtf8, wtf8_len))
#define FINISH_decoder(name)
#define FINISH_encoder(name)
#define FINISH_wtf8_encoder(name)
#define QUESTION(name, kind) RUN(name, kind(dethrux_##name))
#define validity(call) VALIDATE(dethrux_validity, call(order, utf16 + at, utf16_len - at))
#define inspection(call) VALIDATE(dethrux_inspection, call(order, utf16 + at, utf16_len - at))
#define size(call) ONCE(call(order, utf16, utf16_len))
#define truth(call) ONCE(call(order, utf16, utf16_len))
#define CALL(name, shape, kind) shape(name, dethrux_##name)
#define NOTHING(name, call)
#define OFFSETS(name, call)
#define BYTES(name, call) RUN(name, ONCE(call(wtf8, wtf8_len)))
#define BYTES_FOR_UTF16(name, call) BYTES(name, call)
#define UTF32(name, call) RUN(name, VALIDATE(dethrux_validity, call(utf32 + at, utf32_len - at)))
#define UTF32_FOR_UTF16(name, call) RUN(name, ONCE(call(utf32, utf32_len)))
#define UTF16_AT(name, call) RUN(name, ONCE(call(order, utf16, utf16_len, utf16_len / 2)))
#define AROUND(name, call) RUN(name, ONCE(call(order, utf16, utf16_len, 2)))
#define START(name, call) RUN(name, ONCE(call(order, utf16, utf16_len).len))
#define IN_ANY_ORDER(name, call) RUN(name, ONCE(call(utf16, utf16_len)))
#define SWAPPED(name, call) RUN(name, ONCE((call(utf16, utf16_len), 0)))
#define REPAIRED(name, call) RUN(name, ONCE(call(order, utf16, utf16_len)))
#define UTF16_PAIR(name, call) \
    RUN(name, ONCE(call(order, utf16, utf16_len, order, other, utf16_len)))
/* The pattern is the first half, with another code unit at its end or, in parts, its beginning. */
#define UTF16_SEARCH(name, call) \
    RUN(name, other[in_parts ? 0 : utf16_len / 2 - 2]++; \
        ASK(call(order, utf16, utf16_len, other, utf16_len / 2)))

#define RUN(call, ...) \
    for (size_t i = 0; i < 4 * (sizeof texts / sizeof *texts); i++) { \
        const size_t len = i % 2 == 0 ? SHORT : LONG; \
        char title[99]; \
        make(&texts[i / 4], len); \
        in_parts = i / 2 % 2 == 1; \
        __VA_ARGS__; \
        snprintf(title, sizeof title, "%s %s %s %zu", #call, in_parts ? "parts" : "whole", \
            texts[i / 4].name, len); \
        CALLGRIND_DUMP_STATS_AT(title); \
    }

int main(void) {
#include "../../dist/src/shapes.inc"
    return 0;
}

/* The library calls these functions of libc, whose code depends on the processor. Here each byte
 * counts as an instruction. */
void *memmove(void *to, const void *from, size_t len) {
    const bool is_back = (uintptr_t)to - (uintptr_t)from < len;
    uint8_t *at = (uint8_t *)to + (is_back ? len - 1 : 0);
    const uint8_t *next = (const uint8_t *)from + (is_back ? len - 1 : 0);
    if (is_back) {
        __asm__ volatile("std");
    }
    __asm__ volatile("rep movsb; cld" : "+D"(at), "+S"(next), "+c"(len) : : "memory");
    return to;
}

void *memcpy(void *to, const void *from, size_t len) __attribute__((alias("memmove")));

void *memset(void *to, int byte, size_t len) {
    void *at = to;
    __asm__ volatile("rep stosb" : "+D"(at), "+c"(len) : "a"(byte) : "memory");
    return to;
}
