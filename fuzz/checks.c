#include "checks.h"

#include "guarded.h"

#include <stdio.h>
#include <string.h>

/* Lines of a difference, and the hexadecimal digits of a text that it shows. */
enum { LINE_MAX_LEN = 1024, SHOWN_MAX = 48 };

/* The capacity of a call without `to`. */
static const size_t NO_OUTPUT = SIZE_MAX;

static input in;
static decoded from_utf16, from_utf8, to_utf32, from_utf32, to_latin1, from_latin1;
/* All code units in WTF-8, those of a chunk, and WTF-8 in UTF-16. */
static decoded to_wtf8, chunk_to_wtf8, from_wtf8;

/* The start of the text as UTF-32, and its length in code units. */
enum { UTF32_MOST = GUARDED_MAX / 8 };
static uint32_t utf32[DETHRUX_PENDING_MAX + TEXT_MAX];
static size_t utf32_len;

/* Where the buffers of the last call are, for the line of a difference. */
static struct {
    place at; /* PLACES before any call */
    size_t capacity;
} situation;

void checks_begin(const input *next) {
    in = *next;
    situation.at = PLACES;
    situation.capacity = NO_OUTPUT;
    decode_utf16(in.order, in.text, in.len, &from_utf16);
    decode_utf8(in.order, in.text, in.len, &from_utf8);
    decoded_as_utf32(&from_utf16, &to_utf32);
    decoded_as_latin1(&from_utf16, &to_latin1);
    decode_latin1(in.order, in.text, in.len, &from_latin1);
    decode_to_wtf8(in.order, in.text, in.len, false, &to_wtf8);
    decode_to_wtf8(in.order, in.text, in.len, true, &chunk_to_wtf8);
    decode_wtf8(in.order, in.text, in.len, &from_wtf8);
    utf32_len = utf32_of(&from_utf8, utf32);
    utf32_len = utf32_len < UTF32_MOST ? utf32_len : UTF32_MOST;
    decode_utf32(in.order, utf32, utf32_len, &from_utf32);
}

static void describe_situation(char *to) {
    static const char *const PLACE_NAMES[] = {"start of the page", "end of the page",
                                              "null pointer", "no call"};
    const char *name = PLACE_NAMES[situation.at];
    if (situation.capacity == NO_OUTPUT) {
        snprintf(to, LINE_MAX_LEN, " (%s)", name);
    } else {
        snprintf(to, LINE_MAX_LEN, " (%s, capacity %zu)", name, situation.capacity);
    }
}

/* Stops unless a number that a call returned is as expected. */
static void expect(const char *what, size_t got, size_t want) {
    char line[LINE_MAX_LEN], where[LINE_MAX_LEN];
    if (got != want) {
        describe_situation(where);
        snprintf(line, sizeof line, "%.100s is %zu, expected %zu%.300s", what, got, want, where);
        report_difference(line);
    }
}

/* Stops unless what a sentence says holds. */
static void expect_that(const char *sentence, bool holds) {
    char line[LINE_MAX_LEN], where[LINE_MAX_LEN];
    if (!holds) {
        describe_situation(where);
        snprintf(line, sizeof line, "expected that %.100s%.300s", sentence, where);
        report_difference(line);
    }
}

static void to_hex(const uint8_t *bytes, size_t len, char *to) {
    to[0] = 0;
    for (size_t i = 0; i < len && i < SHOWN_MAX; i++) {
        snprintf(to + 2 * i, 3, "%02X", bytes[i]);
    }
}

/* Stops unless the bytes are as expected, and shows those from the first that differs. */
static void expect_bytes(const char *what, const uint8_t *got, const uint8_t *want, size_t len) {
    size_t same = 0;
    while (same < len && got[same] == want[same]) {
        same++;
    }
    if (same < len) {
        char line[LINE_MAX_LEN], where[LINE_MAX_LEN];
        char got_hex[2 * SHOWN_MAX + 1], want_hex[2 * SHOWN_MAX + 1];
        to_hex(got + same, len - same, got_hex);
        to_hex(want + same, len - same, want_hex);
        describe_situation(where);
        snprintf(line, sizeof line, "%.100s from byte %zu: %s, expected %s%.300s", what, same,
                 got_hex, want_hex, where);
        report_difference(line);
    }
}

static void expect_progress(dethrux_progress got, dethrux_progress want) {
    expect("read", got.read, want.read);
    expect("written", got.written, want.written);
    expect("status", got.status, want.status);
    expect("error_len", got.error_len, want.error_len);
}

/* A null pointer is one more place, if one of the buffers is empty. */
static place place_count(size_t len) {
    return len == 0 ? PLACES : AT_NULL;
}

static place place_count_of_both(size_t len, size_t capacity) {
    return place_count(len < capacity ? len : capacity);
}

/* The text after this many of its bytes. */
static const uint8_t *rest_at(size_t read, place at) {
    situation.at = at;
    situation.capacity = NO_OUTPUT;
    return guarded_input(0, in.text + read, in.len - read, at);
}

static const uint8_t *input_at(place at) {
    return rest_at(0, at);
}

/* UTF-32 after this many of its code units. */
static const uint32_t *utf32_rest_at(size_t read, place at) {
    situation.at = at;
    situation.capacity = NO_OUTPUT;
    const uint8_t *bytes = (const uint8_t *)(utf32 + read);
    return (const uint32_t *)guarded_input(0, bytes, 4 * (utf32_len - read), at);
}

static uint8_t *output_at(size_t capacity, place at) {
    situation.at = at;
    situation.capacity = capacity;
    return guarded_output(capacity, at);
}

/* Stops unless the last output holds the text, and the bytes around it are as they were. */
static void expect_text(const uint8_t *to, const uint8_t *want, size_t len) {
    expect_bytes("text", to, want, len);
    expect_that("nothing is written outside of `to`", guarded_intact(len, false));
}

/* Defines a check that is one line. */
#define CHECK(name, line) \
    static void check_##name(void) { \
        line; \
    }

/* A number that a call returns for the text. */

typedef size_t number_of_utf16(dethrux_byte_order order, const void *utf16, size_t len);
typedef size_t number_of_bytes(const void *bytes, size_t len);

static void expect_number_of_utf16(number_of_utf16 *call, size_t want) {
    for (place at = AT_START; at < place_count(in.len); at++) {
        expect("number", call(in.order, input_at(at), in.len), want);
    }
}

static void expect_number_of_bytes(number_of_bytes *call, size_t want) {
    for (place at = AT_START; at < place_count(in.len); at++) {
        expect("number", call(input_at(at), in.len), want);
    }
}

/* The characters of UTF-16 (the header says how they are counted in ill-formed input). */
static size_t chars_of_utf16(void) {
    size_t count = 0;
    for (size_t at = 0; at + 2 <= in.len; at += 2) {
        count += !is_trailing(unit_at(in.order, in.text, at));
    }
    return count;
}

/* The items that U+FFFD replaces, which are not the characters U+FFFD. */
static size_t replaced_items(const decoded *text) {
    size_t count = 0;
    for (size_t i = 0; i < text->item_count; i++) {
        count += text->items[i].kind != CHARACTER;
    }
    return count;
}

/* The length of what a strict conversion writes. */
static size_t strict_len(const decoded *text) {
    return expected_progress(text, STRICT, text->out_len).written;
}

#define NUMBER(name, of, want) CHECK(name, expect_number_of_##of(dethrux_##name, want))
NUMBER(count_chars, utf16, chars_of_utf16())
NUMBER(to_utf8_lossy_len, utf16, from_utf16.out_len)
NUMBER(to_utf8_replacements, utf16, replaced_items(&from_utf16))
NUMBER(to_utf32_lossy_len, utf16, to_utf32.out_len)
NUMBER(to_wtf8_len, utf16, to_wtf8.out_len)
NUMBER(from_utf8_len, bytes, strict_len(&from_utf8))
NUMBER(from_utf8_lossy_len, bytes, from_utf8.out_len)
NUMBER(from_utf8_replacements, bytes, replaced_items(&from_utf8))
NUMBER(from_wtf8_len, bytes, strict_len(&from_wtf8))

static void check_from_utf32_lossy_len(void) {
    for (place at = AT_START; at < place_count(utf32_len); at++) {
        size_t got = dethrux_from_utf32_lossy_len(utf32_rest_at(0, at), utf32_len);
        expect("length", got, from_utf32.out_len);
    }
}

/* The conversions between buffers. */

/* Returns whether the last item before an offset is a leading surrogate. */
static bool is_after_leading(size_t offset) {
    uint32_t last = 0;
    for (size_t i = 0, at = 0; at < offset; at += from_wtf8.items[i++].len) {
        last = from_wtf8.items[i].scalar;
    }
    return is_leading(last);
}

/* What a conversion returns for all of the input. The one of a chunk of WTF-8 needs space for what
 * it does not read, a leading surrogate at the end. */
static dethrux_progress wanted(const decoded *text, conversion_mode mode, size_t capacity) {
    if (text != &from_wtf8 || mode != PARTIAL) {
        return expected_progress(text, mode, capacity);
    }
    dethrux_progress want = expected_progress(&from_wtf8, STRICT, capacity);
    bool ends = want.status == DETHRUX_DONE || want.status == DETHRUX_INCOMPLETE;
    if (ends && is_after_leading(want.read)) {
        want = (dethrux_progress){want.read - 3, want.written - 2, DETHRUX_INCOMPLETE, 0};
    }
    return want;
}

/* With DETHRUX_NO_SPACE fewer than 4 bytes are left. */
static void expect_full(const dethrux_progress *got, size_t capacity) {
    if (got->status == DETHRUX_NO_SPACE) {
        expect_that("fewer than 4 bytes are left", capacity - got->written < 4);
    }
}

/* Few bytes are left for the next chunk. */
static void expect_few(const decoded *text, size_t unread) {
    expect_that("few bytes are unread",
                unread <= (text == &from_wtf8 ? DETHRUX_WTF8_PENDING_MAX : DETHRUX_PENDING_MAX));
}

/* Only the conversions of Latin-1 write nothing after the text. */
static void expect_rest(const decoded *text, size_t written) {
    if (text == &to_latin1 || text == &from_latin1) {
        expect_that("the rest of `to` stays", guarded_intact(written, true));
    }
}

/* Defines the checks of a kind of calls, which read `from_len` elements at a `From *` and write
 * elements of `size` bytes to a `To *`: of one call with a capacity in elements; of several calls,
 * which together write the whole text, since after DETHRUX_NO_SPACE a call with the rest continues;
 * and with a capacity of `enough`, which suffices, and with other ones. */
#define CONVERSIONS(kind, From, from_at, from_len, To, size) \
    typedef dethrux_progress kind##_call(dethrux_byte_order order, const From *from, size_t len, \
                                         To *to, size_t capacity); \
    static dethrux_progress kind##_once(kind##_call *call, const decoded *text, \
                                        conversion_mode mode, size_t capacity) { \
        dethrux_progress want = wanted(text, mode, capacity); \
        for (place at = AT_START; at < place_count_of_both(from_len, capacity); at++) { \
            const From *from = from_at(0, at); \
            uint8_t *to = output_at(size * capacity, at); \
            dethrux_progress got = call(in.order, from, from_len, (To *)to, capacity); \
            expect_progress(got, want); \
            expect_text(to, text->out, size * got.written); \
            expect_rest(text, size * got.written); \
            expect_full(&got, capacity); \
        } \
        return want; \
    } \
    static void kind##_resumed(kind##_call *call, const decoded *text) { \
        size_t capacity = 4 + in.capacity % 64, read = 0, written = 0; \
        dethrux_progress got = {0, 0, DETHRUX_NO_SPACE, 0}; \
        while (got.status == DETHRUX_NO_SPACE) { \
            const From *from = from_at(read, AT_END); \
            uint8_t *to = output_at(size * capacity, AT_END); \
            got = call(in.order, from, from_len - read, (To *)to, capacity); \
            expect_text(to, text->out + size * written, size * got.written); \
            read += got.read; \
            written += got.written; \
            expect_full(&got, capacity); \
        } \
        expect_progress(got, (dethrux_progress){got.read, got.written, DETHRUX_DONE, 0}); \
        expect("read in all", read, from_len); \
        expect("written in all", written, text->out_len); \
    } \
    static void kind(kind##_call *call, const decoded *text, conversion_mode mode, \
                     size_t enough) { \
        dethrux_progress want = kind##_once(call, text, mode, enough); \
        expect_that("the capacity suffices", want.status != DETHRUX_NO_SPACE); \
        if (want.status == DETHRUX_DONE) { \
            kind##_resumed(call, text); \
        } else if (mode == PARTIAL && want.status == DETHRUX_INCOMPLETE) { \
            expect_few(text, from_len - want.read); \
        } \
        kind##_once(call, text, mode, 0); \
        kind##_once(call, text, mode, text->out_len); \
        kind##_once(call, text, mode, in.capacity % (text->out_len + 8)); \
        if (text->out_len > 0) { \
            kind##_once(call, text, mode, text->out_len - 1); \
        } \
    }
CONVERSIONS(convert, void, rest_at, in.len, void, 1)
CONVERSIONS(widen, void, rest_at, in.len, uint32_t, 4)
CONVERSIONS(narrow, uint32_t, utf32_rest_at, utf32_len, void, 1)

/* The check of each conversion, by where it leads: how it is called, with which text it is compared
 * in a mode, and the capacity that suffices. */
#define CONVERSION(name, way, mode) CHECK(name, CHECK_##way(dethrux_##name, mode))
#define CHECK_TO_UTF8(call, mode) \
    convert(call, &from_utf16, mode, mode == LOSSY ? DETHRUX_UTF8_MAX(in.len) : in.len / 2 * 3)
#define CHECK_FROM_UTF8(call, mode) convert(call, &from_utf8, mode, DETHRUX_UTF16_MAX(in.len))
#define CHECK_TO_WTF8(call, mode) \
    convert(call, mode == PARTIAL ? &chunk_to_wtf8 : &to_wtf8, mode, DETHRUX_WTF8_MAX(in.len))
#define CHECK_FROM_WTF8(call, mode) convert(call, &from_wtf8, mode, DETHRUX_UTF16_MAX(in.len))
#define CHECK_TO_UTF32(call, mode) \
    widen(call, &to_utf32, mode, mode == LOSSY ? DETHRUX_UTF32_MAX(in.len) : in.len / 2)
#define CHECK_FROM_UTF32(call, mode) \
    narrow(call, &from_utf32, mode, DETHRUX_FROM_UTF32_MAX(utf32_len))
#define CHECK_TO_LATIN1(call, mode) convert(call, &to_latin1, mode, in.len / 2)
#define CHECK_FROM_LATIN1(call, mode) convert(call, &from_latin1, mode, DETHRUX_UTF16_MAX(in.len))
#define STREAM(name, step, state)
#define QUESTION(name, kind)
#define CALL(name, shape, kind)
#include "../dist/src/shapes.inc"

/* The longest well-formed prefix. */

static void expect_validity(dethrux_validity got, const decoded *text) {
    dethrux_progress want = expected_progress(text, STRICT, text->out_len);
    expect("valid_up_to", got.valid_up_to, want.read);
    expect("status", got.status, want.status);
    expect("error_len", got.error_len, want.error_len);
}

static void check_validate(void) {
    for (place at = AT_START; at < place_count(in.len); at++) {
        expect_validity(dethrux_validate(in.order, input_at(at), in.len), &from_utf16);
    }
}

static void check_validate_utf32(void) {
    for (place at = AT_START; at < place_count(utf32_len); at++) {
        const uint32_t *from = utf32_rest_at(0, at);
        expect_validity(dethrux_validate_utf32(from, utf32_len), &from_utf32);
    }
}

static void check_inspect(void) {
    dethrux_progress want = expected_progress(&to_utf32, STRICT, to_utf32.out_len);
    uint32_t most = 0;
    for (size_t i = 0; i < want.written; i++) {
        most = to_utf32.items[i].scalar > most ? to_utf32.items[i].scalar : most;
    }
    for (place at = AT_START; at < place_count(in.len); at++) {
        dethrux_inspection got = dethrux_inspect(in.order, input_at(at), in.len);
        expect_validity((dethrux_validity){got.valid_up_to, got.status, got.error_len}, &to_utf32);
        expect("chars", got.chars, want.written);
        expect("repertoire", got.repertoire,
               most < 0x80      ? DETHRUX_ASCII
               : most < 0x100   ? DETHRUX_LATIN1
               : most < 0x10000 ? DETHRUX_BMP
                                : DETHRUX_UNICODE);
    }
}

/* The streams. */

/* Returns the length of a chunk of the stream. Not all chunks are empty. */
static size_t chunk_len(size_t number, size_t rest) {
    static const uint8_t NO_CUTS[CUTS] = {0};
    size_t len = in.cuts[number % CUTS];
    if (len > rest || memcmp(in.cuts, NO_CUTS, CUTS) == 0) {
        len = rest;
    }
    return len;
}

static void expect_written(const decoded *text, size_t before, const uint8_t *to, size_t len) {
    expect_that("no more than the text is written", before + len <= text->out_len);
    expect_text(to, text->out + before, len);
}

typedef dethrux_progress feed_call(dethrux_decoder *decoder, dethrux_byte_order order,
                                   const uint8_t *chunk, size_t len, uint8_t *to, size_t capacity);
typedef dethrux_progress finish_call(dethrux_decoder *decoder, dethrux_byte_order order,
                                     uint8_t *to, size_t capacity);

/* The calls of one kind of decoder. */
typedef struct {
    feed_call *feed;
    finish_call *finish;
    void (*decode)(dethrux_byte_order order, const uint8_t *bytes, size_t len, decoded *to);
    const decoded *text; /* the whole text of the input */
    size_t finish_max;
} decoder_calls;

/* The calls over a state that ends or begins where its buffers do; and over one type of state, so
 * that the checks are for both. */

#define FEED_BY(name, state_of, call) \
    static dethrux_progress name(dethrux_decoder *decoder, dethrux_byte_order order, \
                                 const uint8_t *chunk, size_t len, uint8_t *to, size_t capacity) { \
        state_of *state = guarded_state(decoder, sizeof *decoder, situation.at); \
        dethrux_progress got = call(state, order, chunk, len, to, capacity); \
        memcpy(decoder, state, sizeof *decoder); \
        return got; \
    }
FEED_BY(feed_utf16, dethrux_decoder, dethrux_decoder_feed)
FEED_BY(feed_utf8, dethrux_encoder, dethrux_encoder_feed)
FEED_BY(feed_wtf8, dethrux_decoder, dethrux_wtf8_decoder_feed)

#define FINISH_BY(name, state_of, ...) \
    static dethrux_progress name(dethrux_decoder *decoder, dethrux_byte_order order, uint8_t *to, \
                                 size_t capacity) { \
        state_of *state = guarded_state(decoder, sizeof *decoder, situation.at); \
        dethrux_progress got = __VA_ARGS__; \
        memcpy(decoder, state, sizeof *decoder); \
        return got; \
    }
FINISH_BY(finish_utf16, dethrux_decoder, dethrux_decoder_finish(state, order, to, capacity))
FINISH_BY(finish_utf8, dethrux_encoder, dethrux_encoder_finish(state, order, to, capacity))
FINISH_BY(finish_wtf8, dethrux_decoder, dethrux_wtf8_decoder_finish(state, order, to, capacity))

static void decode_chunk_to_wtf8(dethrux_byte_order order, const uint8_t *bytes, size_t len,
                                 decoded *to) {
    decode_to_wtf8(order, bytes, len, true, to);
}

static const decoder_calls WTF8_DECODER = {feed_wtf8, finish_wtf8, decode_chunk_to_wtf8,
                                           &chunk_to_wtf8, DETHRUX_DECODER_FINISH_MAX};
static const decoder_calls UTF16_DECODER = {feed_utf16, finish_utf16, decode_utf16, &from_utf16,
                                            DETHRUX_DECODER_FINISH_MAX};
static const decoder_calls UTF8_DECODER = {feed_utf8, finish_utf8, decode_utf8, &from_utf8,
                                           DETHRUX_ENCODER_FINISH_MAX};

static size_t pending_len(const dethrux_decoder *decoder) {
    return decoder->pending_len < DETHRUX_PENDING_MAX ? decoder->pending_len : DETHRUX_PENDING_MAX;
}

/* A chunk for a decoder in any state is the next part of a stream that begins with its pending
 * bytes, and so it is with the state and the rest of the chunk after the call. */
static void check_feed_once(const decoder_calls *calls, const decoded *text, const uint8_t *stream,
                            size_t capacity, place at) {
    size_t before = pending_len(&in.decoder);
    dethrux_progress want = expected_progress(text, PARTIAL, capacity);
    const uint8_t *chunk = input_at(at);
    uint8_t *to = output_at(capacity, at);
    dethrux_decoder decoder = in.decoder;
    dethrux_progress got = calls->feed(&decoder, in.order, chunk, in.len, to, capacity);
    expect("written", got.written, want.written);
    expect("status", got.status, want.status == DETHRUX_INCOMPLETE ? DETHRUX_DONE : want.status);
    expect("error_len", got.error_len, 0);
    expect_text(to, text->out, got.written);
    if (got.status == DETHRUX_DONE) {
        expect("read", got.read, in.len);
    }
    expect_that("pending_len is at most 3", decoder.pending_len <= DETHRUX_PENDING_MAX);
    expect("decoded and pending bytes", want.read + decoder.pending_len, before + got.read);
    expect_bytes("pending", decoder.pending, stream + want.read, decoder.pending_len);
}

static void check_feed_any_state(const decoder_calls *calls) {
    static decoded text;
    uint8_t stream[DETHRUX_PENDING_MAX + TEXT_MAX];
    size_t pending = pending_len(&in.decoder);
    memcpy(stream, in.decoder.pending, pending);
    memcpy(stream + pending, in.text, in.len);
    calls->decode(in.order, stream, pending + in.len, &text);
    size_t chosen = in.capacity % (text.out_len + 8);
    size_t enough =
        calls == &UTF8_DECODER ? 2 * (pending + in.len) : DETHRUX_DECODER_FEED_MAX(in.len);
    expect_that("the capacity suffices",
                expected_progress(&text, PARTIAL, enough).status != DETHRUX_NO_SPACE);
    size_t one_less = text.out_len - (text.out_len > 0);
    const size_t capacities[] = {0, chosen, one_less, text.out_len, enough};
    for (size_t i = 0; i < sizeof capacities / sizeof capacities[0]; i++) {
        for (place at = AT_START; at < place_count_of_both(in.len, capacities[i]); at++) {
            check_feed_once(calls, &text, stream, capacities[i], at);
        }
    }
}

/* However the stream is cut, the same bytes are written in all. Without a capacity each chunk gets
 * the documented one, which suffices. */
static void check_cut_stream(const decoder_calls *calls, dethrux_decoder *decoder, size_t number,
                             size_t capacity) {
    size_t written = 0;
    for (size_t at = 0; at < in.len; number++) {
        size_t end = at + chunk_len(number, in.len - at);
        dethrux_progress got;
        do {
            size_t len = end - at, most = capacity;
            if (capacity == 0) {
                most = calls == &UTF8_DECODER ? DETHRUX_ENCODER_FEED_MAX(len)
                                              : DETHRUX_DECODER_FEED_MAX(len);
            }
            const uint8_t *from = guarded_input(0, in.text + at, len, AT_END);
            uint8_t *to = output_at(most, AT_END);
            got = calls->feed(decoder, in.order, from, len, to, most);
            expect_that("the capacity suffices", capacity > 0 || got.status != DETHRUX_NO_SPACE);
            expect_written(calls->text, written, to, got.written);
            expect_full(&got, most);
            at += got.read;
            written += got.written;
        } while (got.status == DETHRUX_NO_SPACE);
        expect("read so far", at, end);
    }
    uint8_t *to = output_at(calls->finish_max, AT_END);
    dethrux_progress last = calls->finish(decoder, in.order, to, calls->finish_max);
    expect_written(calls->text, written, to, last.written);
    expect("written in all", written + last.written, calls->text->out_len);
}

/* A decoder that has ended a stream decodes the same stream again, in other chunks. */
static void check_stream(const decoder_calls *calls) {
    dethrux_decoder decoder = DETHRUX_DECODER_INIT;
    size_t capacity = 4 + in.capacity % 64;
    for (size_t number = 0; number < 2; number++) {
        check_cut_stream(calls, &decoder, number, capacity + number);
    }
    check_cut_stream(calls, &decoder, 2, 0);
}

static void check_feed(const decoder_calls *calls) {
    check_feed_any_state(calls);
    check_stream(calls);
}

/* What the end of the stream writes: U+FFFD if bytes are pending, and in WTF-8 a code unit. */
static size_t end_of(const decoder_calls *calls, uint8_t *to) {
    size_t pending = pending_len(&in.decoder);
    if (calls == &WTF8_DECODER) {
        return pending >= 2 ? encode_utf8(unit_at(in.order, in.decoder.pending, 0), to) : 0;
    }
    size_t len = calls == &UTF8_DECODER ? encode_utf16(in.order, REPLACEMENT, to)
                                        : encode_utf8(REPLACEMENT, to);
    return pending > 0 ? len : 0;
}

/* In any state, the end is written if it fits. In WTF-8 an odd byte is left out. */
static void check_finish(const decoder_calls *calls) {
    uint8_t end[4];
    size_t len = end_of(calls, end);
    bool is_cut = calls == &WTF8_DECODER && pending_len(&in.decoder) % 2 == 1;
    for (size_t capacity = 0; capacity <= calls->finish_max + 1; capacity++) {
        for (place at = AT_START; at < place_count(capacity); at++) {
            dethrux_decoder decoder = in.decoder;
            uint8_t *to = output_at(capacity, at);
            dethrux_progress got = calls->finish(&decoder, in.order, to, capacity);
            dethrux_progress want = {0, len, is_cut ? DETHRUX_INCOMPLETE : DETHRUX_DONE, 0};
            bool fits = len <= capacity;
            expect_progress(got, fits ? want : (dethrux_progress){0, 0, DETHRUX_NO_SPACE, 0});
            expect_bytes("text", to, end, got.written);
            expect_that("the rest of `to` stays", guarded_intact(got.written, true));
            expect("the decoder begins a new stream", decoder.pending_len,
                   fits ? 0 : in.decoder.pending_len);
            if (!fits) {
                expect_bytes("pending", decoder.pending, in.decoder.pending, DETHRUX_PENDING_MAX);
            }
        }
    }
}

/* WTF-8. */

/* Feeds an encoder a chunk, or ends its stream if there is none. */
static dethrux_progress encode(dethrux_wtf8_encoder *encoder, const uint8_t *chunk, size_t len,
                               uint8_t *to, size_t capacity) {
    dethrux_wtf8_encoder *state = guarded_state(encoder, sizeof *encoder, situation.at);
    dethrux_progress got =
        chunk == NULL ? dethrux_wtf8_encoder_finish(state, in.order, to, capacity)
                      : dethrux_wtf8_encoder_feed(state, in.order, chunk, len, to, capacity);
    *encoder = *state;
    expect_that("pending_len is at most 6", encoder->pending_len <= DETHRUX_WTF8_PENDING_MAX);
    expect_full(&got, capacity);
    return got;
}

/* However the stream is cut, dethrux_from_wtf8 writes the same, and stops for the same reason. Its
 * first bytes may be pending, in any state. If none are, the documented capacities suffice. */
static void check_wtf8_encoder(size_t number, size_t pending, size_t capacity) {
    dethrux_wtf8_encoder encoder = {{0}, (uint8_t)(pending < 6 ? pending : 255)};
    dethrux_progress got = {0, 0, DETHRUX_DONE, 0};
    size_t read = pending, written = 0;
    memcpy(encoder.pending, in.text, pending);
    for (size_t end = pending; read < in.len && got.status != DETHRUX_ILL_FORMED;) {
        end += read == end ? chunk_len(number++, in.len - end) : 0;
        size_t most = pending > 0 ? capacity : DETHRUX_WTF8_ENCODER_FEED_MAX(end - read);
        const uint8_t *from = guarded_input(0, in.text + read, end - read, AT_END);
        uint8_t *to = output_at(most, AT_END);
        got = encode(&encoder, from, end - read, to, most);
        expect_that("the capacity suffices", pending > 0 || got.status != DETHRUX_NO_SPACE);
        expect_written(&from_wtf8, written, to, got.written);
        written += got.written;
        read += got.read;
        expect_bytes("pending", encoder.pending, in.text + (read - encoder.pending_len),
                     encoder.pending_len);
    }
    read -= encoder.pending_len < 6 ? encoder.pending_len : 6;
    if (got.status != DETHRUX_ILL_FORMED) {
        size_t most = pending > 0 ? 2 * pending : DETHRUX_WTF8_ENCODER_FINISH_MAX;
        uint8_t *to = output_at(most, AT_END);
        got = encode(&encoder, NULL, 0, to, most);
        expect_written(&from_wtf8, written, to, got.written);
        expect("pending_len", encoder.pending_len, 0);
        written += got.written;
        read += got.read;
    }
    dethrux_progress all = {read, written, got.status, got.error_len};
    expect_progress(all, expected_progress(&from_wtf8, STRICT, from_wtf8.out_len));
}

static size_t pending_for_wtf8(void) {
    size_t most = in.len < DETHRUX_WTF8_PENDING_MAX ? in.len : DETHRUX_WTF8_PENDING_MAX;
    return in.at % (most + 1);
}

/* The streams of each kind of state. */
CHECK(decoder_feed, check_feed(&UTF16_DECODER))
CHECK(decoder_finish, check_finish(&UTF16_DECODER))
CHECK(encoder_feed, check_feed(&UTF8_DECODER))
CHECK(encoder_finish, check_finish(&UTF8_DECODER))
CHECK(wtf8_decoder_feed, check_feed(&WTF8_DECODER))
CHECK(wtf8_decoder_finish, check_finish(&WTF8_DECODER))
CHECK(wtf8_encoder_feed, check_wtf8_encoder(0, 0, 0))
CHECK(wtf8_encoder_finish, check_wtf8_encoder(1, pending_for_wtf8(), 4 + in.capacity % 64))

/* What was written in WTF-8 is the same code units again. */
static void check_wtf8_and_back(void) {
    static uint8_t utf16[2 * sizeof to_wtf8.out];
    dethrux_progress got =
        dethrux_from_wtf8(in.order, to_wtf8.out, to_wtf8.out_len, utf16, sizeof utf16);
    dethrux_progress want = {to_wtf8.out_len, in.len / 2 * 2, DETHRUX_DONE, 0};
    expect_progress(got, want);
    expect_bytes("code units", utf16, in.text, got.written);
}

/* Questions about a text. */

CHECK(version, expect("version", dethrux_version(), DETHRUX_VERSION))

static void check_is_ascii(void) {
    bool ascii = true;
    for (size_t i = 0; i < from_utf16.item_count; i++) {
        ascii = ascii && from_utf16.items[i].scalar < 0x80;
    }
    for (place at = AT_START; at < place_count(in.len); at++) {
        expect("result", dethrux_is_ascii(in.order, input_at(at), in.len), ascii);
    }
}

static void check_detect_bom(void) {
    uint32_t first = in.len < 2 ? 0 : unit_at(DETHRUX_BIG_ENDIAN, in.text, 0);
    bool present = first == 0xFEFF || first == 0xFFFE;
    dethrux_bom_status status = in.len < 2 ? DETHRUX_BOM_UNDECIDED
                                : present  ? DETHRUX_BOM_PRESENT
                                           : DETHRUX_BOM_ABSENT;
    for (place at = AT_START; at < place_count(in.len); at++) {
        dethrux_bom got = dethrux_detect_bom(in.order, input_at(at), in.len);
        expect("len", got.len, present ? 2 : 0);
        expect("byte_order", got.byte_order,
               first == 0xFFFE   ? DETHRUX_LITTLE_ENDIAN
               : first == 0xFEFF ? DETHRUX_BIG_ENDIAN
               : in.order == DETHRUX_BIG_ENDIAN ? DETHRUX_BIG_ENDIAN
                                                : DETHRUX_LITTLE_ENDIAN);
        expect("status", got.status, status);
    }
}

/* Boundaries. */

/* Returns whether an item of the reference ends at an offset, or the text begins there. */
static bool is_boundary(size_t at) {
    size_t end = 0;
    for (size_t i = 0; i < from_utf16.item_count && end < at; i++) {
        end += from_utf16.items[i].len;
    }
    return end == at;
}

static size_t floor_boundary(size_t at) {
    size_t floor = at < in.len ? at : in.len;
    while (!is_boundary(floor)) {
        floor--;
    }
    return floor;
}

/* Calls a check for offsets around the chosen one, at both ends and far after the end. */
static void for_offsets(void (*check_offset)(const uint8_t *utf16, size_t at)) {
    for (place at = AT_START; at < place_count(in.len); at++) {
        const uint8_t *utf16 = input_at(at);
        for (size_t near = 0; near < 6; near++) {
            check_offset(utf16, in.at % (in.len + 1) + near);
            check_offset(utf16, near);
            check_offset(utf16, SIZE_MAX / 2 + 1 + near);
            check_offset(utf16, in.len + 3 > near ? in.len + 3 - near : 0);
        }
        check_offset(utf16, in.at);
        check_offset(utf16, SIZE_MAX - 1);
        check_offset(utf16, SIZE_MAX);
    }
}

static void check_boundary_at(const uint8_t *utf16, size_t at) {
    expect("result", dethrux_is_char_boundary(in.order, utf16, in.len, at), is_boundary(at));
}

CHECK(is_char_boundary, for_offsets(check_boundary_at))

static void check_floor_at(const uint8_t *utf16, size_t at) {
    expect("floor", dethrux_floor_char_boundary(in.order, utf16, in.len, at), floor_boundary(at));
}

CHECK(floor_char_boundary, for_offsets(check_floor_at))

/* The bytes around an offset are in memory of their own, so that a read beyond them is found. Only
 * they are read to tell whether it is a boundary. */
static void check_floor_around_at(const uint8_t *utf16, size_t at) {
    (void)utf16;
    if (at > in.len) {
        return;
    }
    size_t start = DETHRUX_AROUND_START(at);
    size_t len = in.len - start < 4 ? in.len - start : 4;
    for (place where = AT_START; where < place_count(len); where++) {
        uint8_t *around = output_at(len, where);
        if (len > 0) {
            memcpy(around, in.text + start, len);
        }
        expect("floor", dethrux_floor_char_boundary_around(in.order, around, len, at),
            floor_boundary(at));
        expect("boundary", dethrux_is_char_boundary(in.order, around - start, in.len, at),
            is_boundary(at));
    }
}

CHECK(floor_char_boundary_around, for_offsets(check_floor_around_at))

/* Where each part begins, by adding up the code units of those before it. */
static void check_shards_of(uint64_t len, uint64_t count) {
    uint64_t offset = 0;
    for (uint64_t i = 0; i < count && i < 40; i++) {
        expect("part", dethrux_shard_offset(len, count, i), offset);
        uint64_t units = len / 2 / count + (i < len / 2 % count ? 1 : 0);
        offset += units * 2;
    }
    expect("end", dethrux_shard_offset(len, count, count), len);
    expect("after the end", dethrux_shard_offset(len, count, UINT64_MAX), len);
    if (count > 0 && count <= 40) {
        expect("all code units", offset, len / 2 * 2);
    }
}

static void check_shard_offset(void) {
    for (uint64_t count = 0; count < 9; count++) {
        check_shards_of(in.len, count);
        check_shards_of(UINT64_MAX - in.len, count);
        check_shards_of(in.at, in.len + count);
        check_shards_of(in.at, UINT64_MAX - count);
    }
}

/* Calls in place. */

static dethrux_byte_order other_order(dethrux_byte_order order) {
    return order == DETHRUX_BIG_ENDIAN ? DETHRUX_LITTLE_ENDIAN : DETHRUX_BIG_ENDIAN;
}

/* Returns a copy of the text that a call may change. */
static uint8_t *copy_at(place at) {
    uint8_t *copy = output_at(in.len, at);
    if (in.len > 0) {
        memcpy(copy, in.text, in.len);
    }
    return copy;
}

static void swap_units(const uint8_t *from, size_t len, uint8_t *to) {
    for (size_t i = 0; i < len; i++) {
        to[i] = i % 2 == 1 ? from[i - 1] : i + 1 < len ? from[i + 1] : from[i];
    }
}

static void check_swap_byte_order(void) {
    uint8_t want[TEXT_MAX];
    swap_units(in.text, in.len, want);
    for (place at = AT_START; at < place_count(in.len); at++) {
        uint8_t *copy = copy_at(at);
        dethrux_swap_byte_order(copy, in.len);
        expect_text(copy, want, in.len);
    }
}

/* Replaces each unpaired surrogate by U+FFFD, also one that is incomplete. Returns how many. */
static size_t make_well_formed(uint8_t *to) {
    size_t count = 0, at = 0;
    memcpy(to, in.text, in.len);
    for (size_t i = 0; i < from_utf16.item_count; i++) {
        const item *next = &from_utf16.items[i];
        if (next->kind != CHARACTER && next->len >= 2) {
            encode_unit(in.order, REPLACEMENT, to + at);
            count++;
        }
        at += next->len;
    }
    return count;
}

static void check_make_well_formed(void) {
    uint8_t want[TEXT_MAX];
    size_t count = make_well_formed(want);
    for (place at = AT_START; at < place_count(in.len); at++) {
        uint8_t *copy = copy_at(at);
        expect("count", dethrux_make_well_formed(in.order, copy, in.len), count);
        expect_text(copy, want, in.len);
    }
}

/* Comparison. */

static int sign(int compared) {
    return (compared > 0) - (compared < 0);
}

/* The order of the bytes of both texts in UTF-8. */
static int compare_texts(const decoded *first, const decoded *second) {
    size_t len = first->out_len < second->out_len ? first->out_len : second->out_len;
    int compared = sign(memcmp(first->out, second->out, len));
    return compared != 0 ? compared
                         : (first->out_len > second->out_len) - (first->out_len < second->out_len);
}

static void compare_with(dethrux_byte_order order, const uint8_t *second, size_t len) {
    static decoded text;
    decode_utf16(order, second, len, &text);
    int want = compare_texts(&from_utf16, &text);
    for (place at = AT_START; at < place_count(in.len); at++) {
        const uint8_t *first = input_at(at), *guarded = guarded_input(1, second, len, at);
        int32_t got = dethrux_compare(in.order, first, in.len, order, guarded, len);
        int32_t reversed = dethrux_compare(order, guarded, len, in.order, first, in.len);
        expect("1 + result", (size_t)(1 + got), (size_t)(1 + want));
        expect("1 + result of the reverse", (size_t)(1 + reversed), (size_t)(1 - want));
    }
}

/* The text with itself, with parts of it, and with itself after one change, in both byte orders. */
static void check_compare(void) {
    uint8_t other[TEXT_MAX];
    size_t at = in.at % (in.len + 1);
    swap_units(in.text, in.len, other);
    compare_with(in.order, in.text, in.len);
    compare_with(in.order, in.text, at);
    compare_with(in.order, in.text + at, in.len - at);
    compare_with(other_order(in.order), other, in.len);
    if (at < in.len) {
        other[at] ^= in.change;
        compare_with(other_order(in.order), other, in.len);
        memcpy(other, in.text, in.len);
        other[at] ^= in.change;
        compare_with(in.order, other, in.len);
    }
}

/* Search. */

typedef size_t search(dethrux_byte_order order, const void *utf16, size_t len,
                      const void *pattern, size_t pattern_len);
typedef size_t reference_search(const decoded *text, const uint8_t *bytes, const uint8_t *pattern,
                                size_t len);

static void search_for(search *call, reference_search *expected, const uint8_t *pattern,
                       size_t len) {
    size_t want = expected(&from_utf16, in.text, pattern, len);
    for (place at = AT_START; at < place_count_of_both(in.len, len); at++) {
        const uint8_t *utf16 = input_at(at), *guarded = guarded_input(1, pattern, len, at);
        expect("offset", call(in.order, utf16, in.len, guarded, len), want);
    }
}

/* A part of the text, of at most a number of bytes, and the same after one change. */
static void search_for_part(search *call, reference_search *expected, size_t from, size_t most) {
    uint8_t other[TEXT_MAX];
    size_t len = in.len - from < most ? in.len - from : most;
    search_for(call, expected, in.text + from, len);
    if (len > 0) {
        memcpy(other, in.text + from, len);
        other[in.at % len] ^= in.change;
        search_for(call, expected, other, len);
    }
}

/* Short parts of the text from anywhere, from its start and up to its end; its bytes from an offset
 * on; nothing, all of it, and all of it and one byte more. */
static void check_search(search *call, reference_search *expected) {
    uint8_t longer[TEXT_MAX + 1];
    size_t at = in.at % (in.len + 1);
    for (size_t i = 0; i < CUTS; i++) {
        size_t most = in.cuts[i] % (1U << (2 * i + 2));
        search_for_part(call, expected, at, most);
        search_for_part(call, expected, at / (i + 2), most);
        search_for_part(call, expected, 0, most);
        search_for_part(call, expected, in.len - (most < in.len ? most : in.len), most);
    }
    search_for_part(call, expected, at, in.len);
    search_for_part(call, expected, 0, in.len);
    search_for(call, expected, in.text, 0);
    if (in.len > 0) {
        memcpy(longer, in.text, in.len);
    }
    longer[in.len] = in.change;
    search_for(call, expected, longer, in.len + 1);
}

CHECK(find, check_search(dethrux_find, find_first))
CHECK(rfind, check_search(dethrux_rfind, find_last))

static size_t first_nul(const uint8_t *utf16, size_t len) {
    for (size_t at = 0; at + 2 <= len; at += 2) {
        if (utf16[at] == 0 && utf16[at + 1] == 0) {
            return at;
        }
    }
    return len;
}

static void nul_offset_of(const uint8_t *utf16) {
    size_t want = first_nul(utf16, in.len);
    for (place at = AT_START; at < place_count(in.len); at++) {
        expect("offset", dethrux_nul_offset(guarded_input(1, utf16, in.len, at), in.len), want);
    }
}

/* The text; without the zero bytes at even offsets, so that it has no NUL; and this with two zero
 * bytes at an even and at an odd offset. */
static void check_nul_offset(void) {
    uint8_t other[TEXT_MAX];
    nul_offset_of(in.text);
    for (size_t i = 0; i < in.len; i++) {
        other[i] = i % 2 == 0 && in.text[i] == 0 ? 1 : in.text[i];
    }
    nul_offset_of(other);
    for (size_t i = 0; i < 2 && in.len >= 2; i++) {
        size_t at = (in.at / 2 * 2 + i) % (in.len - 1);
        uint8_t was[2] = {other[at], other[at + 1]};
        other[at] = other[at + 1] = 0;
        nul_offset_of(other);
        memcpy(other + at, was, sizeof was);
    }
}

const check CHECKS[] = {
    {"WTF-8 and back", check_wtf8_and_back},
#undef CONVERSION
#undef STREAM
#undef QUESTION
#undef CALL
#define CONVERSION(name, way, mode) CALL(name, way, mode)
#define STREAM(name, step, state) CALL(name, step, state)
#define QUESTION(name, kind) CALL(name, , kind)
#define CALL(name, shape, kind) {"dethrux_" #name, check_##name},
#include "../dist/src/shapes.inc"
};
const size_t CHECK_COUNT = sizeof CHECKS / sizeof CHECKS[0];
