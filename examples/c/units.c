/* Makes the calls for UTF-16 in the machine's byte order on code units, and compares with the calls
 * on their bytes, which check.c and fuzz/ test: lengths, offsets and capacities of UTF-16 are half
 * as large. It is C11 and C++17. The last line is 'N passed, M failed'. */
#include "dethrux.h"

#include <stdio.h>
#include <string.h>
#ifdef __APPLE__
/* Older systems have no <uchar.h>. */
typedef uint_least16_t char16_t;
#else
#include <uchar.h>
#endif

enum { MOST = 8, ROOM = 32, BLANK = 0xA5 };

static int passed, failed;

static void check(const char *name, const char *of, bool holds) {
    if (holds) {
        passed++;
    } else {
        failed++;
        printf("failed: %s of %s\n", name, of);
    }
}

/* The byte order of this machine, whatever the header says. */
static dethrux_byte_order native(void) {
    const uint16_t unit = 1;
    uint8_t first;
    memcpy(&first, &unit, 1);
    return first == 1 ? DETHRUX_LITTLE_ENDIAN : DETHRUX_BIG_ENDIAN;
}

/* Most are another text in the other byte order: of other characters, or ill formed in one only. */
typedef struct {
    const char *name;
    size_t len;
    uint16_t units[MOST];
} text;

static const text texts[] = {
    {"nothing", 0, {0}},
    {"ASCII", 3, {0x61, 0x62, 0x63}},
    {"ASCII with another end", 3, {0x61, 0x62, 0x64}},
    {"swapped ASCII", 1, {0x6100}},
    {"Latin-1", 3, {0x61, 0xE9, 0xFF}},
    {"U+FFFD", 1, {0xFFFD}},
    {"a code unit above surrogates", 1, {0xFF5E}},
    {"one to four bytes", 5, {0x61, 0xE9, 0x4E2D, 0xD83D, 0xDE00}},
    {"a swapped pair", 2, {0x3DD8, 0x00DE}},
    {"two pairs", 4, {0xD83D, 0xDE00, 0xD83D, 0xDE01}},
    {"unpaired surrogates", 4, {0x61, 0xDC00, 0x62, 0xD800}},
    {"swapped unpaired surrogates", 2, {0x00DC, 0x00D8}},
    {"the first half of a pair", 3, {0x61, 0x62, 0xD83D}},
    {"the second half of a pair", 2, {0xDE00, 0x61}},
    {"halves of pairs before a pair", 5, {0xDC00, 0xD800, 0xD800, 0xDC00, 0x61}},
    {"places that overlap", 6, {0x62, 0x61, 0x62, 0x61, 0x62, 0x61}},
    {"two NULs", 5, {0x61, 0, 0x62, 0, 0x63}},
    {"zero bytes of two units", 4, {0x0100, 0x0061, 0x6100, 0x0001}},
};

enum { TEXTS = sizeof texts / sizeof *texts };

/* Null if the text is empty. */
static const uint16_t *units_of(const text *from) {
    return from->len == 0 ? NULL : from->units;
}

/* The questions that have a number as their answer, or a truth. */
#define CONVERSION(name, way, mode)
#define STREAM(name, step, state)
#define CALL(name, shape, kind)
#define QUESTION(name, kind) ASK_##kind(name)
#define ASK_validity(call)
#define ASK_inspection(call)
#define ASK_truth(call) ASK_size(call)
#define ASK_size(call) \
    check(#call, from->name, \
        dethrux_u16_##call(units, len) == dethrux_##call(native(), units, len * 2));

static void look(const text *from) {
    const uint16_t *units = units_of(from);
    const size_t len = from->len;
#include "../../dist/src/shapes.inc"
#undef CONVERSION
#undef STREAM
#undef QUESTION
    check("nul_offset", from->name,
        dethrux_u16_nul_offset(units, len) * 2 == dethrux_nul_offset(units, len * 2));
    dethrux_validity found = dethrux_u16_validate(units, len);
    dethrux_validity wanted = dethrux_validate(native(), units, len * 2);
    check("validate", from->name,
        found.valid_up_to * 2 == wanted.valid_up_to && found.status == wanted.status
            && found.error_len * 2 == wanted.error_len);
    dethrux_inspection inspected = dethrux_u16_inspect(units, len);
    dethrux_inspection should = dethrux_inspect(native(), units, len * 2);
    check("inspect", from->name,
        inspected.valid_up_to * 2 == should.valid_up_to && inspected.status == should.status
            && inspected.error_len * 2 == should.error_len && inspected.chars == should.chars
            && inspected.repertoire == should.repertoire);
}

/* At each offset of the text, and after its end: one past, twice as far, and where a multiple of
 * the offset wraps to one that is inside. */
static void cut(const text *from) {
    const size_t half = SIZE_MAX / 2 + 1, len = from->len;
    const size_t after[] = {len + 1, 2 * len + 1, half, half + 1, half + len, half / 2,
        SIZE_MAX - 1, SIZE_MAX};
    const uint16_t *units = units_of(from);
    bool is = true;
    for (size_t at = 0; at <= len; at++) {
        is = is
             && dethrux_u16_is_char_boundary(units, len, at)
                    == dethrux_is_char_boundary(native(), units, len * 2, at * 2)
             && dethrux_u16_floor_char_boundary(units, len, at) * 2
                    == dethrux_floor_char_boundary(native(), units, len * 2, at * 2);
    }
    check("boundaries", from->name, is);
    for (size_t i = 0; i < sizeof after / sizeof *after; i++) {
        is = is && !dethrux_u16_is_char_boundary(units, len, after[i])
             && dethrux_u16_floor_char_boundary(units, len, after[i]) == len;
    }
    check("boundaries after the end", from->name, is);
}

/* The unit after the text must be unchanged. */
static void change(const text *from) {
    uint16_t units[MOST + 1], bytes[MOST + 1];
    memset(units, BLANK, sizeof units);
    memcpy(units, from->units, from->len * 2);
    memcpy(bytes, units, sizeof units);
    uint16_t *at = from->len == 0 ? NULL : units;
    size_t count = dethrux_make_well_formed(native(), bytes, from->len * 2);
    check("make_well_formed", from->name,
        dethrux_u16_make_well_formed(at, from->len) == count
            && memcmp(units, bytes, sizeof units) == 0);
    dethrux_swap_byte_order(bytes, from->len * 2);
    dethrux_u16_swap_byte_order(at, from->len);
    check("swap_byte_order", from->name, memcmp(units, bytes, sizeof units) == 0);
}

/* What the calls on code units write, and the calls on bytes, and the states of their streams. */
static struct {
    uint32_t to[ROOM];
    dethrux_decoder decoder;
    dethrux_encoder encoder;
    dethrux_wtf8_encoder wtf8_encoder;
} made[2];

/* Begins streams in which this many bytes of a character are pending. */
static void begin(uint8_t pending) {
    const dethrux_decoder decoder = {{0x3D, 0xD8, 0x00}, pending};
    const dethrux_encoder encoder = {{0xF0, 0x9F, 0x98}, pending};
    const dethrux_wtf8_encoder wtf8_encoder = {{0xED, 0xA0, 0xBD, 0, 0, 0}, pending};
    memset(made, BLANK, sizeof made);
    for (size_t i = 0; i < 2; i++) {
        made[i].decoder = decoder;
        made[i].encoder = encoder;
        made[i].wtf8_encoder = wtf8_encoder;
    }
}

/* Whether a call on code units did what a call on bytes did, which counts `read` times as much of
 * what is read: 2 for UTF-16, and 1 for the other form, of which UTF-16 is written. */
static bool is_same(dethrux_progress found, dethrux_progress bytes, size_t read) {
    return found.read * read == bytes.read && found.written * (3 - read) == bytes.written
           && found.status == bytes.status && found.error_len * read == bytes.error_len
           && memcmp(&made[0], &made[1], sizeof made[0]) == 0;
}

/* What is converted: code units of UTF-16, bytes, or code units of UTF-32. */
typedef enum { UTF16, BYTES, UTF32 } form;

/* Checks each conversion of a form, and each call of a stream of it. */
static void convert(const char *of, form from_form, const void *from, size_t len, size_t capacity,
    uint8_t pending) {
    void *to = capacity == 0 ? NULL : made[0].to, *bytes_to = made[1].to;
#define CONVERSION(name, way, mode) way(name)
#define TO_UTF8(name) READS(name, void)
#define TO_WTF8(name) READS(name, void)
#define TO_LATIN1(name) READS(name, void)
#define TO_UTF32(name) READS(name, uint32_t)
#define FROM_UTF8(name) WRITES(name, BYTES, void)
#define FROM_WTF8(name) WRITES(name, BYTES, void)
#define FROM_LATIN1(name) WRITES(name, BYTES, void)
#define FROM_UTF32(name) WRITES(name, UTF32, uint32_t)
#define READS(name, To) \
    AGREE(name, UTF16, 2, ((const uint16_t *)from, len, (To *)to, capacity), \
        (native(), from, len * 2, (To *)bytes_to, capacity))
#define WRITES(name, form, From) \
    AGREE(name, form, 1, ((const From *)from, len, (uint16_t *)to, capacity), \
        (native(), (const From *)from, len, bytes_to, capacity * 2))
#define STREAM(name, step, state) step##_##state(name, state)
#define FEED_decoder(name, state) \
    AGREE(name, UTF16, 2, (&made[0].state, (const uint16_t *)from, len, to, capacity), \
        (&made[1].state, native(), from, len * 2, bytes_to, capacity))
#define FEED_encoder(name, state) \
    AGREE(name, BYTES, 1, (&made[0].state, from, len, (uint16_t *)to, capacity), \
        (&made[1].state, native(), from, len, bytes_to, capacity * 2))
#define FEED_wtf8_encoder(name, state) FEED_encoder(name, state)
#define FINISH_encoder(name, state) \
    AGREE(name, BYTES, 1, (&made[0].state, (uint16_t *)to, capacity), \
        (&made[1].state, native(), bytes_to, capacity * 2))
#define FINISH_wtf8_encoder(name, state) FINISH_encoder(name, state)
#define FINISH_decoder(name, state)
#define QUESTION(name, kind)
#define AGREE(name, form, read, of_units, of_bytes) \
    if (from_form == form) { \
        begin(pending); \
        check(#name, of, is_same(dethrux_u16_##name of_units, dethrux_##name of_bytes, read)); \
    }
#include "../../dist/src/shapes.inc"
}

/* Into buffers of each capacity up to `most`, and if a stream has pending bytes: of UTF-16 a code
 * unit. */
static void convert_all(const char *of, form form, const void *from, size_t len, size_t most) {
    for (size_t i = 0; i <= most * 4; i++) {
        convert(of, form, from, len, i / 4, (uint8_t)(form == UTF16 ? i % 2 * 2 : i % 4));
    }
}

/* UTF-8 and WTF-8, well formed and not, complete and not. They are Latin-1 too. */
static const char *const bytes8[] = {"", "abc", "a\xC3\xA9\xE4\xB8\xAD\xF0\x9F\x98\x80",
    "\xFF\xFF\xFF", "a\xE4\xB8z", "\xC3", "a\xE4\xB8", "\xF0\x9F\x98", "\x80z",
    "a\xED\xB0\x80z\xED\xA0\x80", "\xED\xBF\xBF\xED\xAF\xBF\xF0\x90\x80\x80z",
    "\xED\xA0\x80\xED\xB0\x80"};

static const uint32_t points[] = {0x61, 0xE9, 0x4E2D, 0x1F600, 0xD800, 0x62, 0x110000, 0x63};

enum { POINTS = sizeof points / sizeof *points };

static void write_units(void) {
    for (size_t i = 0; i < sizeof bytes8 / sizeof *bytes8; i++) {
        size_t len = strlen(bytes8[i]);
        convert_all(bytes8[i], BYTES, len == 0 ? NULL : bytes8[i], len, len + 3);
    }
    for (size_t len = 0; len <= POINTS; len++) {
        convert_all("code points", UTF32, len == 0 ? NULL : points, len, len * 2 + 1);
        convert_all("code points", UTF32, points + len, POINTS - len, 2 * POINTS);
    }
}

static size_t halved(size_t offset) {
    return offset == DETHRUX_NOT_FOUND ? offset : offset / 2;
}

static bool is_found(
    const uint16_t *units, size_t len, const uint16_t *pattern, size_t pattern_len) {
    return dethrux_u16_find(units, len, pattern, pattern_len)
               == halved(dethrux_find(native(), units, len * 2, pattern, pattern_len * 2))
           && dethrux_u16_rfind(units, len, pattern, pattern_len)
                  == halved(dethrux_rfind(native(), units, len * 2, pattern, pattern_len * 2));
}

/* A text with itself and with each other one, and the search for them and for its own parts. */
static void compare_and_search(const text *from) {
    const uint16_t *units = units_of(from);
    const size_t len = from->len;
    bool is_compared = true, is = true;
    for (size_t i = 0; i < TEXTS; i++) {
        const uint16_t *other = units_of(&texts[i]);
        size_t other_len = texts[i].len;
        is_compared = is_compared
                      && dethrux_u16_compare(units, len, other, other_len)
                             == dethrux_compare(
                                 native(), units, len * 2, native(), other, other_len * 2);
        is = is && is_found(units, len, other, other_len);
    }
    for (size_t start = 0; start < len; start++) {
        for (size_t end = start; end <= len; end++) {
            is = is && is_found(units, len, units + start, end - start);
        }
    }
    check("compare", from->name, is_compared);
    check("find and rfind", from->name, is);
}

/* The other type of code units. */
static void other_type(void) {
    static const char16_t text[] = u"a\U0001F600";
    char16_t to[2];
    dethrux_progress found = dethrux_u16_from_utf8("ab", 2, to, 2);
    check("count_chars", "char16_t", dethrux_u16_count_chars(text, 3) == 2);
    check("find", "char16_t", dethrux_u16_find(text, 3, text + 1, 2) == 1);
    check("nul_offset", "char16_t", dethrux_u16_nul_offset(text, 4) == 3);
    check("from_utf8", "char16_t", found.written == 2 && to[0] == u'a' && to[1] == u'b');
}

/* The capacities are half of those in bytes, which examples/c/check.c tests, or as many bytes. A
 * `len` may be an expression, and of a smaller type. */
static void capacities(void) {
    const unsigned len = 0x80000001u;
    const size_t bytes = (size_t)len * 2;
    check("capacities", "of code units", DETHRUX_U16_TO_UTF8_MAX(len) == DETHRUX_UTF8_MAX(bytes)
        && DETHRUX_U16_TO_UTF8_MAX(len) == DETHRUX_WTF8_MAX(bytes)
        && DETHRUX_U16_FROM_UTF8_MAX(len) == DETHRUX_UTF16_MAX((size_t)len) / 2
        && DETHRUX_U16_FROM_UTF32_MAX(len) == DETHRUX_FROM_UTF32_MAX((size_t)len) / 2
        && DETHRUX_U16_DECODER_FEED_MAX(len) == DETHRUX_DECODER_FEED_MAX(bytes)
        && DETHRUX_U16_ENCODER_FEED_MAX(len) == DETHRUX_ENCODER_FEED_MAX((size_t)len) / 2
        && DETHRUX_U16_WTF8_ENCODER_FEED_MAX(len)
               == DETHRUX_WTF8_ENCODER_FEED_MAX((size_t)len) / 2
        && DETHRUX_U16_TO_UTF8_MAX(1 + 1) == 6 && DETHRUX_U16_FROM_UTF8_MAX(1 + 1) * 2 == 4
        && DETHRUX_U16_FROM_UTF32_MAX(1 + 1) == 4 && DETHRUX_U16_DECODER_FEED_MAX(1 + 1) * 2 == 18
        && DETHRUX_U16_ENCODER_FEED_MAX(1 + 1) * 2 == 6
        && DETHRUX_U16_WTF8_ENCODER_FEED_MAX(1 + 1) * 2 == 8);
}

int main(void) {
    for (size_t i = 0; i < TEXTS; i++) {
        look(&texts[i]);
        cut(&texts[i]);
        change(&texts[i]);
        convert_all(texts[i].name, UTF16, units_of(&texts[i]), texts[i].len, texts[i].len * 3 + 3);
        compare_and_search(&texts[i]);
    }
    write_units();
    other_type();
    capacities();
    printf("%d passed, %d failed\n", passed, failed);
    return failed != 0;
}
