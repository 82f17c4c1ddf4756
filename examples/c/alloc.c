/* Makes the calls of dethrux_alloc.h and compares with the plain calls of dethrux.h, and with
 * results that were worked out by hand. Each allocation also fails. It is C99 and C++11. The last
 * line is 'N passed, M failed'. */
#include <stdio.h>
#include <stdlib.h>
#include <string.h>

/* An allocator that counts what is in use, fails at one of its calls, and always moves. */
static size_t calls, fails_at, in_use, asked, kept;

static void *own_malloc(size_t size) {
    void *memory = ++calls == fails_at || size > 4096 ? NULL : malloc(size);
    asked = size;
    in_use += memory != NULL;
    return memory;
}

static void own_free(void *memory) {
    in_use--;
    free(memory);
}

static void *own_realloc(void *memory, size_t size) {
    void *smaller = size > asked ? NULL : own_malloc(size);
    if (smaller != NULL) {
        memcpy(smaller, memory, kept = size);
        own_free(memory);
    }
    return smaller;
}

#define DETHRUX_MALLOC(size) own_malloc(size)
#define DETHRUX_REALLOC(memory, size) own_realloc(memory, size)
#define DETHRUX_FREE(memory) own_free(memory)
#include "dethrux_alloc.h"

#ifdef __cplusplus
#define AS(type, value) static_cast<type>(value)
#else
#define AS(type, value) ((type)(value))
#endif

enum { MOST = 64, BLANK = 0xA5 };

static int passed, failed;

static void check(const char *name, bool holds) {
    passed += holds;
    if (!holds) {
        failed++;
        printf("failed: %s\n", name);
    }
}

/* A call: its direction, on code units or on bytes, strict or lossy, and the byte order. */
typedef struct {
    bool is_to_utf8, is_u16, is_lossy;
    dethrux_byte_order order;
} form;

static void check_form(const char *name, form it, size_t len, bool holds) {
    char shown[96];
    snprintf(shown, sizeof shown, "%s, %s%s%s, order %u, %u bytes", name,
        it.is_to_utf8 ? "to UTF-8" : "from UTF-8", it.is_u16 ? ", u16" : "",
        it.is_lossy ? ", lossy" : "", AS(unsigned, it.order), AS(unsigned, len));
    check(shown, holds);
}

/* A call in its mode. The lengths of the library's own calls, and the ones below, count bytes. */
#define CALL(it, name, end, ...) \
    ((it).is_lossy ? dethrux_##name##_lossy##end(__VA_ARGS__) : dethrux_##name##end(__VA_ARGS__))

static dethrux_progress plain(form it, const void *from, size_t len, void *to, size_t capacity) {
    return it.is_to_utf8 ? CALL(it, to_utf8, , it.order, from, len, to, capacity)
                         : CALL(it, from_utf8, , it.order, from, len, to, capacity);
}

static dethrux_progress fit(
    form it, const uint16_t *from, size_t len, uint16_t *to, size_t capacity) {
    if (it.is_u16) {
        return it.is_to_utf8 ? CALL(it, u16_to_utf8, _fit, from, len / 2, to, capacity)
                             : CALL(it, u16_from_utf8, _fit, from, len, to, capacity / 2);
    }
    return it.is_to_utf8 ? CALL(it, to_utf8, _fit, it.order, from, len, to, capacity)
                         : CALL(it, from_utf8, _fit, it.order, from, len, to, capacity);
}

static dethrux_utf16_text as_utf16(dethrux_utf8_text it) {
    dethrux_utf16_text text = {it.utf8, it.len, it.read, it.status, it.error_len};
    return text;
}

static dethrux_utf16_text alloc(form it, const uint16_t *from, size_t len) {
    calls = 0;
    if (it.is_u16) {
        return it.is_to_utf8 ? as_utf16(CALL(it, u16_to_utf8, _alloc, from, len / 2))
                             : CALL(it, u16_from_utf8, _alloc, from, len);
    }
    return it.is_to_utf8 ? as_utf16(CALL(it, to_utf8, _alloc, it.order, from, len))
                         : CALL(it, from_utf8, _alloc, it.order, from, len);
}

/* How far a call came, which counts code units in its UTF-16. */
static dethrux_progress counted(form it, dethrux_progress bytes) {
    if (it.is_u16 && it.is_to_utf8) {
        bytes.read /= 2;
        bytes.error_len /= 2;
    } else if (it.is_u16) {
        bytes.written /= 2;
    }
    return bytes;
}

/* Allocates without a failure, and with one at the first, the second and the third allocation. */
static void check_alloc(form it, const uint16_t *from, size_t len) {
    char wanted[MOST * 3] = {0};
    dethrux_progress bytes = plain(it, from, len, wanted, sizeof wanted - 2);
    dethrux_progress units = counted(it, bytes);
    const size_t nul = it.is_to_utf8 ? 1 : 2;
    memset(wanted + bytes.written, 0, nul);
    for (fails_at = 0; fails_at <= 3; fails_at++) {
        const bool has_memory = fails_at != 1;
        const bool is_text = has_memory && bytes.status == DETHRUX_DONE;
        dethrux_utf16_text text = alloc(it, from, len);
        bool holds = has_memory ? text.read == units.read && text.error_len == units.error_len
                                      && text.status == AS(uint32_t, bytes.status)
                                : text.read == 0 && text.error_len == 0
                                      && text.status == DETHRUX_NO_MEMORY;
        holds = holds && in_use == is_text && (text.utf16 != NULL) == is_text
                && text.len == (is_text ? units.written : 0);
        if (is_text && holds) {
            holds = memcmp(text.utf16, wanted, bytes.written + nul) == 0
                    && (fails_at == 2 || kept == bytes.written + nul);
            own_free(text.utf16);
        }
        check_form("alloc", it, len, holds);
        in_use = 0;
    }
    fails_at = 0;
}

/* Writes into each capacity up to two more than needed. Nothing after it may change. */
static void check_fit(form it, const uint16_t *from, size_t len) {
    static uint16_t to[MOST * 3];
    static uint8_t wanted[sizeof to];
    const size_t nul = it.is_to_utf8 ? 1 : 2;
    const size_t most = plain(it, from, len, wanted, sizeof wanted - 2).written + nul + 2;
    for (size_t capacity = 0; capacity <= most; capacity += it.is_u16 ? nul : 1) {
        dethrux_progress progress = {0, 0, DETHRUX_NO_SPACE, 0};
        memset(to, BLANK, sizeof to);
        memset(wanted, BLANK, sizeof wanted);
        if (capacity >= nul) {
            progress = plain(it, from, len, wanted, capacity - nul);
            memset(wanted + progress.written, 0, nul);
        }
        const size_t end = capacity >= nul ? progress.written + nul : 0;
        progress = counted(it, progress);
        dethrux_progress found = fit(it, from, len, to, capacity);
        memset(wanted + capacity, BLANK, sizeof wanted - capacity);
        check_form("fit", it, len,
            found.read == progress.read && found.written == progress.written
                && found.status == progress.status && found.error_len == progress.error_len
                && memcmp(to, wanted, end) == 0
                && memcmp(to + (capacity + 1) / 2, wanted + (capacity + 1) / 2 * 2,
                       sizeof to - (capacity + 1) / 2 * 2) == 0);
    }
}

/* Makes each call on bytes in memory of just this size, and for no bytes on a null pointer. */
static void look(const void *bytes, size_t len, bool is_utf16) {
    uint16_t *from = len == 0 ? NULL : AS(uint16_t *, malloc(len));
    for (int choice = 0; choice < 8; choice++) {
        form it = {is_utf16, choice >= 4, choice % 2 != 0,
            choice / 2 % 2 != 0 ? DETHRUX_BIG_ENDIAN : DETHRUX_LITTLE_ENDIAN};
        if (it.is_u16 && (it.order != DETHRUX_NATIVE_ENDIAN || (is_utf16 && len % 2 != 0))) {
            continue;
        }
        if (from != NULL) {
            memcpy(from, bytes, len);
        }
        if (is_utf16 && it.order != DETHRUX_NATIVE_ENDIAN) {
            dethrux_swap_byte_order(from, len);
        }
        check_alloc(it, from, len);
        check_fit(it, from, len);
    }
    free(from);
}

/* One to four bytes of UTF-8 each: a, e with acute, U+4E2D, U+1F600, b. */
static const uint16_t utf16[] = {0x61, 0xE9, 0x4E2D, 0xD83D, 0xDE00, 0x62};
static const char utf8[] = "a\xC3\xA9\xE4\xB8\xAD\xF0\x9F\x98\x80" "b";

/* Each beginning, also of odd length, with a NUL or an unpaired surrogate at each place. */
static void look_at_all(void) {
    static const uint16_t wrong[] = {0, 0xD800, 0xDC00};
    static const char bytes[] = {0, 'x', AS(char, 0x80), AS(char, 0xED), AS(char, 0xFF)};
    for (size_t len = 0; len <= sizeof utf16; len++) {
        look(utf16, len, true);
    }
    for (size_t i = 0; i < sizeof utf16 / 2 * 3; i++) {
        uint16_t units[sizeof utf16 / 2];
        memcpy(units, utf16, sizeof utf16);
        units[i / 3] = wrong[i % 3];
        look(units, sizeof utf16, true);
        look(units, i / 3 * 2 + 2, true);
    }
    for (size_t len = 0; len < sizeof utf8; len++) {
        look(utf8, len, false);
    }
    for (size_t i = 0; i < (sizeof utf8 - 1) * 5; i++) {
        char text[sizeof utf8];
        memcpy(text, utf8, sizeof utf8);
        text[i / 5] = bytes[i % 5];
        look(text, sizeof utf8 - 1, false);
    }
}

/* Cuts by hand: the length of what fits into each capacity. */
static void cut(void) {
    static const size_t to_utf8[] = {0, 0, 1, 1, 3, 3, 3, 6, 6, 6, 6, 10, 11, 11};
    static const size_t to_units[] = {0, 0, 1, 2, 3, 3, 5, 6, 6};
    for (size_t capacity = 0; capacity < 14; capacity++) {
        char to[16] = "***************";
        dethrux_progress found = dethrux_u16_to_utf8_fit(utf16, 6, to, capacity);
        check("a cut of UTF-8",
            found.written == to_utf8[capacity] && memcmp(to, utf8, found.written) == 0
                && found.status == (capacity < 12 ? DETHRUX_NO_SPACE : DETHRUX_DONE)
                && to[found.written] == (capacity == 0 ? '*' : '\0') && to[capacity] == '*');
    }
    for (size_t capacity = 0; capacity < 9; capacity++) {
        uint16_t to[10] = {9, 9, 9, 9, 9, 9, 9, 9, 9, 9};
        dethrux_progress found = dethrux_u16_from_utf8_fit(utf8, 11, to, capacity);
        check("a cut of UTF-16",
            found.written == to_units[capacity] && memcmp(to, utf16, found.written * 2) == 0
                && found.status == (capacity < 7 ? DETHRUX_NO_SPACE : DETHRUX_DONE)
                && to[found.written] == (capacity == 0 ? 9 : 0) && to[capacity] == 9);
    }
#ifndef DETHRUX_READS /* Sanitizers want a buffer of this capacity. */
    const size_t wraps = SIZE_MAX / 2 + 1;
    uint16_t to[2];
    check("a capacity that wraps", dethrux_u16_from_utf8_fit("a", 1, to, wraps).written == 1
        && dethrux_u16_from_utf8_lossy_fit("a", 1, to, wraps).written == 1);
#endif
}

/* Lengths whose capacity wraps, and the longest that does not: nothing is read. */
static void overflow(void) {
    const size_t limit = PTRDIFF_MAX / 2;
    const size_t lens[] = {limit - 1, limit, limit + 1, SIZE_MAX / 3, SIZE_MAX / 2,
        SIZE_MAX / 2 + 1, SIZE_MAX / 2 + 2, SIZE_MAX - 1, SIZE_MAX};
    for (size_t i = 0; i < sizeof lens / sizeof *lens; i++) {
        for (int choice = 0; choice < 8; choice++) {
            form it = {choice >= 4, choice / 2 % 2 != 0, choice % 2 != 0, DETHRUX_NATIVE_ENDIAN};
            asked = 0;
            dethrux_utf16_text text = alloc(it, utf16, lens[i]);
            size_t len = it.is_to_utf8 && it.is_u16 ? lens[i] / 2 * 2 : lens[i];
            check_form("too long", it, lens[i],
                text.utf16 == NULL && text.status == DETHRUX_NO_MEMORY && text.read == 0
                    && asked == (len < limit ? len * 2 + 2 : 0));
        }
        dethrux_utf8_text text = dethrux_u16_to_utf8_alloc(utf16, lens[i]);
        check("too many units", text.utf8 == NULL && text.status == DETHRUX_NO_MEMORY);
    }
}

/* A field of each size, in memory that ends with it, and units of which one byte is zero. */
static void lengths(void) {
    static const uint8_t bytes[] = {0x61, 0x62, 0, 0x63, 0};
    static const uint16_t units[] = {0x100, 1, 0x61, 0};
    for (size_t max = 0; max <= sizeof bytes; max++) {
        uint8_t *field = AS(uint8_t *, malloc(max + 1));
        memcpy(field + 1, bytes, max);
        check("utf8_strnlen", dethrux_utf8_strnlen(field + 1, max) == (max < 3 ? max : 2));
        free(field);
    }
    check("u16_strlen", dethrux_u16_strlen(units) == 3 && dethrux_u16_strlen(units + 3) == 0);
    check("no field", dethrux_utf8_strnlen(NULL, 0) == 0);
    char *field = AS(char *, malloc(80));
    memcpy(field, "a\0b\0\0", 6);
    check("a field that is set up to its NUL", dethrux_nul_offset(field, 80) == 4);
    free(field);
}

int main(void) {
    look_at_all();
    cut();
    overflow();
    lengths();
    check("the status", DETHRUX_NO_MEMORY > AS(uint32_t, DETHRUX_NOT_LATIN1) * 32);
    printf("%d passed, %d failed\n", passed, failed);
    return failed != 0;
}
