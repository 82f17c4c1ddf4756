/* SPDX-License-Identifier: MIT OR Apache-2.0 */

/**
 * @file
 * Dethrux with memory: texts that end with a NUL, in new memory or in a buffer of a fixed size.
 *
 * The library never allocates. These functions are inline and use the program's own malloc. They
 * are tested, not proved; the conversions that they call are proved. The header is C99 and C++11.
 */
#ifndef DETHRUX_ALLOC_H
#define DETHRUX_ALLOC_H

#include "dethrux.h"

#include <string.h>

/**
 * @defgroup dethrux_alloc Memory: texts that end with a NUL
 * Each call converts all of `len`, in which a NUL is a character, and writes a NUL after the
 * result: a byte after UTF-8, and two after UTF-16. The `_alloc` calls return a text in new memory,
 * which you release with free or your DETHRUX_FREE, or no text and the reason. The `_fit` calls
 * write to your buffer what fits, cut between characters.
 *
 * To convert a text up to its NUL, pass the length that strlen, wcslen or dethrux_u16_strlen
 * returns. A field of a fixed size may lack a NUL: pass what dethrux_nul_offset,
 * dethrux_u16_nul_offset or dethrux_utf8_strnlen returns, the offset of the first NUL or the size
 * of the field, whichever is less.
 *
 * The calls with `u16` in their names take and return UTF-16 in the machine's byte order, and count
 * its code units, as the dethrux_u16 calls of dethrux.h do.
 * @{
 */

#if !defined(DETHRUX_MALLOC) && !defined(DETHRUX_REALLOC) && !defined(DETHRUX_FREE)
#include <stdlib.h>
/** Allocates. To use your own allocator, define this macro and the next two before the include. */
#define DETHRUX_MALLOC(size) malloc(size)
/** Makes memory smaller. If it returns NULL, the text keeps its memory. */
#define DETHRUX_REALLOC(memory, size) realloc(memory, size)
/** Releases memory. */
#define DETHRUX_FREE(memory) free(memory)
#elif !defined(DETHRUX_MALLOC) || !defined(DETHRUX_REALLOC) || !defined(DETHRUX_FREE)
#error "define DETHRUX_MALLOC, DETHRUX_REALLOC and DETHRUX_FREE, or none of them"
#endif

/** The status after a failed allocation, greater than every dethrux_status. */
#define DETHRUX_NO_MEMORY 256u

/** A text in UTF-8 in new memory, or the reason why there is none. */
typedef struct dethrux_utf8_text {
    char *utf8;         /**< The text and a NUL, or NULL if the status is not DETHRUX_DONE. */
    size_t len;         /**< The number of bytes before that NUL. */
    size_t read;        /**< The number of bytes (`u16`: code units) of the input read. */
    uint32_t status;    /**< A dethrux_status, or DETHRUX_NO_MEMORY. */
    uint32_t error_len; /**< The ill-formed sequence's length with DETHRUX_ILL_FORMED, else 0. */
} dethrux_utf8_text;

/** A text in UTF-16 in new memory, or the reason why there is none. */
typedef struct dethrux_utf16_text {
    void *utf16;        /**< The text and a NUL, or NULL if the status is not DETHRUX_DONE. */
    size_t len;         /**< The number of bytes (`u16`: code units) before that NUL. */
    size_t read;        /**< The number of bytes of the input read. */
    uint32_t status;    /**< A dethrux_status, or DETHRUX_NO_MEMORY. */
    uint32_t error_len; /**< The ill-formed sequence's length with DETHRUX_ILL_FORMED, else 0. */
} dethrux_utf16_text;

/** @cond */
/* In C++ too each file of a program has its own functions, since it may have its own allocator. */
#define DETHRUX_INLINE DETHRUX_NODISCARD static inline
#ifdef __cplusplus
#define DETHRUX_INLINE_U16 template <typename dethrux_unit> DETHRUX_INLINE
#define DETHRUX_U16_BYTES(utf16) dethrux_u16_bytes(utf16)
#define DETHRUX_CAST(type, value) static_cast<type>(value)
#else
#define DETHRUX_INLINE_U16 DETHRUX_INLINE
#define DETHRUX_U16_BYTES(utf16) (utf16)
#define DETHRUX_CAST(type, value) ((type)(value))
#endif
#define DETHRUX_U16_TEXT(utf16, len) \
    DETHRUX_NATIVE_ENDIAN, DETHRUX_U16_BYTES(utf16), dethrux_inner_bytes(len)

typedef dethrux_progress dethrux_inner_call(
    dethrux_byte_order byte_order, const void *from, size_t len, void *to, size_t capacity);

/* Returns the number of bytes of code units, or SIZE_MAX, which no text has, if it is greater. */
static inline size_t dethrux_inner_bytes(size_t units) {
    return units < SIZE_MAX / 2 ? units * 2 : SIZE_MAX;
}

/* Returns how far a call came in units of these sizes. */
static inline dethrux_progress dethrux_inner_units(
    dethrux_progress progress, uint32_t from_size, uint32_t to_size) {
    progress.read /= from_size;
    progress.error_len /= from_size;
    progress.written /= to_size;
    return progress;
}

/* Converts what fits before a NUL of `nul` bytes, and writes the NUL. */
static inline dethrux_progress dethrux_inner_fit(dethrux_inner_call *call, size_t nul,
    dethrux_byte_order byte_order, const void *from, size_t len, void *to, size_t capacity) {
    dethrux_progress progress = {0, 0, DETHRUX_NO_SPACE, 0};
    if (capacity >= nul) {
        progress = call(byte_order, from, len, to, capacity - nul);
        memset(DETHRUX_CAST(char *, to) + progress.written, 0, nul);
    }
    return progress;
}

/* Converts into memory for the longest text, then makes it smaller, since measuring takes longer.
 * The capacity suffices in both directions, and is at most PTRDIFF_MAX, as the proofs need. */
static inline dethrux_utf16_text dethrux_inner_alloc(dethrux_inner_call *call, size_t nul,
    uint32_t to_size, dethrux_byte_order byte_order, const void *from, size_t len) {
    dethrux_utf16_text text = {NULL, 0, 0, DETHRUX_NO_MEMORY, 0};
    size_t capacity = len * 2 + 2;
    void *to = len < PTRDIFF_MAX / 2 ? DETHRUX_MALLOC(capacity) : NULL;
    if (to != NULL) {
        dethrux_progress all = dethrux_inner_fit(call, nul, byte_order, from, len, to, capacity);
        text.read = all.read;
        text.status = DETHRUX_CAST(uint32_t, all.status);
        text.error_len = all.error_len;
        if (all.status == DETHRUX_DONE) {
            void *smaller = DETHRUX_REALLOC(to, all.written + nul);
            text.utf16 = smaller != NULL ? smaller : to;
            text.len = all.written / to_size;
        } else {
            DETHRUX_FREE(to);
        }
    }
    return text;
}

/* Converts code units of this size to UTF-8 in new memory. */
static inline dethrux_utf8_text dethrux_inner_to_utf8(dethrux_inner_call *call, uint32_t from_size,
    dethrux_byte_order byte_order, const void *utf16, size_t len) {
    dethrux_utf16_text text = dethrux_inner_alloc(call, 1, 1, byte_order, utf16, len);
    dethrux_utf8_text utf8 = {DETHRUX_CAST(char *, text.utf16), text.len, text.read / from_size,
        text.status, text.error_len / from_size};
    return utf8;
}
/** @endcond */

/** Returns the number of code units before the first NUL. */
DETHRUX_INLINE_U16 size_t dethrux_u16_strlen(const dethrux_unit *utf16) {
    size_t at = 0;
    (void)DETHRUX_U16_BYTES(utf16); /* In C++ this refuses elements of another size. */
    while (utf16[at] != 0) {
        at++;
    }
    return at;
}

/** Returns the number of bytes before the first NUL of UTF-8, or `max` if none is before it. */
DETHRUX_INLINE size_t dethrux_utf8_strnlen(const void *utf8, size_t max) {
    const char *bytes = DETHRUX_CAST(const char *, utf8);
    size_t at = 0;
    while (at < max && bytes[at] != 0) {
        at++;
    }
    return at;
}

/**
 * Converts UTF-16 to UTF-8 in new memory, if it is well formed.
 *
 * @return the text, or none with one of these statuses:
 * - DETHRUX_ILL_FORMED: an unpaired surrogate follows `read`
 * - DETHRUX_INCOMPLETE: the input ends inside a character, which follows `read`
 * - DETHRUX_NO_MEMORY: the allocation failed, and `read` is 0
 */
DETHRUX_INLINE dethrux_utf8_text dethrux_to_utf8_alloc(
    dethrux_byte_order byte_order, const void *utf16, size_t len) {
    return dethrux_inner_to_utf8(dethrux_to_utf8, 1, byte_order, utf16, len);
}

/** Does what dethrux_to_utf8_alloc does, on code units. */
DETHRUX_INLINE_U16 dethrux_utf8_text dethrux_u16_to_utf8_alloc(
    const dethrux_unit *utf16, size_t len) {
    return dethrux_inner_to_utf8(dethrux_to_utf8, 2, DETHRUX_U16_TEXT(utf16, len));
}

/**
 * Converts UTF-8 to UTF-16 in new memory, if it is well formed.
 *
 * @return the text, or none with one of these statuses:
 * - DETHRUX_ILL_FORMED: an ill-formed sequence follows `read`
 * - DETHRUX_INCOMPLETE: the input ends inside a character, which follows `read`
 * - DETHRUX_NO_MEMORY: the allocation failed, and `read` is 0
 */
DETHRUX_INLINE dethrux_utf16_text dethrux_from_utf8_alloc(
    dethrux_byte_order byte_order, const void *utf8, size_t len) {
    return dethrux_inner_alloc(dethrux_from_utf8, 2, 1, byte_order, utf8, len);
}

/** Does what dethrux_from_utf8_alloc does, to code units. */
DETHRUX_INLINE dethrux_utf16_text dethrux_u16_from_utf8_alloc(const void *utf8, size_t len) {
    return dethrux_inner_alloc(dethrux_from_utf8, 2, 2, DETHRUX_NATIVE_ENDIAN, utf8, len);
}

/**
 * Does what dethrux_to_utf8 does, and writes a NUL after it.
 *
 * @param capacity the size of `to`, with the NUL
 * @return how far the call came without the NUL, with a status of dethrux_to_utf8; if it is
 *   DETHRUX_NO_SPACE, the text was cut between characters, or the capacity is 0 and nothing was
 *   written, not even a NUL
 */
DETHRUX_INLINE dethrux_progress dethrux_to_utf8_fit(
    dethrux_byte_order byte_order, const void *utf16, size_t len, void *to, size_t capacity) {
    return dethrux_inner_fit(dethrux_to_utf8, 1, byte_order, utf16, len, to, capacity);
}

/**
 * Does what dethrux_from_utf8 does, and writes a NUL of 2 bytes after it.
 *
 * @param capacity the size of `to`, with the NUL
 * @return how far the call came without the NUL, with a status of dethrux_from_utf8; if it is
 *   DETHRUX_NO_SPACE, the text was cut between characters, or the capacity is below 2 and nothing
 *   was written, not even a NUL
 */
DETHRUX_INLINE dethrux_progress dethrux_from_utf8_fit(
    dethrux_byte_order byte_order, const void *utf8, size_t len, void *to, size_t capacity) {
    return dethrux_inner_fit(dethrux_from_utf8, 2, byte_order, utf8, len, to, capacity);
}

/** Does what dethrux_to_utf8_fit does, on code units. */
DETHRUX_INLINE_U16 dethrux_progress dethrux_u16_to_utf8_fit(
    const dethrux_unit *utf16, size_t len, void *to, size_t capacity) {
    return dethrux_inner_units(
        dethrux_to_utf8_fit(DETHRUX_U16_TEXT(utf16, len), to, capacity), 2, 1);
}

/** Does what dethrux_from_utf8_fit does, to code units. */
DETHRUX_INLINE_U16 dethrux_progress dethrux_u16_from_utf8_fit(
    const void *utf8, size_t len, dethrux_unit *to, size_t capacity) {
    return dethrux_inner_units(dethrux_from_utf8_fit(DETHRUX_NATIVE_ENDIAN, utf8, len,
        DETHRUX_U16_BYTES(to), dethrux_inner_bytes(capacity)), 1, 2);
}

/** @} */

#undef DETHRUX_INLINE
#undef DETHRUX_INLINE_U16
#undef DETHRUX_U16_BYTES
#undef DETHRUX_U16_TEXT
#undef DETHRUX_CAST

#endif
