/* SPDX-License-Identifier: MIT OR Apache-2.0 */

/**
 * @file
 * Dethrux: UTF-16 in either byte order, to and from UTF-8, UTF-32, Latin-1 and WTF-8, between
 * buffers that the caller owns.
 *
 * No call allocates, keeps a pointer or prints anything. The header is C99 and C++11; for C++17
 * there is dethrux.hpp over it.
 *
 * @par Libraries
 * Link with libdethrux.so (-ldethrux), or with just libdethrux.a. Both are for x86-64-v2 and above
 * (SSE4.2, POPCNT), and run faster code if the processor has AVX2 (dethrux_kernel). The loader
 * refuses to start them on an older processor. A program that is linked with -static is not
 * checked: a call can end it by an illegal instruction. On Windows the shared library is
 * dethrux.dll, and no program is checked.
 *
 * @par Proofs
 * Proved for all inputs of up to PTRDIFF_MAX bytes: each result is as described, and no call reads
 * or writes outside the buffers that it is given. What is said about time is measured, not proved.
 * The proofs do not cover the caller, so this is trusted:
 * - A pointer with a length of n points to n bytes that may be read during the call (for `to`, with
 *   a capacity of n, written).
 * - `decoder` points to a decoder, and `encoder` to an encoder.
 * - They and `to` overlap no other buffer of the call.
 *
 * @par Pointers
 * A pointer to bytes need not be aligned. A null pointer is allowed if the length or the capacity
 * is 0. Null pointers, the macros and the dethrux_u16 calls are tested, not proved.
 *
 * @par Threads
 * Any call may run in any thread at any time, also in a signal handler, in a constructor of another
 * library and in a child after fork. Only one thread at a time may use a decoder, an encoder, or a
 * buffer that a call writes to.
 *
 * @par Lengths
 * Lengths, offsets and capacities count bytes, with two exceptions. Those of UTF-32 count its code
 * units, which are code points in the machine's byte order. The dethrux_u16 calls are for UTF-16 in
 * the machine's byte order, and count code units. A bool is 0 or 1.
 *
 * @par Capacities
 * A conversion that has the capacity of its macro never returns DETHRUX_NO_SPACE, if only these
 * calls have set the fields of its encoder. With a smaller capacity, call again with the rest as
 * long as a call returns it. Each call states which capacity such a loop needs: with that one or
 * more, a call that returns DETHRUX_NO_SPACE has written something, and the loop ends. These calls
 * together write the bytes that one call with enough capacity writes.
 *
 * @par Byte order marks
 * Only dethrux_detect_bom looks for a byte order mark (BOM); to every other call it is the
 * character U+FEFF.
 *
 * @par Example
 * A program that decodes little-endian UTF-16 of any length with two small buffers:
 * @code{.c}
 * #include "dethrux.h"
 *
 * #include <stdio.h>
 *
 * int main(void) {
 *     dethrux_decoder decoder = DETHRUX_DECODER_INIT;
 *     dethrux_progress progress;
 *     uint8_t utf16[512], utf8[256];
 *     size_t len, at;
 *     while ((len = fread(utf16, 1, sizeof utf16, stdin)) != 0) {
 *         at = 0;
 *         do {
 *             progress = dethrux_decoder_feed(&decoder, DETHRUX_LITTLE_ENDIAN, utf16 + at,
 *                                             len - at, utf8, sizeof utf8);
 *             if (fwrite(utf8, 1, progress.written, stdout) != progress.written) {
 *                 return 1;
 *             }
 *             at += progress.read;
 *         } while (progress.status == DETHRUX_NO_SPACE);
 *     }
 *     progress = dethrux_decoder_finish(&decoder, DETHRUX_LITTLE_ENDIAN, utf8, sizeof utf8);
 *     return fwrite(utf8, 1, progress.written, stdout) != progress.written
 *         || fflush(stdout) != 0 || ferror(stdin);
 * }
 * @endcode
 */
#ifndef DETHRUX_H
#define DETHRUX_H

#include <stdbool.h>
#include <stddef.h>
#include <stdint.h>

/** @defgroup dethrux_versions Version */
/** @defgroup dethrux_capacities Capacities that suffice */
/** @defgroup dethrux_properties Properties of a text */
/** @defgroup dethrux_strict Strict calls: up to the first ill-formed sequence */
/** @defgroup dethrux_lossy Lossy calls: U+FFFD for each ill-formed sequence */
/** @defgroup dethrux_streams Streams: a text in chunks that are cut anywhere */
/** @defgroup dethrux_fixed UTF-32 and Latin-1: a code unit for each character */
/** @defgroup dethrux_wtf8 WTF-8: any code units without loss */
/** @defgroup dethrux_boundaries Boundaries: where a text may be cut */
/** @defgroup dethrux_search Search: where a pattern occurs */
/** @defgroup dethrux_in_place In place: changes of a text in its own buffer */

/**
 * @addtogroup dethrux_versions
 * @{
 */

/** The first number of this header's version. */
#define DETHRUX_VERSION_MAJOR 0
/** The second number of this header's version. */
#define DETHRUX_VERSION_MINOR 2
/** The third number of this header's version. */
#define DETHRUX_VERSION_PATCH 0
/** The version of this header as a number; dethrux_version() returns the library's version. */
#define DETHRUX_VERSION \
    (DETHRUX_VERSION_MAJOR * 1000000 + DETHRUX_VERSION_MINOR * 1000 + DETHRUX_VERSION_PATCH)

/** @} */

/**
 * @addtogroup dethrux_capacities
 * Capacities that suffice for every input of `len` bytes, and that some input needs. No formula
 * wraps for a `len` below PTRDIFF_MAX - 1, or for as many code units of UTF-32 as such an input
 * has.
 * @{
 */

/** The capacity for dethrux_to_utf8_lossy. */
#define DETHRUX_UTF8_MAX(len) (((size_t)(len) + 1) / 2 * 3)
/** The capacity for dethrux_to_wtf8 and dethrux_to_wtf8_partial. */
#define DETHRUX_WTF8_MAX(len) ((size_t)(len) / 2 * 3)
/** The capacity for the conversions from UTF-8, from WTF-8 and from Latin-1. */
#define DETHRUX_UTF16_MAX(len) ((size_t)(len) * 2)
/** The capacity for dethrux_to_utf32_lossy, in code units of UTF-32. */
#define DETHRUX_UTF32_MAX(len) (((size_t)(len) + 1) / 2)
/** The capacity for the conversions from UTF-32, for `len` code units of it. */
#define DETHRUX_FROM_UTF32_MAX(len) ((size_t)(len) * 4)
/** The capacity for dethrux_decoder_feed and dethrux_wtf8_decoder_feed. */
#define DETHRUX_DECODER_FEED_MAX(len) (((size_t)(len) + 3) / 2 * 3)
/** The capacity for dethrux_decoder_finish and dethrux_wtf8_decoder_finish. */
#define DETHRUX_DECODER_FINISH_MAX 3
/** The capacity for dethrux_encoder_feed. */
#define DETHRUX_ENCODER_FEED_MAX(len) ((size_t)(len) * 2 + 2)
/** The capacity for dethrux_encoder_finish. */
#define DETHRUX_ENCODER_FINISH_MAX 2
/** The capacity for dethrux_wtf8_encoder_feed. */
#define DETHRUX_WTF8_ENCODER_FEED_MAX(len) ((size_t)(len) * 2 + 4)
/** The capacity for dethrux_wtf8_encoder_finish. */
#define DETHRUX_WTF8_ENCODER_FINISH_MAX 2

/** @} */

/**
 * The most bytes that dethrux_to_utf8_partial, dethrux_from_utf8_partial and
 * dethrux_to_wtf8_partial leave unread with DETHRUX_INCOMPLETE, and that a decoder or an encoder
 * keeps.
 *
 * @ingroup dethrux_streams
 */
#define DETHRUX_PENDING_MAX 3

/**
 * The most bytes that dethrux_from_wtf8_partial leaves unread with DETHRUX_INCOMPLETE, and that a
 * dethrux_wtf8_encoder keeps.
 *
 * @ingroup dethrux_wtf8
 */
#define DETHRUX_WTF8_PENDING_MAX 6

/**
 * The offset of the first of the bytes that dethrux_floor_char_boundary_around takes.
 *
 * @ingroup dethrux_boundaries
 */
#define DETHRUX_AROUND_START(at) ((uint64_t)(at) < 2 ? 0 : (uint64_t)(at) / 2 * 2 - 2)

/**
 * What dethrux_find and dethrux_rfind return if the pattern occurs nowhere.
 *
 * @ingroup dethrux_search
 */
#define DETHRUX_NOT_FOUND SIZE_MAX

/**
 * @def DETHRUX_NODISCARD
 * Makes the compiler warn if the result of a call is ignored.
 */
#if (defined(__cplusplus) && __cplusplus >= 201703L) \
    || (!defined(__cplusplus) && defined(__STDC_VERSION__) && __STDC_VERSION__ >= 202311L)
#define DETHRUX_NODISCARD [[nodiscard]]
#elif defined(__GNUC__)
#define DETHRUX_NODISCARD __attribute__((warn_unused_result))
#else
#define DETHRUX_NODISCARD
#endif

/* An enum has four bytes. Its type says so if the language allows it; otherwise a test below
 * does. */
#if defined(__cplusplus) || (defined(__STDC_VERSION__) && __STDC_VERSION__ >= 202311L)
#define DETHRUX_ENUM(name) enum name : uint32_t
#else
#define DETHRUX_ENUM(name) enum name
#endif

#ifdef __cplusplus
extern "C" {
#endif

/** The byte order of UTF-16. Every other value is read as DETHRUX_LITTLE_ENDIAN. */
typedef DETHRUX_ENUM(dethrux_byte_order) {
    DETHRUX_LITTLE_ENDIAN = 0, /**< The low byte of each code unit comes first. */
    DETHRUX_BIG_ENDIAN = 1     /**< The high byte comes first. */
} dethrux_byte_order;

/** Why a call stopped. No other values are returned. */
typedef DETHRUX_ENUM(dethrux_status) {
    DETHRUX_DONE = 0,       /**< All of the input was read. */
    DETHRUX_ILL_FORMED = 1, /**< Ill-formed bytes follow: resume `error_len` bytes after `read`. */
    DETHRUX_INCOMPLETE = 2, /**< The input ends inside a character. */
    DETHRUX_NO_SPACE = 3,   /**< The next character does not fit: call again with the rest. */
    DETHRUX_NOT_LATIN1 = 4  /**< The next character is above U+00FF (dethrux_to_latin1). */
} dethrux_status;

/** A repertoire, a set of characters. Each contains the ones before it. */
typedef DETHRUX_ENUM(dethrux_repertoire) {
    DETHRUX_ASCII = 0,  /**< U+0000 to U+007F. */
    DETHRUX_LATIN1 = 1, /**< U+0000 to U+00FF, ISO 8859-1. */
    DETHRUX_BMP = 2,    /**< U+0000 to U+FFFF, the Basic Multilingual Plane: no surrogate pair. */
    DETHRUX_UNICODE = 3 /**< U+0000 to U+10FFFF, all characters. */
} dethrux_repertoire;

/** Whether a stream begins with a BOM. No other values are returned. */
typedef DETHRUX_ENUM(dethrux_bom_status) {
    DETHRUX_BOM_ABSENT = 0,   /**< It begins with something else. */
    DETHRUX_BOM_PRESENT = 1,  /**< It begins with a BOM. */
    DETHRUX_BOM_UNDECIDED = 2 /**< Fewer than two bytes have come. */
} dethrux_bom_status;

#undef DETHRUX_ENUM
typedef char dethrux_enum_has_four_bytes[sizeof(dethrux_byte_order) == 4 ? 1 : -1];

/**
 * How far a call came.
 *
 * `written` ends between characters. So does `read`, except in a call that feeds a decoder or an
 * encoder, which also reads the bytes that it keeps. The bytes of `to` after `written` have no
 * meaning and may have been overwritten. If a call can return DETHRUX_ILL_FORMED, it does so if an
 * ill-formed sequence follows `read`, even if no space is left.
 */
typedef struct dethrux_progress {
    size_t read;           /**< The number of bytes (UTF-32: code units) of the input read. */
    size_t written;        /**< The number of bytes (UTF-32: code units) written to `to`. */
    dethrux_status status; /**< Why the call stopped. */
    uint32_t error_len;    /**< The ill-formed sequence's length with DETHRUX_ILL_FORMED, else 0. */
} dethrux_progress;

/** The length of the longest well-formed prefix, and what follows it. */
typedef struct dethrux_validity {
    size_t valid_up_to;    /**< The length of the longest well-formed prefix. */
    dethrux_status status; /**< What follows it: DETHRUX_DONE if nothing does. */
    uint32_t error_len;    /**< The ill-formed sequence's length with DETHRUX_ILL_FORMED, else 0. */
} dethrux_validity;

/** The longest well-formed prefix, what follows it, and what characters it has. */
typedef struct dethrux_inspection {
    size_t valid_up_to;            /**< The length of the longest well-formed prefix. */
    size_t chars;                  /**< The number of its characters. */
    dethrux_repertoire repertoire; /**< The smallest repertoire that has all of them. */
    dethrux_status status;         /**< What follows it: DETHRUX_DONE if nothing does. */
    uint32_t error_len; /**< The ill-formed sequence's length with DETHRUX_ILL_FORMED, else 0. */
} dethrux_inspection;

/** What the start of a stream says about its byte order. */
typedef struct dethrux_bom {
    size_t len;                    /**< The length of the BOM: 2, or 0 if there is none. */
    dethrux_byte_order byte_order; /**< The byte order of the stream. */
    dethrux_bom_status status;     /**< Whether the stream begins with a BOM. */
} dethrux_bom;

/**
 * The state of a decoder: the bytes of a stream that are not decoded yet.
 *
 * All zero, as in `dethrux_decoder decoder = DETHRUX_DECODER_INIT`, it begins a stream. Any values
 * are allowed: a `pending_len` above 3 is read as 3, and dethrux_decoder_feed and
 * dethrux_wtf8_decoder_feed never leave one above 3.
 *
 * @ingroup dethrux_streams
 */
typedef struct dethrux_decoder {
    uint8_t pending[DETHRUX_PENDING_MAX]; /**< Bytes from index `pending_len` on have no meaning. */
    uint8_t pending_len;                  /**< The number of bytes that are not decoded yet. */
} dethrux_decoder;

/**
 * The value of a dethrux_decoder that begins a stream.
 *
 * @ingroup dethrux_streams
 */
#define DETHRUX_DECODER_INIT {{0, 0, 0}, 0}

/**
 * The state of an encoder: the bytes of a stream of UTF-8 that are not encoded yet.
 *
 * It is like dethrux_decoder: DETHRUX_ENCODER_INIT begins a stream.
 *
 * @ingroup dethrux_streams
 */
typedef struct dethrux_encoder {
    uint8_t pending[DETHRUX_PENDING_MAX]; /**< Bytes from index `pending_len` on have no meaning. */
    uint8_t pending_len;                  /**< The number of bytes that are not encoded yet. */
} dethrux_encoder;

/**
 * The value of a dethrux_encoder that begins a stream.
 *
 * @ingroup dethrux_streams
 */
#define DETHRUX_ENCODER_INIT {{0, 0, 0}, 0}

/**
 * The state of an encoder of WTF-8: the bytes of a stream that are not encoded yet.
 *
 * It is like dethrux_decoder: DETHRUX_WTF8_ENCODER_INIT begins a stream, and a `pending_len` above
 * 6 is read as 6.
 *
 * @ingroup dethrux_wtf8
 */
typedef struct dethrux_wtf8_encoder {
    uint8_t pending[DETHRUX_WTF8_PENDING_MAX]; /**< Bytes from `pending_len` on have no meaning. */
    uint8_t pending_len;                       /**< The number of bytes not encoded yet. */
} dethrux_wtf8_encoder;

/** The value of a dethrux_wtf8_encoder that begins a stream. @ingroup dethrux_wtf8 */
#define DETHRUX_WTF8_ENCODER_INIT {{0, 0, 0, 0, 0, 0}, 0}

/**
 * Returns the version of the library as a number, DETHRUX_VERSION of its header.
 *
 * @ingroup dethrux_versions
 */
DETHRUX_NODISCARD uint32_t dethrux_version(void);

/**
 * Returns the name of the code that the calls run: "x86-64-v2", "x86-64-v3" or "aarch64".
 *
 * On x86-64 it is x86-64-v3 if the processor and the system have all of that level, such as AVX2,
 * unless the library was built for one level. All calls of a process run the same code. The result
 * stays valid. It is for reports of bugs and for benchmarks. The library that `rt` builds from the
 * crate does not have this call.
 * @ingroup dethrux_versions
 */
const char *dethrux_kernel(void);

/**
 * Returns the length of the longest well-formed prefix, and what follows it.
 *
 * @return the length, with one of these statuses:
 * - DETHRUX_DONE: the bytes are UTF-16
 * - DETHRUX_ILL_FORMED: an unpaired surrogate follows, of 2 bytes
 * - DETHRUX_INCOMPLETE: the bytes end inside a character, in their last 1 to 3 bytes
 * @ingroup dethrux_strict
 */
DETHRUX_NODISCARD dethrux_validity dethrux_validate(
    dethrux_byte_order byte_order, const void *utf16, size_t len);

/**
 * Returns the number of characters (scalar values).
 *
 * @return the number; for ill-formed input, the number of complete code units that are not trailing
 *   surrogates
 * @ingroup dethrux_properties
 */
DETHRUX_NODISCARD size_t dethrux_count_chars(
    dethrux_byte_order byte_order, const void *utf16, size_t len);

/**
 * Returns whether the bytes are UTF-16 whose characters are all ASCII, below U+0080.
 *
 * @ingroup dethrux_properties
 */
DETHRUX_NODISCARD bool dethrux_is_ascii(
    dethrux_byte_order byte_order, const void *utf16, size_t len);

/**
 * Returns the length of what dethrux_to_utf8_lossy writes for the whole input.
 *
 * @return at most DETHRUX_UTF8_MAX(len), and at most `len / 2 * 3` for UTF-16
 * @ingroup dethrux_lossy
 */
DETHRUX_NODISCARD size_t dethrux_to_utf8_lossy_len(
    dethrux_byte_order byte_order, const void *utf16, size_t len);

/**
 * Returns the length of what dethrux_from_utf8 writes for the longest well-formed prefix.
 *
 * The length is the same in either byte order.
 *
 * @return at most DETHRUX_UTF16_MAX(len)
 * @ingroup dethrux_strict
 */
DETHRUX_NODISCARD size_t dethrux_from_utf8_len(const void *utf8, size_t len);

/**
 * Returns the length of what dethrux_from_utf8_lossy writes for the whole input.
 *
 * The length is the same in either byte order.
 *
 * @return at most DETHRUX_UTF16_MAX(len)
 * @ingroup dethrux_lossy
 */
DETHRUX_NODISCARD size_t dethrux_from_utf8_lossy_len(const void *utf8, size_t len);

/**
 * Returns how many U+FFFD dethrux_to_utf8_lossy writes for ill-formed sequences of the whole input.
 *
 * A U+FFFD of the input is a character, and does not count. dethrux_to_utf32_lossy writes as many.
 *
 * @return 0 if and only if the input is well formed
 * @ingroup dethrux_lossy
 */
DETHRUX_NODISCARD size_t dethrux_to_utf8_replacements(
    dethrux_byte_order byte_order, const void *utf16, size_t len);

/**
 * Returns how many U+FFFD dethrux_from_utf8_lossy writes for ill-formed sequences of the whole
 * input.
 *
 * A U+FFFD of the input is a character, and does not count. The number is the same in either byte
 * order.
 *
 * @return 0 if and only if the input is well formed
 * @ingroup dethrux_lossy
 */
DETHRUX_NODISCARD size_t dethrux_from_utf8_replacements(const void *utf8, size_t len);

/**
 * Converts UTF-16 to UTF-8, up to the first ill-formed sequence.
 *
 * That is an unpaired surrogate of 2 bytes.
 *
 * @param capacity `len / 2 * 3` suffices, and so does DETHRUX_UTF8_MAX(len); a loop needs 4
 * @return how far the call came, with one of these statuses:
 * - DETHRUX_DONE: all of the input was read
 * - DETHRUX_ILL_FORMED: an unpaired surrogate follows `read`
 * - DETHRUX_INCOMPLETE: the input ends inside a character, which follows `read`
 * - DETHRUX_NO_SPACE: the next character does not fit: call again with the rest
 * @ingroup dethrux_strict
 */
DETHRUX_NODISCARD dethrux_progress dethrux_to_utf8(
    dethrux_byte_order byte_order, const void *utf16, size_t len, void *to, size_t capacity);

/**
 * Converts UTF-16 to UTF-8 and replaces what is ill formed by U+FFFD.
 *
 * The replacement character U+FFFD replaces each unpaired surrogate, and an incomplete character at
 * the end.
 *
 * @param capacity DETHRUX_UTF8_MAX(len) suffices; a loop needs 4
 * @return how far the call came, with one of these statuses:
 * - DETHRUX_DONE: all of the input was read
 * - DETHRUX_NO_SPACE: the next character does not fit: call again with the rest
 * @ingroup dethrux_lossy
 */
DETHRUX_NODISCARD dethrux_progress dethrux_to_utf8_lossy(
    dethrux_byte_order byte_order, const void *utf16, size_t len, void *to, size_t capacity);

/**
 * Converts the next chunk of a stream to UTF-8, without a decoder.
 *
 * This is like dethrux_to_utf8_lossy, but does not read an incomplete character at the end. The
 * stream may be cut anywhere; no state is kept. However the stream is cut, the same bytes are
 * written in all.
 *
 * @param capacity `len / 2 * 3` suffices; a loop needs 4
 * @return how far the call came, with one of these statuses:
 * - DETHRUX_DONE: all of the chunk was read
 * - DETHRUX_INCOMPLETE: at most DETHRUX_PENDING_MAX bytes follow `read`: put them before the next
 *   chunk, and at the end of the stream pass them to dethrux_to_utf8_lossy
 * - DETHRUX_NO_SPACE: the next character does not fit: call again with the rest
 * @ingroup dethrux_streams
 */
DETHRUX_NODISCARD dethrux_progress dethrux_to_utf8_partial(
    dethrux_byte_order byte_order, const void *utf16, size_t len, void *to, size_t capacity);

/**
 * Converts UTF-8 to UTF-16, up to the first ill-formed sequence, of 1 to 3 bytes.
 *
 * @param capacity DETHRUX_UTF16_MAX(len) suffices; a loop needs 4
 * @return how far the call came, with one of these statuses:
 * - DETHRUX_DONE: all of the input was read
 * - DETHRUX_ILL_FORMED: an ill-formed sequence follows `read`
 * - DETHRUX_INCOMPLETE: the input ends inside a character, which follows `read`
 * - DETHRUX_NO_SPACE: the next character does not fit: call again with the rest
 * @ingroup dethrux_strict
 */
DETHRUX_NODISCARD dethrux_progress dethrux_from_utf8(
    dethrux_byte_order byte_order, const void *utf8, size_t len, void *to, size_t capacity);

/**
 * Converts UTF-8 to UTF-16 and replaces what is ill formed by U+FFFD.
 *
 * U+FFFD replaces each maximal subpart of an ill-formed subsequence, as the Unicode Standard
 * recommends and Rust's from_utf8_lossy does, and an incomplete character at the end. `read` never
 * ends inside a character or an ill-formed sequence, so with DETHRUX_NO_SPACE a call with the rest
 * continues correctly.
 *
 * @param capacity DETHRUX_UTF16_MAX(len) suffices; a loop needs 4
 * @return how far the call came, with one of these statuses:
 * - DETHRUX_DONE: all of the input was read
 * - DETHRUX_NO_SPACE: the next character does not fit: call again with the rest
 * @ingroup dethrux_lossy
 */
DETHRUX_NODISCARD dethrux_progress dethrux_from_utf8_lossy(
    dethrux_byte_order byte_order, const void *utf8, size_t len, void *to, size_t capacity);

/**
 * Converts the next chunk of a stream to UTF-16, without an encoder.
 *
 * This is like dethrux_from_utf8_lossy, but does not read an incomplete character at the end. The
 * stream may be cut anywhere; no state is kept. However the stream is cut, the same bytes are
 * written in all.
 *
 * @param capacity DETHRUX_UTF16_MAX(len) suffices; a loop needs 4
 * @return how far the call came, with one of these statuses:
 * - DETHRUX_DONE: all of the chunk was read
 * - DETHRUX_INCOMPLETE: at most DETHRUX_PENDING_MAX bytes follow `read`: put them before the next
 *   chunk, and at the end of the stream pass them to dethrux_from_utf8_lossy
 * - DETHRUX_NO_SPACE: the next character does not fit: call again with the rest
 * @ingroup dethrux_streams
 */
DETHRUX_NODISCARD dethrux_progress dethrux_from_utf8_partial(
    dethrux_byte_order byte_order, const void *utf8, size_t len, void *to, size_t capacity);

/**
 * Returns the length of the longest well-formed prefix, the number of its characters, and the
 * smallest repertoire that has them.
 *
 * So a caller can choose a form that holds the text, and knows how much memory it takes. For
 * well-formed input this takes one pass.
 *
 * @return the length and the number, with one of these statuses:
 * - DETHRUX_DONE: the bytes are UTF-16
 * - DETHRUX_ILL_FORMED: an unpaired surrogate follows, of 2 bytes
 * - DETHRUX_INCOMPLETE: the bytes end inside a character, in their last 1 to 3 bytes
 * @ingroup dethrux_fixed
 */
DETHRUX_NODISCARD dethrux_inspection dethrux_inspect(
    dethrux_byte_order byte_order, const void *utf16, size_t len);

/**
 * Converts UTF-16 to UTF-32, up to the first ill-formed sequence.
 *
 * @param to code points in the machine's byte order
 * @param capacity counts code units of UTF-32: `len / 2` suffices, and so does
 *   DETHRUX_UTF32_MAX(len); a loop needs 1
 * @return how far the call came (`written` counts units of UTF-32), with one of these statuses:
 * - DETHRUX_DONE: all of the input was read
 * - DETHRUX_ILL_FORMED: an unpaired surrogate follows `read`
 * - DETHRUX_INCOMPLETE: the input ends inside a character, which follows `read`
 * - DETHRUX_NO_SPACE: the next character does not fit: call again with the rest
 * @ingroup dethrux_fixed
 */
DETHRUX_NODISCARD dethrux_progress dethrux_to_utf32(
    dethrux_byte_order byte_order, const void *utf16, size_t len, uint32_t *to, size_t capacity);

/**
 * Converts UTF-16 to UTF-32 and replaces what is ill formed by U+FFFD, as dethrux_to_utf8_lossy
 * does.
 *
 * @param to code points in the machine's byte order
 * @param capacity counts code units of UTF-32: DETHRUX_UTF32_MAX(len) suffices; a loop needs 1
 * @return how far the call came (`written` counts units of UTF-32), with one of these statuses:
 * - DETHRUX_DONE: all of the input was read
 * - DETHRUX_NO_SPACE: the next character does not fit: call again with the rest
 * @ingroup dethrux_fixed
 */
DETHRUX_NODISCARD dethrux_progress dethrux_to_utf32_lossy(
    dethrux_byte_order byte_order, const void *utf16, size_t len, uint32_t *to, size_t capacity);

/**
 * Returns how many code units of UTF-32 dethrux_to_utf32_lossy writes for the whole input.
 *
 * For well-formed input this is the number of its characters.
 *
 * @return at most DETHRUX_UTF32_MAX(len)
 * @ingroup dethrux_fixed
 */
DETHRUX_NODISCARD size_t dethrux_to_utf32_lossy_len(
    dethrux_byte_order byte_order, const void *utf16, size_t len);

/**
 * Returns how many code units at the start are UTF-32, and what follows them.
 *
 * A code unit is ill formed if it is a surrogate, 0xD800 to 0xDFFF, or above 0x10FFFF.
 *
 * @param len counts code units
 * @return the number, with one of these statuses:
 * - DETHRUX_DONE: all of them are
 * - DETHRUX_ILL_FORMED: an ill-formed one follows (`error_len` is 1)
 * @ingroup dethrux_fixed
 */
DETHRUX_NODISCARD dethrux_validity dethrux_validate_utf32(const uint32_t *utf32, size_t len);

/**
 * Converts UTF-32 to UTF-16, up to the first ill-formed code unit.
 *
 * @param len counts code units
 * @param capacity DETHRUX_FROM_UTF32_MAX(len) suffices; a loop needs 4
 * @return how far the call came (`read` counts code units of UTF-32), with one of these statuses:
 * - DETHRUX_DONE: all of the input was read
 * - DETHRUX_ILL_FORMED: an ill-formed code unit follows `read` (`error_len` is 1)
 * - DETHRUX_NO_SPACE: the next character does not fit: call again with the rest
 * @ingroup dethrux_fixed
 */
DETHRUX_NODISCARD dethrux_progress dethrux_from_utf32(
    dethrux_byte_order byte_order, const uint32_t *utf32, size_t len, void *to, size_t capacity);

/**
 * Converts UTF-32 to UTF-16 and replaces each ill-formed code unit by U+FFFD.
 *
 * @param len counts code units
 * @param capacity DETHRUX_FROM_UTF32_MAX(len) suffices; a loop needs 4
 * @return how far the call came (`read` counts code units of UTF-32), with one of these statuses:
 * - DETHRUX_DONE: all of the input was read
 * - DETHRUX_NO_SPACE: the next character does not fit: call again with the rest
 * @ingroup dethrux_fixed
 */
DETHRUX_NODISCARD dethrux_progress dethrux_from_utf32_lossy(
    dethrux_byte_order byte_order, const uint32_t *utf32, size_t len, void *to, size_t capacity);

/**
 * Returns the length of what dethrux_from_utf32_lossy writes for the whole input.
 *
 * It counts bytes.
 *
 * @param len counts code units
 * @return at most DETHRUX_FROM_UTF32_MAX(len)
 * @ingroup dethrux_fixed
 */
DETHRUX_NODISCARD size_t dethrux_from_utf32_lossy_len(const uint32_t *utf32, size_t len);

/**
 * Converts UTF-16 to Latin-1 (ISO 8859-1), up to the first ill-formed sequence or the first
 * character above U+00FF.
 *
 * Each character is one byte. Here the bytes of `to` after `written` stay as they were.
 *
 * @param capacity `len / 2` suffices; a loop needs 1
 * @return how far the call came, with one of these statuses:
 * - DETHRUX_DONE: all of the input was read
 * - DETHRUX_ILL_FORMED: an unpaired surrogate follows `read`
 * - DETHRUX_INCOMPLETE: the input ends inside a character, which follows `read`
 * - DETHRUX_NO_SPACE: the buffer is full: call again with the rest
 * - DETHRUX_NOT_LATIN1: a character above U+00FF follows `read`
 * @ingroup dethrux_fixed
 */
DETHRUX_NODISCARD dethrux_progress dethrux_to_latin1(
    dethrux_byte_order byte_order, const void *utf16, size_t len, void *to, size_t capacity);

/**
 * Converts Latin-1 (ISO 8859-1) to UTF-16. Latin-1 is never ill formed.
 *
 * Here the bytes of `to` after `written` stay as they were.
 *
 * @param capacity DETHRUX_UTF16_MAX(len) suffices; a loop needs 2
 * @return how far the call came, with one of these statuses:
 * - DETHRUX_DONE: all of the input was read
 * - DETHRUX_NO_SPACE: fewer than 2 bytes of `to` are left: call again with the rest
 * @ingroup dethrux_fixed
 */
DETHRUX_NODISCARD dethrux_progress dethrux_from_latin1(
    dethrux_byte_order byte_order, const void *latin1, size_t len, void *to, size_t capacity);

/**
 * Converts all code units of UTF-16 to WTF-8, which keeps unpaired surrogates.
 *
 * WTF-8 is UTF-8 that may also have unpaired surrogates, of 3 bytes each. dethrux_from_wtf8 returns
 * the same code units. Well-formed UTF-16 becomes UTF-8.
 *
 * @param capacity DETHRUX_WTF8_MAX(len) suffices; a loop needs 4
 * @return how far the call came, with one of these statuses:
 * - DETHRUX_DONE: all of the input was read
 * - DETHRUX_INCOMPLETE: an odd byte at the end, which is not a code unit, follows `read`
 * - DETHRUX_NO_SPACE: the next character or surrogate does not fit: call again with the rest
 * @ingroup dethrux_wtf8
 */
DETHRUX_NODISCARD dethrux_progress dethrux_to_wtf8(
    dethrux_byte_order byte_order, const void *utf16, size_t len, void *to, size_t capacity);

/**
 * Returns the length of what dethrux_to_wtf8 writes for the whole input.
 *
 * @return at most DETHRUX_WTF8_MAX(len)
 * @ingroup dethrux_wtf8
 */
DETHRUX_NODISCARD size_t dethrux_to_wtf8_len(
    dethrux_byte_order byte_order, const void *utf16, size_t len);

/**
 * Converts the next chunk of a stream to WTF-8, without a decoder.
 *
 * This is like dethrux_to_wtf8, but does not read a leading surrogate at the end, which a trailing
 * one may follow. The stream may be cut anywhere; no state is kept. However the stream is cut, the
 * same bytes are written in all.
 *
 * @param capacity DETHRUX_WTF8_MAX(len) suffices; a loop needs 4
 * @return how far the call came, with one of these statuses:
 * - DETHRUX_DONE: all of the chunk was read
 * - DETHRUX_INCOMPLETE: at most DETHRUX_PENDING_MAX bytes follow `read`: put them before the next
 *   chunk, and at the end of the stream pass them to dethrux_to_wtf8
 * - DETHRUX_NO_SPACE: the next character or surrogate does not fit: call again with the rest
 * @ingroup dethrux_wtf8
 */
DETHRUX_NODISCARD dethrux_progress dethrux_to_wtf8_partial(
    dethrux_byte_order byte_order, const void *utf16, size_t len, void *to, size_t capacity);

/**
 * Decodes the next chunk of a stream, cut anywhere, to WTF-8.
 *
 * This is like dethrux_decoder_feed, but keeps each unpaired surrogate. End the stream with
 * dethrux_wtf8_decoder_finish.
 *
 * @param byte_order the same for a whole stream
 * @param capacity DETHRUX_DECODER_FEED_MAX(len) suffices; a loop needs 4
 * @return how far the call came (`read` counts bytes of the chunk), with one of these statuses:
 * - DETHRUX_DONE: all of the chunk was read
 * - DETHRUX_NO_SPACE: the next character or surrogate does not fit, since fewer than 4 bytes of
 *   `to` were left: call again with the rest
 * @ingroup dethrux_wtf8
 */
DETHRUX_NODISCARD dethrux_progress dethrux_wtf8_decoder_feed(dethrux_decoder *decoder,
    dethrux_byte_order byte_order, const void *chunk, size_t len, void *to, size_t capacity);

/**
 * Ends a stream of dethrux_wtf8_decoder_feed whose last chunk was read.
 *
 * Writes the pending leading surrogate, of 3 bytes, or nothing if none is pending. The decoder
 * begins a new stream. Here the bytes of `to` after `written` stay as they were.
 *
 * @param byte_order the same for a whole stream
 * @param capacity DETHRUX_DECODER_FINISH_MAX suffices
 * @return how much was written; `read` is 0, and the status is one of these:
 * - DETHRUX_DONE: the stream has ended
 * - DETHRUX_INCOMPLETE: the stream has ended with an odd byte, which was left out
 * - DETHRUX_NO_SPACE: the surrogate does not fit, and nothing changed
 * @ingroup dethrux_wtf8
 */
DETHRUX_NODISCARD dethrux_progress dethrux_wtf8_decoder_finish(
    dethrux_decoder *decoder, dethrux_byte_order byte_order, void *to, size_t capacity);

/**
 * Converts WTF-8 to UTF-16, up to the first ill-formed sequence, of 1 to 3 bytes.
 *
 * Each surrogate becomes one code unit. A trailing surrogate directly after a leading one is an
 * ill-formed sequence of 3 bytes: in WTF-8 a pair has the 4 bytes of its character. So do not
 * append one text of WTF-8 to another: convert both to UTF-16 first.
 *
 * @param capacity DETHRUX_UTF16_MAX(len) suffices; a loop needs 4
 * @return how far the call came, with one of these statuses:
 * - DETHRUX_DONE: all of the input was read
 * - DETHRUX_ILL_FORMED: an ill-formed sequence follows `read`
 * - DETHRUX_INCOMPLETE: the input ends inside a character or surrogate, which follows `read`, even
 *   inside a trailing surrogate after a leading one
 * - DETHRUX_NO_SPACE: the next character or surrogate does not fit: call again with the rest
 * @ingroup dethrux_wtf8
 */
DETHRUX_NODISCARD dethrux_progress dethrux_from_wtf8(
    dethrux_byte_order byte_order, const void *wtf8, size_t len, void *to, size_t capacity);

/**
 * Returns the length of what dethrux_from_wtf8 writes for the longest well-formed prefix.
 *
 * The length is the same in either byte order.
 *
 * @return at most DETHRUX_UTF16_MAX(len)
 * @ingroup dethrux_wtf8
 */
DETHRUX_NODISCARD size_t dethrux_from_wtf8_len(const void *wtf8, size_t len);

/**
 * Converts the next chunk of a stream of WTF-8, cut anywhere, to UTF-16.
 *
 * This is like dethrux_from_wtf8, but at the end it does not read a leading surrogate, the
 * beginning of a character or surrogate, or one and then the other.
 *
 * @param capacity DETHRUX_UTF16_MAX(len) suffices; a loop needs 4
 * @return how far the call came, with one of these statuses:
 * - DETHRUX_DONE: all of the chunk was read
 * - DETHRUX_ILL_FORMED: an ill-formed sequence follows `read`
 * - DETHRUX_INCOMPLETE: at most DETHRUX_WTF8_PENDING_MAX bytes follow `read`: put them before the
 *   next chunk, and at the end of the stream pass them to dethrux_from_wtf8
 * - DETHRUX_NO_SPACE: the next character or surrogate does not fit, even if it is a leading
 *   surrogate at the end: call again with the rest
 * @ingroup dethrux_wtf8
 */
DETHRUX_NODISCARD dethrux_progress dethrux_from_wtf8_partial(
    dethrux_byte_order byte_order, const void *wtf8, size_t len, void *to, size_t capacity);

/**
 * Encodes the next chunk of a stream of WTF-8, cut anywhere, in UTF-16.
 *
 * This is like dethrux_from_wtf8_partial, but what that call does not read is kept in the encoder.
 *
 * @param byte_order the same for a whole stream
 * @param capacity DETHRUX_WTF8_ENCODER_FEED_MAX(len) suffices for an encoder whose fields only
 *   these calls have set, and `2 * (pending_len + len)` for any
 * @return how far the call came (`read` counts bytes of the chunk), with one of these statuses:
 * - DETHRUX_DONE: all of the chunk was read
 * - DETHRUX_ILL_FORMED: an ill-formed sequence begins with the pending bytes, if there are any, and
 *   continues after `read`. To resume after it, skip `error_len - pending_len` bytes of the chunk
 *   and set `pending_len` to 0. That many bytes are left of the chunk, and the difference is not
 *   below 0, if only these calls have set the fields of the encoder
 * - DETHRUX_NO_SPACE: the next character or surrogate does not fit, even if it is a leading
 *   surrogate at the end: call again with the rest; with a capacity of 4 or more, something was
 *   written
 * @ingroup dethrux_wtf8
 */
DETHRUX_NODISCARD dethrux_progress dethrux_wtf8_encoder_feed(
    dethrux_wtf8_encoder *encoder, dethrux_byte_order byte_order, const void *chunk, size_t len,
    void *to, size_t capacity);

/**
 * Ends a stream of dethrux_wtf8_encoder_feed whose last chunk was read.
 *
 * Converts the pending bytes like dethrux_from_wtf8. If only these calls have set the fields of the
 * encoder, that writes a pending leading surrogate, of 2 bytes, or nothing. Then all fields are
 * zero, and a new stream begins, except with DETHRUX_NO_SPACE.
 *
 * @param byte_order the same for a whole stream
 * @param capacity DETHRUX_WTF8_ENCODER_FINISH_MAX suffices for an encoder whose fields only these
 *   calls have set, and `2 * pending_len` for any
 * @return how far the call came (`read` counts pending bytes), with one of these statuses:
 * - DETHRUX_DONE: the stream has ended
 * - DETHRUX_ILL_FORMED: an ill-formed sequence is pending, which no call leaves, and was dropped
 * - DETHRUX_INCOMPLETE: the stream has ended inside a character or surrogate, which was left out
 * - DETHRUX_NO_SPACE: the next character or surrogate does not fit, and is still pending
 * @ingroup dethrux_wtf8
 */
DETHRUX_NODISCARD dethrux_progress dethrux_wtf8_encoder_finish(
    dethrux_wtf8_encoder *encoder, dethrux_byte_order byte_order, void *to, size_t capacity);

/**
 * Decodes the next chunk of a stream, cut anywhere, to UTF-8.
 *
 * Each unpaired surrogate is replaced by U+FFFD. An incomplete character at the end is kept in the
 * decoder. However the stream is cut, the same bytes are written in all.
 *
 * @param byte_order the same for a whole stream
 * @param capacity DETHRUX_DECODER_FEED_MAX(len) suffices; a loop needs 4
 * @return how far the call came (`read` counts bytes of the chunk), with one of these statuses:
 * - DETHRUX_DONE: all of the chunk was read
 * - DETHRUX_NO_SPACE: the next character does not fit, since fewer than 4 bytes of `to` were left:
 *   call again with the rest
 * @ingroup dethrux_streams
 */
DETHRUX_NODISCARD dethrux_progress dethrux_decoder_feed(dethrux_decoder *decoder,
    dethrux_byte_order byte_order, const void *chunk, size_t len, void *to, size_t capacity);

/**
 * Ends a stream whose last chunk was read.
 *
 * Writes U+FFFD, of 3 bytes, if bytes are not decoded yet, else nothing. The decoder begins a new
 * stream. Here the bytes of `to` after `written` stay as they were.
 *
 * @param byte_order the same for a whole stream
 * @param capacity DETHRUX_DECODER_FINISH_MAX suffices
 * @return how much was written; `read` is 0, and the status is one of these:
 * - DETHRUX_DONE: the stream has ended
 * - DETHRUX_NO_SPACE: U+FFFD does not fit, since the capacity is below 3, and nothing changed
 * @see dethrux_decoder_feed
 * @ingroup dethrux_streams
 */
DETHRUX_NODISCARD dethrux_progress dethrux_decoder_finish(
    dethrux_decoder *decoder, dethrux_byte_order byte_order, void *to, size_t capacity);

/**
 * Encodes the next chunk of a stream of UTF-8, cut anywhere, in UTF-16.
 *
 * Each ill-formed sequence is replaced by U+FFFD, as in dethrux_from_utf8_lossy. An incomplete
 * character at the end is kept in the encoder. However the stream is cut, the same bytes are
 * written in all.
 *
 * @param byte_order the same for a whole stream
 * @param capacity DETHRUX_ENCODER_FEED_MAX(len) suffices for an encoder whose fields only these
 *   calls have set, and `2 * (pending_len + len)`, a `pending_len` above 3 read as 3, for any; a
 *   loop needs 4
 * @return how far the call came (`read` counts bytes of the chunk), with one of these statuses:
 * - DETHRUX_DONE: all of the chunk was read
 * - DETHRUX_NO_SPACE: the next character does not fit, since fewer than 4 bytes of `to` were left:
 *   call again with the rest
 * @ingroup dethrux_streams
 */
DETHRUX_NODISCARD dethrux_progress dethrux_encoder_feed(dethrux_encoder *encoder,
    dethrux_byte_order byte_order, const void *chunk, size_t len, void *to, size_t capacity);

/**
 * Ends a stream of UTF-8 whose last chunk was read.
 *
 * Writes U+FFFD, of 2 bytes, if bytes are not encoded yet, else nothing. The encoder begins a new
 * stream. Here the bytes of `to` after `written` stay as they were.
 *
 * @param byte_order the same for a whole stream
 * @param capacity DETHRUX_ENCODER_FINISH_MAX suffices
 * @return how much was written; `read` is 0, and the status is one of these:
 * - DETHRUX_DONE: the stream has ended
 * - DETHRUX_NO_SPACE: U+FFFD does not fit, since the capacity is below 2, and nothing changed
 * @see dethrux_encoder_feed
 * @ingroup dethrux_streams
 */
DETHRUX_NODISCARD dethrux_progress dethrux_encoder_finish(
    dethrux_encoder *encoder, dethrux_byte_order byte_order, void *to, size_t capacity);

/**
 * Returns whether an offset is a boundary between characters.
 *
 * A boundary is `len`, or a smaller even offset that is neither inside a surrogate pair nor between
 * a leading surrogate and a single byte at the end. An unpaired surrogate counts as a character,
 * and so does an incomplete one at the end, of 1 to 3 bytes.
 *
 * Any bytes may be cut at a boundary: what dethrux_to_utf8_lossy writes for all of them is what it
 * writes for those before it, then for those from it on.
 *
 * @param at the offset; only the two bytes before it and the two from it on are read
 * @ingroup dethrux_boundaries
 */
DETHRUX_NODISCARD bool dethrux_is_char_boundary(
    dethrux_byte_order byte_order, const void *utf16, size_t len, size_t at);

/**
 * Returns the greatest boundary at or before an offset.
 *
 * @return a boundary at most 3 bytes before the smaller of `at` and `len`
 * @see dethrux_is_char_boundary
 * @ingroup dethrux_boundaries
 */
DETHRUX_NODISCARD size_t dethrux_floor_char_boundary(
    dethrux_byte_order byte_order, const void *utf16, size_t len, size_t at);

/**
 * Returns the greatest boundary at or before an offset of a file, from a few of its bytes.
 *
 * @param around the 4 bytes of the file from DETHRUX_AROUND_START(at) on, or as many as it has
 * @param at the offset, at most the length of the file
 * @return the result of dethrux_floor_char_boundary over the whole file; for any other bytes an
 *   offset at most 3 bytes before `at`
 * @ingroup dethrux_boundaries
 */
DETHRUX_NODISCARD uint64_t dethrux_floor_char_boundary_around(
    dethrux_byte_order byte_order, const void *around, size_t len, uint64_t at);

/**
 * Returns the offset where part `index` of `count` parts begins in a file of `len` bytes.
 *
 * Each part has `len / 2 / count` code units or one more, and the last one also has an odd byte at
 * the end.
 *
 * @return `len` for `index >= count`, else 0 for part 0; the offset may be inside a surrogate pair:
 *   move it to a boundary with dethrux_floor_char_boundary_around
 * @ingroup dethrux_boundaries
 */
DETHRUX_NODISCARD uint64_t dethrux_shard_offset(uint64_t len, uint64_t count, uint64_t index);

/**
 * Returns the least offset at which a pattern occurs in a text.
 *
 * The pattern occurs at a boundary if its bytes are there and end at a boundary. So an occurrence
 * cuts neither a code unit nor a surrogate pair, and a pattern of odd length occurs only at the end
 * of a text of odd length. The empty pattern occurs at each boundary.
 *
 * The text and the pattern may be any bytes. The time is linear in both lengths, as measured with
 * the most expensive inputs that are known; this is not proved.
 *
 * @param pattern what is searched for, in the same byte order
 * @return the offset, 0 for the empty pattern, or DETHRUX_NOT_FOUND if the pattern occurs nowhere
 * @see dethrux_is_char_boundary
 * @ingroup dethrux_search
 */
DETHRUX_NODISCARD size_t dethrux_find(dethrux_byte_order byte_order, const void *utf16, size_t len,
    const void *pattern, size_t pattern_len);

/**
 * Returns the greatest offset at which a pattern occurs in a text.
 *
 * It is like dethrux_find, which returns the least one.
 *
 * @param pattern what is searched for, in the same byte order
 * @return the offset, `len` for the empty pattern, or DETHRUX_NOT_FOUND if the pattern occurs
 *   nowhere
 * @see dethrux_find
 * @ingroup dethrux_search
 */
DETHRUX_NODISCARD size_t dethrux_rfind(dethrux_byte_order byte_order, const void *utf16, size_t len,
    const void *pattern, size_t pattern_len);

/**
 * Returns the offset of the first NUL (U+0000), like strnlen of C.
 *
 * The bytes before it are the string in a buffer of fixed size. A NUL is two zero bytes at an even
 * offset, in either byte order; an odd byte at the end is not part of one.
 *
 * @param len all of these bytes must be readable
 * @return the offset, or `len` if there is no NUL
 * @see dethrux_find
 * @ingroup dethrux_search
 */
DETHRUX_NODISCARD size_t dethrux_nul_offset(const void *utf16, size_t len);

/**
 * Swaps the two bytes of each code unit in place: UTF-16 in the other byte order.
 *
 * An odd byte at the end stays.
 *
 * @ingroup dethrux_in_place
 */
void dethrux_swap_byte_order(void *utf16, size_t len);

/**
 * Replaces each unpaired surrogate by U+FFFD in place.
 *
 * Afterwards the whole code units are well formed. A leading surrogate at the end is unpaired; an
 * odd byte at the end stays.
 *
 * @return how many there were
 * @ingroup dethrux_in_place
 */
size_t dethrux_make_well_formed(dethrux_byte_order byte_order, void *utf16, size_t len);

/**
 * Compares two texts by their scalar values, each in its byte order.
 *
 * An unpaired surrogate, and an incomplete character at the end, counts as U+FFFD; a text is
 * greater than each of its prefixes. What dethrux_to_utf8_lossy writes has the same order by bytes:
 * tests compare both orders, but this is not proved.
 *
 * @return -1, 0 or 1 if the first is less than, equal to or greater than the second
 * @ingroup dethrux_properties
 */
DETHRUX_NODISCARD int32_t dethrux_compare(dethrux_byte_order first_order, const void *first,
    size_t first_len, dethrux_byte_order second_order, const void *second, size_t second_len);

/**
 * Returns the byte order mark (BOM) at the start of a stream, and the byte order.
 *
 * FF FE is little endian, and FE FF is big endian. The BOM is not part of the text: decode what
 * follows its `len` bytes.
 *
 * @param default_order the byte order of a stream without a BOM: the Unicode Standard says big
 *   endian, and most files from Windows are little endian
 * @return the BOM, with one of these statuses:
 * - DETHRUX_BOM_ABSENT: there is none
 * - DETHRUX_BOM_PRESENT: its length is 2
 * - DETHRUX_BOM_UNDECIDED: call again with two bytes or more, unless the stream ends
 * @ingroup dethrux_streams
 */
DETHRUX_NODISCARD dethrux_bom dethrux_detect_bom(
    dethrux_byte_order default_order, const void *bytes, size_t len);

/** @cond */
/* AddressSanitizer and MemorySanitizer do not see what the library reads and writes. With them, the
 * name of each call stands for a function that first checks the buffers, unless the program defines
 * DETHRUX_NO_SANITIZERS. */
#ifdef __has_feature
#define DETHRUX_HAS(feature) __has_feature(feature)
#else
#define DETHRUX_HAS(feature) 0
#endif
#if defined(DETHRUX_NO_SANITIZERS) || !defined(__ELF__)
#elif defined(__SANITIZE_ADDRESS__) || DETHRUX_HAS(address_sanitizer)
/* The function of this sanitizer, with types that need no casts. */
const volatile char *dethrux_checked_region(const void *from, size_t len) __asm__(
    "__asan_region_is_poisoned");
/* Reads the first byte that is not the caller's, so that the sanitizer reports it. */
static inline void dethrux_checked_bytes(const void *from, size_t len) {
    const volatile char *first = dethrux_checked_region(from, len);
    if (first != NULL) {
        (void)*first;
    }
}
#define DETHRUX_READS(from, len) dethrux_checked_bytes(from, len)
#define DETHRUX_WRITES(to, len) dethrux_checked_bytes(to, len)
#define DETHRUX_WROTE(to, len) (void)(to)
#elif DETHRUX_HAS(memory_sanitizer)
#include <sanitizer/msan_interface.h>
#define DETHRUX_READS(from, len) __msan_check_mem_is_initialized(from, len)
#define DETHRUX_WRITES(to, len) (void)(to)
#define DETHRUX_WROTE(to, len) __msan_unpoison(to, len)
#endif
#undef DETHRUX_HAS

#ifdef DETHRUX_READS
#pragma GCC diagnostic push
#pragma GCC diagnostic ignored "-Wredundant-decls"
/* The symbol of a call becomes the checked function's, and another name has the library's. */
#define DETHRUX_DEFINE(type, name, parameters, body) \
    extern __typeof__(dethrux_##name) dethrux_##name __asm__("dethrux_checked_" #name); \
    extern __typeof__(dethrux_##name) dethrux_unchecked_##name __asm__("dethrux_" #name); \
    extern __typeof__(dethrux_##name) dethrux_checked_##name __attribute__((weak)); \
    type dethrux_checked_##name parameters { \
        body; \
    }
#define DETHRUX_CALL(type, name, parameters, arguments, before, after) \
    DETHRUX_DEFINE(type, name, parameters, before; \
        type result = dethrux_unchecked_##name arguments; \
        DETHRUX_WROTE(&result, sizeof result); after; return result)
DETHRUX_CALL(
    dethrux_validity, validate, (dethrux_byte_order byte_order, const void *utf16, size_t len),
    (byte_order, utf16, len), DETHRUX_READS(utf16, len), (void)0)
DETHRUX_CALL(
    size_t, count_chars, (dethrux_byte_order byte_order, const void *utf16, size_t len),
    (byte_order, utf16, len), DETHRUX_READS(utf16, len), (void)0)
DETHRUX_CALL(
    bool, is_ascii, (dethrux_byte_order byte_order, const void *utf16, size_t len),
    (byte_order, utf16, len), DETHRUX_READS(utf16, len), (void)0)
DETHRUX_CALL(
    size_t, to_utf8_lossy_len, (dethrux_byte_order byte_order, const void *utf16, size_t len),
    (byte_order, utf16, len), DETHRUX_READS(utf16, len), (void)0)
DETHRUX_CALL(
    size_t, from_utf8_len, (const void *utf8, size_t len), (utf8, len), DETHRUX_READS(utf8, len),
    (void)0)
DETHRUX_CALL(
    size_t, from_utf8_lossy_len, (const void *utf8, size_t len), (utf8, len),
    DETHRUX_READS(utf8, len), (void)0)
DETHRUX_CALL(
    size_t, to_utf8_replacements, (dethrux_byte_order byte_order, const void *utf16, size_t len),
    (byte_order, utf16, len), DETHRUX_READS(utf16, len), (void)0)
DETHRUX_CALL(
    size_t, from_utf8_replacements, (const void *utf8, size_t len), (utf8, len),
    DETHRUX_READS(utf8, len), (void)0)
DETHRUX_CALL(
    dethrux_progress, to_utf8, (dethrux_byte_order byte_order, const void *utf16, size_t len,
    void *to, size_t capacity), (byte_order, utf16, len, to, capacity), DETHRUX_READS(utf16, len);
    DETHRUX_WRITES(to, capacity), DETHRUX_WROTE(to, result.written))
DETHRUX_CALL(
    dethrux_progress, to_utf8_lossy, (dethrux_byte_order byte_order, const void *utf16, size_t len,
    void *to, size_t capacity), (byte_order, utf16, len, to, capacity), DETHRUX_READS(utf16, len);
    DETHRUX_WRITES(to, capacity), DETHRUX_WROTE(to, result.written))
DETHRUX_CALL(
    dethrux_progress, to_utf8_partial, (dethrux_byte_order byte_order, const void *utf16,
    size_t len, void *to, size_t capacity), (byte_order, utf16, len, to, capacity),
    DETHRUX_READS(utf16, len); DETHRUX_WRITES(to, capacity), DETHRUX_WROTE(to, result.written))
DETHRUX_CALL(
    dethrux_progress, from_utf8, (dethrux_byte_order byte_order, const void *utf8, size_t len,
    void *to, size_t capacity), (byte_order, utf8, len, to, capacity), DETHRUX_READS(utf8, len);
    DETHRUX_WRITES(to, capacity), DETHRUX_WROTE(to, result.written))
DETHRUX_CALL(
    dethrux_progress, from_utf8_lossy, (dethrux_byte_order byte_order, const void *utf8, size_t len,
    void *to, size_t capacity), (byte_order, utf8, len, to, capacity), DETHRUX_READS(utf8, len);
    DETHRUX_WRITES(to, capacity), DETHRUX_WROTE(to, result.written))
DETHRUX_CALL(
    dethrux_progress, from_utf8_partial, (dethrux_byte_order byte_order, const void *utf8,
    size_t len, void *to, size_t capacity), (byte_order, utf8, len, to, capacity),
    DETHRUX_READS(utf8, len); DETHRUX_WRITES(to, capacity), DETHRUX_WROTE(to, result.written))
DETHRUX_CALL(
    dethrux_inspection, inspect, (dethrux_byte_order byte_order, const void *utf16, size_t len),
    (byte_order, utf16, len), DETHRUX_READS(utf16, len), (void)0)
DETHRUX_CALL(
    dethrux_progress, to_utf32, (dethrux_byte_order byte_order, const void *utf16, size_t len,
    uint32_t *to, size_t capacity), (byte_order, utf16, len, to, capacity),
    DETHRUX_READS(utf16, len); DETHRUX_WRITES(to, capacity * 4), DETHRUX_WROTE(to,
    result.written * 4))
DETHRUX_CALL(
    dethrux_progress, to_utf32_lossy, (dethrux_byte_order byte_order, const void *utf16, size_t len,
    uint32_t *to, size_t capacity), (byte_order, utf16, len, to, capacity),
    DETHRUX_READS(utf16, len); DETHRUX_WRITES(to, capacity * 4), DETHRUX_WROTE(to,
    result.written * 4))
DETHRUX_CALL(
    size_t, to_utf32_lossy_len, (dethrux_byte_order byte_order, const void *utf16, size_t len),
    (byte_order, utf16, len), DETHRUX_READS(utf16, len), (void)0)
DETHRUX_CALL(
    dethrux_validity, validate_utf32, (const uint32_t *utf32, size_t len), (utf32, len),
    DETHRUX_READS(utf32, len * 4), (void)0)
DETHRUX_CALL(
    dethrux_progress, from_utf32, (dethrux_byte_order byte_order, const uint32_t *utf32, size_t len,
    void *to, size_t capacity), (byte_order, utf32, len, to, capacity), DETHRUX_READS(utf32,
    len * 4); DETHRUX_WRITES(to, capacity), DETHRUX_WROTE(to, result.written))
DETHRUX_CALL(
    dethrux_progress, from_utf32_lossy, (dethrux_byte_order byte_order, const uint32_t *utf32,
    size_t len, void *to, size_t capacity), (byte_order, utf32, len, to, capacity),
    DETHRUX_READS(utf32, len * 4); DETHRUX_WRITES(to, capacity), DETHRUX_WROTE(to, result.written))
DETHRUX_CALL(
    size_t, from_utf32_lossy_len, (const uint32_t *utf32, size_t len), (utf32, len),
    DETHRUX_READS(utf32, len * 4), (void)0)
DETHRUX_CALL(
    dethrux_progress, to_latin1, (dethrux_byte_order byte_order, const void *utf16, size_t len,
    void *to, size_t capacity), (byte_order, utf16, len, to, capacity), DETHRUX_READS(utf16, len);
    DETHRUX_WRITES(to, capacity), DETHRUX_WROTE(to, result.written))
DETHRUX_CALL(
    dethrux_progress, from_latin1, (dethrux_byte_order byte_order, const void *latin1, size_t len,
    void *to, size_t capacity), (byte_order, latin1, len, to, capacity), DETHRUX_READS(latin1, len);
    DETHRUX_WRITES(to, capacity), DETHRUX_WROTE(to, result.written))
DETHRUX_CALL(
    dethrux_progress, to_wtf8, (dethrux_byte_order byte_order, const void *utf16, size_t len,
    void *to, size_t capacity), (byte_order, utf16, len, to, capacity), DETHRUX_READS(utf16, len);
    DETHRUX_WRITES(to, capacity), DETHRUX_WROTE(to, result.written))
DETHRUX_CALL(
    size_t, to_wtf8_len, (dethrux_byte_order byte_order, const void *utf16, size_t len),
    (byte_order, utf16, len), DETHRUX_READS(utf16, len), (void)0)
DETHRUX_CALL(
    dethrux_progress, to_wtf8_partial, (dethrux_byte_order byte_order, const void *utf16,
    size_t len, void *to, size_t capacity), (byte_order, utf16, len, to, capacity),
    DETHRUX_READS(utf16, len); DETHRUX_WRITES(to, capacity), DETHRUX_WROTE(to, result.written))
DETHRUX_CALL(
    dethrux_progress, wtf8_decoder_feed, (dethrux_decoder *decoder, dethrux_byte_order byte_order,
    const void *chunk, size_t len, void *to, size_t capacity),
    (decoder, byte_order, chunk, len, to, capacity), DETHRUX_WRITES(decoder, sizeof *decoder);
    DETHRUX_READS(&decoder->pending_len, 1); DETHRUX_READS(chunk, len);
    DETHRUX_WRITES(to, capacity), DETHRUX_WROTE(decoder, sizeof *decoder);
    DETHRUX_WROTE(to, result.written))
DETHRUX_CALL(
    dethrux_progress, wtf8_decoder_finish, (dethrux_decoder *decoder, dethrux_byte_order byte_order,
    void *to, size_t capacity), (decoder, byte_order, to, capacity), DETHRUX_WRITES(decoder,
    sizeof *decoder); DETHRUX_READS(&decoder->pending_len, 1); DETHRUX_WRITES(to, capacity),
    DETHRUX_WROTE(decoder, sizeof *decoder); DETHRUX_WROTE(to, result.written))
DETHRUX_CALL(
    dethrux_progress, from_wtf8, (dethrux_byte_order byte_order, const void *wtf8, size_t len,
    void *to, size_t capacity), (byte_order, wtf8, len, to, capacity), DETHRUX_READS(wtf8, len);
    DETHRUX_WRITES(to, capacity), DETHRUX_WROTE(to, result.written))
DETHRUX_CALL(
    size_t, from_wtf8_len, (const void *wtf8, size_t len), (wtf8, len), DETHRUX_READS(wtf8, len),
    (void)0)
DETHRUX_CALL(
    dethrux_progress, from_wtf8_partial, (dethrux_byte_order byte_order, const void *wtf8,
    size_t len, void *to, size_t capacity), (byte_order, wtf8, len, to, capacity),
    DETHRUX_READS(wtf8, len); DETHRUX_WRITES(to, capacity), DETHRUX_WROTE(to, result.written))
DETHRUX_CALL(
    dethrux_progress, wtf8_encoder_feed, (dethrux_wtf8_encoder *encoder,
    dethrux_byte_order byte_order, const void *chunk, size_t len, void *to, size_t capacity),
    (encoder, byte_order, chunk, len, to, capacity), DETHRUX_WRITES(encoder, sizeof *encoder);
    DETHRUX_READS(&encoder->pending_len, 1); DETHRUX_READS(chunk, len);
    DETHRUX_WRITES(to, capacity), DETHRUX_WROTE(encoder, sizeof *encoder);
    DETHRUX_WROTE(to, result.written))
DETHRUX_CALL(
    dethrux_progress, wtf8_encoder_finish, (dethrux_wtf8_encoder *encoder,
    dethrux_byte_order byte_order, void *to, size_t capacity), (encoder, byte_order, to, capacity),
    DETHRUX_WRITES(encoder, sizeof *encoder); DETHRUX_READS(&encoder->pending_len, 1);
    DETHRUX_WRITES(to, capacity), DETHRUX_WROTE(encoder, sizeof *encoder);
    DETHRUX_WROTE(to, result.written))
DETHRUX_CALL(
    dethrux_progress, decoder_feed, (dethrux_decoder *decoder, dethrux_byte_order byte_order,
    const void *chunk, size_t len, void *to, size_t capacity),
    (decoder, byte_order, chunk, len, to, capacity), DETHRUX_WRITES(decoder, sizeof *decoder);
    DETHRUX_READS(&decoder->pending_len, 1); DETHRUX_READS(chunk, len);
    DETHRUX_WRITES(to, capacity), DETHRUX_WROTE(decoder, sizeof *decoder);
    DETHRUX_WROTE(to, result.written))
DETHRUX_CALL(
    dethrux_progress, decoder_finish, (dethrux_decoder *decoder, dethrux_byte_order byte_order,
    void *to, size_t capacity), (decoder, byte_order, to, capacity), DETHRUX_WRITES(decoder,
    sizeof *decoder); DETHRUX_READS(&decoder->pending_len, 1); DETHRUX_WRITES(to, capacity),
    DETHRUX_WROTE(decoder, sizeof *decoder); DETHRUX_WROTE(to, result.written))
DETHRUX_CALL(
    dethrux_progress, encoder_feed, (dethrux_encoder *encoder, dethrux_byte_order byte_order,
    const void *chunk, size_t len, void *to, size_t capacity),
    (encoder, byte_order, chunk, len, to, capacity), DETHRUX_WRITES(encoder, sizeof *encoder);
    DETHRUX_READS(&encoder->pending_len, 1); DETHRUX_READS(chunk, len);
    DETHRUX_WRITES(to, capacity), DETHRUX_WROTE(encoder, sizeof *encoder);
    DETHRUX_WROTE(to, result.written))
DETHRUX_CALL(
    dethrux_progress, encoder_finish, (dethrux_encoder *encoder, dethrux_byte_order byte_order,
    void *to, size_t capacity), (encoder, byte_order, to, capacity), DETHRUX_WRITES(encoder,
    sizeof *encoder); DETHRUX_READS(&encoder->pending_len, 1); DETHRUX_WRITES(to, capacity),
    DETHRUX_WROTE(encoder, sizeof *encoder); DETHRUX_WROTE(to, result.written))
DETHRUX_CALL(
    bool, is_char_boundary, (dethrux_byte_order byte_order, const void *utf16, size_t len,
    size_t at), (byte_order, utf16, len, at), DETHRUX_READS(utf16, len), (void)0)
DETHRUX_CALL(
    size_t, floor_char_boundary, (dethrux_byte_order byte_order, const void *utf16, size_t len,
    size_t at), (byte_order, utf16, len, at), DETHRUX_READS(utf16, len), (void)0)
DETHRUX_CALL(
    uint64_t, floor_char_boundary_around, (dethrux_byte_order byte_order, const void *around,
    size_t len, uint64_t at), (byte_order, around, len, at), DETHRUX_READS(around, len), (void)0)
DETHRUX_CALL(
    size_t, find, (dethrux_byte_order byte_order, const void *utf16, size_t len,
    const void *pattern, size_t pattern_len), (byte_order, utf16, len, pattern, pattern_len),
    DETHRUX_READS(utf16, len); DETHRUX_READS(pattern, pattern_len), (void)0)
DETHRUX_CALL(
    size_t, rfind, (dethrux_byte_order byte_order, const void *utf16, size_t len,
    const void *pattern, size_t pattern_len), (byte_order, utf16, len, pattern, pattern_len),
    DETHRUX_READS(utf16, len); DETHRUX_READS(pattern, pattern_len), (void)0)
DETHRUX_CALL(
    size_t, nul_offset, (const void *utf16, size_t len), (utf16, len), DETHRUX_WRITES(utf16, len),
    DETHRUX_READS(utf16, result + 2 < len ? result + 2 : len))
DETHRUX_DEFINE(
    void, swap_byte_order, (void *utf16, size_t len), DETHRUX_READS(utf16, len);
    dethrux_unchecked_swap_byte_order(utf16, len))
DETHRUX_CALL(
    size_t, make_well_formed, (dethrux_byte_order byte_order, void *utf16, size_t len),
    (byte_order, utf16, len), DETHRUX_READS(utf16, len), (void)0)
DETHRUX_CALL(
    int32_t, compare, (dethrux_byte_order first_order, const void *first, size_t first_len,
    dethrux_byte_order second_order, const void *second, size_t second_len),
    (first_order, first, first_len, second_order, second, second_len),
    DETHRUX_READS(first, first_len); DETHRUX_READS(second, second_len), (void)0)
DETHRUX_CALL(
    dethrux_bom, detect_bom, (dethrux_byte_order default_order, const void *bytes, size_t len),
    (default_order, bytes, len), DETHRUX_READS(bytes, len), (void)0)
#pragma GCC diagnostic pop
#endif
/** @endcond */

#ifdef __cplusplus
}
#endif

/**
 * @defgroup dethrux_u16 Code units: UTF-16 in the machine's byte order
 * The dethrux_u16 calls are the same calls on code units, as Windows, ICU, Qt and Java hold them.
 * In C, code units are of type uint16_t or char16_t, which are one type, and wchar_t is the same on
 * Windows. In C++ they are of any integral type of two bytes. Each length, offset and capacity of
 * UTF-16 counts code units, and so do `read`, `written`, `valid_up_to` and `error_len` if they are
 * about UTF-16. For UTF-8, WTF-8 and Latin-1 they count bytes, and for UTF-32 its code units.
 * Nothing is copied.
 * @{
 */

/**
 * @def DETHRUX_NATIVE_ENDIAN
 * The byte order of the machine.
 */
#if defined(__BYTE_ORDER__) && __BYTE_ORDER__ == 4321
#define DETHRUX_NATIVE_ENDIAN DETHRUX_BIG_ENDIAN
#else
#define DETHRUX_NATIVE_ENDIAN DETHRUX_LITTLE_ENDIAN
#endif

#ifdef __cplusplus
#define DETHRUX_U16 template <typename dethrux_unit> inline
#define DETHRUX_U16_RESULT template <typename dethrux_unit> DETHRUX_NODISCARD inline
DETHRUX_U16 dethrux_unit *dethrux_u16_bytes(dethrux_unit *utf16) {
    static_assert(sizeof(dethrux_unit) == 2, "a code unit of UTF-16 has two bytes");
    return utf16;
}
#define DETHRUX_U16_BYTES(utf16) dethrux_u16_bytes(utf16)
#else
#define DETHRUX_U16 static inline
#define DETHRUX_U16_RESULT DETHRUX_NODISCARD static inline
/** A code unit. In C++ it is any integral type of two bytes. */
typedef uint16_t dethrux_unit;
#define DETHRUX_U16_BYTES(utf16) (utf16)
#endif
/** The capacity in bytes for the calls from `len` code units to UTF-8 and WTF-8. */
#define DETHRUX_U16_TO_UTF8_MAX(len) ((size_t)(len) * 3)
/** The capacity in code units for the calls from `len` bytes of UTF-8, WTF-8 and Latin-1. */
#define DETHRUX_U16_FROM_UTF8_MAX(len) ((size_t)(len))
/** The capacity in code units for the calls from `len` code units of UTF-32. */
#define DETHRUX_U16_FROM_UTF32_MAX(len) ((size_t)(len) * 2)
/** The capacity in bytes for dethrux_u16_decoder_feed and dethrux_u16_wtf8_decoder_feed. */
#define DETHRUX_U16_DECODER_FEED_MAX(len) ((size_t)(len) * 3 + 3)
/** The capacity in code units for dethrux_u16_encoder_feed. */
#define DETHRUX_U16_ENCODER_FEED_MAX(len) ((size_t)(len) + 1)
/** The capacity in code units for dethrux_u16_wtf8_encoder_feed. */
#define DETHRUX_U16_WTF8_ENCODER_FEED_MAX(len) ((size_t)(len) + 2)

/** Does what dethrux_validate does, on code units. */
DETHRUX_U16_RESULT dethrux_validity dethrux_u16_validate(const dethrux_unit *utf16, size_t len) {
    dethrux_validity found = dethrux_validate(
        DETHRUX_NATIVE_ENDIAN, DETHRUX_U16_BYTES(utf16), len * 2);
    found.valid_up_to /= 2;
    found.error_len /= 2;
    return found;
}

/** Does what dethrux_count_chars does, on code units. */
DETHRUX_U16_RESULT size_t dethrux_u16_count_chars(const dethrux_unit *utf16, size_t len) {
    return dethrux_count_chars(DETHRUX_NATIVE_ENDIAN, DETHRUX_U16_BYTES(utf16), len * 2);
}

/** Does what dethrux_is_ascii does, on code units. */
DETHRUX_U16_RESULT bool dethrux_u16_is_ascii(const dethrux_unit *utf16, size_t len) {
    return dethrux_is_ascii(DETHRUX_NATIVE_ENDIAN, DETHRUX_U16_BYTES(utf16), len * 2);
}

/** Does what dethrux_to_utf8_lossy_len does, on code units. The length is at most `len * 3`. */
DETHRUX_U16_RESULT size_t dethrux_u16_to_utf8_lossy_len(const dethrux_unit *utf16, size_t len) {
    return dethrux_to_utf8_lossy_len(DETHRUX_NATIVE_ENDIAN, DETHRUX_U16_BYTES(utf16), len * 2);
}

/** Does what dethrux_to_utf8_replacements does, on code units. */
DETHRUX_U16_RESULT size_t dethrux_u16_to_utf8_replacements(const dethrux_unit *utf16, size_t len) {
    return dethrux_to_utf8_replacements(DETHRUX_NATIVE_ENDIAN, DETHRUX_U16_BYTES(utf16), len * 2);
}

/**
 * Does what dethrux_to_utf8 does, on code units.
 *
 * @param capacity `len * 3` suffices; a loop needs 4
 */
DETHRUX_U16_RESULT dethrux_progress dethrux_u16_to_utf8(
    const dethrux_unit *utf16, size_t len, void *to, size_t capacity) {
    dethrux_progress found = dethrux_to_utf8(
        DETHRUX_NATIVE_ENDIAN, DETHRUX_U16_BYTES(utf16), len * 2, to, capacity);
    found.read /= 2;
    found.error_len /= 2;
    return found;
}

/**
 * Does what dethrux_to_utf8_lossy does, on code units.
 *
 * @param capacity `len * 3` suffices; a loop needs 4
 */
DETHRUX_U16_RESULT dethrux_progress dethrux_u16_to_utf8_lossy(
    const dethrux_unit *utf16, size_t len, void *to, size_t capacity) {
    dethrux_progress found = dethrux_to_utf8_lossy(
        DETHRUX_NATIVE_ENDIAN, DETHRUX_U16_BYTES(utf16), len * 2, to, capacity);
    found.read /= 2;
    return found;
}

/**
 * Does what dethrux_to_utf8_partial does, on code units. With DETHRUX_INCOMPLETE one code unit
 * follows `read`, a leading surrogate.
 *
 * @param capacity `len * 3` suffices; a loop needs 4
 */
DETHRUX_U16_RESULT dethrux_progress dethrux_u16_to_utf8_partial(
    const dethrux_unit *utf16, size_t len, void *to, size_t capacity) {
    dethrux_progress found = dethrux_to_utf8_partial(
        DETHRUX_NATIVE_ENDIAN, DETHRUX_U16_BYTES(utf16), len * 2, to, capacity);
    found.read /= 2;
    return found;
}

/**
 * Does what dethrux_from_utf8 does, on code units.
 *
 * @param capacity `len` suffices; a loop needs 2
 */
DETHRUX_U16_RESULT dethrux_progress dethrux_u16_from_utf8(
    const void *utf8, size_t len, dethrux_unit *to, size_t capacity) {
    dethrux_progress found = dethrux_from_utf8(
        DETHRUX_NATIVE_ENDIAN, utf8, len, DETHRUX_U16_BYTES(to), capacity * 2);
    found.written /= 2;
    return found;
}

/**
 * Does what dethrux_from_utf8_lossy does, on code units.
 *
 * @param capacity `len` suffices; a loop needs 2
 */
DETHRUX_U16_RESULT dethrux_progress dethrux_u16_from_utf8_lossy(
    const void *utf8, size_t len, dethrux_unit *to, size_t capacity) {
    dethrux_progress found = dethrux_from_utf8_lossy(
        DETHRUX_NATIVE_ENDIAN, utf8, len, DETHRUX_U16_BYTES(to), capacity * 2);
    found.written /= 2;
    return found;
}

/**
 * Does what dethrux_from_utf8_partial does, on code units.
 *
 * @param capacity `len` suffices; a loop needs 2
 */
DETHRUX_U16_RESULT dethrux_progress dethrux_u16_from_utf8_partial(
    const void *utf8, size_t len, dethrux_unit *to, size_t capacity) {
    dethrux_progress found = dethrux_from_utf8_partial(
        DETHRUX_NATIVE_ENDIAN, utf8, len, DETHRUX_U16_BYTES(to), capacity * 2);
    found.written /= 2;
    return found;
}

/** Does what dethrux_inspect does, on code units. */
DETHRUX_U16_RESULT dethrux_inspection dethrux_u16_inspect(const dethrux_unit *utf16, size_t len) {
    dethrux_inspection found = dethrux_inspect(
        DETHRUX_NATIVE_ENDIAN, DETHRUX_U16_BYTES(utf16), len * 2);
    found.valid_up_to /= 2;
    found.error_len /= 2;
    return found;
}

/**
 * Does what dethrux_to_utf32 does, on code units.
 *
 * @param capacity `len` suffices; a loop needs 1
 */
DETHRUX_U16_RESULT dethrux_progress dethrux_u16_to_utf32(
    const dethrux_unit *utf16, size_t len, uint32_t *to, size_t capacity) {
    dethrux_progress found = dethrux_to_utf32(
        DETHRUX_NATIVE_ENDIAN, DETHRUX_U16_BYTES(utf16), len * 2, to, capacity);
    found.read /= 2;
    found.error_len /= 2;
    return found;
}

/**
 * Does what dethrux_to_utf32_lossy does, on code units.
 *
 * @param capacity `len` suffices; a loop needs 1
 */
DETHRUX_U16_RESULT dethrux_progress dethrux_u16_to_utf32_lossy(
    const dethrux_unit *utf16, size_t len, uint32_t *to, size_t capacity) {
    dethrux_progress found = dethrux_to_utf32_lossy(
        DETHRUX_NATIVE_ENDIAN, DETHRUX_U16_BYTES(utf16), len * 2, to, capacity);
    found.read /= 2;
    return found;
}

/** Does what dethrux_to_utf32_lossy_len does, on code units. The length is at most `len`. */
DETHRUX_U16_RESULT size_t dethrux_u16_to_utf32_lossy_len(const dethrux_unit *utf16, size_t len) {
    return dethrux_to_utf32_lossy_len(DETHRUX_NATIVE_ENDIAN, DETHRUX_U16_BYTES(utf16), len * 2);
}

/**
 * Does what dethrux_from_utf32 does, on code units.
 *
 * @param capacity `len * 2` suffices; a loop needs 2
 */
DETHRUX_U16_RESULT dethrux_progress dethrux_u16_from_utf32(
    const uint32_t *utf32, size_t len, dethrux_unit *to, size_t capacity) {
    dethrux_progress found = dethrux_from_utf32(
        DETHRUX_NATIVE_ENDIAN, utf32, len, DETHRUX_U16_BYTES(to), capacity * 2);
    found.written /= 2;
    return found;
}

/**
 * Does what dethrux_from_utf32_lossy does, on code units.
 *
 * @param capacity `len * 2` suffices; a loop needs 2
 */
DETHRUX_U16_RESULT dethrux_progress dethrux_u16_from_utf32_lossy(
    const uint32_t *utf32, size_t len, dethrux_unit *to, size_t capacity) {
    dethrux_progress found = dethrux_from_utf32_lossy(
        DETHRUX_NATIVE_ENDIAN, utf32, len, DETHRUX_U16_BYTES(to), capacity * 2);
    found.written /= 2;
    return found;
}

/**
 * Does what dethrux_to_latin1 does, on code units.
 *
 * @param capacity `len` suffices; a loop needs 1
 */
DETHRUX_U16_RESULT dethrux_progress dethrux_u16_to_latin1(
    const dethrux_unit *utf16, size_t len, void *to, size_t capacity) {
    dethrux_progress found = dethrux_to_latin1(
        DETHRUX_NATIVE_ENDIAN, DETHRUX_U16_BYTES(utf16), len * 2, to, capacity);
    found.read /= 2;
    found.error_len /= 2;
    return found;
}

/**
 * Does what dethrux_from_latin1 does, on code units.
 *
 * @param capacity `len` suffices; a loop needs 1
 */
DETHRUX_U16_RESULT dethrux_progress dethrux_u16_from_latin1(
    const void *latin1, size_t len, dethrux_unit *to, size_t capacity) {
    dethrux_progress found = dethrux_from_latin1(
        DETHRUX_NATIVE_ENDIAN, latin1, len, DETHRUX_U16_BYTES(to), capacity * 2);
    found.written /= 2;
    return found;
}

/**
 * Does what dethrux_to_wtf8 does, on code units. The status is never DETHRUX_INCOMPLETE.
 *
 * @param capacity `len * 3` suffices; a loop needs 4
 */
DETHRUX_U16_RESULT dethrux_progress dethrux_u16_to_wtf8(
    const dethrux_unit *utf16, size_t len, void *to, size_t capacity) {
    dethrux_progress found = dethrux_to_wtf8(
        DETHRUX_NATIVE_ENDIAN, DETHRUX_U16_BYTES(utf16), len * 2, to, capacity);
    found.read /= 2;
    return found;
}

/** Does what dethrux_to_wtf8_len does, on code units. The length is at most `len * 3`. */
DETHRUX_U16_RESULT size_t dethrux_u16_to_wtf8_len(const dethrux_unit *utf16, size_t len) {
    return dethrux_to_wtf8_len(DETHRUX_NATIVE_ENDIAN, DETHRUX_U16_BYTES(utf16), len * 2);
}

/**
 * Does what dethrux_to_wtf8_partial does, on code units. With DETHRUX_INCOMPLETE one code unit
 * follows `read`, a leading surrogate.
 *
 * @param capacity `len * 3` suffices; a loop needs 4
 */
DETHRUX_U16_RESULT dethrux_progress dethrux_u16_to_wtf8_partial(
    const dethrux_unit *utf16, size_t len, void *to, size_t capacity) {
    dethrux_progress found = dethrux_to_wtf8_partial(
        DETHRUX_NATIVE_ENDIAN, DETHRUX_U16_BYTES(utf16), len * 2, to, capacity);
    found.read /= 2;
    return found;
}

/**
 * Does what dethrux_wtf8_decoder_feed does, on code units. Only this call and
 * dethrux_wtf8_decoder_finish may have changed the decoder. End the stream with the latter and
 * DETHRUX_NATIVE_ENDIAN.
 *
 * @param capacity `(len + 1) * 3` suffices; a loop needs 4
 */
DETHRUX_U16_RESULT dethrux_progress dethrux_u16_wtf8_decoder_feed(
    dethrux_decoder *decoder, const dethrux_unit *chunk, size_t len, void *to, size_t capacity) {
    dethrux_progress found = dethrux_wtf8_decoder_feed(
        decoder, DETHRUX_NATIVE_ENDIAN, DETHRUX_U16_BYTES(chunk), len * 2, to, capacity);
    found.read /= 2;
    return found;
}

/**
 * Does what dethrux_from_wtf8 does, on code units.
 *
 * @param capacity `len` suffices; a loop needs 2
 */
DETHRUX_U16_RESULT dethrux_progress dethrux_u16_from_wtf8(
    const void *wtf8, size_t len, dethrux_unit *to, size_t capacity) {
    dethrux_progress found = dethrux_from_wtf8(
        DETHRUX_NATIVE_ENDIAN, wtf8, len, DETHRUX_U16_BYTES(to), capacity * 2);
    found.written /= 2;
    return found;
}

/**
 * Does what dethrux_from_wtf8_partial does, on code units.
 *
 * @param capacity `len` suffices; a loop needs 2
 */
DETHRUX_U16_RESULT dethrux_progress dethrux_u16_from_wtf8_partial(
    const void *wtf8, size_t len, dethrux_unit *to, size_t capacity) {
    dethrux_progress found = dethrux_from_wtf8_partial(
        DETHRUX_NATIVE_ENDIAN, wtf8, len, DETHRUX_U16_BYTES(to), capacity * 2);
    found.written /= 2;
    return found;
}

/**
 * Does what dethrux_wtf8_encoder_feed does, on code units.
 *
 * @param capacity `len + 2` suffices
 */
DETHRUX_U16_RESULT dethrux_progress dethrux_u16_wtf8_encoder_feed(
    dethrux_wtf8_encoder *encoder, const void *chunk, size_t len, dethrux_unit *to,
    size_t capacity) {
    dethrux_progress found = dethrux_wtf8_encoder_feed(
        encoder, DETHRUX_NATIVE_ENDIAN, chunk, len, DETHRUX_U16_BYTES(to), capacity * 2);
    found.written /= 2;
    return found;
}

/**
 * Does what dethrux_wtf8_encoder_finish does, on code units.
 *
 * @param capacity 1 suffices
 */
DETHRUX_U16_RESULT dethrux_progress dethrux_u16_wtf8_encoder_finish(
    dethrux_wtf8_encoder *encoder, dethrux_unit *to, size_t capacity) {
    dethrux_progress found = dethrux_wtf8_encoder_finish(
        encoder, DETHRUX_NATIVE_ENDIAN, DETHRUX_U16_BYTES(to), capacity * 2);
    found.written /= 2;
    return found;
}

/**
 * Does what dethrux_decoder_feed does, on code units. Only this call and dethrux_decoder_finish
 * may have changed the decoder.
 *
 * @param capacity `(len + 1) * 3` suffices; a loop needs 4
 */
DETHRUX_U16_RESULT dethrux_progress dethrux_u16_decoder_feed(
    dethrux_decoder *decoder, const dethrux_unit *chunk, size_t len, void *to, size_t capacity) {
    dethrux_progress found = dethrux_decoder_feed(
        decoder, DETHRUX_NATIVE_ENDIAN, DETHRUX_U16_BYTES(chunk), len * 2, to, capacity);
    found.read /= 2;
    return found;
}

/**
 * Does what dethrux_encoder_feed does, on code units.
 *
 * @param capacity `len + 1` suffices; a loop needs 2
 */
DETHRUX_U16_RESULT dethrux_progress dethrux_u16_encoder_feed(
    dethrux_encoder *encoder, const void *chunk, size_t len, dethrux_unit *to, size_t capacity) {
    dethrux_progress found = dethrux_encoder_feed(
        encoder, DETHRUX_NATIVE_ENDIAN, chunk, len, DETHRUX_U16_BYTES(to), capacity * 2);
    found.written /= 2;
    return found;
}

/**
 * Does what dethrux_encoder_finish does, on code units.
 *
 * @param capacity 1 suffices
 */
DETHRUX_U16_RESULT dethrux_progress dethrux_u16_encoder_finish(
    dethrux_encoder *encoder, dethrux_unit *to, size_t capacity) {
    dethrux_progress found = dethrux_encoder_finish(
        encoder, DETHRUX_NATIVE_ENDIAN, DETHRUX_U16_BYTES(to), capacity * 2);
    found.written /= 2;
    return found;
}

/** Does what dethrux_is_char_boundary does, on code units. */
DETHRUX_U16_RESULT bool dethrux_u16_is_char_boundary(
    const dethrux_unit *utf16, size_t len, size_t at) {
    return at <= len && dethrux_is_char_boundary(
        DETHRUX_NATIVE_ENDIAN, DETHRUX_U16_BYTES(utf16), len * 2, at * 2);
}

/**
 * Does what dethrux_floor_char_boundary does, on code units. The boundary is at most one code unit
 * before the smaller of `at` and `len`.
 */
DETHRUX_U16_RESULT size_t dethrux_u16_floor_char_boundary(
    const dethrux_unit *utf16, size_t len, size_t at) {
    return dethrux_floor_char_boundary(
        DETHRUX_NATIVE_ENDIAN, DETHRUX_U16_BYTES(utf16), len * 2, at < len ? at * 2 : len * 2) / 2;
}

/**
 * Does what dethrux_find does, on code units. Returns an offset in code units, or
 * DETHRUX_NOT_FOUND.
 */
DETHRUX_U16_RESULT size_t dethrux_u16_find(
    const dethrux_unit *utf16, size_t len, const dethrux_unit *pattern, size_t pattern_len) {
    size_t found = dethrux_find(
        DETHRUX_NATIVE_ENDIAN, DETHRUX_U16_BYTES(utf16), len * 2, DETHRUX_U16_BYTES(pattern),
        pattern_len * 2);
    return found == DETHRUX_NOT_FOUND ? found : found / 2;
}

/**
 * Does what dethrux_rfind does, on code units. Returns an offset in code units, or
 * DETHRUX_NOT_FOUND.
 */
DETHRUX_U16_RESULT size_t dethrux_u16_rfind(
    const dethrux_unit *utf16, size_t len, const dethrux_unit *pattern, size_t pattern_len) {
    size_t found = dethrux_rfind(
        DETHRUX_NATIVE_ENDIAN, DETHRUX_U16_BYTES(utf16), len * 2, DETHRUX_U16_BYTES(pattern),
        pattern_len * 2);
    return found == DETHRUX_NOT_FOUND ? found : found / 2;
}

/** Does what dethrux_nul_offset does, on code units. Returns an offset in code units, or `len`. */
DETHRUX_U16_RESULT size_t dethrux_u16_nul_offset(const dethrux_unit *utf16, size_t len) {
    return dethrux_nul_offset(DETHRUX_U16_BYTES(utf16), len * 2) / 2;
}

/** Does what dethrux_swap_byte_order does, on code units. */
DETHRUX_U16 void dethrux_u16_swap_byte_order(dethrux_unit *utf16, size_t len) {
    dethrux_swap_byte_order(DETHRUX_U16_BYTES(utf16), len * 2);
}

/** Does what dethrux_make_well_formed does, on code units. */
DETHRUX_U16 size_t dethrux_u16_make_well_formed(dethrux_unit *utf16, size_t len) {
    return dethrux_make_well_formed(DETHRUX_NATIVE_ENDIAN, DETHRUX_U16_BYTES(utf16), len * 2);
}

/** Does what dethrux_compare does, on code units. */
DETHRUX_U16_RESULT int32_t dethrux_u16_compare(
    const dethrux_unit *first, size_t first_len, const dethrux_unit *second, size_t second_len) {
    return dethrux_compare(
        DETHRUX_NATIVE_ENDIAN, DETHRUX_U16_BYTES(first), first_len * 2, DETHRUX_NATIVE_ENDIAN,
        DETHRUX_U16_BYTES(second), second_len * 2);
}

/** @} */

#undef DETHRUX_U16
#undef DETHRUX_U16_RESULT
#undef DETHRUX_U16_BYTES

#endif
