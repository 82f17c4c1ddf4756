/* SPDX-License-Identifier: MIT OR Apache-2.0 */

/* A module for glibc's iconv: UTF-16, UTF-16LE and UTF-16BE to and from UTF-8, and to each other.
 *
 * glibc makes these conversions in two steps, through UTF-32, and this module in one. What a caller
 * can see of the two steps is kept, so some comments here say what they do. docs/ICONV.md lists the
 * few differences. */
#include <dethrux.h>

#include <gconv.h>
#include <stdbool.h>
#include <stdint.h>
#include <string.h>

enum form { UTF8, UTF16, UTF16LE, UTF16BE, UNKNOWN };

/* What a stream remembers from call to call, as bits in the state that a reset clears. */
enum { HAS_ORDER = 1, IS_BIG = 2, HAS_BOM = 4 };

/* glibc's first step converts this many characters before the second step takes them. */
enum { BLOCK = 8160 };

struct conversion {
    enum form from, to;
    int *state;
};

/* A name may begin with DETHRUX-, so that a configuration can have glibc's converter and this one
 * next to each other. */
static enum form form_of(const char *name) {
    static const char *const names[] = {"ISO-10646/UTF8/", "UTF-16//", "UTF-16LE//", "UTF-16BE//"};
    static const char prefix[] = "DETHRUX-";
    if (strncmp(name, prefix, sizeof prefix - 1) == 0) {
        name += sizeof prefix - 1;
    }
    enum form form = UTF8;
    while (form != UNKNOWN && strcmp(name, names[form]) != 0) {
        form++;
    }
    return form;
}

/* Nothing is allocated for a conversion, so there is no gconv_end. */
int gconv_init(struct __gconv_step *step) {
    enum form from = form_of(step->__from_name), to = form_of(step->__to_name);
    if (from == UNKNOWN || to == UNKNOWN || (from == UTF8 && to == UTF8)
        || dethrux_version() < DETHRUX_VERSION) {
        return __GCONV_NOCONV;
    }
    step->__data = (void *)(uintptr_t)(from * UNKNOWN + to);
    step->__min_needed_from = from == UTF8 ? 1 : 2;
    step->__max_needed_from = 4;
    step->__min_needed_to = to == UTF8 ? 1 : 2;
    step->__max_needed_to = 4;
    step->__stateful = 0;
    return __GCONV_OK;
}

static dethrux_byte_order order_of(enum form form, int state) {
    return form == UTF16BE || (state & IS_BIG) != 0 ? DETHRUX_BIG_ENDIAN : DETHRUX_LITTLE_ENDIAN;
}

/* Converts UTF-16 to UTF-16, as dethrux_to_utf8 does to UTF-8. */
static dethrux_progress copy(dethrux_byte_order order, const unsigned char *in, size_t len,
    dethrux_byte_order to_order, unsigned char *out, size_t capacity) {
    size_t n = dethrux_validate(order, in, len < capacity ? len : capacity).valid_up_to;
    memcpy(out, in, n);
    if (order != to_order) {
        dethrux_swap_byte_order(out, n);
    }
    /* If the next character is whole, only space was missing. */
    dethrux_validity next = dethrux_validate(order, in + n, len - n < 4 ? len - n : 4);
    if (next.valid_up_to != 0) {
        return (dethrux_progress){n, n, DETHRUX_NO_SPACE, 0};
    }
    return (dethrux_progress){n, n, next.status, next.error_len};
}

static dethrux_progress convert(const struct conversion *it, const unsigned char *in, size_t len,
    unsigned char *out, size_t capacity) {
    dethrux_byte_order order = order_of(it->from, *it->state);
    dethrux_byte_order to_order = it->to == UTF16 ? DETHRUX_NATIVE_ENDIAN : order_of(it->to, 0);
    return it->from == UTF8 ? dethrux_from_utf8(to_order, in, len, out, capacity)
         : it->to == UTF8   ? dethrux_to_utf8(order, in, len, out, capacity)
                            : copy(order, in, len, to_order, out, capacity);
}

/* Does the same, with a BOM before the first character of "UTF-16". glibc writes the BOM when there
 * is a character to convert, even if that one does not fit. */
static dethrux_progress convert_after_bom(const struct conversion *it, const unsigned char *in,
    size_t len, unsigned char *out, size_t capacity) {
    if (it->to != UTF16 || (*it->state & HAS_BOM) != 0) {
        return convert(it, in, len, out, capacity);
    }
    if (capacity < 2) {
        return convert(it, in, len, out, 0);
    }
    dethrux_progress progress = convert(it, in, len, out + 2, capacity - 2);
    if (progress.written != 0 || progress.status == DETHRUX_NO_SPACE) {
        const uint16_t bom = 0xFEFF;
        memcpy(out, &bom, 2);
        progress.written += 2;
        *it->state |= HAS_BOM;
    }
    return progress;
}

/* Returns whether ill-formed UTF-8 ends too early for glibc to call it ill formed. That is so for
 * any lead byte, even one of five or six bytes, and continuation bytes up to the end. */
static bool is_cut(const unsigned char *in, size_t len) {
    size_t whole = in[0] < 0xF0 ? 3 : in[0] < 0xF8 ? 4 : in[0] < 0xFC ? 5 : 6;
    size_t n = 1;
    while (n < len && n < whole && (in[n] & 0xC0) == 0x80) {
        n++;
    }
    return in[0] >= 0xE0 && in[0] <= 0xFD && n == len && n < whole;
}

/* Returns the number of characters of well-formed input. */
static size_t count(const struct conversion *it, const unsigned char *in, size_t len) {
    if (it->from != UTF8) {
        return dethrux_count_chars(order_of(it->from, *it->state), in, len);
    }
    size_t chars = 0;
    for (size_t at = 0; at < len; at++) {
        chars += (in[at] & 0xC0) != 0x80;
    }
    return chars;
}

/* Converts up to the end, an error or a full output, and moves both pointers. */
static int convert_all(const struct conversion *it, bool ignores, const unsigned char **from,
    const unsigned char *end, unsigned char **to, const unsigned char *to_end) {
    const unsigned char *in = *from;
    size_t chars = 0, forgotten_at = 0;
    for (;;) {
        dethrux_progress progress =
            convert_after_bom(it, in, (size_t)(end - in), *to, (size_t)(to_end - *to));
        if (ignores) {
            chars += count(it, in, progress.read);
        }
        in += progress.read;
        *to += progress.written;
        if (progress.read != 0) {
            *from = in;
        }
        if (progress.status == DETHRUX_NO_SPACE) {
            /* What was ignored before the character that does not fit is not read either. */
            return __GCONV_FULL_OUTPUT;
        }
        bool is_ill_formed = progress.status == DETHRUX_ILL_FORMED
                          && !(it->from == UTF8 && is_cut(in, (size_t)(end - in)));
        if (is_ill_formed && ignores) {
            in += progress.error_len;
            /* glibc forgets what it ignored in a block when it converts the next one. */
            forgotten_at = (chars / BLOCK + 1) * BLOCK + 1;
            continue;
        }
        *from = in;
        if (progress.status == DETHRUX_DONE) {
            return chars < forgotten_at ? __GCONV_ILLEGAL_INPUT : __GCONV_EMPTY_INPUT;
        }
        return is_ill_formed ? __GCONV_ILLEGAL_INPUT : __GCONV_INCOMPLETE_INPUT;
    }
}

/* iconv(3) returns the sum of what the last steps add to *irreversible. glibc's first step ignores
 * what is ill formed, and its last step adds nothing, so this adds nothing. `consume_incomplete` is
 * for the multibyte functions of C, which never use UTF-16. */
int gconv(struct __gconv_step *step, struct __gconv_step_data *data, const unsigned char **from,
    const unsigned char *end, unsigned char **out, size_t *irreversible, int do_flush,
    int consume_incomplete) {
    (void)consume_incomplete;
    if ((data->__flags & __GCONV_IS_LAST) == 0) {
        /* Only glibc can call the next step. By the costs in dethrux.conf there is none. */
        return __GCONV_ILLEGAL_DESCRIPTOR;
    }
    int *state = &data->__statep->__count;
    if (do_flush) {
        *state = 0;
        return __GCONV_OK;
    }
    uintptr_t forms = (uintptr_t)step->__data;
    struct conversion it = {(enum form)(forms / UNKNOWN), (enum form)(forms % UNKNOWN), state};
    if (it.from == UTF16 && (*state & HAS_ORDER) == 0) {
        dethrux_bom bom = dethrux_detect_bom(DETHRUX_NATIVE_ENDIAN, *from, (size_t)(end - *from));
        if (bom.status == DETHRUX_BOM_UNDECIDED) {
            return *from == end ? __GCONV_EMPTY_INPUT : __GCONV_INCOMPLETE_INPUT;
        }
        *from += bom.len;
        *state |= bom.byte_order == DETHRUX_BIG_ENDIAN ? HAS_ORDER | IS_BIG : HAS_ORDER;
    }
    bool ignores = (data->__flags & __GCONV_IGNORE_ERRORS) != 0 && irreversible != NULL;
    return convert_all(&it, ignores, from, end, out != NULL ? out : &data->__outbuf,
        data->__outbufend);
}
