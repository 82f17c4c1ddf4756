/* Reads what cases/to_json.py --tabs prints, in the named file or on standard input, and makes the
 * calls that the library has. Prints each case whose result differs, and what was found, and finally
 * how many passed. Cases of other calls, and cases with a condition on memory or devices, are not
 * run. A call that follows the rule of its shape, in dist/src/shapes.inc, has its row from there. */
#include "dethrux.h"

#include <stdio.h>
#include <stdlib.h>
#include <string.h>

enum { LINE = 1 << 23, WORDS = 16, FIELDS = 6, SHORT = 64, BLANK = 0xA5 };

/* Bytes that grow. */
typedef struct {
    uint8_t *bytes;
    size_t len;
    size_t capacity;
} text;

static void append(text *to, const void *from, size_t len) {
    if (to->capacity - to->len < len) {
        to->capacity = 2 * (to->len + len);
        to->bytes = realloc(to->bytes, to->capacity);
        if (to->bytes == NULL) {
            abort();
        }
    }
    if (len > 0) {
        memcpy(to->bytes + to->len, from, len);
        to->len += len;
    }
}

static void append_byte(text *to, unsigned byte) {
    uint8_t one = (uint8_t)byte;
    append(to, &one, 1);
}

static bool same(const text *a, const text *b) {
    return a->len == b->len && (a->len == 0 || memcmp(a->bytes, b->bytes, a->len) == 0);
}

/* A buffer of this many bytes and some after them, filled with a byte that no call writes. */
static text blank(size_t room) {
    text found = {0};
    for (size_t i = 0; i < room + 8; i++) {
        append_byte(&found, BLANK);
    }
    return found;
}

static bool is_blank(const text *buffer, size_t from) {
    for (size_t i = from; i < buffer->len; i++) {
        if (buffer->bytes[i] != BLANK) {
            return false;
        }
    }
    return true;
}

/* Appends the bytes that a word has in hex. Returns whether it is well spelled. */
static bool hex(const char *at, const char *end, text *to) {
    for (; end - at >= 2; at += 2) {
        char digits[3] = {at[0], at[1], 0}, *behind;
        append_byte(to, (unsigned)strtoul(digits, &behind, 16));
        if (behind != digits + 2) {
            return false;
        }
    }
    return at == end;
}

/* The bytes of a word, or of a part of it. */
static bool bytes_of(const char *at, const char *end, text *to) {
    return (end - at == 1 && *at == '-') || hex(at, end, to);
}

/* The result of a call, in words separated by spaces. */

static void add_word(text *answer, const char *word) {
    append(answer, " ", answer->len > 0);
    append(answer, word, strlen(word));
}

static void add_number(text *answer, size_t number) {
    char digits[32];
    snprintf(digits, sizeof digits, "%zu", number);
    add_word(answer, digits);
}

static void add_hex(text *answer, const uint8_t *bytes, size_t len) {
    append(answer, "-", len == 0);
    for (size_t i = 0; i < len; i++) {
        char digits[3];
        snprintf(digits, sizeof digits, "%02X", bytes[i]);
        append(answer, digits, 2);
    }
}

static void add_bytes(text *answer, const uint8_t *bytes, size_t len) {
    add_word(answer, "");
    add_hex(answer, bytes, len);
}

static void add_text(text *answer, const uint8_t *utf8, size_t len) {
    add_word(answer, "utf8:");
    add_hex(answer, utf8, len);
}

static void add_found(text *answer, bool is_text, const uint8_t *bytes, size_t len) {
    (is_text ? add_text : add_bytes)(answer, bytes, len);
}

static const char *const stops[] = {[DETHRUX_DONE] = "end", [DETHRUX_ILL_FORMED] = "ill_formed",
    [DETHRUX_INCOMPLETE] = "incomplete", [DETHRUX_NO_SPACE] = "no_space",
    [DETHRUX_NOT_LATIN1] = "not_latin1"};

static void add_stop(text *answer, dethrux_status status, uint32_t error_len) {
    bool is = status < sizeof stops / sizeof *stops && stops[status] != NULL;
    add_word(answer, is ? stops[status] : "no status");
    if (status == DETHRUX_ILL_FORMED) {
        add_number(answer, error_len);
    } else if (error_len != 0) {
        add_word(answer, "length of no fault");
    }
}

static void add_progress(text *answer, dethrux_progress found) {
    add_number(answer, found.read);
    add_number(answer, found.written);
    add_stop(answer, found.status, found.error_len);
}

/* A value that is a number, or `max`. */
static size_t number_of(const char *word) {
    return strcmp(word, "max") == 0 ? SIZE_MAX : (size_t)strtoull(word, NULL, 10);
}

/* The types of the calls that have cases of one shape. */
typedef dethrux_progress convert(
    dethrux_byte_order order, const void *from, size_t len, void *to, size_t room);
typedef dethrux_progress widen(
    dethrux_byte_order order, const void *from, size_t len, uint32_t *to, size_t room);
typedef dethrux_progress narrow(
    dethrux_byte_order order, const uint32_t *from, size_t len, void *to, size_t room);
typedef size_t measure(dethrux_byte_order order, const void *utf16, size_t len);
typedef size_t measure_bytes(const void *bytes, size_t len);
typedef bool test(dethrux_byte_order order, const void *utf16, size_t len);
typedef size_t search(dethrux_byte_order order, const void *utf16, size_t len,
    const void *pattern, size_t pattern_len);

/* Where a conversion leads. Each pair leads to a form and back. */
typedef enum {
    TO_UTF8, FROM_UTF8, TO_WTF8, FROM_WTF8, TO_UTF32, FROM_UTF32, TO_LATIN1, FROM_LATIN1
} way;
typedef enum { STRICT, LOSSY, PARTIAL } mode;

/* A case that is run: its call, its byte order, its first value as bytes, and all its values; and
 * what is answered. */
typedef struct call call;
typedef struct {
    const call *by;
    dethrux_byte_order order;
    text raw;
    char **values;
    size_t count;
    text *answer;
} task;

/* A call of the tables: its name; how a case of it is run, on values, of which it returns whether
 * they are well spelled, on bytes and a value, or on bytes only; and the call of the library, if
 * others have the same shape. */
struct call {
    const char *name;
    bool (*make)(const task *it);
    void (*with)(const task *it);
    void (*ask)(const task *it);
    convert *convert;
    way way;
    mode mode;
    widen *widen;
    narrow *narrow;
    measure *measure;
    measure_bytes *measure_bytes;
    test *test;
    search *search;
};

static const call *call_of(const char *name);
static const call *opposite_of(const call *by);

/* UTF-32 is spelled by its bytes in big endian. Returns its code units, and makes `count` their
 * number. */
static uint32_t *code_points(const text *spelled, size_t *count) {
    uint32_t *found = malloc(spelled->len + sizeof *found);
    *count = spelled->len / 4;
    for (size_t i = 0; found != NULL && i < *count; i++) {
        const uint8_t *at = spelled->bytes + 4 * i;
        found[i] = (uint32_t)at[0] << 24 | (uint32_t)at[1] << 16 | (uint32_t)at[2] << 8 | at[3];
    }
    return found;
}

/* Spells UTF-32, which is in the machine's byte order. */
static void spell_utf32(text *utf32) {
    for (size_t at = 0; at + 4 <= utf32->len; at += 4) {
        uint32_t unit;
        memcpy(&unit, utf32->bytes + at, 4);
        for (size_t i = 0; i < 4; i++) {
            utf32->bytes[at + i] = (uint8_t)(unit >> (24 - 8 * i));
        }
    }
}

static size_t utf32_size_of(const text *from) {
    size_t len;
    uint32_t *points = code_points(from, &len);
    size_t found = dethrux_from_utf32_lossy_len(points, len);
    free(points);
    return found;
}

/* The capacity that the header says suffices. */
static size_t most(const call *by, size_t len) {
    switch (by->way) {
    case TO_UTF8: return by->mode == LOSSY ? DETHRUX_UTF8_MAX(len) : len / 2 * 3;
    case TO_WTF8: return DETHRUX_WTF8_MAX(len);
    case TO_UTF32: return by->mode == LOSSY ? DETHRUX_UTF32_MAX(len) : len / 2;
    case FROM_UTF32: return DETHRUX_FROM_UTF32_MAX(len / 4);
    case TO_LATIN1: return len / 2;
    default: return DETHRUX_UTF16_MAX(len);
    }
}

/* The capacity of a case that says `size`. */
static size_t size_of(const call *by, dethrux_byte_order order, const text *from) {
    switch (by->way) {
    case TO_UTF8: return dethrux_to_utf8_lossy_len(order, from->bytes, from->len);
    case FROM_UTF8: return dethrux_from_utf8_lossy_len(from->bytes, from->len);
    case TO_WTF8: return dethrux_to_wtf8_len(order, from->bytes, from->len);
    case FROM_WTF8: return dethrux_from_wtf8_len(from->bytes, from->len);
    case TO_UTF32: return dethrux_to_utf32_lossy_len(order, from->bytes, from->len);
    case FROM_UTF32: return utf32_size_of(from);
    default: return most(by, from->len);
    }
}

/* What a conversion did: the output is spelled, and nothing was written after it. */
typedef struct {
    dethrux_progress progress;
    text out;
    bool is_inside;
} outcome;

/* Makes a conversion. After the output of one of Latin-1 the buffer stays as it was. */
static outcome converted(const call *by, dethrux_byte_order order, const text *from, size_t room) {
    const size_t size = by->widen != NULL ? 4 : 1;
    outcome found = {.out = blank(size * room)};
    void *to = found.out.bytes;
    size_t len = 0;
    uint32_t *points = by->narrow != NULL ? code_points(from, &len) : NULL;
    found.progress = by->widen != NULL ? by->widen(order, from->bytes, from->len, to, room)
        : by->narrow != NULL           ? by->narrow(order, points, len, to, room)
                                       : by->convert(order, from->bytes, from->len, to, room);
    free(points);
    size_t written = found.progress.written < room ? found.progress.written : room;
    bool stays = by->way == TO_LATIN1 || by->way == FROM_LATIN1;
    found.is_inside =
        found.progress.written <= room && is_blank(&found.out, stays ? written : size * room);
    found.out.len = size * written;
    if (size == 4) {
        spell_utf32(&found.out);
    }
    return found;
}

/* A decoder, of UTF-16, of UTF-8 or of WTF-8, and its byte order. */
typedef struct {
    way way;
    dethrux_byte_order order;
    dethrux_decoder utf16;
    dethrux_encoder utf8;
    dethrux_wtf8_encoder wtf8;
} decoder;

static decoder new_decoder(way by, dethrux_byte_order order) {
    return (decoder){by, order, DETHRUX_DECODER_INIT, DETHRUX_ENCODER_INIT, DETHRUX_WTF8_ENCODER_INIT};
}

static dethrux_progress feed(decoder *by, const uint8_t *chunk, size_t len, uint8_t *to, size_t room) {
    switch (by->way) {
    case TO_UTF8: return dethrux_decoder_feed(&by->utf16, by->order, chunk, len, to, room);
    case TO_WTF8: return dethrux_wtf8_decoder_feed(&by->utf16, by->order, chunk, len, to, room);
    case FROM_WTF8: return dethrux_wtf8_encoder_feed(&by->wtf8, by->order, chunk, len, to, room);
    default: return dethrux_encoder_feed(&by->utf8, by->order, chunk, len, to, room);
    }
}

static dethrux_progress finish(decoder *by, uint8_t *to, size_t room) {
    switch (by->way) {
    case TO_UTF8: return dethrux_decoder_finish(&by->utf16, by->order, to, room);
    case TO_WTF8: return dethrux_wtf8_decoder_finish(&by->utf16, by->order, to, room);
    case FROM_WTF8: return dethrux_wtf8_encoder_finish(&by->wtf8, by->order, to, room);
    default: return dethrux_encoder_finish(&by->utf8, by->order, to, room);
    }
}

static size_t finish_max(const decoder *by) {
    return by->way % 2 == 1 ? DETHRUX_ENCODER_FINISH_MAX : DETHRUX_DECODER_FINISH_MAX;
}

static text pending_of(decoder *by) {
    switch (by->way) {
    case FROM_UTF8: return (text){by->utf8.pending, by->utf8.pending_len, 0};
    case FROM_WTF8: return (text){by->wtf8.pending, by->wtf8.pending_len, 0};
    default: return (text){by->utf16.pending, by->utf16.pending_len, 0};
    }
}

static bool is_unchanged(const decoder *by, const decoder *before) {
    return memcmp(&by->utf16, &before->utf16, sizeof by->utf16) == 0 && memcmp(&by->utf8, &before->utf8, sizeof by->utf8) == 0;
}

/* Feeds a decoder a chunk, again with the rest of it, with a buffer of this many bytes, and appends
 * what was written. */
static bool feed_all(decoder *by, const uint8_t *piece, size_t len, size_t room, text *all) {
    bool is = true;
    dethrux_progress found = {0, 0, DETHRUX_NO_SPACE, 0};
    while (is && found.status == DETHRUX_NO_SPACE) {
        text to = blank(room);
        found = feed(by, piece, len, to.bytes, room);
        is = found.read <= len && found.error_len == 0 && pending_of(by).len <= DETHRUX_PENDING_MAX && found.written <= room && is_blank(&to, room)
            && (found.status == DETHRUX_NO_SPACE ? found.written > 0 && found.written + 4 > room : found.status == DETHRUX_DONE && found.read == len);
        append(all, to.bytes, is ? found.written : 0);
        piece += is ? found.read : 0;
        len -= is ? found.read : 0;
        free(to.bytes);
    }
    return is;
}

/* Ends a stream: without capacity for U+FFFD nothing changes; otherwise it is written if bytes are
 * pending. */
static bool finish_all(decoder *by, text *all) {
    size_t pending = pending_of(by).len, most = finish_max(by);
    text to = blank(most);
    bool is = true;
    for (size_t room = 0; is && room < most; room++) {
        decoder before = *by;
        dethrux_progress found = finish(by, to.bytes, room);
        is = found.status == (pending > 0 ? DETHRUX_NO_SPACE : DETHRUX_DONE) && found.read == 0 && found.written == 0
            && is_unchanged(by, &before) && is_blank(&to, 0);
    }
    dethrux_progress end = finish(by, to.bytes, most);
    is = is && end.status == DETHRUX_DONE && end.read == 0 && end.written == (pending > 0 ? most : 0) && end.error_len == 0
        && pending_of(by).len == 0 && is_blank(&to, most);
    append(all, to.bytes, is ? end.written : 0);
    free(to.bytes);
    return is;
}

/* Decodes in chunks of one length with a decoder, into buffers of one length. */
static bool in_pieces(way way, dethrux_byte_order order, const text *from, size_t first, size_t then, size_t room, text *all) {
    decoder by = new_decoder(way, order);
    size_t at = 0, len = first < from->len ? first : from->len;
    bool is = true;
    do {
        is = feed_all(&by, from->len > 0 ? from->bytes + at : NULL, len, room, all);
        at += len;
        len = then < from->len - at ? then : from->len - at;
    } while (is && at < from->len);
    return is && finish_all(&by, all);
}

/* Whether every chunking gives this text: in two, in chunks of one length, with buffers of several
 * sizes. */
static bool is_cut_anywhere(way way, dethrux_byte_order order, const text *from, const text *whole) {
    bool is = true;
    for (size_t room = 4; is && room <= 9; room++) {
        for (size_t at = 0; is && at <= from->len + 1; at++) {
            text kept = {0}, pieces = {0};
            is = in_pieces(way, order, from, at, from->len, room, &kept) && same(&kept, whole)
                && in_pieces(way, order, from, at + 1, at + 1, room, &pieces) && same(&pieces, whole);
            free(kept.bytes);
            free(pieces.bytes);
        }
    }
    return is;
}

/* The calls. Each returns whether its values are well spelled. */

static size_t characters(const text *utf8) {
    size_t count = 0;
    for (size_t i = 0; i < utf8->len; i++) {
        count += (utf8->bytes[i] & 0xC0) != 0x80;
    }
    return count;
}

static bool is_ascii(const text *utf8) {
    for (size_t i = 0; i < utf8->len; i++) {
        if (utf8->bytes[i] >= 0x80) {
            return false;
        }
    }
    return true;
}

/* What a strict conversion contradicts, or NULL. */
static const char *contradicted_strict(const call *by, dethrux_byte_order order, const text *from,
    dethrux_progress found, const text *written) {
    const bool to_utf8 = by->way == TO_UTF8;
    if (to_utf8 && found.status == DETHRUX_DONE
        && (dethrux_count_chars(order, from->bytes, from->len) != characters(written)
            || dethrux_is_ascii(order, from->bytes, from->len) != is_ascii(written))) {
        return "characters";
    }
    if (to_utf8) {
        dethrux_validity valid = dethrux_validate(order, from->bytes, from->len);
        if (valid.valid_up_to != found.read || valid.status != found.status
            || valid.error_len != found.error_len) {
            return "validate";
        }
    }
    /* The lossy length is the length of what is well formed, and of WTF-8 there is no other. */
    bool has_len = by->way <= FROM_WTF8 || (by->way <= FROM_UTF32 && found.status == DETHRUX_DONE);
    size_t len = by->way == FROM_UTF8 ? dethrux_from_utf8_len(from->bytes, from->len)
                                      : size_of(by, order, from);
    return !to_utf8 && has_len && len != found.written ? "size" : NULL;
}

/* Whether the conversion back of what was written is the input. */
static bool is_back_again(
    const call *by, dethrux_byte_order order, const text *from, const text *written) {
    outcome again = converted(opposite_of(by), order, written, from->len);
    bool is = again.progress.status == DETHRUX_DONE && same(&again.out, from);
    free(again.out.bytes);
    return is;
}

/* Whether a character of an output ends at an offset. */
static bool ends_at(const call *by, dethrux_byte_order order, const text *out, size_t at) {
    const bool is_end = at == 0 || at == out->len;
    switch (by->way) {
    case TO_UTF8:
    case TO_WTF8: return is_end || (out->bytes[at] & 0xC0) != 0x80;
    case TO_UTF32: return at % 4 == 0;
    case TO_LATIN1: return true;
    default: break;
    }
    const size_t high = order == DETHRUX_BIG_ENDIAN ? 0 : 1;
    return at % 2 == 0 && (is_end || (out->bytes[at - 2 + high] & 0xFC) != 0xD8
        || (out->bytes[at + high] & 0xFC) != 0xDC);
}

/* Whether smaller buffers, all of them if there are few, get as many whole characters of the output
 * as fit, and a larger one gets the output. */
static bool is_start_written(
    const call *by, dethrux_byte_order order, const text *from, const outcome *whole) {
    const size_t written = whole->progress.written, size = by->widen != NULL ? 4 : 1;
    bool is = true;
    for (size_t room = 0; is && room < written; room += room > 3 * SHORT ? written / 4 : 1) {
        size_t len = size * room;
        while (!ends_at(by, order, &whole->out, len)) {
            len--;
        }
        outcome part = converted(by, order, from, room);
        is = part.is_inside && part.progress.status == DETHRUX_NO_SPACE
            && part.progress.error_len == 0 && part.progress.read <= whole->progress.read
            && part.out.len == len && memcmp(part.out.bytes, whole->out.bytes, len) == 0;
        free(part.out.bytes);
    }
    if (is && whole->progress.status != DETHRUX_NO_SPACE) {
        outcome again = converted(by, order, from, written + 4);
        is = again.is_inside && same(&again.out, &whole->out)
            && again.progress.read == whole->progress.read
            && again.progress.status == whole->progress.status;
        free(again.out.bytes);
    }
    return is;
}

/* Returns a word for what a conversion that came to its end contradicts, or NULL. */
static const char *contradicted(
    const call *by, dethrux_byte_order order, const text *from, const outcome *found) {
    const bool done = found->progress.status == DETHRUX_DONE, strict = by->mode == STRICT;
    const char *but =
        strict ? contradicted_strict(by, order, from, found->progress, &found->out) : NULL;
    if (but != NULL) {
        return but;
    }
    if (found->progress.written > most(by, from->len)) {
        return "bound";
    }
    if (from->len > SHORT) {
        return NULL;
    }
    /* What any stream of these bytes gives. */
    const bool whole = by->way == TO_WTF8 ? strict && done
                                          : by->way <= FROM_UTF8 && by->mode == LOSSY;
    if (whole && !is_cut_anywhere(by->way, order, from, &found->out)) {
        return "pieces";
    }
    return strict && done && !is_back_again(by, order, from, &found->out) ? "back" : NULL;
}

static void call_convert(const task *it) {
    bool sized = strcmp(it->values[1], "size") == 0;
    size_t room = sized ? size_of(it->by, it->order, &it->raw) : number_of(it->values[1]);
    outcome found = converted(it->by, it->order, &it->raw, room);
    const char *but = !found.is_inside ? "written after the buffer"
        : !is_start_written(it->by, it->order, &it->raw, &found) ? "another start"
        : found.progress.status == DETHRUX_NO_SPACE              ? NULL
                                                : contradicted(it->by, it->order, &it->raw, &found);
    add_progress(it->answer, found.progress);
    add_found(it->answer, it->by->way == TO_UTF8, found.out.bytes, found.out.len);
    if (but != NULL) {
        add_word(it->answer, but);
    }
    free(found.out.bytes);
}

/* What calls return for bytes. */

static void ask_test(const task *it) {
    add_word(it->answer, it->by->test(it->order, it->raw.bytes, it->raw.len) ? "true" : "false");
}

static void ask_measure(const task *it) {
    add_number(it->answer, it->by->measure(it->order, it->raw.bytes, it->raw.len));
}

static void ask_measure_bytes(const task *it) {
    add_number(it->answer, it->by->measure_bytes(it->raw.bytes, it->raw.len));
}

/* The error's fields, or what is written if there is no error. */
static void add_validity(dethrux_byte_order order, const text *raw, const char *none, text *answer) {
    dethrux_validity found = dethrux_validate(order, raw->bytes, raw->len);
    if (found.status == DETHRUX_DONE && found.valid_up_to == raw->len) {
        if (none != NULL) {
            add_word(answer, none);
        } else {
            add_bytes(answer, raw->bytes, raw->len);
        }
        return;
    }
    add_word(answer, "error");
    add_number(answer, found.valid_up_to);
    if (found.status == DETHRUX_INCOMPLETE) {
        add_word(answer, "none");
    } else {
        add_number(answer, found.error_len);
    }
}

static void ask_validate(const task *it) {
    add_validity(it->order, &it->raw, "done", it->answer);
}

static void ask_from_utf16(const task *it) {
    add_validity(it->order, &it->raw, NULL, it->answer);
}

/* After an ill-formed sequence the rest of the chunk is fed, to a new decoder. */
static bool feed_to_buffer(decoder *by, const text *piece, size_t room, text *answer) {
    text to = blank(room);
    dethrux_progress found = feed(by, piece->bytes, piece->len, to.bytes, room);
    add_progress(answer, found);
    add_found(answer, by->way == TO_UTF8, to.bytes, found.written);
    add_bytes(answer, pending_of(by).bytes, pending_of(by).len);
    bool is = is_blank(&to, room);
    free(to.bytes);
    size_t behind = found.read + found.error_len - pending_of(by).len;
    if (found.status != DETHRUX_ILL_FORMED || behind >= piece->len) {
        *by = found.status == DETHRUX_ILL_FORMED ? new_decoder(by->way, by->order) : *by;
        return is;
    }
    text rest = {piece->bytes + behind, piece->len - behind, 0};
    *by = new_decoder(by->way, by->order);
    return feed_to_buffer(by, &rest, room, answer) && is;
}

/* Feeds a decoder the chunks that a word spells. */
static bool feed_pieces(const char *word, decoder *by, size_t room, text *answer) {
    for (const char *end = word + strlen(word), *at = word; at <= end;) {
        const char *behind = at + strcspn(at, ",");
        text piece = {0};
        bool is = bytes_of(at, behind, &piece);
        if (is && !feed_to_buffer(by, &piece, room, answer)) {
            add_word(answer, "stream");
        }
        free(piece.bytes);
        if (!is) {
            return false;
        }
        at = behind + 1;
    }
    return true;
}

static bool call_feed(const task *it) {
    const way way = it->by->way;
    decoder by = new_decoder(way, it->order);
    size_t room = it->count == 2 ? strtoul(it->values[1], NULL, 10) : 0;
    if (it->count != 2 || !feed_pieces(it->values[0], &by, room, it->answer)) {
        return false;
    }
    text to = blank(room);
    dethrux_progress end = finish(&by, to.bytes, room);
    add_progress(it->answer, end);
    add_found(it->answer, way == TO_UTF8, to.bytes, end.written);
    add_bytes(it->answer, pending_of(&by).bytes, pending_of(&by).len);
    if (!is_blank(&to, way == FROM_WTF8 ? room : end.written)) {
        add_word(it->answer, "changed");
    }
    free(to.bytes);
    return true;
}

static void ask_swap_byte_order(const task *it) {
    dethrux_swap_byte_order(it->raw.bytes, it->raw.len);
    add_bytes(it->answer, it->raw.bytes, it->raw.len);
}

static void ask_make_well_formed(const task *it) {
    add_number(it->answer, dethrux_make_well_formed(it->order, it->raw.bytes, it->raw.len));
    add_bytes(it->answer, it->raw.bytes, it->raw.len);
}

/* The bytes that a value spells. Another value gets a word that no result has. */
static text other_of(const char *value, text *answer) {
    text found = {0};
    if (!bytes_of(value, value + strlen(value), &found)) {
        add_word(answer, "ill spelled");
    }
    return found;
}

/* The second text in the other byte order must compare in the same way. */
static void call_compare(const task *it) {
    dethrux_byte_order other =
        it->order == DETHRUX_BIG_ENDIAN ? DETHRUX_LITTLE_ENDIAN : DETHRUX_BIG_ENDIAN;
    text second = other_of(it->values[1], it->answer);
    int32_t found = dethrux_compare(
        it->order, it->raw.bytes, it->raw.len, it->order, second.bytes, second.len);
    add_word(it->answer, found < 0 ? "less" : found > 0 ? "greater" : "equal");
    dethrux_swap_byte_order(second.bytes, second.len);
    int32_t swapped = dethrux_compare(
        it->order, it->raw.bytes, it->raw.len, other, second.bytes, second.len);
    if (swapped != found) {
        add_word(it->answer, "differs");
    }
    free(second.bytes);
}

static void call_is_char_boundary(const task *it) {
    size_t at = number_of(it->values[1]);
    bool found = dethrux_is_char_boundary(it->order, it->raw.bytes, it->raw.len, at);
    add_word(it->answer, found ? "true" : "false");
}

/* The same with the call that takes a few bytes of a file. */
static size_t floor_in_file(dethrux_byte_order order, const text *file, size_t at) {
    size_t start = (size_t)DETHRUX_AROUND_START(at), left = file->len - start;
    const uint8_t *around = left > 0 ? file->bytes + start : NULL;
    return (size_t)dethrux_floor_char_boundary_around(order, around, left < 4 ? left : 4, at);
}

static void call_floor_char_boundary(const task *it) {
    size_t at = number_of(it->values[1]);
    size_t found = dethrux_floor_char_boundary(it->order, it->raw.bytes, it->raw.len, at);
    add_number(it->answer, found);
    if (at <= it->raw.len && floor_in_file(it->order, &it->raw, at) != found) {
        add_word(it->answer, "around");
    }
}

static void call_floor_char_boundary_around(const task *it) {
    size_t at = number_of(it->values[1]);
    add_number(it->answer,
        dethrux_floor_char_boundary_around(it->order, it->raw.bytes, it->raw.len, at));
}

static bool call_shard_offset(const task *it) {
    if (it->count == 3) {
        add_number(it->answer, dethrux_shard_offset(number_of(it->values[0]),
                                   number_of(it->values[1]), number_of(it->values[2])));
    }
    return it->count == 3;
}

static void call_search(const task *it) {
    text pattern = other_of(it->values[1], it->answer);
    size_t found =
        it->by->search(it->order, it->raw.bytes, it->raw.len, pattern.bytes, pattern.len);
    if (found == DETHRUX_NOT_FOUND) {
        add_word(it->answer, "none");
    } else {
        add_number(it->answer, found);
    }
    free(pattern.bytes);
}

static void ask_from_utf32_lossy_len(const task *it) {
    add_number(it->answer, utf32_size_of(&it->raw));
}

static void ask_validate_utf32(const task *it) {
    size_t len;
    uint32_t *points = code_points(&it->raw, &len);
    dethrux_validity found = dethrux_validate_utf32(points, len);
    if (found.status == DETHRUX_DONE && found.valid_up_to == len && found.error_len == 0) {
        add_word(it->answer, "done");
    } else {
        add_number(it->answer, found.valid_up_to);
        if (found.status != DETHRUX_ILL_FORMED || found.error_len != 1) {
            add_word(it->answer, "no status");
        }
    }
    free(points);
}

static void ask_inspect(const task *it) {
    static const char *const names[] = {[DETHRUX_ASCII] = "ascii", [DETHRUX_LATIN1] = "latin1",
        [DETHRUX_BMP] = "bmp", [DETHRUX_UNICODE] = "unicode"};
    dethrux_inspection found = dethrux_inspect(it->order, it->raw.bytes, it->raw.len);
    add_number(it->answer, found.valid_up_to);
    add_number(it->answer, found.chars);
    bool is = found.repertoire < sizeof names / sizeof *names && names[found.repertoire] != NULL;
    add_word(it->answer, is ? names[found.repertoire] : "no repertoire");
    add_stop(it->answer, found.status, found.error_len);
}

/* The rows of the conversions. */
#define CONVERSION(name, to, kind) \
    {#name, .with = call_convert, .TYPE_##to = dethrux_##name, .way = to, .mode = kind},
#define TYPE_TO_UTF8 convert
#define TYPE_FROM_UTF8 convert
#define TYPE_TO_WTF8 convert
#define TYPE_FROM_WTF8 convert
#define TYPE_TO_UTF32 widen
#define TYPE_FROM_UTF32 narrow
#define TYPE_TO_LATIN1 convert
#define TYPE_FROM_LATIN1 convert
/* Cases with other names make the calls of streams. */
#define STREAM(name, step, state)
/* The rows of questions about UTF-16. */
#define QUESTION(name, kind) ROW_##kind(name)
#define ROW_size(name) {#name, .ask = ask_measure, .measure = dethrux_##name},
#define ROW_truth(name) {#name, .ask = ask_test, .test = dethrux_##name},
#define ROW_inspection(name) ROW_ASKED(name)
/* The rows of the other calls that share a function, by shape. */
#define CALL(name, shape, kind) ROW_##shape(name, kind)
#define ROW_UTF16_SEARCH(name, kind) \
    {"search::" #name, .with = call_search, .search = dethrux_##name},
#define ROW_BYTES(name, kind) \
    {#name, .ask = ask_measure_bytes, .measure_bytes = dethrux_##name},
#define ROW_BYTES_FOR_UTF16(name, kind) ROW_BYTES(name, kind)
#define ROW_IN_ANY_ORDER(name, kind) ROW_BYTES(name, kind)
/* The calls of which each has a function here. */
#define ROW_ASKED(name) {#name, .ask = ask_##name},
#define ROW_UTF32(name, kind) ROW_ASKED(name)
#define ROW_UTF32_FOR_UTF16(name, kind) ROW_ASKED(name)
#define ROW_SWAPPED(name, kind) ROW_ASKED(name)
#define ROW_REPAIRED(name, kind) ROW_ASKED(name)
#define ROW_OFFSETS(name, kind) {#name, .make = call_##name},
#define ROW_WITH(name) {"bytes::" #name, .with = call_##name},
#define ROW_UTF16_AT(name, kind) ROW_WITH(name)
#define ROW_AROUND(name, kind) ROW_WITH(name)
#define ROW_UTF16_PAIR(name, kind) ROW_WITH(name)
/* The calls of which no case has the name: other cases make them, or a test below. */
#define ROW_validity(name)
#define ROW_START(name, kind)
#define ROW_NOTHING(name, kind)

static const call calls[] = {
#include "../../dist/src/shapes.inc"
    {"validate_raw_utf16", .ask = ask_validate},
    {"WStr::from_utf16", .ask = ask_from_utf16},
    {"Stream::feed", .make = call_feed, .way = TO_UTF8},
    {"feed_utf8", .make = call_feed, .way = FROM_UTF8},
    {"feed_wtf8", .make = call_feed, .way = TO_WTF8},
    {"Wtf8Stream::feed", .make = call_feed, .way = FROM_WTF8},
};

enum { CALLS = sizeof calls / sizeof *calls };

/* How many cases were made of each. */
static unsigned made[CALLS];

/* The row of a name, or NULL. */
static const call *call_of(const char *name) {
    for (size_t i = 0; i < CALLS; i++) {
        if (strcmp(calls[i].name, name) == 0) {
            return &calls[i];
        }
    }
    return NULL;
}

/* The strict conversion the other way round. */
static const call *opposite_of(const call *by) {
    const call *found = calls;
    while (found->with != call_convert || found->mode != STRICT || found->way != (by->way ^ 1U)) {
        found++;
    }
    return found;
}

static unsigned passed, failed;

static void count(bool passes, const char *name) {
    if (passes) {
        passed++;
    } else {
        failed++;
        printf("C failed: %s\n", name);
    }
}

/* Makes the call of a case. Returns whether its values are well spelled. */
static bool make(task *it) {
    if (it->by->make != NULL) {
        return it->by->make(it);
    }
    bool takes_more = it->by->with != NULL;
    bool is = it->count == 1U + takes_more
        && bytes_of(it->values[0], it->values[0] + strlen(it->values[0]), &it->raw);
    if (is) {
        (takes_more ? it->by->with : it->by->ask)(it);
    }
    free(it->raw.bytes);
    return is;
}

/* Runs a line: a place, a call, a byte order, conditions, values and a result. */
static void run_line(char *line) {
    char *fields[FIELDS] = {line}, *words[WORDS];
    text found = {0};
    for (size_t i = 0; i < FIELDS; i++) {
        char *end = fields[i] + strcspn(fields[i], "\t\r\n");
        if (i + 1 < FIELDS) {
            fields[i + 1] = end + (*end == '\t');
        }
        *end = 0;
    }
    const bool is_big = strcmp(fields[2], "be") == 0;
    task it = {call_of(fields[1]), is_big ? DETHRUX_BIG_ENDIAN : DETHRUX_LITTLE_ENDIAN, {0}, words,
        0, &found};
    if (it.by == NULL || *fields[3] != 0) {
        return;
    }
    for (char *word = strtok(fields[4], " "); word != NULL && it.count < WORDS;) {
        words[it.count++] = word;
        word = strtok(NULL, " ");
    }
    bool is = make(&it) && found.len == strlen(fields[5])
        && memcmp(found.bytes, fields[5], found.len) == 0;
    made[it.by - calls]++;
    count(is, fields[0]);
    if (!is) {
        printf("   %s %s = %s\n   found: %.*s\n", fields[1], fields[2], fields[5], (int)found.len,
            (const char *)found.bytes);
    }
    free(found.bytes);
}

/* What no case can express: what only C has. */

/* The BOM and the byte order of first bytes; without a BOM the default, which is little endian for
 * every other number. */
static bool is_bom_detected(void) {
    static const struct {
        const char *bytes;
        dethrux_bom_status status;
        dethrux_byte_order byte_order;
    } rows[] = {
        {"", DETHRUX_BOM_UNDECIDED, 0},     {"FF", DETHRUX_BOM_UNDECIDED, 0},
        {"FE", DETHRUX_BOM_UNDECIDED, 0},   {"FFFE", DETHRUX_BOM_PRESENT, DETHRUX_LITTLE_ENDIAN},
        {"FFFE41", DETHRUX_BOM_PRESENT, DETHRUX_LITTLE_ENDIAN}, {"FEFF", DETHRUX_BOM_PRESENT, DETHRUX_BIG_ENDIAN},
        {"FEFF41", DETHRUX_BOM_PRESENT, DETHRUX_BIG_ENDIAN}, {"FFFF", DETHRUX_BOM_ABSENT, 0},
        {"FEFE", DETHRUX_BOM_ABSENT, 0},    {"4100", DETHRUX_BOM_ABSENT, 0},
    };
    static const uint32_t defaults[] = {DETHRUX_LITTLE_ENDIAN, DETHRUX_BIG_ENDIAN, 2, UINT32_MAX};
    bool is = true;
    for (size_t i = 0; i < sizeof rows / sizeof *rows; i++) {
        text raw = {0};
        is = hex(rows[i].bytes, rows[i].bytes + strlen(rows[i].bytes), &raw) && is;
        for (size_t j = 0; j < sizeof defaults / sizeof *defaults; j++) {
            dethrux_bom found = dethrux_detect_bom((dethrux_byte_order)defaults[j], raw.bytes, raw.len);
            bool present = rows[i].status == DETHRUX_BOM_PRESENT;
            dethrux_byte_order otherwise = defaults[j] == DETHRUX_BIG_ENDIAN ? DETHRUX_BIG_ENDIAN : DETHRUX_LITTLE_ENDIAN;
            is = is && found.status == rows[i].status && found.len == (present ? 2 : 0)
                && found.byte_order == (present ? rows[i].byte_order : otherwise);
        }
        free(raw.bytes);
    }
    return is;
}

/* The macros that compute, at numbers and at a number in 32 bits, with an operator of the lowest
 * precedence, and at the greatest length. The start of the bytes around an offset is one code unit
 * before the offset's. */
static bool are_macros_right(void) {
    const bool yes = true;
    const uint32_t wide = UINT32_MAX;
    const uint64_t most = PTRDIFF_MAX - 1;
    const uint64_t found[][2] = {
        {DETHRUX_AROUND_START(0), 0},
        {DETHRUX_AROUND_START(1), 0},
        {DETHRUX_AROUND_START(2), 0},
        {DETHRUX_AROUND_START(3), 0},
        {DETHRUX_AROUND_START(4), 2},
        {DETHRUX_AROUND_START(5), 2},
        {DETHRUX_AROUND_START(yes ? 7 : 0), 4},
        {DETHRUX_AROUND_START(yes ? 1 : 0), 0},
        {DETHRUX_AROUND_START(0x100000005), 0x100000002},
        {DETHRUX_AROUND_START(UINT64_MAX), UINT64_MAX - 3},
        {DETHRUX_UTF8_MAX(yes ? 3 : 0), 6},
        {DETHRUX_UTF8_MAX(wide), 6442450944},
        {DETHRUX_UTF8_MAX(most), 13835058055282163709u},
        {DETHRUX_UTF16_MAX(yes ? 3 : 0), 6},
        {DETHRUX_UTF16_MAX(wide), 8589934590},
        {DETHRUX_UTF16_MAX(most), UINT64_MAX - 3},
        {DETHRUX_UTF32_MAX(yes ? 3 : 0), 2},
        {DETHRUX_UTF32_MAX(wide), 2147483648},
        {DETHRUX_UTF32_MAX(most), 4611686018427387903},
        {DETHRUX_FROM_UTF32_MAX(yes ? 3 : 0), 12},
        {DETHRUX_FROM_UTF32_MAX(wide), 17179869180},
        {DETHRUX_FROM_UTF32_MAX(most / 4), 9223372036854775804},
        {DETHRUX_WTF8_MAX(yes ? 5 : 0), 6},
        {DETHRUX_WTF8_MAX(wide), 6442450941},
        {DETHRUX_WTF8_MAX(most), 13835058055282163709u},
        {DETHRUX_DECODER_FEED_MAX(yes ? 3 : 0), 9},
        {DETHRUX_DECODER_FEED_MAX(wide), 6442450947},
        {DETHRUX_DECODER_FEED_MAX(most), 13835058055282163712u},
        {DETHRUX_ENCODER_FEED_MAX(yes ? 3 : 0), 8},
        {DETHRUX_ENCODER_FEED_MAX(wide), 8589934592},
        {DETHRUX_ENCODER_FEED_MAX(most), UINT64_MAX - 1},
        {DETHRUX_PENDING_MAX, 3},
        {DETHRUX_WTF8_PENDING_MAX, 6},
        {DETHRUX_DECODER_FINISH_MAX, 3},
        {DETHRUX_ENCODER_FINISH_MAX, 2},
        {DETHRUX_WTF8_ENCODER_FINISH_MAX, 2},
        {DETHRUX_WTF8_ENCODER_FEED_MAX(yes ? 3 : 0), 10},
        {DETHRUX_WTF8_ENCODER_FEED_MAX(wide), 8589934594},
        {DETHRUX_WTF8_ENCODER_FEED_MAX(most - 1), UINT64_MAX - 1},
    };
    bool is = true;
    for (size_t i = 0; i < sizeof found / sizeof *found; i++) {
        is = is && found[i][0] == found[i][1];
    }
    return is;
}

/* The version of the header and of the library, and the version made of its parts. */
static bool is_version_same(void) {
    return dethrux_version() == DETHRUX_VERSION && DETHRUX_VERSION == 2000 && DETHRUX_VERSION_MAJOR == 0 && DETHRUX_VERSION_MINOR == 2
        && DETHRUX_VERSION_PATCH == 0;
}

/* How the number is made of its parts. It uses other parts, since one is 0 today. */
#undef DETHRUX_VERSION_MAJOR
#undef DETHRUX_VERSION_MINOR
#undef DETHRUX_VERSION_PATCH
#define DETHRUX_VERSION_MAJOR 2
#define DETHRUX_VERSION_MINOR 3
#define DETHRUX_VERSION_PATCH 4
static bool is_version_of_parts(void) {
    return DETHRUX_VERSION == 2003004;
}

int main(int words, char **names) {
    static char line[LINE];
    FILE *table = words < 2 ? stdin : fopen(names[1], "r");
    if (table == NULL) {
        perror(names[1]);
        return 1;
    }
    while (fgets(line, sizeof line, table) != NULL) {
        run_line(line);
    }
    for (size_t i = 0; i < CALLS; i++) {
        if (made[i] == 0) {
            count(false, calls[i].name);
        }
    }
    count(is_bom_detected(), "the BOM and the byte order of first bytes");
    count(are_macros_right(), "the macros of the header");
    count(is_version_same(), "the version of the header and of the library");
    count(is_version_of_parts(), "the number of a version");
    printf("%u passed, %u failed\n", passed, failed);
    return failed != 0;
}
