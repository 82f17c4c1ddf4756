/* SPDX-License-Identifier: MIT OR Apache-2.0 */

/* Makes the same calls of iconv with glibc's converters and with the module's, whose names begin
 * with DETHRUX-, and compares the result, errno, what is left on both sides and the bytes. First
 * come all characters, all single code units and all short sequences of UTF-8, then random calls:
 * chunks and space of any length, a third of the texts ill formed, resets. A difference that
 * docs/ICONV.md lists is recognized by its cause, and counted.
 *
 *     GCONV_PATH=FOLDER calls [CALLS [SEED]]
 *
 * The last line is 'N passed, M failed', which counts pairs of forms with a suffix, and
 * refusals. */
#include <errno.h>
#include <iconv.h>
#include <stdbool.h>
#include <stdio.h>
#include <stdlib.h>
#include <string.h>

enum { UTF8, UTF16, UTF16LE, UTF16BE, FORMS, SUFFIXES = 4, ROOM = 1 << 16, GUARD = 16 };
static const char *const form_names[] = {"UTF-8", "UTF-16", "UTF-16LE", "UTF-16BE"};
static const char *const suffixes[] = {"", "//IGNORE", "//TRANSLIT", "//TRANSLIT//IGNORE"};
static unsigned long long seed;
static unsigned long kinds[4], above_max, kept_order, second_bom, differing;

/* Two converters of the same forms, and what the differences depend on. */
struct both {
    int from, to, suffix;
    iconv_t glibc, ours;
    bool has_begun, has_bom, is_swapped;
    size_t read;
};

struct result {
    size_t value, in_left, out_left;
    int error;
    char out[ROOM + GUARD];
};
static struct result expected, found;

static unsigned below(unsigned n) {
    seed = seed * 6364136223846793005 + 1442695040888963407;
    return (unsigned)((seed >> 33) % n);
}

static iconv_t open_one(const struct both *it, const char *prefix) {
    char from[64], to[64];
    snprintf(from, sizeof from, "%s%s", it->from == UTF8 ? "" : prefix, form_names[it->from]);
    snprintf(to, sizeof to, "%s%s%s", it->to == UTF8 ? "" : prefix, form_names[it->to],
        suffixes[it->suffix]);
    iconv_t cd = iconv_open(to, from);
    if (cd == (iconv_t)-1) {
        printf("failed: there is no conversion from %s to %s\n", from, to);
        exit(1);
    }
    return cd;
}

static void begin(struct both *it) {
    it->has_begun = it->has_bom = it->is_swapped = false;
    it->read = 0;
}

static void open_both(struct both *it) {
    it->glibc = open_one(it, "");
    it->ours = open_one(it, "DETHRUX-");
    begin(it);
}

static void close_both(struct both *it) {
    iconv_close(it->glibc);
    iconv_close(it->ours);
}

static void call(iconv_t cd, const char *in, size_t len, size_t room, struct result *result) {
    char *from = (char *)in, *to = result->out;
    result->in_left = len;
    result->out_left = room;
    memset(to + room, '#', GUARD);
    errno = 0;
    result->value = iconv(cd, &from, &result->in_left, &to, &result->out_left);
    result->error = result->value == (size_t)-1 ? errno : 0;
    if (from != in + len - result->in_left || to != result->out + room - result->out_left
        || memcmp(result->out + room, "################", GUARD) != 0) {
        result->error = -1;
    }
}

/* Returns the length of a sequence of UTF-8's old forms for a number above 0x10FFFF, or 0. */
static size_t above(const unsigned char *at, size_t len) {
    size_t whole = len == 0 || at[0] < 0xF4 || at[0] > 0xFD ? 0 : at[0] < 0xF8 ? 4
                   : at[0] < 0xFC                           ? 5
                                                            : 6;
    if (whole == 0 || len < whole) {
        return 0;
    }
    for (size_t n = 1; n < whole; n++) {
        if ((at[n] & 0xC0) != 0x80) {
            return 0;
        }
    }
    unsigned least = at[0] == 0xF4 ? 0x90 : at[0] == 0xF8 ? 0x88 : at[0] == 0xFC ? 0x84 : 0x80;
    return at[1] >= least ? whole : 0;
}

/* Returns whether the cause of a difference is such a sequence. Without a suffix, glibc may find
 * the output full before it, or have written a BOM. With one, it may have passed it. */
static bool is_known(const struct both *it, const char *in, size_t len, size_t room) {
    const unsigned char *bytes = (const unsigned char *)in;
    size_t read = len - found.in_left, end = len - expected.in_left;
    size_t written = room - found.out_left, more = room - expected.out_left;
    size_t bom = it->to == UTF16 && written < 2 && more >= 2 ? 2 : 0;
    if (it->from != UTF8 || found.error == -1 || expected.error == -1) {
        return false;
    }
    if (it->suffix == 0) {
        return read == end && above(bytes + read, len - read) != 0 && found.error == EILSEQ
            && (expected.error == E2BIG || (expected.error == EILSEQ && bom != 0))
            && more == written + bom && memcmp(expected.out + bom, found.out, written) == 0;
    }
    size_t at = 0, last = read > end ? read : end;
    while (at < len && above(bytes + at, len - at) == 0 && (at < last || bytes[at] >= 0x80)) {
        at++;
    }
    return above(bytes + at, len - at) != 0;
}

static bool is_bom(const char *in, size_t len) {
    return len >= 2 && (memcmp(in, "\xFE\xFF", 2) == 0 || memcmp(in, "\xFF\xFE", 2) == 0);
}

/* Makes a call with both, and returns whether they agree. */
static bool agree(struct both *it, const char *in, size_t len, size_t room) {
    /* If nothing after a BOM was read yet, glibc takes what is there now for another BOM. */
    bool is_second = it->has_bom && it->read == 2 && is_bom(in, len);
    call(it->glibc, in, len, room, &expected);
    call(it->ours, in, len, room, &found);
    kinds[expected.error == 0        ? 0
          : expected.error == EILSEQ ? 1
          : expected.error == EINVAL ? 2
                                     : 3]++;
    if (it->from == UTF16 && !it->has_begun && len >= 2) {
        it->has_begun = true;
        it->has_bom = is_bom(in, len);
        it->is_swapped = it->has_bom && in[0] == '\xFE';
    }
    it->read += len - found.in_left;
    if (expected.value == found.value && expected.error == found.error && found.error != -1
        && expected.in_left == found.in_left && expected.out_left == found.out_left
        && memcmp(expected.out, found.out, room - found.out_left) == 0) {
        return true;
    }
    if (is_second || is_known(it, in, len, room)) {
        *(is_second ? &second_bom : &above_max) += 1;
        return false;
    }
    printf("%s to %s%s, %zu bytes, space for %zu: glibc %zd, %d, left %zu and %zu; "
           "found %zd, %d, left %zu and %zu:",
        form_names[it->from], form_names[it->to], suffixes[it->suffix], len, room,
        (ssize_t)expected.value, expected.error, expected.in_left, expected.out_left,
        (ssize_t)found.value, found.error, found.in_left, found.out_left);
    for (size_t at = 0; at < len && at < 40; at++) {
        printf(" %02X", (unsigned char)in[at]);
    }
    printf("\n");
    if (++differing == 20) {
        printf("0 passed, 20 failed\n");
        exit(1);
    }
    return false;
}

/* Resets both. After a BOM in the other order glibc keeps that order, so a new one begins. */
static void reset_both(struct both *it) {
    char *out = found.out;
    size_t room = below(2) * below(8);
    bool has_out = below(2);
    if (it->is_swapped) {
        iconv_close(it->glibc);
        it->glibc = open_one(it, "");
        kept_order++;
    } else if (iconv(it->glibc, NULL, NULL, has_out ? &out : NULL, &room) != 0) {
        differing++;
    }
    if (iconv(it->ours, NULL, NULL, has_out ? &out : NULL, &room) != 0 || out != found.out) {
        differing++;
    }
    begin(it);
}

static size_t put(char *to, int form, unsigned c) {
    unsigned char *out = (unsigned char *)to;
    if (form == UTF8) {
        size_t len = c < 0x80 ? 1 : c < 0x800 ? 2 : c < 0x10000 ? 3 : 4;
        for (size_t at = len; at-- > 1; c >>= 6) {
            out[at] = (unsigned char)(0x80 | (c & 0x3F));
        }
        out[0] = (unsigned char)(len == 1 ? c : (0xF00 >> len & 0xFF) | c);
        return len;
    }
    unsigned units[] = {c < 0x10000 ? c : 0xD7C0 + (c >> 10), 0xDC00 | (c & 0x3FF)};
    size_t len = c < 0x10000 ? 2 : 4;
    for (size_t at = 0; at < len; at++) {
        out[at] = (unsigned char)(units[at / 2] >> ((at % 2 != 0) == (form == UTF16BE) ? 0 : 8));
    }
    return len;
}

static unsigned any_char(void) {
    static const unsigned ends[] = {0x80, 0x80, 0x800, 0xD800, 0x110000};
    unsigned c = below(ends[below(5)]);
    /* After its first two bytes a text may have these characters too. */
    return c >= 0xD800 && c < 0xE000 ? 'x' : below(8) != 0 ? c : below(2) ? 0xFEFF : 0xFFFE;
}

/* Makes a text of a form, of which about a third are ill formed. UTF-16 has either byte order. */
static size_t make_text(int form, char *text, size_t most) {
    static const unsigned char odd[] = "\x80\xBF\xC0\xC1\xC2\xDF\xE0\xA0\xED\x9F\xEF\xF0\x90\xF3"
                                       "\xF4\x8F\xF5\xF8\xFB\xFC\xFD\xFE\xFF";
    unsigned is_bad = below(3) == 0, errors = 2 + below(2) * below(20000);
    bool is_ascii = below(4) == 0;
    size_t len = 0;
    if (form == UTF16) {
        form = below(2) ? UTF16BE : UTF16LE;
        len += below(3) == 0 ? 0 : put(text, form, 0xFEFF);
    }
    while (len + 8 < most) {
        if (!is_bad || below(errors) != 0) {
            len += put(text + len, form, is_ascii ? below(0x80) : any_char());
        } else if (form != UTF8 && below(8) != 0) {
            len += put(text + len, form, 0xD800 + below(0x800));
        } else {
            for (unsigned n = 1 + below(6); n > 0; n--) {
                text[len++] = (char)(below(3) ? 0x80 | below(0x40) : odd[below(sizeof odd - 1)]);
            }
        }
    }
    return len;
}

/* Converts a text in chunks with both, and returns the number of calls. */
static unsigned long stream(int from, int to, int suffix) {
    static char text[ROOM];
    struct both it = {.from = from, .to = to, .suffix = suffix};
    bool is_long = below(300) == 0;
    size_t len = make_text(from, text, is_long ? sizeof text : 8 + below(below(8) ? 60 : 2000));
    size_t at = 0;
    unsigned long calls = 0;
    open_both(&it);
    for (; at <= len && calls < 200; calls++) {
        size_t rest = len - at;
        size_t chunk = below(3) == 0 ? rest : below(rest < 20 ? (unsigned)rest + 1 : 20);
        size_t room = below(3) == 0 ? ROOM : below(below(2) ? 24 : 6);
        if (!agree(&it, text + at, chunk, room)) {
            break;
        }
        at += chunk - found.in_left;
        if (found.error == EILSEQ && suffix % 2 == 0) {
            at += from == UTF8 ? 1 : 2;
        }
        if (below(16) == 0) {
            reset_both(&it);
        }
        if (at == len && below(2) == 0) {
            break;
        }
    }
    close_both(&it);
    return calls + 1;
}

/* Converts each single code unit, or all sequences of UTF-8 with these ends. */
static void short_texts(struct both *it) {
    for (unsigned n = 0; n <= 0xFFFF; n++) {
        char text[] = {(char)n, (char)(n >> 8), '\x80', '\x80', '\x80', '\x80', 'x'};
        agree(it, text, 2, 16);
        reset_both(it);
        if (it->from != UTF8 || (n & 0xFF) < 0xC0) {
            continue;
        }
        for (size_t len = 1; len <= sizeof text; len++) {
            text[2] = len % 2 ? '\x80' : '\xBF';
            agree(it, text, len, 16);
            reset_both(it);
        }
    }
}

/* Converts texts with an error before, at and after the ends of glibc's blocks. */
static void blocks(struct both *it) {
    static const unsigned lens[] = {0, 1, 8159, 8160, 8161};
    static char text[ROOM];
    for (unsigned n = 0; n < 25; n++) {
        size_t len = 0;
        for (unsigned at = 0; at < lens[n / 5]; at++) {
            len += put(text + len, it->from, at % 2 ? 0x20AC : 0x1F600);
        }
        len += put(text + len, it->from, 0xDC00);
        for (unsigned at = 0; at < lens[n % 5]; at++) {
            len += put(text + len, it->from, at % 2 ? 0x20AC : 0x1F600);
        }
        agree(it, text, len, ROOM);
    }
}

/* Converts all characters, in pieces that fit into the space. */
static void all_chars(struct both *it) {
    static char text[ROOM];
    size_t len = 0;
    for (unsigned c = 0; c <= 0x10FFFF; c++) {
        if (c < 0xD800 || c > 0xDFFF) {
            len += put(text + len, it->from, c);
        }
        if (len + 4 > sizeof text / 3 || c == 0x10FFFF) {
            agree(it, text, len, ROOM);
            len = 0;
        }
    }
}

/* Returns whether the module refuses conversions that it does not have, and to be a step before
 * others, which this configuration makes it. */
static bool refuses_others(void) {
    iconv_t cd = iconv_open("ISO-8859-1", "DETHRUX-UTF-16LE");
    call(cd, "x\0", 2, ROOM, &found);
    iconv_close(cd);
    return found.error == EBADF && found.in_left == 2 && found.out_left == ROOM
        && iconv_open("UTF-8", "DETHRUX-UTF-32") == (iconv_t)-1
        && iconv_open("DETHRUX-UTF-32", "UTF-8") == (iconv_t)-1
        && iconv_open("UTF-8", "UTF-8") == (iconv_t)-1;
}

int main(int argc, char **argv) {
    unsigned long calls = argc > 1 ? strtoul(argv[1], NULL, 10) : 1000000;
    unsigned long pairs = (FORMS * FORMS - 1) * SUFFIXES, done = 0;
    unsigned passed = refuses_others(), failed = !passed;
    seed = argc > 2 ? strtoul(argv[2], NULL, 10) : 1;
    for (int it = SUFFIXES; it < FORMS * FORMS * SUFFIXES; it++) {
        struct both both = {.from = it / SUFFIXES / FORMS, .to = it / SUFFIXES % FORMS};
        both.suffix = it % SUFFIXES;
        unsigned long before = differing, made = 0;
        while (made < calls / pairs) {
            made += stream(both.from, both.to, both.suffix);
        }
        if (both.suffix < 2) {
            open_both(&both);
            all_chars(&both);
            close_both(&both);
            open_both(&both);
            short_texts(&both);
            blocks(&both);
            close_both(&both);
        }
        done += made;
        passed += differing == before;
        failed += differing != before;
    }
    printf("%lu random calls and all characters: results %lu, EILSEQ %lu, EINVAL %lu, E2BIG %lu\n",
        done, kinds[0], kinds[1], kinds[2], kinds[3]);
    printf("known: %lu for a number above 0x10FFFF, %lu second BOMs, %lu resets of the other order\n",
        above_max, second_bom, kept_order);
    printf("%u passed, %u failed\n", passed, failed);
    return failed != 0;
}
