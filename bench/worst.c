// Times the calls of the C library on the bytes that cost most, in buffers of each capacity, and
// ICU's converters on the same bytes. README.md describes the results.
#define _POSIX_C_SOURCE 200809L
#include <stdio.h>
#include <string.h>
#include <time.h>
#include <unicode/ucnv.h>
#include "dethrux.h"

enum { INPUT = 1 << 15, ROUNDS = 9, MAX_CAPACITY = 1 << 16 };

static const size_t capacities[] = {16, 32, 64, 128, 256, 1024, 4096, MAX_CAPACITY};
enum { CAPACITIES = sizeof capacities / sizeof *capacities };

// A text consists of its characters in turn, or at random if spaces separate them in `good`. A
// `fault`, an ill-formed sequence, begins each `every` bytes.
struct text {
    const char *name;
    const char *good, *fault;
    size_t every;
};

#define FAULTS(form, good, bad) {form, good, bad, 1}, {form, good, bad, 8}, {form, good, bad, 16}, \
    {form, good, bad, 64}, {form, good, bad, 256}, {form, good, bad, 1000}, {form, good, bad, 5000}, \
    {form, good, bad, 10000}

// UTF-16 in little endian, each code unit as two bytes in hexadecimal digits.
static const struct text utf16[] = {
    {"ASCII", "6100", "", INPUT},
    {"Cyrillic", "3004", "", INPUT},
    {"CJK", "004e", "", INPUT},
    {"emoji", "3dd800de", "", INPUT},
    {"1 to 4 bytes in turn", "610030043dd800de004e", "", INPUT},
    {"1 to 4 bytes at random", "6100 3004 3dd800de 004e", "", INPUT},
    FAULTS("trailing surrogate in ASCII", "6100", "00dc"),
    FAULTS("leading surrogate in ASCII", "6100", "00d8"),
    FAULTS("trailing surrogate in CJK", "004e", "00dc"),
    FAULTS("leading surrogate in emoji", "3dd800de", "00d8"),
};

static const struct text utf8[] = {
    {"ASCII", "61", "", INPUT},
    {"Cyrillic", "d0b0", "", INPUT},
    {"CJK", "e4b880", "", INPUT},
    {"emoji", "f09f9880", "", INPUT},
    {"1 to 4 bytes in turn", "61d0b0f09f9880e4b880", "", INPUT},
    {"1 to 4 bytes at random", "61 d0b0 f09f9880 e4b880", "", INPUT},
    FAULTS("byte FF in ASCII", "61", "ff"),
    FAULTS("continuation byte in CJK", "e4b880", "80"),
    FAULTS("overlong form in ASCII", "61", "c080"),
    FAULTS("surrogate in CJK", "e4b880", "eda080"),
    FAULTS("two of three bytes in Cyrillic", "d0b0", "e4b8"),
    FAULTS("three of four bytes in emoji", "f09f9880", "f09f98"),
};

static uint8_t input[INPUT + 8], output[MAX_CAPACITY];
static UChar units[MAX_CAPACITY];

static uint32_t seed = 1;

// Writes one of the characters that spaces separate, or all if there are no spaces, and returns
// their length.
static size_t put(uint8_t *to, const char *hex) {
    size_t others = 0;
    for (const char *it = hex; (it = strchr(it, ' ')); it++) others++;
    seed = seed * 1664525 + 1013904223;
    for (size_t skip = others ? (seed >> 16) % (others + 1) : 0; skip; skip--)
        hex = strchr(hex, ' ') + 1;
    size_t len = strcspn(hex, " ") / 2;
    for (size_t i = 0; i < len; i++) {
        unsigned byte;
        sscanf(hex + 2 * i, "%2x", &byte);
        to[i] = byte;
    }
    return len;
}

// Writes a text, and returns its length.
static size_t make(const struct text *it) {
    size_t at = 0, next = it->every == INPUT ? INPUT : 0;
    while (at < INPUT - 16) {
        if (at >= next) {
            at += put(input + at, it->fault);
            next = at + it->every;
        } else {
            at += put(input + at, it->good);
        }
    }
    return at;
}

static double seconds(void) {
    struct timespec now;
    clock_gettime(CLOCK_PROCESS_CPUTIME_ID, &now);
    return now.tv_sec + now.tv_nsec * 1e-9;
}

typedef dethrux_progress convert(
    dethrux_byte_order, const void *, size_t, void *, size_t);

// Converts the whole input, a buffer at a time, and continues after each ill-formed sequence.
static void whole(convert *call, size_t len, size_t capacity) {
    size_t at = 0;
    for (;;) {
        dethrux_progress it = call(DETHRUX_LITTLE_ENDIAN, input + at, len - at, output, capacity);
        at += it.read;
        if (it.status == DETHRUX_ILL_FORMED) at += it.error_len;
        else if (it.status != DETHRUX_NO_SPACE) return;
    }
}

// Does the same with a decoder that has a state, in chunks of 1,000 bytes.
static void streamed(size_t len, size_t capacity) {
    dethrux_decoder decoder = DETHRUX_DECODER_INIT;
    size_t at = 0;
    while (at < len) {
        size_t chunk = len - at < 1000 ? len - at : 1000;
        dethrux_progress it = dethrux_decoder_feed(
            &decoder, DETHRUX_LITTLE_ENDIAN, input + at, chunk, output, capacity);
        at += it.read;
    }
}

// Do the same with ICU, lossy, from code units to UTF-8 and back. ICU's converters keep what does
// not fit.
static UConverter *icu;

static void icu_to_utf8(size_t len, size_t capacity) {
    const UChar *source = (const UChar *)input, *end = source + len / 2;
    UErrorCode error = U_BUFFER_OVERFLOW_ERROR;
    ucnv_reset(icu);
    while (error == U_BUFFER_OVERFLOW_ERROR) {
        error = U_ZERO_ERROR;
        char *target = (char *)output;
        ucnv_fromUnicode(icu, &target, target + capacity, &source, end, NULL, 1, &error);
    }
}

static void icu_from_utf8(size_t len, size_t capacity) {
    const char *source = (const char *)input, *end = source + len;
    UErrorCode error = U_BUFFER_OVERFLOW_ERROR;
    ucnv_reset(icu);
    while (error == U_BUFFER_OVERFLOW_ERROR) {
        error = U_ZERO_ERROR;
        UChar *target = units;
        ucnv_toUnicode(icu, &target, target + capacity / 2, &source, end, NULL, 1, &error);
    }
}

enum { STRICT, LOSSY, STREAMED, ICU, CALLS };

static void run(int from, int call, size_t len, size_t capacity) {
    if (call == STRICT) whole(from ? dethrux_from_utf8 : dethrux_to_utf8, len, capacity);
    else if (call == LOSSY)
        whole(from ? dethrux_from_utf8_lossy : dethrux_to_utf8_lossy, len, capacity);
    else if (call == STREAMED) streamed(len, capacity);
    else if (from) icu_from_utf8(len, capacity);
    else icu_to_utf8(len, capacity);
}

// What was measured for a text: the seconds of the fastest round.
struct measured {
    size_t len;
    double best[CALLS][CAPACITIES];
};

static int is_measured(int from, int call) { return !(from && call == STREAMED); }

static void measure(int from, const struct text *text, struct measured *it) {
    it->len = make(text);
    for (int call = 0; call < CALLS; call++)
        for (size_t c = 0; c < CAPACITIES && is_measured(from, call); c++) {
            double start = seconds();
            run(from, call, it->len, capacities[c]);
            double took = seconds() - start;
            if (it->best[call][c] == 0 || took < it->best[call][c]) it->best[call][c] = took;
        }
}

// Prints a line for each call and capacity: the nanoseconds for each byte of input.
static void print(int from, const struct text *text, const struct measured *it) {
    static const char *const names[] = {"strict", "lossy", "streamed", "ICU"};
    for (int call = 0; call < CALLS; call++)
        for (size_t c = 0; c < CAPACITIES && is_measured(from, call); c++) {
            printf("%s\t%s\t%s\t%zu\t%zu\t%.3f\n", from ? "from_utf8" : "to_utf8", names[call],
                text->name, text->every == INPUT ? 0 : text->every, capacities[c],
                it->best[call][c] * 1e9 / it->len);
        }
}

// Measures all texts in each round, since other work of the host can slow a machine down for
// seconds.
int main(void) {
    enum { TO = sizeof utf16 / sizeof *utf16, FROM = sizeof utf8 / sizeof *utf8 };
    static struct measured to[TO], from[FROM];
    UErrorCode error = U_ZERO_ERROR;
    icu = ucnv_open("UTF-8", &error);
    if (U_FAILURE(error)) return 1;
    for (int round = 0; round < ROUNDS; round++) {
        for (size_t t = 0; t < TO; t++) measure(0, &utf16[t], &to[t]);
        for (size_t t = 0; t < FROM; t++) measure(1, &utf8[t], &from[t]);
    }
    for (size_t t = 0; t < TO; t++) print(0, &utf16[t], &to[t]);
    for (size_t t = 0; t < FROM; t++) print(1, &utf8[t], &from[t]);
}
