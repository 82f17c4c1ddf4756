/* One input of the fuzzer: the choices of a caller, then a text, which some calls take as UTF-16
 * and others as UTF-8. */
#ifndef INPUT_H
#define INPUT_H

#include "reference.h"

enum { CHOICES_LEN = 14, CUTS = 4, INPUT_MAX = CHOICES_LEN + TEXT_MAX };

typedef struct {
    dethrux_byte_order order;
    size_t capacity;
    size_t at;               /* an offset */
    uint8_t cuts[CUTS];      /* lengths of the chunks of a stream, in a cycle */
    dethrux_decoder decoder; /* any state */
    uint8_t change;          /* an edit of the second text of a comparison */
    const uint8_t *text;
    size_t len;
} input;

/* Reads an input of any length. Bytes that are missing from the choices are 0, and bytes of the
 * text after TEXT_MAX are left out. */
input parse_input(const uint8_t *bytes, size_t len);

/* Writes an input that the seed decides, of at most INPUT_MAX bytes, and returns its length. It
 * changes the seed to the seed of the next input. */
size_t generate_input(uint64_t *seed, uint8_t *to);

#endif
