/* The checks that are made on each input: one for each call of the library, and one of WTF-8. */
#ifndef CHECKS_H
#define CHECKS_H

#include "input.h"

typedef struct {
    const char *name; /* of the call */
    void (*run)(void);
} check;

extern const check CHECKS[];
extern const size_t CHECK_COUNT;

/* Decodes an input for the checks that follow. */
void checks_begin(const input *in);

/* Called for each difference, with a line that says what differs. It must not return. */
_Noreturn void report_difference(const char *what);

#endif
