/* Buffers between two pages without access: a read or write outside of them stops the process. */
#ifndef GUARDED_H
#define GUARDED_H

#include <stdbool.h>
#include <stddef.h>
#include <stdint.h>

/* Where a buffer is: its first byte follows a page without access, or its last byte precedes one. A
 * buffer of 0 bytes may also be a null pointer. */
typedef enum { AT_START, AT_END, AT_NULL, PLACES } place;

enum { GUARDED_MAX = 1 << 16 };

void guarded_init(void);

/* Returns a copy of the bytes that cannot be written to. `which` is 0 or 1, for two at a time. */
const uint8_t *guarded_input(int which, const uint8_t *bytes, size_t len, place at);

/* Returns a buffer of `capacity` bytes, filled like the bytes around it. There is one at a time. */
uint8_t *guarded_output(size_t capacity, place at);

/* Returns a copy of a state of a decoder, of at most a page, that a call may change. */
void *guarded_state(const void *state, size_t len, place at);

/* Returns whether the bytes around the last guarded_output are unchanged, and with `all` also the
 * bytes after its first `written` bytes. */
bool guarded_intact(size_t written, bool all);

#endif
