#define _GNU_SOURCE
#include "guarded.h"

#include <stdio.h>
#include <stdlib.h>
#include <string.h>
#include <sys/mman.h>
#include <unistd.h>

/* The number of bytes tested on each side of an output, and the value that they hold. */
enum { MARGIN = 256, FILLER = 0xA5 };

typedef struct {
    uint8_t *written;    /* the mapping that is written to */
    const uint8_t *read; /* the same pages between guards, without write access */
} input_pages;

static input_pages inputs[2];
static uint8_t *output_pages, *state_pages;

/* The last output, and the bytes around it. */
static struct { uint8_t *margin_start, *start, *end, *margin_end; } output;

static void *checked(void *mapping) {
    if (mapping == MAP_FAILED) {
        perror("mmap");
        exit(2);
    }
    return mapping;
}

/* Returns GUARDED_MAX bytes of address space with a page without access before and after them. */
static uint8_t *between_guards(void) {
    size_t page = (size_t)sysconf(_SC_PAGESIZE);
    uint8_t *all =
        checked(mmap(NULL, GUARDED_MAX + 2 * page, PROT_NONE, MAP_PRIVATE | MAP_ANONYMOUS, -1, 0));
    return all + page;
}

static input_pages map_input(void) {
    int file = memfd_create("input", 0);
    if (file < 0 || ftruncate(file, GUARDED_MAX) != 0) {
        perror("memfd_create");
        exit(2);
    }
    input_pages pages;
    pages.written = checked(mmap(NULL, GUARDED_MAX, PROT_READ | PROT_WRITE, MAP_SHARED, file, 0));
    pages.read =
        checked(mmap(between_guards(), GUARDED_MAX, PROT_READ, MAP_SHARED | MAP_FIXED, file, 0));
    close(file);
    return pages;
}

static uint8_t *map_output(void) {
    return checked(mmap(between_guards(), GUARDED_MAX, PROT_READ | PROT_WRITE,
                        MAP_PRIVATE | MAP_ANONYMOUS | MAP_FIXED, -1, 0));
}

void guarded_init(void) {
    inputs[0] = map_input();
    inputs[1] = map_input();
    output_pages = map_output();
    state_pages = map_output();
}

static size_t offset(size_t len, place at) {
    return at == AT_END ? GUARDED_MAX - len : 0;
}

const uint8_t *guarded_input(int which, const uint8_t *bytes, size_t len, place at) {
    if (len == 0 && at == AT_NULL) {
        return NULL;
    }
    if (len > 0) {
        memcpy(inputs[which].written + offset(len, at), bytes, len);
    }
    return inputs[which].read + offset(len, at);
}

void *guarded_state(const void *state, size_t len, place at) {
    return memcpy(state_pages + offset(len, at), state, len);
}

uint8_t *guarded_output(size_t capacity, place at) {
    uint8_t *last = output_pages + GUARDED_MAX;
    output.start = output_pages + offset(capacity, at);
    output.end = output.start + capacity;
    output.margin_start =
        output.start - output_pages > MARGIN ? output.start - MARGIN : output_pages;
    output.margin_end = last - output.end > MARGIN ? output.end + MARGIN : last;
    memset(output.margin_start, FILLER, (size_t)(output.margin_end - output.margin_start));
    return capacity == 0 && at == AT_NULL ? NULL : output.start;
}

static bool is_filler(const uint8_t *from, const uint8_t *to) {
    while (from < to && *from == FILLER) {
        from++;
    }
    return from == to;
}

bool guarded_intact(size_t written, bool all) {
    return is_filler(output.margin_start, output.start) && is_filler(output.end, output.margin_end)
           && (!all || is_filler(output.start + written, output.end));
}
