// Preloaded before a program's C library, to make one call fail: the FAULT_AT-th call of the kind
// that FAULT_KIND names. Descriptor 9 gets a byte when that call is reached, and a byte for each
// later write to a descriptor where a write failed.
#define _GNU_SOURCE
#include <dlfcn.h>
#include <errno.h>
#include <stdlib.h>
#include <string.h>
#include <unistd.h>

static long calls;
static int failed_file = -1;

static void *next(const char *name) { return dlsym(RTLD_NEXT, name); }

// Writes a byte to descriptor 9, and returns whether it could.
static int is_told(void) {
    ssize_t (*write)(int, const void *, size_t) = next("write");
    return write(9, "x", 1) == 1;
}

// Returns whether this call, of this kind, must fail.
static int is_met(const char *kind) {
    const char *wanted = getenv("FAULT_KIND"), *at = getenv("FAULT_AT");
    return wanted && at && !strcmp(wanted, kind) && ++calls == atol(at) && is_told();
}

// Returns the same for a write to this descriptor.
static int is_met_at(int file, const char *kind) {
    if (!is_met(kind))
        return 0;
    failed_file = file;
    return 1;
}

static void *refused(void) {
    errno = ENOMEM;
    return NULL;
}

static ssize_t failed(int error) {
    errno = error;
    return -1;
}

void *malloc(size_t size) {
    static void *(*inner)(size_t);
    if (!inner)
        inner = next("malloc");
    return is_met("alloc") ? refused() : inner(size);
}

void *realloc(void *block, size_t size) {
    static void *(*inner)(void *, size_t);
    if (!inner)
        inner = next("realloc");
    return is_met("alloc") ? refused() : inner(block, size);
}

ssize_t read(int file, void *to, size_t size) {
    ssize_t (*inner)(int, void *, size_t) = next("read");
    if (is_met("read"))
        return failed(EIO);
    if (is_met("read_interrupted"))
        return failed(EINTR);
    if (is_met("read_more"))
        return inner(file, to, size) + (ssize_t)size;
    return inner(file, to, size > 1 && is_met("read_short") ? 1 : size);
}

ssize_t write(int file, const void *from, size_t size) {
    ssize_t (*inner)(int, const void *, size_t) = next("write");
    if (file == failed_file)
        is_told();
    if (is_met_at(file, "write"))
        return failed(EIO);
    if (is_met_at(file, "write_interrupted"))
        return failed(EINTR);
    if (is_met_at(file, "write_nothing"))
        return 0;
    if (is_met("write_more"))
        return inner(file, from, size) + (ssize_t)size;
    return inner(file, from, size > 1 && is_met("write_short") ? 1 : size);
}
