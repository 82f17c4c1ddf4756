/* SPDX-License-Identifier: MIT OR Apache-2.0
 * What the proved code of the programs calls, apart from libc: memory, arguments and errno, and on
 * Windows reading and writing. The main of that code has the level of its code in its name. */
#include <errno.h>
#include <stdbool.h>
#include <stddef.h>
#include <stdlib.h>

#ifdef _WIN32
#include <string.h>
#include <windows.h>

/* The proved code keeps the calling convention of Linux. */
#define SYSV __attribute__((sysv_abi))
#define main wmain
typedef wchar_t character;
/* No word of the programs has a character above ASCII, so one byte stands for all of these. */
static unsigned char byte_of(wchar_t unit) { return unit < 0x80 ? (unsigned char)unit : 0xFF; }
#else
#define SYSV
typedef char character;
static unsigned char byte_of(char unit) { return (unsigned char)unit; }
#endif

/* The result of an allocation. `at` is not null even if there is no memory. */
struct block {
    bool ok;
    void *at;
};

static struct block block(void *at) {
    static char none;
    struct block made = {at != NULL, at ? at : &none};
    return made;
}

/* malloc and realloc may return null for 0 bytes, so these ask for as many as the alignment. */
SYSV struct block rattle_alloc(size_t size, size_t alignment) {
    return block(malloc(size ? size : alignment));
}

SYSV struct block rattle_realloc(void *at, size_t kept, size_t size, size_t alignment) {
    (void)kept;
    return block(realloc(at, size ? size : alignment));
}

SYSV void rattle_dealloc(void *at) { free(at); }

SYSV int rattle_errno(void) { return errno; }

SYSV void rattle_set_errno(int number) { errno = number; }

static size_t count;
static character **words;

/* Copies an argument and returns its length, -1 if there is no such argument, or -2 if the buffer
 * is too short, which is full in that case. */
SYSV ptrdiff_t rattle_arg(size_t number, unsigned char *to, size_t len) {
    size_t at = 0;
    if (number >= count)
        return -1;
    for (; words[number][at]; at++) {
        if (at == len)
            return -2;
        to[at] = byte_of(words[number][at]);
    }
    return (ptrdiff_t)at;
}

#ifdef _WIN32
/* Returns what glibc's call does for the leaves of cpuid with the numbers 0 to 2: eax, ebx, ecx and
 * edx, and again without features that the system does not provide. These are the ones of vectors
 * of 256 bits: the first leaf then has no AVX. */
SYSV unsigned *__x86_get_cpuid_feature_leaf(unsigned number) {
    static const unsigned leaves[3] = {1, 7, 0x80000001};
    static unsigned found[3][8];
    unsigned *it = found[number];
    __asm__("cpuid"
            : "=a"(it[4]), "=b"(it[5]), "=c"(it[6]), "=d"(it[7])
            : "a"(leaves[number]), "c"(0));
    if (number == 0) {
        unsigned saved = 0, high;
        if (it[6] & 1u << 27)
            __asm__("xgetbv" : "=a"(saved), "=d"(high) : "c"(0));
        if ((saved & 6) != 6)
            it[6] &= ~(1u << 28);
    }
    return it;
}

/* There is no SIGPIPE to ignore. */
SYSV void *__sysv_signal(int number, void *action) {
    (void)number;
    return action;
}

/* Returns a standard stream by its number on Linux. */
static HANDLE stream(int number) { return GetStdHandle(STD_INPUT_HANDLE - (DWORD)number); }

/* Returns what a read or a write returns on Linux. */
static ptrdiff_t moved(BOOL succeeded, DWORD len) {
    if (succeeded)
        return (ptrdiff_t)len;
    errno = EIO;
    return -1;
}

/* A call of Windows takes at most this many bytes. */
static DWORD most(size_t len) { return len < 0x40000000 ? (DWORD)len : 0x40000000; }

SYSV ptrdiff_t sysv_read(int file, void *to, size_t len) {
    DWORD got = 0;
    BOOL succeeded = ReadFile(stream(file), to, most(len), &got, NULL);
    /* A pipe ends so when its writer is gone. */
    return moved(succeeded || GetLastError() == ERROR_BROKEN_PIPE, got);
}

SYSV ptrdiff_t sysv_write(int file, const void *from, size_t len) {
    DWORD put = 0;
    BOOL succeeded = WriteFile(stream(file), from, most(len), &put, NULL);
    return moved(succeeded, put);
}

/* glibc's other name of it. */
SYSV ptrdiff_t __write(int file, const void *from, size_t len) {
    return sysv_write(file, from, len);
}

SYSV void *sysv_memcpy(void *to, const void *from, size_t len) { return memcpy(to, from, len); }
SYSV void *sysv_memmove(void *to, const void *from, size_t len) { return memmove(to, from, len); }
SYSV void *sysv_memset(void *to, int byte, size_t len) { return memset(to, byte, len); }
SYSV int sysv_memcmp(const void *a, const void *b, size_t len) { return memcmp(a, b, len); }
#endif

#if defined(__aarch64__)
SYSV int proved_main_aarch64(void);
static int proved_main(void) { return proved_main_aarch64(); }
#elif defined(DETHRUX_LEVEL)
#define JOINED(name, level) name##level
#define MAIN_OF(level) JOINED(proved_main_v, level)
SYSV int MAIN_OF(DETHRUX_LEVEL)(void);
static int proved_main(void) { return MAIN_OF(DETHRUX_LEVEL)(); }
#else
#ifndef _WIN32
unsigned *__x86_get_cpuid_feature_leaf(unsigned number);
#endif
SYSV int proved_main_v2(void);
SYSV int proved_main_v3(void);

/* Whether a register has all of these features, which the system provides. */
static bool has(unsigned number, int at, unsigned features) {
    return (__x86_get_cpuid_feature_leaf(number)[4 + at] & features) == features;
}

/* Takes the code for x86-64-v3 if the processor has what this code asks for when it starts: FMA,
 * MOVBE, AVX and F16C, BMI1, AVX2 and BMI2, and LZCNT. */
static int proved_main(void) {
    bool has_v3 = has(0, 2, 0x30401000) && has(1, 1, 0x128) && has(2, 2, 0x20);
    return has_v3 ? proved_main_v3() : proved_main_v2();
}
#endif

int main(int given, character **arguments) {
    count = (size_t)given;
    words = arguments;
    return proved_main();
}
