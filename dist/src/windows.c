/* SPDX-License-Identifier: MIT OR Apache-2.0
 * The calls of the library in the convention of Windows. The proved code keeps the convention of
 * Linux, System V, to which the compiler converts. */
#include "dethrux.h"

#include <string.h>

#define SYSV __attribute__((sysv_abi))
#define CALL(result, name, parameters, arguments) \
    SYSV result sysv_##name parameters; \
    result name parameters { return sysv_##name arguments; }
#define ACTION(name, parameters, arguments) \
    SYSV void sysv_##name parameters; \
    void name parameters { sysv_##name arguments; }
#include "calls.inc"

/* What the proved code calls. */
SYSV void *sysv_memcpy(void *to, const void *from, size_t len);
SYSV void *sysv_memcpy(void *to, const void *from, size_t len) { return memcpy(to, from, len); }
SYSV void *sysv_memmove(void *to, const void *from, size_t len);
SYSV void *sysv_memmove(void *to, const void *from, size_t len) { return memmove(to, from, len); }
SYSV void *sysv_memset(void *to, int byte, size_t len);
SYSV void *sysv_memset(void *to, int byte, size_t len) { return memset(to, byte, len); }
SYSV int sysv_memcmp(const void *a, const void *b, size_t len);
SYSV int sysv_memcmp(const void *a, const void *b, size_t len) { return memcmp(a, b, len); }
/* The entry point of the DLL: there is nothing to prepare. */
int dethrux_dll_entry(void);
int dethrux_dll_entry(void) { return 1; }
