/* Makes the calls of calls.inc, which run.sh writes: each one of the header, on blocks of memory.
 * With a number, the argument of this number is wrong: a length is one too large, or a block is
 * freed. A sanitizer must report the line that is printed. Without a number the calls are right,
 * and this prints how many arguments there are. */
#include "dethrux.h"

#include <stdio.h>
#include <stdlib.h>

static int wrong, count;

static bool is_wrong(int line) {
    count++;
    if (count == wrong) {
        printf("%d\n", line);
        fflush(stdout);
    }
    return count == wrong;
}

static void *block(size_t size, int line) {
    void *found = calloc(size, 1);
    if (is_wrong(line)) {
        free(found);
    }
    return found;
}

#define by DETHRUX_LITTLE_ENDIAN
#define bytes block(8, __LINE__)
#define units block(8 * 2, __LINE__)
#define points block(8 * 4, __LINE__)
#define decoder block(sizeof(dethrux_decoder), __LINE__)
#define encoder block(sizeof(dethrux_encoder), __LINE__)
#define wtf8_encoder block(sizeof(dethrux_wtf8_encoder), __LINE__)
#define len (is_wrong(__LINE__) ? 9 : 8)

int main(int words, char **numbers) {
    wrong = words > 1 ? atoi(numbers[1]) : 0;
#include "calls.inc"
    printf("%d\n", count);
    return 0;
}
