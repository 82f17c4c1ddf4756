/* Prints the names in records on standard input. A record is a byte, which is 1 for big endian, and
 * a name of at most 16 code units with NULs after it. */
#include <dethrux.h>

#include <stdio.h>

/* The name is at an odd offset: bytes of UTF-16 need no alignment. */
typedef struct {
    uint8_t is_big;
    uint8_t name[32];
} record;

/* Prints the name up to its first NUL, if it has one. Returns whether it is well formed. */
static bool print_name(const record *from) {
    dethrux_byte_order order = from->is_big ? DETHRUX_BIG_ENDIAN : DETHRUX_LITTLE_ENDIAN;
    size_t len = dethrux_nul_offset(from->name, sizeof from->name);
    uint8_t utf8[DETHRUX_UTF8_MAX(sizeof from->name)];
    dethrux_progress name = dethrux_to_utf8(order, from->name, len, utf8, sizeof utf8);
    printf("%.*s\n", (int)name.written, (const char *)utf8);
    return name.status == DETHRUX_DONE;
}

int main(void) {
    record next;
    size_t len;
    while ((len = fread(&next, 1, sizeof next, stdin)) == sizeof next) {
        if (!print_name(&next)) {
            fprintf(stderr, "record: the name is ill formed\n");
            return 1;
        }
    }
    return len != 0 || ferror(stdin) || fflush(stdout) != 0 || ferror(stdout);
}
