/* Prints a value of a registry export, which must be smaller than 1 MiB: reg_value FILE NAME. Of
 * hex(2), REG_EXPAND_SZ, and hex(7), REG_MULTI_SZ, it prints each string on a line. */
#include <dethrux.h>

#include <ctype.h>
#include <stdio.h>
#include <stdlib.h>
#include <string.h>

static uint8_t raw[1 << 20];
static uint8_t utf8[DETHRUX_UTF8_MAX(sizeof raw) + 1];

/* Reads bytes such as 61,00, in lines that end with a backslash, and returns how many there are. */
static size_t bytes_of(const char *hex, uint8_t *to) {
    size_t len = 0;
    for (char *end; isxdigit((unsigned char)*hex); hex = end + strspn(end, ",\\\r\n ")) {
        to[len++] = (uint8_t)strtoul(hex, &end, 16);
    }
    return len;
}

/* Prints the strings up to an empty one. A NUL ends each, but may be missing after the last. */
static void print_strings(const uint8_t *utf16, size_t len) {
    for (size_t at = 0, end; at < len; at = end + 2) {
        end = at + dethrux_nul_offset(utf16 + at, len - at);
        if (end == at) {
            return;
        }
        dethrux_progress text =
            dethrux_to_utf8_lossy(DETHRUX_LITTLE_ENDIAN, utf16 + at, end - at, utf8, sizeof utf8);
        printf("%.*s\n", (int)text.written, (const char *)utf8);
    }
}

int main(int argc, char **argv) {
    FILE *file = argc == 3 ? fopen(argv[1], "rb") : NULL;
    if (file == NULL) {
        return 2;
    }
    size_t len = fread(raw, 1, sizeof raw, file);
    bool is_read = !ferror(file) && len < sizeof raw;
    fclose(file);
    if (!is_read) {
        fprintf(stderr, "reg_value: the file cannot be read or is not smaller than 1 MiB\n");
        return 2;
    }

    /* Exports are little endian. REGEDIT4 files are not UTF-16. */
    dethrux_bom bom = dethrux_detect_bom(DETHRUX_LITTLE_ENDIAN, raw, len);
    dethrux_progress text = dethrux_to_utf8_lossy(
        bom.byte_order, raw + bom.len, len - bom.len, utf8, sizeof utf8 - 1);
    utf8[text.written] = 0;

    size_t name_len = strlen(argv[2]);
    for (char *line = (char *)utf8; line != NULL; line = strchr(line, '\n')) {
        line += *line == '\n';
        if (line[0] != '"' || strncmp(line + 1, argv[2], name_len) != 0
            || strncmp(line + 1 + name_len, "\"=", 2) != 0) {
            continue;
        }
        char *value = line + name_len + 3;
        if (strncmp(value, "hex(2):", 7) == 0 || strncmp(value, "hex(7):", 7) == 0) {
            print_strings(raw, bytes_of(value + 7, raw));
        } else {
            printf("%.*s\n", (int)strcspn(value, "\r\n"), value);
        }
        return fflush(stdout) != 0 || ferror(stdout);
    }
    return 1;
}
