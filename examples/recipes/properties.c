/* Prints the value on each line of a Java .properties file. Its escapes \uXXXX are code units of
 * UTF-16, so a character above U+FFFF has two. */
#include <dethrux.h>

#include <stdio.h>
#include <stdlib.h>
#include <string.h>

/* Reads the code units of a value of Latin-1 with escapes, and returns how many there are. */
static size_t units_of(const char *value, uint16_t *units) {
    size_t len = 0;
    while (*value != 0 && *value != '\n') {
        if (value[0] == '\\' && value[1] == 'u' && strlen(value) >= 6) {
            char digits[5] = {value[2], value[3], value[4], value[5], 0};
            units[len++] = (uint16_t)strtoul(digits, NULL, 16);
            value += 6;
        } else {
            units[len++] = (unsigned char)*value++;
        }
    }
    return len;
}

int main(void) {
    char line[1024];
    while (fgets(line, sizeof line, stdin) != NULL) {
        char *equals = strchr(line, '=');
        if (equals == NULL) {
            continue;
        }
        uint16_t units[sizeof line];
        uint8_t utf8[3 * sizeof line];
        size_t len = units_of(equals + 1, units);
        dethrux_progress text = dethrux_u16_to_utf8_lossy(units, len, utf8, sizeof utf8);
        printf("%.*s\n", (int)text.written, (const char *)utf8);
    }
    return ferror(stdin) || fflush(stdout) != 0 || ferror(stdout);
}
