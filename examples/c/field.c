/* Reads the name in a field of a fixed size, which ends with a NUL only if the name is shorter. */
#include <dethrux_alloc.h>

#include <stdio.h>

int main(void) {
    const uint8_t field[12] = {'B', 0, 0xE4, 0, 'r', 0, 0, 0, '?', 0, '?', 0};
    size_t len = dethrux_nul_offset(field, sizeof field);

    dethrux_utf8_text name = dethrux_to_utf8_alloc(DETHRUX_LITTLE_ENDIAN, field, len);
    if (name.status != DETHRUX_DONE) {
        printf("status %u at byte %zu\n", (unsigned)name.status, name.read);
        return 1;
    }
    printf("%s, %zu bytes\n", name.utf8, name.len);
    free(name.utf8);

    char shown[3];
    dethrux_progress part =
        dethrux_to_utf8_lossy_fit(DETHRUX_LITTLE_ENDIAN, field, len, shown, sizeof shown);
    printf("%s%s\n", shown, part.status == DETHRUX_NO_SPACE ? ".." : "");
    return 0;
}
