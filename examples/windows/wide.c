/* Converts texts of Windows to UTF-8 and back, and says which are not UTF-16. There wchar_t is a
 * code unit of two bytes: in C it is the type uint16_t, so no cast is needed. */
#include <dethrux_alloc.h>

#include <stdio.h>
#include <stdlib.h>
#include <string.h>
#include <windows.h>

/* Prints UTF-16 in UTF-8, with U+FFFD for each unpaired surrogate. */
static void show(LPCWSTR text) {
    size_t len = wcslen(text);
    dethrux_validity validity = dethrux_u16_validate(text, len);
    dethrux_utf8_text utf8 = dethrux_u16_to_utf8_lossy_alloc(text, len);
    if (utf8.status == DETHRUX_NO_MEMORY) {
        exit(1);
    }
    /* A leading surrogate at the end is DETHRUX_INCOMPLETE: nothing follows, so it is unpaired. */
    if (validity.status == DETHRUX_DONE) {
        printf("UTF-16: '%s'\n", utf8.utf8);
    } else {
        printf("ill formed at code unit %u: '%s'\n", (unsigned)validity.valid_up_to, utf8.utf8);
    }
    free(utf8.utf8);
}

/* Prints the code units of what fits. It is a part if the text is ill formed or too long. */
static void show_wide(const char *utf8) {
    wchar_t wide[8];
    dethrux_progress progress =
        dethrux_u16_from_utf8_fit(utf8, strlen(utf8), wide, sizeof wide / sizeof *wide);
    printf("%s:", progress.status == DETHRUX_DONE ? "all" : "a part");
    for (LPCWSTR unit = wide; *unit != L'\0'; unit++) {
        printf(" %04X", *unit);
    }
    putchar('\n');
}

int main(void) {
    show(L"");
    show(L"Gr\x00FC\x00DF" L"e \xD83D\xDE00");
    show(L"a\xD800" L"b");
    show(L"\xDC00");
    show(L"a\xD83D");
    show_wide("");
    show_wide("Gr\xC3\xBC\xC3\x9F" "e");
    show_wide("\xF0\x9F\x98\x80");
    show_wide("a\xFF" "b");
    show_wide("abcdef\xF0\x9F\x98\x80");
    return 0;
}
