// Converts a std::wstring of Windows to UTF-8 and back. There its characters are code units of two
// bytes, so it is passed as it is, and so is an LPCWSTR.
#include <dethrux.hpp>

#include <iostream>
#include <windows.h>

// Returns whether WTF-8 keeps a name, which may have unpaired surrogates.
static bool is_kept(const std::wstring &name) {
    return dethrux::from_wtf8<std::wstring>(dethrux::to_wtf8(name)).value() == name;
}

// Shows a text, with U+FFFD for each unpaired surrogate, and whether it is well formed.
static void show(LPCWSTR text) {
    auto error = dethrux::validate(text);
    if (error) {
        std::cout << "ill formed at code unit " << error->valid_up_to;
    } else {
        std::cout << "UTF-16";
    }
    std::cout << ": '" << dethrux::to_utf8_lossy(text) << "'\n";
}

int main() {
    show(L"");
    show(L"Gr\u00FC\u00DFe \U0001F600");
    show(L"a\xD800" L"b");
    show(L"\xDC00");
    show(L"a\xD83D");
    for (std::string_view utf8 : {"", "Gr\u00FC\u00DFe \U0001F600", "a\xFF" "b"}) {
        auto wide = dethrux::wstring_from_utf8(utf8);
        if (wide) {
            std::cout << wide->size() << " code units, the same text again: "
                      << (dethrux::wstring_to_utf8(*wide).value() == utf8) << '\n';
        } else {
            std::cout << "ill formed at byte " << wide.error().valid_up_to << '\n';
        }
    }
    std::cout << "names that are kept: " << is_kept(L"a\xD800" L"b") << is_kept(L"\xDC00") << '\n';
}
