// Prints each line of UTF-8 on standard input in capitals, with the functions for wchar_t.
#include <dethrux.hpp>

#include <clocale>
#include <cstdio>
#include <cwctype>
#include <iostream>

int main() {
    std::setlocale(LC_CTYPE, "");
    for (std::string line; std::getline(std::cin, line);) {
        auto wide = dethrux::wstring_from_utf8(line);
        if (!wide) {
            std::cerr << "wide: ill formed at byte " << wide.error().valid_up_to << '\n';
            return 1;
        }
        for (wchar_t &c : *wide) {
            c = static_cast<wchar_t>(std::towupper(static_cast<std::wint_t>(c)));
        }
        std::cout << dethrux::wstring_to_utf8(*wide).value() << '\n';
    }
    return std::ferror(stdin) || !std::cout.flush();
}
