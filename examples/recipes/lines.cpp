// Numbers the lines of UTF-16 on standard input, and prints them in UTF-8. It keeps one line and
// one chunk, whatever the length of the input.
#include <dethrux.hpp>

#include <cstdio>
#include <iostream>

// Prints the complete lines, of which none ends before `from`, and leaves the rest. Only LF and
// CR LF end a line: U+2028, U+0085 and VT are part of it.
static void take_lines(std::string &text, std::size_t from, std::size_t &count) {
    std::size_t begin = 0;
    for (std::size_t end; (end = text.find('\n', from)) != text.npos; begin = from = end + 1) {
        const bool has_cr = end > begin && text[end - 1] == '\r';
        std::cout << ++count << ": " << text.substr(begin, end - begin - has_cr) << '\n';
    }
    text.erase(0, begin);
}

int main() {
    dethrux::bom_decoder decoder(dethrux::byte_order::little);
    std::string text;
    std::size_t count = 0;
    for (char chunk[4096]; std::cin.read(chunk, sizeof chunk), std::cin.gcount() > 0;) {
        const std::size_t from = text.size();
        decoder.feed({chunk, static_cast<std::size_t>(std::cin.gcount())}, text);
        take_lines(text, from, count);
    }
    decoder.finish(text);
    if (!text.empty()) {
        take_lines(text += '\n', 0, count);
    }
    return std::ferror(stdin) || !std::cout.flush();
}
