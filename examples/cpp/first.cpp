// Converts texts both ways, says where one is ill formed, and decodes a stream in chunks.
#include <dethrux.hpp>

#include <iostream>

int main() {
    std::u16string text = dethrux::from_utf8("Gr\u00FC\u00DFe \u2605").value();
    std::cout << text.size() << " code units: " << dethrux::to_utf8(text).value() << '\n';

    auto utf8 = dethrux::to_utf8(u"h\xD83D\xDE00\xDC00!");
    if (!utf8) {
        std::cout << "ill formed at code unit " << utf8.error().valid_up_to << '\n';
    }
    std::cout << dethrux::to_utf8_lossy(u"h\xD83D\xDE00\xDC00!") << '\n';

    std::string to;
    dethrux::decoder decoder(dethrux::byte_order::big);
    for (std::string_view chunk : {std::string_view("\0", 1), std::string_view("a\x26", 2),
             std::string_view("\x05\xD8", 2)}) {
        decoder.feed(chunk, to);
    }
    decoder.finish(to);
    std::cout << to << '\n';
}
