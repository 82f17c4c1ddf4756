// Writes a file of UTF-16 as UTF-16LE with a BOM and CR LF at the ends of lines: text_file FROM TO.
#include <dethrux.hpp>

#include <fstream>
#include <iostream>
#include <iterator>

// Returns the text of a whole file, in UTF-8. Without a BOM it is little endian.
static std::string read(const std::string &path) {
    std::ifstream file(path, std::ios::binary);
    if (!file) {
        throw std::runtime_error("cannot open " + path);
    }
    const std::string raw(std::istreambuf_iterator<char>(file), {});
    return dethrux::to_utf8(dethrux::after_bom(dethrux::byte_order::little, raw)).value();
}

static void write(const std::string &path, std::string_view text) {
    std::string lines;
    for (char c : text) {
        if (c == '\n' && (lines.empty() || lines.back() != '\r')) {
            lines += '\r';
        }
        lines += c;
    }
    std::ofstream file(path, std::ios::binary);
    file << dethrux::bom_bytes(dethrux::byte_order::little)
         << dethrux::from_utf8(dethrux::byte_order::little, lines).value();
    file.close();
    if (!file) {
        throw std::runtime_error("cannot write " + path);
    }
}

int main(int argc, char **argv) {
    if (argc != 3) {
        return 2;
    }
    try {
        write(argv[2], read(argv[1]));
    } catch (const std::exception &error) {
        std::cerr << "text_file: " << error.what() << '\n';
        return 1;
    }
}
