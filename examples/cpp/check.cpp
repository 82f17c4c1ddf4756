// Makes the calls of dethrux.hpp in both byte orders and on code units, and compares with results
// that were worked out by hand; then makes each allocation of each call fail in turn. The last line
// is 'N passed, M failed'.
#include "dethrux.hpp"

#include <algorithm>
#include <array>
#include <cstdio>
#include <cstdlib>
#include <new>
#include <stdexcept>
#include <vector>
#if __cplusplus >= 202002L
#include <span>
#endif

static int passed, failed;
// How many allocations succeed before one fails; none fails while this is negative.
static long left = -1;
static std::size_t requests, largest_request;

void *operator new(std::size_t size) {
    if (left >= 0 && left-- == 0) {
        throw std::bad_alloc();
    }
    requests++;
    largest_request = size > largest_request ? size : largest_request;
    if (void *found = std::malloc(size == 0 ? 1 : size)) {
        return found;
    }
    throw std::bad_alloc();
}

// Not inlined, so that gcc does not mistake the pair of malloc and free for a pair of new and free.
[[gnu::noinline]] void operator delete(void *memory) noexcept {
    std::free(memory);
}
[[gnu::noinline]] void operator delete(void *memory, std::size_t) noexcept {
    std::free(memory);
}

static void check(const std::string &name, bool holds) {
    if (holds) {
        passed++;
    } else {
        failed++;
        std::printf("failed: %s\n", name.c_str());
    }
}

using dethrux::byte_order;
using namespace std::string_literals;
using namespace std::string_view_literals;

// A text in a form: in bytes of a byte order, or in code units, from what it is in big endian. An
// odd byte at the end is unchanged.
static std::string in_form(std::string_view big, byte_order order) {
    std::string found(big);
    for (std::size_t i = 1; order == byte_order::little && i < big.size(); i += 2) {
        std::swap(found[i - 1], found[i]);
    }
    return found;
}

static std::u16string in_form(std::string_view big) {
    std::u16string found;
    for (std::size_t i = 1; i < big.size(); i += 2) {
        unsigned high = static_cast<unsigned char>(big[i - 1]);
        found += static_cast<char16_t>(high << 8 | static_cast<unsigned char>(big[i]));
    }
    return found;
}

// Checks a call on the text of a row in each form. The call gets the bytes of an element, and the
// byte order if the form is bytes. A text with an odd byte has no code units.
template <class Row, class Call>
static void check_forms(const char *name, const Row &from, Call holds) {
    check(name + ": "s + from.name, holds(std::size_t{1}, byte_order::big)
                                        && holds(std::size_t{1}, byte_order::little)
                                        && (from.big.size() % 2 != 0 || holds(std::size_t{2})));
}

// A text in big endian, and what the calls find in it. Offsets count bytes. `cuts` has a bar for
// each offset that is a boundary. `utf8` and `mended` have U+FFFD for what is ill formed, and
// `pending` is how many of the last bytes a decoder keeps.
struct row {
    const char *name;
    std::string big;
    std::optional<dethrux::error> reason;
    std::size_t chars;
    bool is_ascii;
    std::string utf8;
    std::string cuts;
    std::size_t pending;
    std::size_t unpaired;
    std::string mended;
};

// Most are another text in the other byte order: of other characters, or ill formed in one only.
static const row rows[] = {
    {"nothing", ""s, {}, 0, true, ""s, "|"s, 0, 0, ""s},
    {"ASCII", "\0a\0b\0c"s, {}, 3, true, "abc"s, "|.|.|.|"s, 0, 0, "\0a\0b\0c"s},
    {"swapped ASCII", "a\0"s, {}, 1, false, "\xE6\x84\x80"s, "|.|"s, 0, 0, "a\0"s},
    {"U+FFFD", "\xFF\xFD"s, {}, 1, false, "\xEF\xBF\xBD"s, "|.|"s, 0, 0, "\xFF\xFD"s},
    {"one to four bytes", "\0a\0\xE9\x4E\x2D\xD8\x3D\xDE\0"s, {}, 4, false,
        "a\xC3\xA9\xE4\xB8\xAD\xF0\x9F\x98\x80"s, "|.|.|.|...|"s, 0, 0,
        "\0a\0\xE9\x4E\x2D\xD8\x3D\xDE\0"s},
    {"a swapped pair", "\x3D\xD8\0\xDE"s, {}, 2, false, "\xE3\xB7\x98\xC3\x9E"s, "|.|.|"s, 0, 0,
        "\x3D\xD8\0\xDE"s},
    {"two pairs", "\xD8\x3D\xDE\0\xD8\x3D\xDE\x01"s, {}, 2, false,
        "\xF0\x9F\x98\x80\xF0\x9F\x98\x81"s, "|...|...|"s, 0, 0, "\xD8\x3D\xDE\0\xD8\x3D\xDE\x01"s},
    {"unpaired surrogates", "\0a\xDC\0\0b\xD8\0"s, dethrux::error{2, 2}, 3, false,
        "a\xEF\xBF\xBD"
        "b\xEF\xBF\xBD"s,
        "|.|.|.|.|"s, 2, 2, "\0a\xFF\xFD\0b\xFF\xFD"s},
    {"swapped unpaired surrogates", "\0\xDC\0\xD8"s, {}, 2, false, "\xC3\x9C\xC3\x98"s, "|.|.|"s, 0,
        0, "\0\xDC\0\xD8"s},
    {"an unpaired surrogate before ASCII", "\xD8\0\0a"s, dethrux::error{0, 2}, 2, false,
        "\xEF\xBF\xBD"
        "a"s,
        "|.|.|"s, 0, 1, "\xFF\xFD\0a"s},
    {"an odd byte", "\0a\0b\0"s, dethrux::error{4, 0}, 2, false, "ab\xEF\xBF\xBD"s, "|.|.||"s, 1, 0,
        "\0a\0b\0"s},
    {"one byte", "a"s, dethrux::error{0, 0}, 0, false, "\xEF\xBF\xBD"s, "||"s, 1, 0, "a"s},
    {"the first half of a pair", "\0a\xD8\x3D"s, dethrux::error{2, 0}, 2, false, "a\xEF\xBF\xBD"s,
        "|.|.|"s, 2, 1, "\0a\xFF\xFD"s},
    {"three bytes of a pair", "\0a\xD8\x3D\xDE"s, dethrux::error{2, 0}, 2, false, "a\xEF\xBF\xBD"s,
        "|.|..|"s, 3, 1, "\0a\xFF\xFD\xDE"s},
};

static std::optional<dethrux::error> in_elements(
    const std::optional<dethrux::error> &reason, std::size_t element) {
    return reason ? dethrux::error{reason->valid_up_to / element, reason->error_len / element}
                  : reason;
}

static void look(const row &from) {
    check_forms("validate", from, [&](std::size_t element, auto... order) {
        return dethrux::validate(order..., in_form(from.big, order...))
               == in_elements(from.reason, element);
    });
    check_forms("count_chars", from, [&](std::size_t, auto... order) {
        return dethrux::count_chars(order..., in_form(from.big, order...)) == from.chars;
    });
    check_forms("is_ascii", from, [&](std::size_t, auto... order) {
        return dethrux::is_ascii(order..., in_form(from.big, order...)) == from.is_ascii;
    });
    // An odd byte at the end counts, but not after half of a pair, which is unpaired.
    const std::size_t replaced = from.unpaired + (from.pending == 1 ? 1 : 0);
    check_forms("to_utf8_replacements", from, [&](std::size_t, auto... order) {
        return dethrux::to_utf8_replacements(order..., in_form(from.big, order...)) == replaced;
    });
}

static void change(const row &from) {
    check_forms("make_well_formed", from, [&](std::size_t, auto... order) {
        auto text = in_form(from.big, order...);
        return dethrux::make_well_formed(order..., text) == from.unpaired
               && text == in_form(from.mended, order...);
    });
    std::string bytes = from.big;
    dethrux::swap_byte_order(bytes);
    std::u16string units = in_form(from.big);
    dethrux::swap_byte_order(units);
    check("swap_byte_order: "s + from.name,
        bytes == in_form(from.big, byte_order::little) && units == in_form(bytes));
}

// Whether a text has a boundary at an offset, and this one at or before it.
template <class... Order>
static bool is_cut(
    const row &from, std::size_t at, bool is_boundary, std::size_t floor, Order... order) {
    auto text = in_form(from.big, order...);
    return dethrux::is_char_boundary(order..., text, at) == is_boundary
           && dethrux::floor_char_boundary(order..., text, at) == floor;
}

// At each offset of the text, and after its end: one past, twice as far, and where a multiple of
// the offset wraps to one that is inside.
static void cut(const row &from) {
    check_forms("boundaries", from, [&](std::size_t element, auto... order) {
        bool is = true;
        std::size_t len = from.big.size() / element, half = SIZE_MAX / 2 + 1;
        for (std::size_t at = 0; at <= len; at++) {
            std::size_t floor = from.cuts.rfind('|', at * element);
            is = is && is_cut(from, at, floor == at * element, floor / element, order...);
        }
        for (std::size_t at :
            {len + 1, 2 * len + 1, half, half + 1, half + len, half / 2, SIZE_MAX - 1, SIZE_MAX}) {
            is = is && is_cut(from, at, false, len, order...);
        }
        return is;
    });
}

static void to_utf8(const row &from) {
    check_forms("to_utf8", from, [&](std::size_t element, auto... order) {
        auto found = dethrux::to_utf8(order..., in_form(from.big, order...));
        return from.reason ? !found && found.error() == in_elements(from.reason, element)
                           : found && found.value() == from.utf8;
    });
    check_forms("to_utf8_lossy", from, [&](std::size_t, auto... order) {
        return dethrux::to_utf8_lossy(order..., in_form(from.big, order...)) == from.utf8;
    });
}

// Whether a call of a stream succeeds: it returns nothing, true, or no error.
template <class Call>
static bool succeeds(Call call) {
    using returned = decltype(call());
    if constexpr (std::is_void_v<returned>) {
        call();
        return true;
    } else if constexpr (std::is_same_v<returned, bool>) {
        return call();
    } else {
        return !call();
    }
}

// Whether a decoder or an encoder, which gets all these streams, appends this to a text, in two
// chunks that are cut at each offset.
template <class Stream, class Chunk, class Text>
static bool streams(Stream &by, const Chunk &from, std::size_t pending, const Text &before,
    const Text &wanted) {
    bool is = true;
    for (std::size_t at = 0; at <= from.size(); at++) {
        Text to = before;
        is = is && succeeds([&] { return by.feed(from.substr(0, at), to); })
             && succeeds([&] { return by.feed(from.substr(at), to); }) && by.pending() == pending
             && succeeds([&] { return by.finish(to); }) && by.pending() == 0
             && to == before + wanted;
    }
    return is;
}

static void decode(const row &from) {
    check_forms("decoder", from, [&](std::size_t, auto... order) {
        dethrux::decoder by(order...);
        return streams(by, in_form(from.big, order...), from.pending, "before "s, from.utf8);
    });
}

// The code points of well-formed UTF-8.
static std::u32string points_of(std::string_view utf8) {
    std::u32string found;
    for (char byte : utf8) {
        char32_t bits = static_cast<unsigned char>(byte);
        if ((bits & 0xC0) == 0x80) {
            found.back() = found.back() << 6 | (bits & 0x3F);
        } else {
            found += bits < 0xC0   ? bits
                     : bits < 0xE0 ? bits & 0x1F
                     : bits < 0xF0 ? bits & 0xF
                                   : bits & 7;
        }
    }
    return found;
}

static dethrux::repertoire least(const std::u32string &text) {
    char32_t most = 0;
    for (char32_t point : text) {
        most = point > most ? point : most;
    }
    return most < 0x80      ? dethrux::repertoire::ascii
           : most < 0x100   ? dethrux::repertoire::latin1
           : most < 0x10000 ? dethrux::repertoire::bmp
                            : dethrux::repertoire::unicode;
}

static void inspect(const row &from) {
    const std::u32string text = points_of(from.utf8);
    std::size_t end = from.reason ? from.reason->valid_up_to : from.big.size(), count = 0;
    for (std::size_t at = 0; at < end; at += text[count++] < 0x10000 ? 2u : 4u) {
    }
    check_forms("inspect", from, [&](std::size_t element, auto... order) {
        dethrux::inspection found = dethrux::inspect(order..., in_form(from.big, order...));
        return found.error == in_elements(from.reason, element) && found.chars == count
               && found.repertoire == least(text.substr(0, count));
    });
}

static void to_utf32(const row &from) {
    const std::u32string text = points_of(from.utf8);
    check_forms("to_utf32", from, [&](std::size_t element, auto... order) {
        auto found = dethrux::to_utf32(order..., in_form(from.big, order...));
        return from.reason ? !found && found.error() == in_elements(from.reason, element)
                           : found && found.value() == text;
    });
    check_forms("to_utf32_lossy", from, [&](std::size_t, auto... order) {
        return dethrux::to_utf32_lossy(order..., in_form(from.big, order...)) == text;
    });
    check_forms("from_utf32", from, [&](std::size_t, auto... order) {
        auto found = dethrux::from_utf32(order..., text);
        auto lossy = dethrux::from_utf32_lossy(order..., text);
        return found && *found == lossy && (from.reason || lossy == in_form(from.big, order...))
               && points_of(dethrux::to_utf8(order..., lossy).value()) == text;
    });
}

static void to_latin1(const row &from) {
    const std::u32string text = points_of(from.utf8);
    bool is = !from.reason && least(text) <= dethrux::repertoire::latin1;
    const std::string latin1(text.begin(), text.end());
    check_forms("to_latin1", from, [&](std::size_t, auto... order) {
        auto found = dethrux::to_latin1(order..., in_form(from.big, order...));
        return is ? found && *found == latin1
                        && dethrux::from_latin1(order..., latin1) == in_form(from.big, order...)
                  : !found;
    });
}

// Not by ==, whose wmemcmp reads after the end, which valgrind takes for a mistake.
static bool is_same(const std::wstring &a, const std::wstring &b) {
    return std::equal(a.begin(), a.end(), b.begin(), b.end());
}

// A std::wstring has code points on Linux, and code units on Windows.
static void to_wstring(const row &from) {
    if (from.big.size() % 2 != 0) {
        return;
    }
    const std::u16string units = in_form(from.big), mended = in_form(from.mended);
    const std::u32string text = points_of(from.utf8);
    const bool is_utf16 = sizeof(wchar_t) == 2;
    const std::wstring wide = is_utf16 ? std::wstring(mended.begin(), mended.end())
                                       : std::wstring(text.begin(), text.end());
    auto found = dethrux::to_wstring(units);
    check("to_wstring: "s + from.name, from.reason
                                           ? !found && found.error() == in_elements(from.reason, 2)
                                           : found && is_same(*found, wide));
    auto back = dethrux::from_wstring(wide);
    check("from_wstring: "s + from.name, back && *back == mended
                                             && dethrux::from_wstring_lossy(wide) == mended
                                             && is_same(dethrux::to_wstring_lossy(units), wide));
}

// What is not a character stops a strict call, and a lossy one replaces it.
static void no_characters() {
    for (char32_t other : {0xD800u, 0xDFFFu, 0x110000u, 0x80000061u, 0xFFFFFFFFu}) {
        const std::u32string text = {U'a', other, U'b'};
        const dethrux::error reason{1, 1};
        bool is = dethrux::validate_utf32(text) == reason;
        for (byte_order order : {byte_order::little, byte_order::big}) {
            auto found = dethrux::from_utf32(order, text);
            is = is && !found && found.error() == reason
                 && dethrux::from_utf32_lossy(order, text) == in_form("\0a\xFF\xFD\0b"s, order);
        }
        auto found = dethrux::from_utf32(text);
        check("what is no character", is && !found && found.error() == reason
                                          && dethrux::from_utf32_lossy(text) == u"a\uFFFDb"
                                          && !dethrux::validate_utf32(U"a\U0001F600"));
    }
    const std::wstring wide = {L'a', static_cast<wchar_t>(0xD800), L'b'};
    auto found = dethrux::from_wstring(wide);
    check("a surrogate in a std::wstring", !found && found.error() == dethrux::error{1, 1}
                                               && dethrux::from_wstring_lossy(wide) == u"a\uFFFDb");
    check("all of Latin-1", dethrux::from_latin1("a\xFF\x80"sv) == u"a\u00FF\u0080"
                                && dethrux::from_latin1(byte_order::big, ""sv).empty()
                                && dethrux::to_latin1(u"\u00FF\u0100"sv) == std::nullopt);
}

// A text in UTF-8, where it is ill formed, and what it is in UTF-16 in big endian. `pending` is how
// many of its last bytes a decoder keeps, and `replaced` how many sequences become U+FFFD.
struct row8 {
    const char *name;
    std::string utf8;
    std::optional<dethrux::error> reason;
    std::string big;
    std::size_t pending;
    std::size_t replaced;
};

static const row8 rows8[] = {
    {"nothing", "", {}, ""s, 0, 0},
    {"ASCII", "abc", {}, "\0a\0b\0c"s, 0, 0},
    {"one to four bytes", "a\xC3\xA9\xE4\xB8\xAD\xF0\x9F\x98\x80", {},
        "\0a\0\xE9\x4E\x2D\xD8\x3D\xDE\0"s, 0, 0},
    {"U+FFFD", "\xEF\xBF\xBD", {}, "\xFF\xFD"s, 0, 0},
    {"bytes that UTF-8 never has", "\xFF\xFF\xFF", dethrux::error{0, 1},
        "\xFF\xFD\xFF\xFD\xFF\xFD"s, 0, 3},
    {"two bytes of three, and a letter",
        "a\xE4\xB8"
        "b",
        dethrux::error{1, 2}, "\0a\xFF\xFD\0b"s, 0, 1},
    {"one byte of two", "a\xC3", dethrux::error{1, 0}, "\0a\xFF\xFD"s, 1, 1},
    {"two bytes of three", "\xE4\xB8", dethrux::error{0, 0}, "\xFF\xFD"s, 2, 1},
    {"three bytes of four", "\xF0\x9F\x98", dethrux::error{0, 0}, "\xFF\xFD"s, 3, 1},
};

static void from_utf8(const row8 &from) {
    check_forms("from_utf8", from, [&](std::size_t, auto... order) {
        auto found = dethrux::from_utf8(order..., from.utf8);
        return from.reason ? !found && found.error() == from.reason
                           : found && found.value() == in_form(from.big, order...);
    });
    check_forms("from_utf8_lossy", from, [&](std::size_t, auto... order) {
        return dethrux::from_utf8_lossy(order..., from.utf8) == in_form(from.big, order...);
    });
    check("from_utf8_replacements: "s + from.name,
        dethrux::from_utf8_replacements(from.utf8) == from.replaced);
}

static void encode(const row8 &from) {
    check_forms("encoder", from, [&](std::size_t, auto... order) {
        dethrux::encoder by(order...);
        const auto before = in_form("\0b\0e"s, order...), wanted = in_form(from.big, order...);
        return streams(by, from.utf8, from.pending, before, wanted);
    });
}

// Code units in big endian, and their WTF-8. `pending` is how many of the last bytes of the
// code units, and of the WTF-8, wait for more.
struct row_of_wtf8 {
    const char *name;
    std::string big;
    std::string wtf8;
    std::size_t pending;
    std::size_t pending8;
};

static const row_of_wtf8 rows_of_wtf8[] = {
    {"nothing", ""s, "", 0, 0},
    {"one to four bytes", "\0a\0\xE9\x4E\x2D\xD8\x3D\xDE\0"s,
        "a\xC3\xA9\xE4\xB8\xAD\xF0\x9F\x98\x80", 0, 0},
    {"a swapped pair", "\x3D\xD8\0\xDE"s, "\xE3\xB7\x98\xC3\x9E", 0, 0},
    {"unpaired surrogates", "\0a\xDC\0\0b\xD8\0\0c"s,
        "a\xED\xB0\x80"
        "b\xED\xA0\x80"
        "c",
        0, 0},
    {"halves of pairs before a pair", "\xDF\xFF\xDB\xFF\xD8\0\xDC\0"s,
        "\xED\xBF\xBF\xED\xAF\xBF\xF0\x90\x80\x80", 0, 0},
    {"the first half of a pair", "\0a\xD8\x3D"s, "a\xED\xA0\xBD", 2, 3},
};

static void wtf8(const row_of_wtf8 &from) {
    check_forms("from_wtf8", from, [&](std::size_t, auto... order) {
        auto found = dethrux::from_wtf8(order..., from.wtf8);
        return found && *found == in_form(from.big, order...);
    });
    bool is = true;
    for (byte_order order : {byte_order::little, byte_order::big}) {
        auto found = dethrux::to_wtf8(order, in_form(from.big, order));
        auto odd = dethrux::to_wtf8(order, in_form(from.big + "a", order));
        is = is && found && *found == from.wtf8 && !odd
             && odd.error() == dethrux::error{from.big.size(), 0};
    }
    check("to_wtf8: "s + from.name, is && dethrux::to_wtf8(in_form(from.big)) == from.wtf8);
}

// After each stream the decoder gets one with an odd byte at its end.
static void decode_wtf8(const row_of_wtf8 &from) {
    check_forms("wtf8_decoder", from, [&](std::size_t element, auto... order) {
        const auto text = in_form(from.big, order...);
        dethrux::wtf8_decoder by(order...);
        bool is = streams(by, text, from.pending, "before "s, from.wtf8);
        std::string to;
        by.feed(text, to);
        by.feed("a"sv.substr(element - 1), to);
        return is && by.pending() == from.pending + (element == 1)
               && by.finish(to) == (element == 2) && by.pending() == 0 && to == from.wtf8;
    });
}

static void encode_wtf8(const row_of_wtf8 &from) {
    check_forms("wtf8_encoder", from, [&](std::size_t, auto... order) {
        dethrux::wtf8_encoder by(order...);
        const auto before = in_form("\0b\0e"s, order...), wanted = in_form(from.big, order...);
        return streams(by, from.wtf8, from.pending8, before, wanted);
    });
}

// What is not WTF-8, and where a stream says so, counted from its start. After that the encoder
// reads nothing, until the stream ends.
static void not_wtf8() {
    const struct {
        std::string wtf8;
        dethrux::error reason;
        std::u16string front;
    } all[] = {
        {"ab\xED\xA0\x80\xED\xB0\x80", {5, 3}, u"ab\xD800"},
        {"\xFF", {0, 1}, u""},
        {"a\xED\xA0\xE4", {1, 2}, u"a"},
        {"a\xED\xA0\x80\xF0\x9F\x98", {4, 0}, u"a\xD800"},
        {"\xED", {0, 0}, u""},
    };
    for (const auto &one : all) {
        auto found = dethrux::from_wtf8(one.wtf8);
        bool is = !found && found.error() == one.reason;
        for (byte_order order : {byte_order::little, byte_order::big}) {
            auto bytes = dethrux::from_wtf8(order, one.wtf8);
            is = is && !bytes && bytes.error() == one.reason;
        }
        dethrux::wtf8_encoder encoder;
        for (std::size_t at = 0; at <= one.wtf8.size(); at++) {
            std::u16string to;
            auto first = encoder.feed(one.wtf8.substr(0, at), to);
            auto second = encoder.feed(one.wtf8.substr(at), to);
            bool is_cut = one.reason.is_incomplete();
            is = is && (!first || first == one.reason)
                 && (is_cut ? !second && encoder.pending() > 0
                            : second == one.reason && encoder.pending() == 0)
                 && (is_cut || encoder.feed("after"sv, to) == one.reason)
                 && encoder.finish(to) == one.reason && to == one.front && encoder.pending() == 0
                 && !encoder.feed("b"sv, to) && !encoder.finish(to) && to == one.front + u"b";
        }
        check("what is not WTF-8", is);
    }
    std::u16string to;
    dethrux::wtf8_encoder six;
    check("six bytes wait", !six.feed("\xED\xA0\xBD\xF0\x9F\x98"sv, to) && six.pending() == 6
                                && !six.feed("\x80"sv, to) && to == u"\xD83D\xD83D\xDE00");
}

// Two texts in big endian, and the sign of their comparison. Each is given in each form.
struct pair_row {
    const char *name;
    std::string first, second;
    int wanted;
};

static const pair_row pairs[] = {
    {"nothing and nothing", ""s, ""s, 0},
    {"a text and nothing", "\0a"s, ""s, 1},
    {"a text and itself", "\0a\x4E\x2D\0\xE9"s, "\0a\x4E\x2D\0\xE9"s, 0},
    {"a text and its first half", "\0a\0b\0c\0d"s, "\0a\0b"s, 1},
    {"texts that differ at the end", "\0a\0b\0c"s, "\0a\0b\0d"s, -1},
    {"bytes in the other order", "\x01\0"s, "\0\x02"s, 1},
    {"a code unit above surrogates, and a pair", "\xFF\x5E"s, "\xD8\x3D\xDE\0"s, -1},
    {"an unpaired surrogate and U+FFFD", "\xD8\0"s, "\xFF\xFD"s, 0},
    {"an odd byte and U+FFFD", "\0a\0"s, "\0a\xFF\xFD"s, 0},
};

static int sign(int compared) {
    return (compared > 0) - (compared < 0);
}

static void compare(const pair_row &from) {
    bool is = true;
    for (byte_order one : {byte_order::little, byte_order::big}) {
        for (byte_order other : {byte_order::little, byte_order::big}) {
            std::string first = in_form(from.first, one), second = in_form(from.second, other);
            is = is && sign(dethrux::compare(one, first, other, second)) == from.wanted
                 && sign(dethrux::compare(other, second, one, first)) == -from.wanted;
        }
    }
    check("compare: "s + from.name, is);
    if ((from.first.size() + from.second.size()) % 2 == 0) {
        std::u16string first = in_form(from.first), second = in_form(from.second);
        check("compare in code units: "s + from.name,
            sign(dethrux::compare(first, second)) == from.wanted
                && sign(dethrux::compare(second, first)) == -from.wanted);
    }
}

// A text and a pattern in big endian, and the first and the last byte at which it occurs.
struct search_row {
    const char *name;
    std::string big, pattern;
    std::size_t first, last;
};

using dethrux::npos;
static_assert(npos == std::u16string_view::npos && npos == DETHRUX_NOT_FOUND);

static const search_row searches[] = {
    {"nothing in nothing", ""s, ""s, 0, 0},
    {"nothing in a text", "\0a\0b\0c"s, ""s, 0, 6},
    {"a text in nothing", ""s, "\0a"s, npos, npos},
    {"a text in itself", "\0a\x4E\x2D\0\xE9"s, "\0a\x4E\x2D\0\xE9"s, 0, 0},
    {"a unit that is there twice", "\0a\0b\0c\0b\0a"s, "\0b"s, 2, 6},
    {"bytes in the other order", "a\0\0a"s, "\0a"s, 2, 2},
    {"bytes of two units",
        "Aa"
        "aA"s,
        "AA"s, npos, npos},
    {"a pair", "\xD8\x3D\xDE\0\0a\xD8\x3D\xDE\0"s, "\xD8\x3D\xDE\0"s, 0, 6},
    {"only half of a pair", "\0a\xD8\x3D\xDE\0"s, "\0a\xD8\x3D"s, npos, npos},
    {"an odd byte", "\0a\0b\0"s, "\0"s, 4, 4},
    {"units before an odd byte", "\0a\0a\0"s, "\0a"s, 0, 2},
};

// A search for code units has a pattern of whole units.
static void search(const search_row &from) {
    auto in_elements = [](std::size_t at, std::size_t element) {
        return at == npos ? npos : at / element;
    };
    check_forms("find and rfind", from, [&](std::size_t element, auto... order) {
        auto text = in_form(from.big, order...), pattern = in_form(from.pattern, order...);
        return (element == 2 && from.pattern.size() % 2 != 0)
               || (dethrux::find(order..., text, pattern) == in_elements(from.first, element)
                   && dethrux::rfind(order..., text, pattern) == in_elements(from.last, element));
    });
}

// The first NUL, which is a code unit, and the length without one.
static void first_nul() {
    const dethrux::bytes bytes;
    const dethrux::units units;
    check("nul_offset of bytes",
        dethrux::nul_offset(bytes) == 0 && dethrux::nul_offset("a\0\0\1"sv) == 4
            && dethrux::nul_offset("a\0\0"sv) == 3 && dethrux::nul_offset("a\0\0\0b\0"sv) == 2
            && dethrux::nul_offset("\0a\0\0\0\0"sv) == 2);
    check("nul_offset of code units",
        dethrux::nul_offset(units) == 0 && dethrux::nul_offset(u"ab"sv) == 2
            && dethrux::nul_offset(u"a\0b\0"sv) == 1 && dethrux::nul_offset(u"\0"sv) == 0
            && dethrux::nul_offset(u"\u0100a"sv) == 2);
    const char16_t name[] = {u'a', u'b'};
    const std::uint16_t numbers[] = {0x61, 0, 0x62};
    check("nul_offset of an array", dethrux::nul_offset(name) == 2
                                        && dethrux::nul_offset(numbers) == 1
                                        && dethrux::nul_offset(u"abc") == 3);
}

// Parts of a file, and the operators of an error.
static void others() {
    const auto around = "\xD8\x3D\xDE\0"sv;
    check("floor_char_boundary_around",
        dethrux::floor_char_boundary_around(byte_order::big, around, 1001) == 998
            && dethrux::floor_char_boundary_around(byte_order::little, around, 1001) == 1000
            && dethrux::floor_char_boundary_around(byte_order::little, "\x3D\xD8\0\xDE"sv, 1001)
                   == 998
            && dethrux::floor_char_boundary_around(byte_order::big, around, UINT64_MAX)
                   == UINT64_MAX - 3
            && dethrux::floor_char_boundary_around(byte_order::big, {}, 0) == 0);
    check("shard_offset", dethrux::shard_offset(11, 3, 2) == 8
                              && dethrux::shard_offset(11, 3, 3) == 11
                              && dethrux::shard_offset(UINT64_MAX, 3, 1) == 6148914691236517206);
    check("the kinds of an error", dethrux::to_utf8(u"ab\xD800").error().is_incomplete()
                                       && !dethrux::to_utf8(u"\xDC00").error().is_incomplete()
                                       && dethrux::error{1, 2} == dethrux::error{1, 2}
                                       && dethrux::error{1, 2} != dethrux::error{1, 1}
                                       && dethrux::error{1, 2} != dethrux::error{2, 2}
                                       && !(dethrux::error{1, 2} == dethrux::error{1, 1})
                                       && !(dethrux::error{1, 2} == dethrux::error{2, 2})
                                       && !(dethrux::error{1, 2} != dethrux::error{1, 2})
                                       && dethrux::error{} == dethrux::error{0, 0});
}

// Whether a call throws that there is no value, with this error and message.
template <class Call>
static bool has_no_value(Call call, dethrux::error reason, const char *message) {
    try {
        call();
    } catch (const dethrux::ill_formed &thrown) {
        return thrown.error() == reason && thrown.what() == std::string(message);
    }
    return false;
}

// Whether a call throws an exception of this type.
template <class Exception, class Call>
static bool throws(Call call) {
    try {
        call();
    } catch (const Exception &) {
        return true;
    }
    return false;
}

static void results() {
    auto found = dethrux::to_utf8(u"text"), lost = dethrux::to_utf8(u"\xDC00");
    const auto found_const = found, lost_const = lost;
    check("a result with a value", found.has_value() && found && found.value() == "text"
                                       && *found == "text" && found->size() == 4
                                       && found_const.value() == "text" && *found_const == "text"
                                       && found_const->size() == 4);
    check("the place of a value", &*found == &found.value() && found.operator->() == &found.value()
                                      && &*found_const == &found_const.value()
                                      && found_const.operator->() == &found_const.value());
    *found += "+";
    found->append("-");
    found.value() += "=";
    check("a value that is changed", *found == "text+-=" && *found_const == "text");
    check("a result without a value",
        !lost.has_value() && !lost && lost_const.error() == dethrux::error{0, 1});
    check("a value or another", dethrux::to_utf8(u"\xDC00").value_or("other") == "other"
                                    && dethrux::to_utf8(u"text").value_or("other") == "text");
    const auto says = "ill-formed sequence of length 1 at offset 0";
    check("the value of an error",
        has_no_value([&] { (void)lost.value(); }, {0, 1}, says)
            && has_no_value([&] { (void)lost_const.value(); }, {0, 1}, says)
            && has_no_value([&] { (void)std::move(lost).value(); }, {0, 1}, says)
            && has_no_value([] { (void)dethrux::to_utf8(u"ab\xD800").value(); }, {2, 0},
                "incomplete character at offset 2"));
    check("the error of a value",
        throws<std::bad_variant_access>([&] { (void)found_const.error(); }));
    check("a value or another of a result that is kept",
        found_const.value_or("other") == "text" && lost_const.value_or("other") == "other"
            && *found_const == "text");
    const auto size = [](const std::string &text) { return text.size(); };
    const auto halve = [](const std::string &text) {
        return dethrux::from_utf8(text.substr(0, 2));
    };
    check("what is made of a value",
        found_const.transform(size) == std::size_t{4}
            && lost_const.transform(size).error() == lost.error()
            && found_const.and_then(halve) == u"te"s
            && lost_const.and_then(halve) == dethrux::error{0, 1}
            && dethrux::to_utf8(u"text").transform([](std::string text) { return text + "!"; })
                   == "text!"s
            && dethrux::to_utf8(u"\xE9\xE9").and_then([](std::string text) {
                   return dethrux::from_utf8(text.substr(1));
               }) == dethrux::error{0, 1}
            && dethrux::to_utf8(u"\xDC00").and_then([](std::string text) {
                   return dethrux::from_utf8(text);
               }) == dethrux::error{0, 1}
            && dethrux::to_utf8(u"\xDC00").transform([](std::string text) { return text; })
                   == dethrux::error{0, 1});
    check("results that are equal", found_const == dethrux::to_utf8(u"text")
                                        && found_const != lost_const && !(found_const == "texts"s)
                                        && lost_const == lost && !(lost_const != lost)
                                        && lost_const != dethrux::error{0, 2});
    const dethrux::result<std::string> made = dethrux::error{3, 2};
    check("a result that is made of an error", !made && made.error() == dethrux::error{3, 2});
    std::string moved = std::move(found).value(), also = *dethrux::to_utf8(u"text");
    check("a value that is moved", moved == "text+-=" && also == "text");
}

// What can be given as bytes, as code units and as code points, and what cannot: three elements, of
// which the last one is a NUL.
template <class Element, class View, class Text>
static bool is_taken(Text (*call)(View), Element second, const Text &wanted) {
    const std::array<Element, 3> text{Element{'a'}, second, Element{0}};
    const std::vector<Element> more(text.begin(), text.end());
    bool is = call(text) == wanted && call(more) == wanted
              && call({text.data(), 2}) == wanted.substr(0, wanted.size() - 1);
#if __cplusplus >= 202002L
    is = is && call(std::span(more)) == wanted && call(std::span<const Element>(text)) == wanted;
#endif
    return is;
}

template <class... Elements, class View, class Text>
static bool are_taken(Text (*call)(View), char32_t second, const Text &wanted) {
    return (is_taken(call, static_cast<Elements>(second), wanted) && ...);
}

enum class letter : char {};
enum class unit : std::uint16_t {};
enum class point : std::uint32_t {};
template <std::size_t Size>
struct no_element {
    char of[Size];
};

template <class View, class Element>
constexpr bool takes = std::is_convertible_v<std::vector<Element>,
                           View> || std::is_constructible_v<View, const Element *, std::size_t>;

template <class View, class... Elements>
constexpr bool takes_any = (takes<View, Elements> || ...);

static void views() {
    const auto of_chars = +[](dethrux::chars text) { return dethrux::from_utf8(text).value(); };
    const auto of_units = +[](dethrux::utf16 text) { return dethrux::to_utf8(text).value(); };
    const auto of_points = +[](dethrux::points text) { return dethrux::from_utf32(text).value(); };
    check("bytes",
        are_taken<char, unsigned char, signed char, std::byte, letter>(of_chars, U'b', u"ab\0"s));
    check("code units", are_taken<char16_t, std::uint16_t, short, unit>(of_units, U'b', "ab\0"s));
    check("code points",
        are_taken<char32_t, std::uint32_t, int, point>(of_points, 0x1F600, u"a\U0001F600\0"s));
    check("strings",
        dethrux::from_utf8("ab"s).value() == u"ab" && dethrux::from_utf8("ab"sv).value() == u"ab"
            && dethrux::from_utf8("ab").value() == u"ab" && dethrux::to_utf8(u"ab"s).value() == "ab"
            && dethrux::to_utf8(u"ab"sv).value() == "ab" && dethrux::to_utf8(u"ab").value() == "ab"
            && dethrux::from_utf32(U"ab"s).value() == u"ab"
            && dethrux::from_utf32(U"ab"sv).value() == u"ab"
            && dethrux::from_utf32(U"ab").value() == u"ab");
    const std::u32string text = U"ab";
    const dethrux::points all = text;
    check("what a view has", all.size() == 2 && all.data() == static_cast<const void *>(text.data())
                                 && dethrux::units(u"abc").size() == 3
                                 && dethrux::bytes("abcd"sv).size() == 4
                                 && *dethrux::bytes("abcd"sv).data() == 'a');
#if __cplusplus >= 202002L
    check("char8_t", are_taken<char8_t>(of_chars, U'b', u"ab\0"s)
                         && dethrux::from_utf8(u8"ab").value() == u"ab"
                         && dethrux::to_utf8<std::u8string>(u"\xE9").value() == u8"\u00E9");
#endif
    using wide = std::conditional_t<sizeof(wchar_t) == 2, dethrux::units, dethrux::points>;
    check("texts of wchar_t", wide(L"abc").size() == 3);
    static_assert(!std::is_constructible_v<dethrux::bytes, const char *>);
    static_assert(!std::is_constructible_v<dethrux::bytes, char(&)[4]>);
    static_assert(!std::is_constructible_v<dethrux::chars, const unsigned char *>);
    static_assert(!std::is_constructible_v<dethrux::units, const short *>);
    static_assert(!takes_any<dethrux::bytes, char16_t, char32_t, no_element<1>, float>);
    static_assert(!takes_any<dethrux::units, char, char32_t, no_element<2>, float>);
    static_assert(!takes_any<dethrux::points, char, char16_t, no_element<4>, float>);
}

// What each call that reads finds in no elements. None throws.
template <class Text, class... Order>
static bool reads_nothing(Text none, Order... order) {
    bool is = none.size() == 0 && none.data() == nullptr;
#define READS(call, wanted) \
    static_assert(noexcept(dethrux::call)); \
    is = is && dethrux::call == (wanted)
    READS(validate(order..., none), std::nullopt);
    READS(count_chars(order..., none), 0);
    READS(is_ascii(order..., none), true);
    READS(to_utf8_replacements(order..., none), 0);
    READS(is_char_boundary(order..., none, 0), true);
    READS(is_char_boundary(order..., none, 1), false);
    READS(floor_char_boundary(order..., none, 0), 0);
    READS(floor_char_boundary(order..., none, 1), 0);
    READS(compare(order..., none, order..., none), 0);
    READS(find(order..., none, none), 0);
    READS(rfind(order..., none, none), 0);
    READS(nul_offset(none), 0);
    READS(inspect(order..., none).error, std::nullopt);
    READS(inspect(order..., none).chars, 0);
    READS(inspect(order..., none).repertoire, dethrux::repertoire::ascii);
    return is;
}

// No elements, as bytes and as code units, leave a stream where it is.
static bool streams_nothing(byte_order order) {
    const dethrux::bytes bytes;
    const dethrux::units units;
    std::string to;
    std::u16string wide;
    dethrux::decoder decoder(order);
    dethrux::encoder encoder(order);
    dethrux::wtf8_decoder wtf8_decoder(order);
    dethrux::wtf8_encoder wtf8_encoder(order);
    auto stays = [&](std::size_t pending) {
        decoder.feed(bytes, to);
        decoder.feed(units, to);
        encoder.feed(bytes, to);
        encoder.feed(bytes, wide);
        wtf8_decoder.feed(bytes, to);
        wtf8_decoder.feed(units, to);
        return !wtf8_encoder.feed(bytes, to) && !wtf8_encoder.feed(bytes, wide) && to.empty()
               && wide.empty() && decoder.pending() == pending && encoder.pending() == pending
               && wtf8_decoder.pending() == pending && wtf8_encoder.pending() == pending;
    };
    bool is = stays(0);
    decoder.feed("\xD8"sv, to);
    encoder.feed("\xE4"sv, to);
    wtf8_decoder.feed("\xD8"sv, to);
    return is && !wtf8_encoder.feed("\xE4"sv, to) && stays(1);
}

// Every call that takes a view, with one that was made of nothing: its pointer is null.
static void no_elements() {
    const dethrux::bytes bytes;
    const dethrux::units units;
    const dethrux::points points;
    check("no elements in code units", reads_nothing(units));
    check("no elements in a std::wstring",
        dethrux::to_wstring(units).value().empty() && dethrux::to_wstring_lossy(units).empty()
            && dethrux::from_wstring(std::wstring_view()).value().empty()
            && dethrux::from_wstring_lossy(std::wstring_view()).empty());
    check("no code points", points.size() == 0 && points.data() == nullptr
                                && dethrux::points().data() == nullptr
                                && !dethrux::validate_utf32(points));
    for (byte_order order : {byte_order::little, byte_order::big}) {
        check("no elements in bytes", reads_nothing(bytes, order));
        check("no elements in a part of a file",
            dethrux::floor_char_boundary_around(order, bytes, 0) == 0);
        check("no elements in a stream", streams_nothing(order));
    }
}

template <class... Streams>
constexpr bool are_streams = ((noexcept(Streams()) && noexcept(std::declval<Streams &>().pending())
                                  && !std::is_convertible_v<byte_order, Streams>)&&...);

// What the compiler tests: no call on a text throws, no conversion is implicit, and a byte order
// can have any value.
static void types() {
    using dethrux::bytes;
    const bytes text;
    std::string changed;
    std::u16string changed_wide;
    const byte_order order = byte_order::big;
    constexpr dethrux_byte_order any{5u};
    static_assert(any == 5);
    static_assert(noexcept(dethrux::from_utf8_replacements(text)));
    static_assert(noexcept(dethrux::floor_char_boundary_around(order, text, 0)));
    static_assert(noexcept(dethrux::shard_offset(0, 0, 0)));
    static_assert(noexcept(dethrux::nul_offset(u"")));
    static_assert(noexcept(dethrux::swap_byte_order(changed)));
    static_assert(noexcept(dethrux::swap_byte_order(changed_wide)));
    static_assert(noexcept(dethrux::make_well_formed(order, changed)));
    static_assert(noexcept(dethrux::make_well_formed(changed_wide)));
    static_assert(are_streams<dethrux::decoder, dethrux::encoder>);
    static_assert(are_streams<dethrux::wtf8_decoder, dethrux::wtf8_encoder>);
    static_assert(!std::is_convertible_v<dethrux::result<std::string>, bool>);
    // What `*` and `->` give for a result, for a constant one and for one that is moved.
    using result = dethrux::result<std::string>;
    static_assert(std::is_same_v<decltype(*std::declval<result &>()), std::string &>);
    static_assert(std::is_same_v<decltype(*std::declval<const result &>()), const std::string &>);
    static_assert(std::is_same_v<decltype(*std::declval<result>()), std::string &&>);
    static_assert(noexcept(*std::declval<result &>()) &&noexcept(*std::declval<const result &>()));
    static_assert(noexcept(*std::declval<result>()));
    static_assert(std::is_same_v<decltype(std::declval<result &>().operator->()), std::string *>);
    static_assert(
        std::is_same_v<decltype(std::declval<const result &>().operator->()), const std::string *>);
    static_assert(noexcept(std::declval<result &>().operator->()));
    static_assert(noexcept(std::declval<const result &>().operator->()));
}

// A decoder in any order decodes code units of the machine's, and one that is made without an order
// has the machine's.
template <class Decoder>
static bool decodes_native() {
    Decoder in_big(byte_order::big), without;
    std::string to;
    in_big.feed(u"\x4E00", to);
    without.feed(in_form("\x4E\0"s, byte_order::native), to);
    return to == "\xE4\xB8\x80\xE4\xB8\x80";
}

// The stream ends inside a character, of which these bytes came. The end gives this code unit.
template <class Encoder>
static bool encodes_native(const std::string &start, char16_t end) {
    Encoder in_big(byte_order::big), without;
    std::u16string units;
    std::string bytes;
    return succeeds([&] { return in_big.feed("\xE4\xB8\x80" + start, units); })
           && succeeds([&] { return in_big.finish(units); })
           && succeeds([&] { return without.feed("\xE4\xB8\x80"sv, bytes); })
           && units == std::u16string{0x4E00, end}
           && bytes == in_form("\x4E\0"s, byte_order::native);
}

static void orders() {
    const std::string native = in_form("\x4E\0"s, byte_order::native);
    check("decoders and the machine's order", decodes_native<dethrux::decoder>());
    check("decoders to WTF-8 and the machine's order", decodes_native<dethrux::wtf8_decoder>());
    check("encoders and the machine's order", encodes_native<dethrux::encoder>("\xE4", 0xFFFD));
    check("encoders of WTF-8 and the machine's order",
        encodes_native<dethrux::wtf8_encoder>("\xED\xA0\xBD", 0xD83D));
    check("the native byte order",
        dethrux::to_utf8(byte_order::native, native).value() == "\xE4\xB8\x80"
            && native == std::string(reinterpret_cast<const char *>(u"\x4E00"), 2));
}

// A string that has no capacity left, so that each call that appends allocates.
template <class Text>
static Text full() {
    Text to;
    to.resize(to.capacity(), 'x');
    return to;
}

// Makes each allocation of a call fail in turn, until one call makes no further allocation.
// `unchanged` says whether nothing changed.
template <class Call, class Unchanged>
static bool without_memory(Call call, Unchanged unchanged) {
    bool kept = true;
    long granted = 0;
    for (bool refused = true; refused; granted++) {
        refused = false;
        left = granted;
        try {
            call();
        } catch (const std::bad_alloc &) {
            refused = true;
        }
        left = -1;
        kept = kept && (!refused || unchanged());
    }
    return kept && granted > 1;
}

// A call of a decoder that keeps bytes changes nothing without memory. With memory it appends a
// text.
template <class Decoder, class Text, class Call>
static bool appends(Decoder decoder, std::size_t pending, const Text &text, Call call) {
    Text to = full<Text>();
    const Text before = to;
    return without_memory([&] { call(decoder, to); },
               [&] { return to == before && decoder.pending() == pending; })
           && to == before + text && decoder.pending() == 0;
}

// The rest of a character gives it, and the end of the stream gives a mark, such as U+FFFD.
template <class Stream, class Text>
static bool keeps(Stream by, std::string_view first, std::string_view rest, const Text &text,
    const Text &mark) {
    Text none;
    return succeeds([&] { return by.feed(first, none); }) && none.empty()
           && appends(by, first.size(), text, [&](auto &it, auto &to) { (void)it.feed(rest, to); })
           && appends(by, first.size(), mark, [](auto &it, auto &to) { (void)it.finish(to); });
}

static void memory() {
    const std::string pair = "\xD8\x3D\xDE\0"s, utf8 = "\xF0\x9F\x98\x80"s;
    for (byte_order order : {byte_order::little, byte_order::big}) {
        const std::string text = in_form(pair, order), mark = in_form("\xFF\xFD"s, order);
        dethrux::wtf8_encoder waits(order);
        std::string none;
        check("the end of wtf8_encoder without memory",
            !waits.feed("\xED\xA0\xBD"sv, none)
                && appends(waits, 3, in_form("\xD8\x3D"s, order),
                    [](auto &by, auto &to) { (void)by.finish(to); })
                && appends(waits, 3, u"\xD83D"s, [](auto &by, auto &to) { (void)by.finish(to); }));
        for (std::size_t at = 1; at < 4; at++) {
            const std::string first = utf8.substr(0, at), rest = utf8.substr(at);
            const std::string name = " without memory, cut at " + std::to_string(at);
            check("decoder" + name, keeps(dethrux::decoder(order), text.substr(0, at),
                                        text.substr(at), utf8, "\xEF\xBF\xBD"s));
            check("encoder" + name, keeps(dethrux::encoder(order), first, rest, text, mark));
            check("encoder to code units" + name,
                keeps(dethrux::encoder(order), first, rest, in_form(pair), u"\uFFFD"s));
            const std::string lead = at < 2 ? ""s : "\xED\xA0\xBD"s;
            check("wtf8_decoder" + name, keeps(dethrux::wtf8_decoder(order), text.substr(0, at),
                                             text.substr(at), utf8, lead));
            check("wtf8_encoder" + name,
                keeps(dethrux::wtf8_encoder(order), first, rest, text, ""s)
                    && keeps(dethrux::wtf8_encoder(order), first, rest, in_form(pair), u""s));
        }
    }
}

// A file with the BOM of each order, one without, and what is too short for a BOM.
static void boms() {
    for (byte_order order : {byte_order::little, byte_order::big}) {
        const byte_order other = order == byte_order::big ? byte_order::little : byte_order::big;
        const std::string text = in_form("\0a\xD8\x3D\xDE\0"s, order);
        const std::string file = in_form("\xFE\xFF"s, order) + text, odd = file + "\0"s;
        const std::string utf8 = "a\xF0\x9F\x98\x80";
        check("bom_bytes", dethrux::bom_bytes(order) == in_form("\xFE\xFF"s, order));
        const dethrux::bom found = dethrux::detect_bom(other, file);
        const dethrux::bom none = dethrux::detect_bom(order, text);
        check("detect_bom", dethrux::bom{}.len == 0 && found.len == 2 && found.order == order
                                && !found.is_undecided && none.len == 0 && none.order == order
                                && !none.is_undecided
                                && dethrux::detect_bom(order, "\xFF"sv).is_undecided
                                && dethrux::detect_bom(order, {}).is_undecided
                                && dethrux::detect_bom(order, {}).order == order);
        check("after_bom",
            dethrux::to_utf8(dethrux::after_bom(other, file)).value() == utf8
                && dethrux::to_utf8(dethrux::after_bom(order, text)).value() == utf8
                && dethrux::to_utf8(dethrux::after_bom(other, odd)).error() == dethrux::error{6, 0}
                && dethrux::count_chars(dethrux::after_bom(other, file)) == 2);
        bool is = true;
        dethrux::bom_decoder decoder(order), default_other(other);
        for (const std::string &stream : {file, text, odd, "\xFF"s, "\xFE"s, ""s, "\xFF\xFE"s}) {
            auto &by = stream == file || stream == odd ? default_other : decoder;
            const std::string wanted = dethrux::to_utf8_lossy(
                dethrux::after_bom(stream == file || stream == odd ? other : order, stream));
            for (std::size_t at = 0; at <= stream.size(); at++) {
                std::string to = "before ";
                by.feed(std::string_view(stream).substr(0, at), to);
                is = is && (at != 1 || by.pending() == 1) && by.order().has_value() == (at > 1);
                by.feed(std::string_view(stream).substr(at), to);
                is = is
                     && (stream.size() < 2
                         || by.order() == dethrux::detect_bom(order, stream).order);
                by.finish(to);
                is = is && to == "before " + wanted && by.pending() == 0 && !by.order();
            }
            std::string to;
            for (char byte : stream) {
                by.feed(std::string_view(&byte, 1), to);
                by.feed({}, to);
            }
            is = is && by.pending() == (stream == odd ? 1u : stream.size() == 1 ? 1u : 0u);
            by.finish(to);
            is = is && to == wanted;
        }
        check("bom_decoder", is);
    }
}

// Appended to strings and vectors, and written to arrays and spans of each length.
static void outputs() {
    const std::u16string text = u"a\xE9\xD83D\xDE00", lone = u"a\xDC00" + text;
    const std::string utf8 = "a\xC3\xA9\xF0\x9F\x98\x80", mended = "a\xEF\xBF\xBD" + utf8;
    std::string to = "before ";
    std::vector<unsigned char> more = {'x'};
    check("append_utf8", !dethrux::append_utf8(text, to) && to == "before " + utf8
                             && dethrux::append_utf8(lone, to) == dethrux::error{1, 1}
                             && to == "before " + utf8 + "a" && !dethrux::append_utf8(text, more)
                             && more.size() == 8 && more[0] == 'x' && more[7] == 0x80);
    dethrux::append_utf8_lossy(lone, to = "x");
    check("append_utf8_lossy", to == "x" + mended);
    check("an odd byte after letters of three bytes",
        dethrux::to_utf8_lossy(byte_order::big, std::string(34, 'N') + "N").size() == 54);
    for (byte_order order : {byte_order::little, byte_order::big}) {
        const std::string bytes = in_form("\0a\0\xE9\xD8\x3D\xDE\0"s, order);
        const std::string broken = in_form("\0a\xDC\0"s, order) + bytes;
        std::string appended = "x", lossy = "x", back = "x", back_lossy = "x", kept = "x";
        check("append in a byte order",
            !dethrux::append_utf8(order, bytes, appended) && appended == "x" + utf8
                && dethrux::append_utf8(order, broken, kept) == dethrux::error{2, 2} && kept == "xa"
                && !dethrux::append_utf16(order, utf8, back) && back == "x" + bytes
                && dethrux::append_utf16(order, "a\xFF", kept = "") == dethrux::error{1, 1}
                && kept == in_form("\0a"s, order));
        dethrux::append_utf8_lossy(order, broken, lossy);
        dethrux::append_utf16_lossy(order, utf8 + "\xFF", back_lossy);
        check("append in a byte order, lossy",
            lossy == "x" + mended && back_lossy == "x" + bytes + in_form("\xFF\xFD"s, order));
        std::array<char, 8> room{};
        const dethrux::progress made = dethrux::write_utf16(order, utf8, room);
        const dethrux::progress part = dethrux::write_utf8(order, broken, room);
        const dethrux::progress marks = dethrux::write_utf8_lossy(order, broken, room);
        check("write in a byte order",
            made.read == 7 && made.written == 8 && made.status == DETHRUX_DONE && part.read == 2
                && part.written == 1 && part.status == DETHRUX_ILL_FORMED && part.error_len == 2
                && marks.read == 8 && marks.written == 7 && marks.status == DETHRUX_NO_SPACE
                && std::string(room.data(), 7) == mended.substr(0, 7)
                && dethrux::write_utf16_lossy(order, "\xFF", room).written == 2
                && std::string(room.data(), 2) == in_form("\xFF\xFD"s, order));
    }
    std::u16string units = u"x";
    std::vector<std::uint16_t> more_units;
    check("append_utf16", !dethrux::append_utf16(utf8, units) && units == u"x" + text
                              && dethrux::append_utf16("a\xFF", more_units) == dethrux::error{1, 1}
                              && more_units == std::vector<std::uint16_t>{'a'});
    dethrux::append_utf16_lossy("a\xFF", units = u"x");
    check("append_utf16_lossy", units == u"xa\xFFFD");
    check("results of other types",
        dethrux::from_utf8<std::vector<std::uint16_t>>("a").value()
                == std::vector<std::uint16_t>{'a'}
            && dethrux::from_utf8_lossy<std::vector<std::uint16_t>>("\xFF")[0] == 0xFFFD
            && dethrux::to_utf8<std::vector<char>>(u"a").value() == std::vector<char>{'a'}
            && dethrux::to_utf8_lossy<std::vector<char>>(u"\xDC00").size() == 3
            && dethrux::from_wtf8<std::vector<std::uint16_t>>("\xED\xA0\x80").value()[0] == 0xD800);
    bool is = true;
    for (std::size_t room = 0; room <= 8; room++) {
        std::vector<char> bytes(room);
        std::vector<char16_t> wide(room);
        const dethrux::progress made = dethrux::write_utf8(text, bytes);
        const dethrux::progress back = dethrux::write_utf16(utf8, wide);
        const std::size_t written = room < 1 ? 0 : room < 3 ? 1 : room < 7 ? 3 : 7;
        const std::size_t units_written = room < 4 ? (room < 2 ? room : 2) : 4;
        is = is && made.written == written && made.read == (written < 7 ? (written + 1) / 2 : 4)
             && made.status == (room < 7 ? DETHRUX_NO_SPACE : DETHRUX_DONE) && made.error_len == 0
             && std::string(bytes.data(), written) == utf8.substr(0, written)
             && back.written == units_written
             && back.status == (room < 4 ? DETHRUX_NO_SPACE : DETHRUX_DONE)
             && std::u16string(wide.data(), units_written) == text.substr(0, units_written);
    }
    check("write_utf8 and write_utf16", is);
    std::array<char16_t, 3> few{};
    const dethrux::progress found = dethrux::write_utf16("a\xC3", few);
    const dethrux::progress lone_made = dethrux::write_utf8(lone, std::array<char, 9>{});
    check("what is written before an error",
        found.read == 1 && found.written == 1 && found.status == DETHRUX_INCOMPLETE
            && dethrux::write_utf16_lossy("a\xC3", few).written == 2 && few[1] == 0xFFFD
            && lone_made.read == 1 && lone_made.written == 1 && lone_made.error_len == 1);
#if __cplusplus >= 202002L
    char buffer[9] = {};
    check("spans", dethrux::write_utf8(text, std::span(buffer)).written == 7
                       && std::string(buffer, 7) == utf8
                       && dethrux::write_utf8(text, std::span(buffer, 2)).written == 1);
#endif
}

// In a vector, an array and a span, as in a string.
static void in_place() {
    std::vector<std::uint16_t> units = {0x0061, 0xDC00};
    std::array<unsigned char, 5> bytes = {0, 'a', 0xDC, 0, 7};
    check("make_well_formed of other types",
        dethrux::make_well_formed(units) == 1 && units[1] == 0xFFFD
            && dethrux::make_well_formed(byte_order::big, bytes) == 1 && bytes[2] == 0xFF
            && bytes[3] == 0xFD && bytes[4] == 7);
    dethrux::swap_byte_order(units);
    dethrux::swap_byte_order(bytes);
    check("swap_byte_order of other types", units[0] == 0x6100 && units[1] == 0xFDFF
                                                && bytes[0] == 'a' && bytes[1] == 0
                                                && bytes[2] == 0xFD && bytes[4] == 7);
#if __cplusplus >= 202002L
    dethrux::swap_byte_order(std::span(units).subspan(1));
    check("swap_byte_order of a span", units[0] == 0x6100 && units[1] == 0xFFFD);
#endif
}

// A std::wstring to UTF-8 and back, in one call.
static void wide_and_utf8() {
    const std::wstring wide = L"a\xE9\U0001F600", lone = {L'a', static_cast<wchar_t>(0xDC00), L'b'};
    const std::string utf8 = "a\xC3\xA9\xF0\x9F\x98\x80";
    auto back = dethrux::wstring_from_utf8(utf8);
    check("a std::wstring and UTF-8",
        dethrux::wstring_to_utf8(wide).value() == utf8 && back && is_same(*back, wide)
            && dethrux::wstring_to_utf8_lossy(wide) == utf8
            && is_same(dethrux::wstring_from_utf8_lossy(utf8), wide)
            && dethrux::wstring_to_utf8(lone).error() == dethrux::error{1, 1}
            && dethrux::wstring_to_utf8_lossy(lone)
                   == "a\xEF\xBF\xBD"
                      "b"
            && dethrux::wstring_from_utf8("a\xFF").error() == dethrux::error{1, 1}
            && is_same(dethrux::wstring_from_utf8_lossy("a\xFF"), L"a\uFFFD")
            && dethrux::wstring_from_utf8("a\xC3").error() == dethrux::error{1, 0});
}

// A decoder to WTF-8 in big endian that gets code units has the machine's order at the end too.
static void mixed_orders() {
    dethrux::wtf8_decoder decoder(byte_order::big);
    std::string to;
    decoder.feed(u"a\xD83D", to);
    check("the end of code units in WTF-8", decoder.finish(to) && to == "a\xED\xA0\xBD");
}

// What was there stays if the second of two allocations fails.
static void append_without_memory() {
    const std::u16string text(100, u'\x4E2D');
    const std::string utf8 = dethrux::to_utf8(text).value();
    std::string to = full<std::string>();
    const std::string before = to;
    check("append_utf8 without memory",
        without_memory([&] { (void)dethrux::append_utf8(text, to); }, [&] { return to == before; })
            && to == before + utf8);
    for (const std::string &start : {"\xFE\xFF\0"s, "\0"s, ""s}) {
        dethrux::bom_decoder decoder(byte_order::big);
        std::string none;
        decoder.feed(start, none);
        std::string out = full<std::string>(), end = full<std::string>();
        const std::string old = out;
        const std::string rest = start.empty() ? "\0a\0b"s : "a\0b"s;
        check("bom_decoder without memory",
            without_memory([&] { decoder.feed(rest, out); },
                [&] { return out == old && decoder.pending() == (start.empty() ? 0u : 1u); })
                && out == old + "ab");
        decoder.feed("\xD8"sv, out);
        check("the end of bom_decoder without memory",
            without_memory(
                [&] { decoder.finish(end); }, [&] { return end == old && decoder.pending() == 1; })
                && end == old + "\xEF\xBF\xBD");
    }
}

// Whether a call allocates this often, each time at most this many bytes and a few that the string
// adds, and fails without memory.
template <class Call>
static bool requests_times(std::size_t times, std::size_t bytes, Call call) {
    requests = largest_request = 0;
    call();
    bool is = requests == times && largest_request <= bytes + 64;
    return is && without_memory(call, [] { return true; }) == (times > 0);
}

template <class Call>
static bool requests_once(std::size_t bytes, Call call) {
    return requests_times(1, bytes, call);
}

// Whether a conversion gives an empty text, or a result with one.
template <class Text>
static bool is_empty(const Text &text) {
    return text.empty();
}
template <class Text>
static bool is_empty(const dethrux::result<Text> &found) {
    return found.value().empty();
}
template <class Text>
static bool is_empty(const std::optional<Text> &found) {
    return found.value().empty();
}

// A text that is too long for a string of it: none of it is read.
static const std::size_t TOO_LONG = PTRDIFF_MAX / 4 * 3;

// A conversion of no elements; the memory that it takes, of this many bytes, for a text without and
// with a byte order; and if it takes all at once, of a text that is too long.
template <class Text, class Bytes, class Long, class LongBytes, class Call>
static void convert(const std::string &name, Call call, const Text &text, std::size_t memory,
    const Bytes &bytes, std::size_t times, std::size_t most, Long too_long, LongBytes long_bytes,
    bool takes_all) {
    const byte_order little = byte_order::little, big = byte_order::big;
    check(name + " of no elements", is_empty(call(Long())) && is_empty(call(big, LongBytes()))
                                        && is_empty(call(little, LongBytes())));
    check("the memory of " + name, requests_once(memory, [&] { (void)call(text); })
                                       && requests_times(
                                           times, most, [&] { (void)call(big, bytes); }));
    check(name + " of a text that is too long",
        !takes_all
            || (throws<std::length_error>([&] { (void)call(too_long); })
                && throws<std::length_error>([&] { (void)call(big, long_bytes); })));
}

// Each conversion of the header but those of chunks. A result in UTF-8 takes the memory that it
// needs if it is ASCII, and else at most that of the longest text. The others take that of the
// longest text for their length of input: of UTF-16 a code unit of UTF-32 for each code unit, a
// code unit for each byte of UTF-8 and Latin-1, and two for each code unit of UTF-32.
static void conversions() {
    const std::string bytes(2000, 'a');
    const std::u16string units(1000, u'a');
    const std::u32string points(1000, U'a');
    const dethrux::bytes long_bytes("", TOO_LONG);
    const dethrux::units long_units(u"", TOO_LONG / 2);
    const dethrux::points long_points(U"", TOO_LONG / 2);
#define CONVERSION(name, way, mode) CONVERT_##mode(name, way)
#define CONVERT_PARTIAL(name, ...)
#define CONVERT_LOSSY(name, ...) CONVERT_STRICT(name, __VA_ARGS__)
#define CONVERT_STRICT(name, ...) \
    convert(#name, [](const auto &...from) { return dethrux::name(from...); }, __VA_ARGS__);
#define TO_UTF8 units, 1000, bytes, 2, 3001, long_units, long_bytes, false
#define TO_WTF8 TO_UTF8
#define TO_LATIN1 units, 1000, bytes, 1, 1000, long_units, long_bytes, false
#define TO_UTF32 units, 4000, bytes, 1, 4000, long_units, long_bytes, true
#define FROM_UTF8 bytes, 4000, bytes, 1, 4000, long_bytes, long_bytes, true
#define FROM_WTF8 FROM_UTF8
#define FROM_LATIN1 FROM_UTF8
#define FROM_UTF32 points, 4000, points, 1, 4000, long_points, long_points, true
#define STREAM(name, step, state)
#define QUESTION(name, kind)
#define CALL(name, shape, kind)
#include "../../dist/src/shapes.inc"
}

// The memory of other calls.
static void space() {
    const std::string bytes(2000, 'a');
    const std::u16string units(1000, u'a');
    const byte_order order = byte_order::big;
    const std::u16string more = u"\xE9" + units, wider(1000, u'\x4E2D');
    check("the memory of to_utf8 for few letters, and for others",
        requests_times(0, 0, [] { (void)dethrux::to_utf8(u"fifteen letters"); })
            && requests_times(2, 2002, [&] { (void)dethrux::to_utf8(more); })
            && requests_times(2, 3001, [&] { (void)dethrux::to_utf8(wider); }));
    const std::wstring wide(1000, L'a');
    check("the memory of a std::wstring",
        requests_once(1000 * sizeof(wchar_t), [&] { (void)dethrux::to_wstring(units); })
            && requests_once(
                1000 * sizeof(wchar_t), [&] { (void)dethrux::to_wstring_lossy(units); })
            && requests_once(4000, [&] { (void)dethrux::from_wstring(wide); })
            && requests_once(4000, [&] { (void)dethrux::from_wstring_lossy(wide); }));
    check("the memory of wtf8_decoder", requests_once(3000, [&] {
        std::string to;
        dethrux::wtf8_decoder(order).feed(bytes, to);
    }));
    check("the memory of wtf8_encoder", requests_once(4000, [&] {
        std::string to;
        (void)dethrux::wtf8_encoder(order).feed(bytes, to);
    }) && requests_once(4000, [&] {
        std::u16string to;
        (void)dethrux::wtf8_encoder().feed(bytes, to);
    }));
    check("the memory of decoders", requests_once(3000, [&] {
        std::string to;
        dethrux::decoder(order).feed(bytes, to);
    }) && requests_once(3000, [&] {
        std::string to;
        dethrux::decoder().feed(units, to);
    }) && requests_once(4000, [&] {
        std::string to;
        dethrux::encoder(order).feed(bytes, to);
    }) && requests_once(4000, [&] {
        std::u16string to;
        dethrux::encoder().feed(bytes, to);
    }));
}

// Streams refuse a text for which no string is long enough, and nothing changes.
static void lengths() {
    const dethrux::bytes bytes("", TOO_LONG);
    const dethrux::units units(u"", TOO_LONG / 2);
    const byte_order order = byte_order::big;
    std::string to = "before";
    std::u16string wide = u"before";
    dethrux::decoder decoder(order);
    dethrux::encoder back(order);
    dethrux::wtf8_decoder wtf8(order);
    check("texts that are too long",
        throws<std::length_error>([&] { decoder.feed(bytes, to); })
            && throws<std::length_error>([&] { decoder.feed(units, to); })
            && throws<std::length_error>([&] { back.feed(bytes, to); })
            && throws<std::length_error>([&] { back.feed(bytes, wide); })
            && throws<std::length_error>([&] { wtf8.feed(bytes, to); })
            && throws<std::length_error>([&] { wtf8.feed(units, to); }) && to == "before"
            && wide == u"before" && decoder.pending() == 0 && back.pending() == 0
            && wtf8.pending() == 0);
}

template <class Rows, class... Tests>
static void with_each(const Rows &all, Tests... tests) {
    for (const auto &one : all) {
        (tests(one), ...);
    }
}

int main() {
    with_each(rows, look, change, cut, to_utf8, decode);
    with_each(rows, inspect, to_utf32, to_latin1, to_wstring);
    no_characters();
    with_each(rows8, from_utf8, encode);
    with_each(rows_of_wtf8, wtf8, decode_wtf8, encode_wtf8);
    not_wtf8();
    with_each(pairs, compare);
    with_each(searches, search);
    first_nul();
    others();
    results();
    views();
    no_elements();
    types();
    orders();
    boms();
    outputs();
    in_place();
    wide_and_utf8();
    mixed_orders();
    memory();
    append_without_memory();
    conversions();
    space();
    lengths();
    std::printf("%d passed, %d failed\n", passed, failed);
    return failed != 0;
}
