// SPDX-License-Identifier: MIT OR Apache-2.0

/**
 * @file
 * Dethrux for C++17: strings of UTF-16 in either byte order, to and from UTF-8, UTF-32, Latin-1 and
 * WTF-8.
 *
 * Each function makes a proved call of dethrux.h. What is added here, memory and types, is tested,
 * not proved.
 *
 * @par Texts
 * UTF-16 is given as code units in the machine's byte order, as in `to_utf8(units)`, or as a byte
 * order and bytes, as in `to_utf8(byte_order::big, bytes)`. Code units are a std::u16string or its
 * view, a literal, a vector or span of any integral type of two bytes, or a pointer and a length.
 * Bytes are a std::string or its view, a vector or span of std::byte or unsigned char, or a pointer
 * and a length, but no C string, since UTF-16 has zero bytes inside. UTF-8, WTF-8 and Latin-1 are
 * dethrux::chars: the same, and C strings, `u8""` and std::u8string. UTF-32 is dethrux::points: a
 * std::u32string and the like. A std::wstring is UTF-16 where wchar_t has two bytes, as on Windows,
 * and else UTF-32.
 *
 * @par Lengths
 * Offsets and lengths count elements: code units if those were given, and else bytes.
 *
 * @par Errors
 * Ill-formed input is a value, dethrux::error. Only result::value throws because of it.
 * Functions and decoders throw only if there is not enough memory: std::bad_alloc, or
 * std::length_error if a string cannot be so long. In that case the string that was passed and the
 * decoder are unchanged.
 *
 * @par Memory
 * A result in UTF-8 has the memory that it needs if it is ASCII, and else at most what the longest
 * text for its length of input needs: three bytes for each code unit of UTF-16. Each other result
 * takes the memory of the longest text. shrink_to_fit() releases the rest.
 */
#ifndef DETHRUX_HPP
#define DETHRUX_HPP

#include "dethrux.h"

#include <cstddef>
#include <cstdint>
#include <cstring>
#include <cwchar>
#include <optional>
#include <stdexcept>
#include <string>
#include <string_view>
#include <type_traits>
#include <utility>
#include <variant>

// After each function that takes a dethrux::utf16, or gives code units in the machine's byte order,
// packaging/calls writes the one for bytes in a byte order.

/** UTF-16 in either byte order, to and from UTF-8, UTF-32, Latin-1 and WTF-8. */
namespace dethrux {

/** The byte order of UTF-16 in bytes. */
enum class byte_order : std::uint32_t {
    little = DETHRUX_LITTLE_ENDIAN, /**< The low byte of each code unit comes first. */
    big = DETHRUX_BIG_ENDIAN,       /**< The high byte comes first. */
    native = DETHRUX_NATIVE_ENDIAN  /**< The byte order of the machine. */
};

namespace detail {

// Whether a type is an integer, a character or an enumeration of this many bytes.
template <std::size_t Size, class T>
inline constexpr bool is_element = sizeof(T) == Size
                                   && (std::is_integral_v<T> || std::is_enum_v<T>);

template <class C>
using element_of = std::remove_cv_t<std::remove_pointer_t<decltype(std::declval<C &>().data())>>;

// Whether a type has contiguous elements of this many bytes.
template <std::size_t Size, class C, class = void>
struct holds : std::false_type {};

template <std::size_t Size, class C>
struct holds<Size, C, std::void_t<element_of<const C>, decltype(std::declval<const C &>().size())>>
    : std::bool_constant<is_element<Size, element_of<const C>>> {};

template <class N>
constexpr std::size_t to_size(N n) noexcept {
    if constexpr (std::is_same_v<N, std::size_t>) {
        return n;
    } else {
        return static_cast<std::size_t>(n);
    }
}

// Whether a pointer to it, without a length, is a text that ends with a NUL.
template <class T>
struct is_text : std::disjunction<std::is_same<T, char>, std::is_same<T, char16_t>,
#ifdef __cpp_char8_t
                     std::is_same<T, char8_t>,
#endif
                     std::is_same<T, char32_t>, std::is_same<T, wchar_t>> {
};

/** Elements of `Size` bytes that are read during a call. */
template <std::size_t Size, bool HasTexts>
class view {
public:
    /** Views nothing. */
    constexpr view() noexcept = default;

    /** Views this many elements from a pointer on. */
    template <class T, class = std::enable_if_t<is_element<Size, T>>>
    view(const T *data, std::size_t size) noexcept : data_(data), size_(size) {}

    /** Views all elements of a container. */
    template <class C, std::enable_if_t<holds<Size, C>::value, int> = 0>
    view(const C &from) noexcept : data_(from.data()), size_(to_size(from.size())) {}

    /** Views a text that ends with a NUL. */
    template <class T,
        std::enable_if_t<HasTexts && is_element<Size, T> && is_text<T>::value, int> = 0>
    view(const T *from) noexcept : data_(from), size_(std::char_traits<T>::length(from)) {}

    /** Returns a pointer to the first byte. */
    const std::uint8_t *data() const noexcept { return static_cast<const std::uint8_t *>(data_); }
    /** Returns the number of elements. */
    std::size_t size() const noexcept { return size_; }

private:
    const void *data_ = nullptr;
    std::size_t size_ = 0;
};

} // namespace detail

/** Bytes, of UTF-16 or of any form, that are read during a call. A C string is refused. */
using bytes = detail::view<1, false>;

/** UTF-8, WTF-8 or Latin-1 that is read during a call. */
using chars = detail::view<1, true>;

/** Code units of UTF-16 in the machine's byte order that are read during a call. */
using units = detail::view<2, true>;

/** Code points, UTF-32 in the machine's byte order, that are read during a call. */
using points = detail::view<4, true>;

/** UTF-16 that is read during a call: code units, or bytes in a byte order. */
class utf16 {
public:
    /** Views code units in the machine's byte order. */
    template <class T, std::enable_if_t<std::is_convertible_v<const T &, units>, int> = 0>
    utf16(const T &from) noexcept : utf16(units(from)) {}

    /** Views this many code units from a pointer on. */
    template <class T, std::enable_if_t<detail::is_element<2, T>, int> = 0>
    utf16(const T *data, std::size_t size) noexcept : utf16(units(data, size)) {}

    /** Views code units in the machine's byte order. */
    utf16(units from) noexcept
        : data_(from.data()), len_(from.size() * 2), unit_(2), order_(byte_order::native) {}

    /** Views bytes in a byte order. */
    utf16(byte_order order, bytes from) noexcept
        : data_(from.data()), len_(from.size()), unit_(1), order_(order) {}

    /** Returns a pointer to the first byte. */
    const std::uint8_t *data() const noexcept { return data_; }
    /** Returns the number of bytes. */
    std::size_t len() const noexcept { return len_; }
    /** Returns how many bytes an offset counts as one: 2 for code units, 1 for bytes. */
    std::size_t unit() const noexcept { return unit_; }
    /** Returns the byte order, as dethrux.h names it. */
    dethrux_byte_order order() const noexcept { return static_cast<dethrux_byte_order>(order_); }

private:
    const std::uint8_t *data_;
    std::size_t len_;
    std::size_t unit_;
    byte_order order_;
};

/** A repertoire, a set of characters. Each contains the ones before it. */
enum class repertoire : std::uint32_t {
    ascii = DETHRUX_ASCII,    /**< U+0000 to U+007F. */
    latin1 = DETHRUX_LATIN1,  /**< U+0000 to U+00FF, ISO 8859-1. */
    bmp = DETHRUX_BMP,        /**< U+0000 to U+FFFF, the Basic Multilingual Plane. */
    unicode = DETHRUX_UNICODE /**< U+0000 to U+10FFFF, all characters. */
};

/** Why input is not well formed. */
struct error {
    /** The length of the longest well-formed prefix. */
    std::size_t valid_up_to = 0;
    /** The length of the ill-formed sequence after it: 0 if the input ends inside a character. */
    std::size_t error_len = 0;

    /** Returns whether the input ends inside a character. */
    bool is_incomplete() const noexcept { return error_len == 0; }

    /** @{ */
    /** Compares both lengths. */
    friend bool operator==(const error &a, const error &b) noexcept {
        return a.valid_up_to == b.valid_up_to && a.error_len == b.error_len;
    }
    friend bool operator!=(const error &a, const error &b) noexcept { return !(a == b); }
    /** @} */
};

/** What result::value throws if there is an error. Its message says where. */
class ill_formed : public std::runtime_error {
public:
    /** Has an error. */
    explicit ill_formed(dethrux::error reason)
        : std::runtime_error(message(reason)), reason_(reason) {}

    /** Returns the error. */
    const dethrux::error &error() const noexcept { return reason_; }

private:
    static std::string message(const dethrux::error &reason) {
        const std::string at = " at offset " + std::to_string(reason.valid_up_to);
        return reason.is_incomplete()
                   ? "incomplete character" + at
                   : "ill-formed sequence of length " + std::to_string(reason.error_len) + at;
    }

    dethrux::error reason_;
};

/**
 * A value or an error, with the names of std::expected.
 *
 * If there is an error, `value` throws dethrux::ill_formed, and `*` must not be used.
 */
template <class T>
class [[nodiscard]] result {
public:
    /** The type of the value. */
    using value_type = T;

    /** Has a value. */
    result(T value) : state_(std::in_place_index<0>, std::move(value)) {}
    /** Has an error. */
    result(dethrux::error reason) : state_(std::in_place_index<1>, reason) {}

    /** Returns whether there is a value. */
    bool has_value() const noexcept { return state_.index() == 0; }
    /** Returns whether there is a value. */
    explicit operator bool() const noexcept { return has_value(); }

    /** @{ */
    /** Returns the value, or throws dethrux::ill_formed if there is none. */
    T &value() & { return require(), **this; }
    const T &value() const & { return require(), **this; }
    T &&value() && { return require(), *std::move(*this); }
    /** @} */
    /** @{ */
    /** Returns the value, or another one if there is none. */
    T value_or(T other) const & { return has_value() ? **this : std::move(other); }
    T value_or(T other) && { return has_value() ? *std::move(*this) : std::move(other); }
    /** @} */

    /** @{ */
    /** Returns the value, which must be there. */
    T &operator*() &noexcept { return *std::get_if<0>(&state_); }
    const T &operator*() const &noexcept { return *std::get_if<0>(&state_); }
    T &&operator*() &&noexcept { return std::move(*std::get_if<0>(&state_)); }
    /** @} */
    /** @{ */
    /** Returns a pointer to the value, which must be there. */
    T *operator->() noexcept { return std::get_if<0>(&state_); }
    const T *operator->() const noexcept { return std::get_if<0>(&state_); }
    /** @} */

    /** Returns the error, or throws std::bad_variant_access if there is none. */
    const dethrux::error &error() const { return std::get<1>(state_); }

    /** @{ */
    /** Returns what a function that returns a result makes of the value, or the error. */
    template <class F>
    auto and_then(F &&f) const & -> std::invoke_result_t<F, const T &> {
        return has_value() ? std::forward<F>(f)(**this)
                           : std::invoke_result_t<F, const T &>(error());
    }
    template <class F>
    auto and_then(F &&f) && -> std::invoke_result_t<F, T> {
        return has_value() ? std::forward<F>(f)(*std::move(*this))
                           : std::invoke_result_t<F, T>(error());
    }
    /** @} */
    /** @{ */
    /** Returns what a function makes of the value, or the error. */
    template <class F>
    auto transform(F &&f) const & -> result<std::invoke_result_t<F, const T &>> {
        return and_then([&](const T &value) {
            return result<std::invoke_result_t<F, const T &>>(std::forward<F>(f)(value));
        });
    }
    template <class F>
    auto transform(F &&f) && -> result<std::invoke_result_t<F, T>> {
        return std::move(*this).and_then([&](T value) {
            return result<std::invoke_result_t<F, T>>(std::forward<F>(f)(std::move(value)));
        });
    }
    /** @} */

    /** @{ */
    /** Compares the values or the errors. */
    friend bool operator==(const result &a, const result &b) { return a.state_ == b.state_; }
    friend bool operator!=(const result &a, const result &b) { return !(a == b); }
    /** @} */

private:
    void require() const {
        if (!has_value()) {
            throw ill_formed(error());
        }
    }

    std::variant<T, dethrux::error> state_;
};

/** How far a call came that writes into memory of the caller. */
struct [[nodiscard]] progress {
    std::size_t read;      /**< The number of elements of the input read. */
    std::size_t written;   /**< The number of elements written. */
    dethrux_status status; /**< Why the call stopped. */
    std::size_t error_len; /**< The ill-formed sequence's length with DETHRUX_ILL_FORMED, else 0. */
};

namespace detail {

inline dethrux_byte_order order(byte_order from) noexcept {
    return static_cast<dethrux_byte_order>(from);
}

inline std::optional<error> error_of(const dethrux_validity &validity, std::size_t unit) noexcept {
    if (validity.status == DETHRUX_DONE) {
        return std::nullopt;
    }
    return error{validity.valid_up_to / unit, validity.error_len / unit};
}

// Why a call with enough memory stopped before the end.
inline std::optional<error> error_of(const dethrux_progress &made, std::size_t unit) noexcept {
    return error_of(dethrux_validity{made.read, made.status, made.error_len}, unit);
}

// The text that a call wrote, or why it stopped.
template <class String>
result<String> text_or_error(String &&text, const dethrux_progress &made, std::size_t unit) {
    if (std::optional<error> found = error_of(made, unit)) {
        return *found;
    }
    return std::move(text);
}

// Whether a string can grow by bytes that are not cleared first.
template <class String, class = void>
struct overwrites : std::false_type {};

template <class String>
struct overwrites<String,
    std::void_t<decltype(std::declval<String &>().resize_and_overwrite(std::size_t{},
        std::declval<std::size_t (*)(typename String::value_type *, std::size_t)>()))>>
    : std::true_type {};

// Appends what `write` writes, at most this many elements. `write` gets a pointer and returns a
// dethrux_progress whose `written` counts elements.
template <class String, class Write>
dethrux_progress append(String &to, std::size_t most, Write write) {
    const std::size_t size = to.size();
    dethrux_progress made{};
    if constexpr (overwrites<String>::value) {
        to.resize_and_overwrite(size + most, [&](auto *data, std::size_t) {
            made = write(data + size, most);
            return size + made.written;
        });
    } else {
        to.resize(size + most);
        made = write(to.data() + size, most);
        to.resize(size + made.written);
    }
    return made;
}

using conversion = dethrux_progress (*)(
    dethrux_byte_order, const void *, std::size_t, void *, std::size_t);
using widening = dethrux_progress (*)(
    dethrux_byte_order, const void *, std::size_t, std::uint32_t *, std::size_t);
using narrowing = dethrux_progress (*)(
    dethrux_byte_order, const std::uint32_t *, std::size_t, void *, std::size_t);

inline const std::uint32_t *points_of(points utf32) noexcept {
    return reinterpret_cast<const std::uint32_t *>(utf32.data());
}

// Makes a call whose input `from` is UTF-16 and that writes elements of one byte.
template <class T>
dethrux_progress from_utf16_by(
    conversion call, const utf16 &from, std::size_t read, T *to, std::size_t capacity) {
    static_assert(sizeof(T) == 1);
    return call(from.order(), from.data() + read, from.len() - read, to, capacity);
}

// Makes a call that writes UTF-16 in code units, if the elements have two bytes, or in bytes.
template <class Call, class From, class T>
dethrux_progress to_utf16_by(
    Call call, byte_order order, const From *from, std::size_t len, T *to, std::size_t capacity) {
    static_assert(sizeof(T) == 1 || sizeof(T) == 2);
    dethrux_progress made = call(detail::order(order), from, len, to, capacity * sizeof(T));
    made.written /= sizeof(T);
    return made;
}

// Appends what a call writes to UTF-8: with the memory that ASCII needs, or a short string has, and
// then with what any text needs.
template <class String>
dethrux_progress append_utf8_by(conversion call, const utf16 &from, String &to) {
    struct undo {
        String &to;
        std::size_t size;
        bool is_done = false;
        ~undo() {
            if (!is_done) {
                to.resize(size);
            }
        }
    };
    undo change{to, to.size()};
    dethrux_progress all{};
    for (std::size_t most = from.len() / 2 < 15 ? 15 : from.len() / 2;;) {
        dethrux_progress made = append(to, most, [&](auto *data, std::size_t capacity) {
            return from_utf16_by(call, from, all.read, data, capacity);
        });
        made.read += all.read;
        made.written += all.written;
        all = made;
        if (all.status != DETHRUX_NO_SPACE) {
            change.is_done = true;
            return all;
        }
        most = (from.len() - all.read + 1) / 2 * 3;
    }
}

// Appends what a call writes in UTF-16, with the memory that any text needs.
template <class String>
dethrux_progress append_utf16_by(conversion call, byte_order order, bytes from, String &to) {
    constexpr std::size_t size = sizeof(typename String::value_type);
    return append(to, from.size() * 2 / size, [&](auto *data, std::size_t capacity) {
        return to_utf16_by(call, order, from.data(), from.size(), data, capacity);
    });
}

// Appends what a call of an encoder writes: code units in the machine's byte order, or bytes.
template <class String, class Call>
dethrux_progress append_encoded(byte_order order, std::size_t most, String &to, Call call) {
    constexpr std::size_t size = sizeof(typename String::value_type);
    static_assert(size == 1 || size == 2);
    return append(to, most / size, [&](auto *data, std::size_t capacity) {
        dethrux_progress made = call(
            detail::order(size == 2 ? byte_order::native : order), data, capacity * size);
        made.written /= size;
        return made;
    });
}

template <class String>
dethrux_progress append_utf32_by(widening call, const utf16 &from, String &to) {
    static_assert(sizeof(typename String::value_type) == 4);
    return append(to, (from.len() + 1) / 2, [&](auto *data, std::size_t capacity) {
        return call(from.order(), from.data(), from.len(), reinterpret_cast<std::uint32_t *>(data),
            capacity);
    });
}

template <class String>
dethrux_progress append_from_utf32_by(narrowing call, byte_order order, points from, String &to) {
    constexpr std::size_t size = sizeof(typename String::value_type);
    return append(to, from.size() * 4 / size, [&](auto *data, std::size_t capacity) {
        return to_utf16_by(call, order, points_of(from), from.size(), data, capacity);
    });
}

// The elements that a container lends to be changed.
template <std::size_t Size, class C>
element_of<C> *elements(C &to) noexcept {
    static_assert(is_element<Size, element_of<C>>, "elements of another size");
    return to.data();
}

} // namespace detail

/**
 * @defgroup dethrux_cxx_read C++: calls that read
 * @{
 */

/** Returns the first error, or nothing if the input is UTF-16. */
[[nodiscard]] inline std::optional<error> validate(utf16 text) noexcept {
    return detail::error_of(dethrux_validate(text.order(), text.data(), text.len()), text.unit());
}

/** Does the same for bytes in a byte order. */
[[nodiscard]] inline std::optional<error> validate(byte_order order, bytes text) noexcept {
    return validate(utf16(order, text));
}

/** Returns the first error, or nothing if the input is UTF-32. */
[[nodiscard]] inline std::optional<error> validate_utf32(points utf32) noexcept {
    return detail::error_of(dethrux_validate_utf32(detail::points_of(utf32), utf32.size()), 1);
}

/**
 * Returns the number of characters (scalar values) of UTF-16.
 *
 * For ill-formed input it is the number of whole code units that are not trailing surrogates.
 */
[[nodiscard]] inline std::size_t count_chars(utf16 text) noexcept {
    return dethrux_count_chars(text.order(), text.data(), text.len());
}

/** Does the same for bytes in a byte order. */
[[nodiscard]] inline std::size_t count_chars(byte_order order, bytes text) noexcept {
    return count_chars(utf16(order, text));
}

/** Returns whether the input is UTF-16 whose characters are all ASCII. */
[[nodiscard]] inline bool is_ascii(utf16 text) noexcept {
    return dethrux_is_ascii(text.order(), text.data(), text.len());
}

/** Does the same for bytes in a byte order. */
[[nodiscard]] inline bool is_ascii(byte_order order, bytes text) noexcept {
    return is_ascii(utf16(order, text));
}

/**
 * Compares two texts by their scalar values. What is ill formed counts as U+FFFD.
 *
 * @return less than, equal to or greater than 0 if the first text is less than, equal to or greater
 *   than the second
 */
[[nodiscard]] inline int compare(utf16 first, utf16 second) noexcept {
    return dethrux_compare(
        first.order(), first.data(), first.len(), second.order(), second.data(), second.len());
}

/** Does the same for bytes, each text in its byte order. */
[[nodiscard]] inline int compare(
    byte_order first_order, bytes first, byte_order second_order, bytes second) noexcept {
    return compare(utf16(first_order, first), utf16(second_order, second));
}

/** Returns whether the text may be cut at an offset: dethrux_is_char_boundary. */
[[nodiscard]] inline bool is_char_boundary(utf16 text, std::size_t at) noexcept {
    return at <= text.len() / text.unit()
           && dethrux_is_char_boundary(text.order(), text.data(), text.len(), at * text.unit());
}

/** Does the same for bytes in a byte order. */
[[nodiscard]] inline bool is_char_boundary(byte_order order, bytes text, std::size_t at) noexcept {
    return is_char_boundary(utf16(order, text), at);
}

/**
 * Returns the greatest offset at or before one where the text may be cut:
 * dethrux_floor_char_boundary.
 */
[[nodiscard]] inline std::size_t floor_char_boundary(utf16 text, std::size_t at) noexcept {
    return dethrux_floor_char_boundary(text.order(), text.data(), text.len(),
               at < text.len() / text.unit() ? at * text.unit() : text.len())
           / text.unit();
}

/** Does the same for bytes in a byte order. */
[[nodiscard]] inline std::size_t floor_char_boundary(
    byte_order order, bytes text, std::size_t at) noexcept {
    return floor_char_boundary(utf16(order, text), at);
}

/**
 * Returns the greatest boundary at or before an offset of a file, from a few of its bytes:
 * dethrux_floor_char_boundary_around.
 *
 * @param order the byte order
 * @param around the 4 bytes of the file from DETHRUX_AROUND_START(at) on, or as many as it has
 * @param at the offset
 */
[[nodiscard]] inline std::uint64_t floor_char_boundary_around(
    byte_order order, bytes around, std::uint64_t at) noexcept {
    return dethrux_floor_char_boundary_around(
        detail::order(order), around.data(), around.size(), at);
}

/** Returns where a part of a file of `len` bytes begins: dethrux_shard_offset. */
[[nodiscard]] inline std::uint64_t shard_offset(
    std::uint64_t len, std::uint64_t count, std::uint64_t index) noexcept {
    return dethrux_shard_offset(len, count, index);
}

/**
 * What find and rfind return if the pattern occurs nowhere. It is std::u16string_view::npos, and
 * DETHRUX_NOT_FOUND.
 */
inline constexpr std::size_t npos = std::u16string_view::npos;

namespace detail {

// An offset in bytes, or npos, in code units.
inline std::size_t in_units(std::size_t found) noexcept {
    return found == npos ? npos : found / 2;
}

} // namespace detail

/**
 * Returns the least offset at which a pattern occurs in a text, or npos: dethrux_find. Both have
 * the byte order.
 */
[[nodiscard]] inline std::size_t find(byte_order order, bytes text, bytes pattern) noexcept {
    return dethrux_find(
        detail::order(order), text.data(), text.size(), pattern.data(), pattern.size());
}

/** Does the same for code units in the machine's byte order. */
[[nodiscard]] inline std::size_t find(units text, units pattern) noexcept {
    return detail::in_units(dethrux_find(
        DETHRUX_NATIVE_ENDIAN, text.data(), text.size() * 2, pattern.data(), pattern.size() * 2));
}

/** Returns the greatest offset at which a pattern occurs in a text, or npos: dethrux_rfind. */
[[nodiscard]] inline std::size_t rfind(byte_order order, bytes text, bytes pattern) noexcept {
    return dethrux_rfind(
        detail::order(order), text.data(), text.size(), pattern.data(), pattern.size());
}

/** Does the same for code units in the machine's byte order. */
[[nodiscard]] inline std::size_t rfind(units text, units pattern) noexcept {
    return detail::in_units(dethrux_rfind(
        DETHRUX_NATIVE_ENDIAN, text.data(), text.size() * 2, pattern.data(), pattern.size() * 2));
}

/**
 * Returns the offset of the first NUL, or the size if there is none: dethrux_nul_offset. So it is
 * the size of a string in a buffer of fixed size.
 */
[[nodiscard]] inline std::size_t nul_offset(bytes text) noexcept {
    return dethrux_nul_offset(text.data(), text.size());
}

/** Does the same for code units. */
[[nodiscard]] inline std::size_t nul_offset(units text) noexcept {
    return dethrux_nul_offset(text.data(), text.size() * 2) / 2;
}

/** Does the same for an array of code units, which need not have a NUL. */
template <class Unit, std::size_t Size, std::enable_if_t<detail::is_element<2, Unit>, int> = 0>
[[nodiscard]] inline std::size_t nul_offset(const Unit (&text)[Size]) noexcept {
    return nul_offset(units(text, Size));
}

/** What a text is. */
struct inspection {
    /** The first error, or nothing if the input is UTF-16. */
    std::optional<dethrux::error> error;
    /** The number of characters of the longest well-formed prefix. */
    std::size_t chars = 0;
    /** The smallest repertoire that has all of them. */
    dethrux::repertoire repertoire = dethrux::repertoire::ascii;
};

/** Returns what a text is: dethrux_inspect. */
[[nodiscard]] inline inspection inspect(utf16 text) noexcept {
    const dethrux_inspection found = dethrux_inspect(text.order(), text.data(), text.len());
    return {detail::error_of(
                dethrux_validity{found.valid_up_to, found.status, found.error_len}, text.unit()),
        found.chars, static_cast<dethrux::repertoire>(found.repertoire)};
}

/** Does the same for bytes in a byte order. */
[[nodiscard]] inline inspection inspect(byte_order order, bytes text) noexcept {
    return inspect(utf16(order, text));
}

/** @} */

/**
 * @defgroup dethrux_cxx_bom C++: byte order marks
 * @{
 */

/** What the start of a stream says about its byte order. */
struct bom {
    /** The length of the byte order mark (BOM) in bytes: 2, or 0 if there is none. */
    std::size_t len = 0;
    /** The byte order of the stream. */
    byte_order order = byte_order::native;
    /** Whether fewer than two bytes have come, so that a BOM may still begin. */
    bool is_undecided = false;
};

/** Returns the BOM of a stream: dethrux_detect_bom. Without one it has the default byte order. */
[[nodiscard]] inline bom detect_bom(byte_order default_order, bytes start) noexcept {
    const dethrux_bom found =
        dethrux_detect_bom(detail::order(default_order), start.data(), start.size());
    return {found.len, static_cast<byte_order>(found.byte_order),
        found.status == DETHRUX_BOM_UNDECIDED};
}

/**
 * Returns the text of a file without its BOM, in the byte order that the BOM gives, as in
 * `to_utf8(after_bom(byte_order::little, file))`. Offsets count from the end of the BOM.
 */
[[nodiscard]] inline utf16 after_bom(byte_order default_order, bytes file) noexcept {
    const bom found = detect_bom(default_order, file);
    return {found.order, bytes(file.data() + found.len, file.size() - found.len)};
}

/** Returns the two bytes of the BOM. A file in this byte order may begin with them. */
[[nodiscard]] inline std::string_view bom_bytes(byte_order order) noexcept {
    return order == byte_order::big ? "\xFE\xFF" : "\xFF\xFE";
}

/**
 * Returns how many U+FFFD to_utf8_lossy writes for ill-formed sequences: 0 if and only if the input
 * is UTF-16. to_utf32_lossy writes as many.
 */
[[nodiscard]] inline std::size_t to_utf8_replacements(utf16 text) noexcept {
    return dethrux_to_utf8_replacements(text.order(), text.data(), text.len());
}

/** Does the same for bytes in a byte order. */
[[nodiscard]] inline std::size_t to_utf8_replacements(byte_order order, bytes text) noexcept {
    return to_utf8_replacements(utf16(order, text));
}

/**
 * Returns how many U+FFFD from_utf8_lossy writes for ill-formed sequences: 0 if and only if the
 * input is UTF-8.
 */
[[nodiscard]] inline std::size_t from_utf8_replacements(chars utf8) noexcept {
    return dethrux_from_utf8_replacements(utf8.data(), utf8.size());
}

/** @} */

/**
 * @defgroup dethrux_cxx_to_utf8 C++: to UTF-8
 * A string of another type may be chosen, as in `to_utf8<std::u8string>(text)`.
 * @{
 */

/** Returns the text in UTF-8, or where the input is ill formed. */
template <class String = std::string>
result<String> to_utf8(utf16 text) {
    String to;
    dethrux_progress made = detail::append_utf8_by(dethrux_to_utf8, text, to);
    return detail::text_or_error(std::move(to), made, text.unit());
}

/** Does the same for bytes in a byte order. */
template <class String = std::string>
result<String> to_utf8(byte_order order, bytes text) {
    return to_utf8<String>(utf16(order, text));
}

/**
 * Returns the text in UTF-8, with U+FFFD for each unpaired surrogate and for an incomplete
 * character at the end.
 */
template <class String = std::string>
[[nodiscard]] String to_utf8_lossy(utf16 text) {
    String to;
    detail::append_utf8_by(dethrux_to_utf8_lossy, text, to);
    return to;
}

/** Does the same for bytes in a byte order. */
template <class String = std::string>
[[nodiscard]] String to_utf8_lossy(byte_order order, bytes text) {
    return to_utf8_lossy<String>(utf16(order, text));
}

/**
 * Appends the text in UTF-8 to a string or vector, which must not be the text.
 *
 * @return nothing, or where the input is ill formed: in that case the text before it is appended
 */
template <class String>
[[nodiscard]] std::optional<error> append_utf8(utf16 text, String &to) {
    return detail::error_of(detail::append_utf8_by(dethrux_to_utf8, text, to), text.unit());
}

/** Does the same for bytes in a byte order. */
template <class String>
[[nodiscard]] std::optional<error> append_utf8(byte_order order, bytes text, String &to) {
    return append_utf8(utf16(order, text), to);
}

/** Does the same with U+FFFD for what is ill formed. */
template <class String>
void append_utf8_lossy(utf16 text, String &to) {
    detail::append_utf8_by(dethrux_to_utf8_lossy, text, to);
}

/** Does the same for bytes in a byte order. */
template <class String>
void append_utf8_lossy(byte_order order, bytes text, String &to) {
    append_utf8_lossy(utf16(order, text), to);
}

namespace detail {

template <class Out>
progress write_utf8_by(conversion call, const utf16 &text, Out &to) noexcept {
    const dethrux_progress made = from_utf16_by(call, text, 0, elements<1>(to), to_size(to.size()));
    return {made.read / text.unit(), made.written, made.status, made.error_len / text.unit()};
}

} // namespace detail

/** Writes the text in UTF-8 to an array or span: dethrux_to_utf8. */
template <class Out>
progress write_utf8(utf16 text, Out &&to) noexcept {
    return detail::write_utf8_by(dethrux_to_utf8, text, to);
}

/** Does the same for bytes in a byte order. */
template <class Out>
progress write_utf8(byte_order order, bytes text, Out &&to) noexcept {
    return write_utf8(utf16(order, text), to);
}

/** Writes the text in UTF-8 to an array or span: dethrux_to_utf8_lossy. */
template <class Out>
progress write_utf8_lossy(utf16 text, Out &&to) noexcept {
    return detail::write_utf8_by(dethrux_to_utf8_lossy, text, to);
}

/** Does the same for bytes in a byte order. */
template <class Out>
progress write_utf8_lossy(byte_order order, bytes text, Out &&to) noexcept {
    return write_utf8_lossy(utf16(order, text), to);
}

/** @} */

/**
 * @defgroup dethrux_cxx_from_utf8 C++: from UTF-8
 * Without a byte order the result has code units in the machine's, and with one it has bytes. A
 * string of another type may be chosen, as in `from_utf8<std::vector<std::uint16_t>>(utf8)`.
 * @{
 */

/** Returns the text in UTF-16, or where the input is ill formed. */
template <class String = std::u16string>
result<String> from_utf8(chars utf8) {
    String to;
    static_assert(sizeof(typename String::value_type) == 2, "bytes need a byte order");
    dethrux_progress made =
        detail::append_utf16_by(dethrux_from_utf8, byte_order::native, utf8, to);
    return detail::text_or_error(std::move(to), made, 1);
}

/** Does the same in bytes of a byte order. */
template <class String = std::string>
result<String> from_utf8(byte_order order, chars utf8) {
    String to;
    dethrux_progress made = detail::append_utf16_by(dethrux_from_utf8, order, utf8, to);
    return detail::text_or_error(std::move(to), made, 1);
}

/**
 * Returns the text in UTF-16, with U+FFFD for each maximal subpart of an ill-formed sequence, as
 * the Unicode Standard recommends.
 */
template <class String = std::u16string>
[[nodiscard]] String from_utf8_lossy(chars utf8) {
    String to;
    static_assert(sizeof(typename String::value_type) == 2, "bytes need a byte order");
    detail::append_utf16_by(dethrux_from_utf8_lossy, byte_order::native, utf8, to);
    return to;
}

/** Does the same in bytes of a byte order. */
template <class String = std::string>
[[nodiscard]] String from_utf8_lossy(byte_order order, chars utf8) {
    String to;
    detail::append_utf16_by(dethrux_from_utf8_lossy, order, utf8, to);
    return to;
}

/**
 * Appends the text in UTF-16 to a string or vector, which must not be the input: of code units, or
 * of bytes in a byte order. To write a file with a BOM, begin with bom_bytes.
 *
 * @return nothing, or where the input is ill formed: in that case the text before it is appended
 */
template <class String>
[[nodiscard]] std::optional<error> append_utf16(chars utf8, String &to) {
    static_assert(sizeof(typename String::value_type) == 2, "bytes need a byte order");
    return detail::error_of(
        detail::append_utf16_by(dethrux_from_utf8, byte_order::native, utf8, to), 1);
}

/** Does the same in bytes of a byte order. */
template <class String>
[[nodiscard]] std::optional<error> append_utf16(byte_order order, chars utf8, String &to) {
    return detail::error_of(detail::append_utf16_by(dethrux_from_utf8, order, utf8, to), 1);
}

/** Does the same with U+FFFD for what is ill formed. */
template <class String>
void append_utf16_lossy(chars utf8, String &to) {
    static_assert(sizeof(typename String::value_type) == 2, "bytes need a byte order");
    detail::append_utf16_by(dethrux_from_utf8_lossy, byte_order::native, utf8, to);
}

/** Does the same in bytes of a byte order. */
template <class String>
void append_utf16_lossy(byte_order order, chars utf8, String &to) {
    detail::append_utf16_by(dethrux_from_utf8_lossy, order, utf8, to);
}

namespace detail {

template <std::size_t Size, class Out>
progress write_utf16_by(conversion call, byte_order order, chars utf8, Out &to) noexcept {
    const dethrux_progress made =
        to_utf16_by(call, order, utf8.data(), utf8.size(), elements<Size>(to), to_size(to.size()));
    return {made.read, made.written, made.status, made.error_len};
}

} // namespace detail

/** Writes the text in UTF-16 to an array or span: dethrux_from_utf8. */
template <class Out>
progress write_utf16(chars utf8, Out &&to) noexcept {
    return detail::write_utf16_by<2>(dethrux_from_utf8, byte_order::native, utf8, to);
}

/** Does the same in bytes of a byte order. */
template <class Out>
progress write_utf16(byte_order order, chars utf8, Out &&to) noexcept {
    return detail::write_utf16_by<1>(dethrux_from_utf8, order, utf8, to);
}

/** Writes the text in UTF-16 to an array or span: dethrux_from_utf8_lossy. */
template <class Out>
progress write_utf16_lossy(chars utf8, Out &&to) noexcept {
    return detail::write_utf16_by<2>(dethrux_from_utf8_lossy, byte_order::native, utf8, to);
}

/** Does the same in bytes of a byte order. */
template <class Out>
progress write_utf16_lossy(byte_order order, chars utf8, Out &&to) noexcept {
    return detail::write_utf16_by<1>(dethrux_from_utf8_lossy, order, utf8, to);
}

/** @} */

/**
 * @defgroup dethrux_cxx_fixed C++: UTF-32, Latin-1 and std::wstring
 * @{
 */

/** Returns the text in UTF-32, or where the input is ill formed. */
inline result<std::u32string> to_utf32(utf16 text) {
    std::u32string to;
    dethrux_progress made = detail::append_utf32_by(dethrux_to_utf32, text, to);
    return detail::text_or_error(std::move(to), made, text.unit());
}

/** Does the same for bytes in a byte order. */
inline result<std::u32string> to_utf32(byte_order order, bytes text) {
    return to_utf32(utf16(order, text));
}

/**
 * Returns the text in UTF-32, with U+FFFD for each unpaired surrogate and for an incomplete
 * character at the end.
 */
[[nodiscard]] inline std::u32string to_utf32_lossy(utf16 text) {
    std::u32string to;
    detail::append_utf32_by(dethrux_to_utf32_lossy, text, to);
    return to;
}

/** Does the same for bytes in a byte order. */
[[nodiscard]] inline std::u32string to_utf32_lossy(byte_order order, bytes text) {
    return to_utf32_lossy(utf16(order, text));
}

/** Returns the text in UTF-16, in code units or in bytes, or where the input is ill formed. */
inline result<std::u16string> from_utf32(points utf32) {
    std::u16string to;
    dethrux_progress made =
        detail::append_from_utf32_by(dethrux_from_utf32, byte_order::native, utf32, to);
    return detail::text_or_error(std::move(to), made, 1);
}

/** Does the same in bytes of a byte order. */
inline result<std::string> from_utf32(byte_order order, points utf32) {
    std::string to;
    dethrux_progress made = detail::append_from_utf32_by(dethrux_from_utf32, order, utf32, to);
    return detail::text_or_error(std::move(to), made, 1);
}

/** Does the same with U+FFFD for each ill-formed code unit. */
[[nodiscard]] inline std::u16string from_utf32_lossy(points utf32) {
    std::u16string to;
    detail::append_from_utf32_by(dethrux_from_utf32_lossy, byte_order::native, utf32, to);
    return to;
}

/** Does the same in bytes of a byte order. */
[[nodiscard]] inline std::string from_utf32_lossy(byte_order order, points utf32) {
    std::string to;
    detail::append_from_utf32_by(dethrux_from_utf32_lossy, order, utf32, to);
    return to;
}

/**
 * Returns the text in Latin-1, or nothing if the input is ill formed or has a character above
 * U+00FF. dethrux_to_latin1 says where.
 */
[[nodiscard]] inline std::optional<std::string> to_latin1(utf16 text) {
    std::string to;
    dethrux_progress made = detail::append(to, text.len() / 2, [&](char *data, std::size_t most) {
        return detail::from_utf16_by(dethrux_to_latin1, text, 0, data, most);
    });
    if (made.status != DETHRUX_DONE) {
        return std::nullopt;
    }
    return to;
}

/** Does the same for bytes in a byte order. */
[[nodiscard]] inline std::optional<std::string> to_latin1(byte_order order, bytes text) {
    return to_latin1(utf16(order, text));
}

/** Returns the text of Latin-1 in UTF-16, in code units or in bytes. */
[[nodiscard]] inline std::u16string from_latin1(chars latin1) {
    std::u16string to;
    detail::append_utf16_by(dethrux_from_latin1, byte_order::native, latin1, to);
    return to;
}

/** Does the same in bytes of a byte order. */
[[nodiscard]] inline std::string from_latin1(byte_order order, chars latin1) {
    std::string to;
    detail::append_utf16_by(dethrux_from_latin1, order, latin1, to);
    return to;
}

namespace detail {

// UTF-16 in the form of std::wstring, by a call for each form.
inline dethrux_progress to_wide([[maybe_unused]] widening call, units text, std::wstring &to) {
#if WCHAR_MAX > 0xFFFF
    return append_utf32_by(call, text, to);
#else
    to.resize(text.size());
    if (!to.empty()) {
        std::memcpy(to.data(), text.data(), text.size() * 2);
    }
    const dethrux_validity found =
        dethrux_validate(DETHRUX_NATIVE_ENDIAN, text.data(), text.size() * 2);
    return {found.valid_up_to, 0, found.status, found.error_len};
#endif
}

} // namespace detail

/**
 * Returns the text in the form of std::wstring, or where the input is ill formed. That is UTF-16
 * where wchar_t has two bytes, and else UTF-32.
 */
inline result<std::wstring> to_wstring(units text) {
    std::wstring to;
    dethrux_progress made = detail::to_wide(dethrux_to_utf32, text, to);
    return detail::text_or_error(std::move(to), made, 2);
}

/** Does the same, with U+FFFD for each unpaired surrogate. */
[[nodiscard]] inline std::wstring to_wstring_lossy(units text) {
    std::wstring to;
    detail::to_wide(dethrux_to_utf32_lossy, text, to);
#if WCHAR_MAX <= 0xFFFF
    dethrux_u16_make_well_formed(to.data(), to.size());
#endif
    return to;
}

/** Returns the text of a std::wstring in UTF-16, or where it is ill formed. */
inline result<std::u16string> from_wstring(std::wstring_view wide) {
#if WCHAR_MAX > 0xFFFF
    return from_utf32(wide);
#else
    if (std::optional<error> found = validate(wide)) {
        return *found;
    }
    return std::u16string(wide.begin(), wide.end());
#endif
}

/** Does the same, with U+FFFD for what is ill formed. */
[[nodiscard]] inline std::u16string from_wstring_lossy(std::wstring_view wide) {
#if WCHAR_MAX > 0xFFFF
    return from_utf32_lossy(wide);
#else
    std::u16string to(wide.begin(), wide.end());
    dethrux_u16_make_well_formed(to.data(), to.size());
    return to;
#endif
}

/** Returns the text of a std::wstring in UTF-8, or where it is ill formed. */
inline result<std::string> wstring_to_utf8(std::wstring_view wide) {
#if WCHAR_MAX > 0xFFFF
    return from_utf32(wide).and_then([](const std::u16string &text) { return to_utf8(text); });
#else
    return to_utf8(wide);
#endif
}

/** Does the same, with U+FFFD for what is ill formed. */
[[nodiscard]] inline std::string wstring_to_utf8_lossy(std::wstring_view wide) {
#if WCHAR_MAX > 0xFFFF
    return to_utf8_lossy(from_utf32_lossy(wide));
#else
    return to_utf8_lossy(wide);
#endif
}

/** Returns UTF-8 in the form of std::wstring, or where the input is ill formed. */
inline result<std::wstring> wstring_from_utf8(chars utf8) {
#if WCHAR_MAX > 0xFFFF
    return from_utf8(utf8).and_then([](const std::u16string &text) { return to_wstring(text); });
#else
    return from_utf8<std::wstring>(utf8);
#endif
}

/** Does the same, with U+FFFD for each maximal subpart of an ill-formed sequence. */
[[nodiscard]] inline std::wstring wstring_from_utf8_lossy(chars utf8) {
#if WCHAR_MAX > 0xFFFF
    return to_wstring_lossy(from_utf8_lossy(utf8));
#else
    return from_utf8_lossy<std::wstring>(utf8);
#endif
}

/** @} */

/**
 * @defgroup dethrux_cxx_wtf8 C++: WTF-8, any code units without loss
 * WTF-8 is UTF-8 that may also have unpaired surrogates, of three bytes each: dethrux_to_wtf8.
 * @{
 */

/** Returns the code units in WTF-8. */
[[nodiscard]] inline std::string to_wtf8(units text) {
    std::string to;
    detail::append_utf8_by(dethrux_to_wtf8, text, to);
    return to;
}

/** Returns all code units of bytes in WTF-8, or an error at an odd byte at the end. */
inline result<std::string> to_wtf8(byte_order order, bytes text) {
    std::string to;
    dethrux_progress made = detail::append_utf8_by(dethrux_to_wtf8, utf16(order, text), to);
    return detail::text_or_error(std::move(to), made, 1);
}

/** Returns WTF-8 in UTF-16, in code units or in bytes, or where the input is not WTF-8. */
template <class String = std::u16string>
result<String> from_wtf8(chars wtf8) {
    String to;
    static_assert(sizeof(typename String::value_type) == 2, "bytes need a byte order");
    dethrux_progress made =
        detail::append_utf16_by(dethrux_from_wtf8, byte_order::native, wtf8, to);
    return detail::text_or_error(std::move(to), made, 1);
}

/** Does the same in bytes of a byte order. */
template <class String = std::string>
result<String> from_wtf8(byte_order order, chars wtf8) {
    String to;
    dethrux_progress made = detail::append_utf16_by(dethrux_from_wtf8, order, wtf8, to);
    return detail::text_or_error(std::move(to), made, 1);
}

/** @} */

/**
 * @defgroup dethrux_cxx_in_place C++: in place, in a string, vector, array or span
 * @{
 */

/** Swaps the two bytes of each code unit. An odd byte at the end is unchanged. */
template <class C>
void swap_byte_order(C &&text) noexcept {
    constexpr std::size_t size = sizeof(detail::element_of<C>);
    static_assert(size <= 2, "code units, or bytes");
    dethrux_swap_byte_order(detail::elements<size>(text), detail::to_size(text.size()) * size);
}

/**
 * Replaces each unpaired surrogate by U+FFFD, and returns how many there were. The text is code
 * units, or bytes in a byte order.
 */
template <class C>
std::size_t make_well_formed(C &&text) noexcept {
    return dethrux_u16_make_well_formed(detail::elements<2>(text), detail::to_size(text.size()));
}

/** Does the same for bytes in a byte order. */
template <class C>
std::size_t make_well_formed(byte_order order, C &&text) noexcept {
    return dethrux_make_well_formed(
        detail::order(order), detail::elements<1>(text), detail::to_size(text.size()));
}

/** @} */

/**
 * @defgroup dethrux_cxx_streams C++: streams
 * A string that is appended to, or a vector, must not be the chunk.
 * @{
 */

namespace detail {

// What the decoders share: they keep at most three bytes of a stream.
class decoding {
public:
    /** Returns the number of pending bytes, at most three. */
    std::size_t pending() const noexcept { return state_.pending_len; }

protected:
    using feeding = dethrux_progress (*)(
        dethrux_decoder *, dethrux_byte_order, const void *, std::size_t, void *, std::size_t);

    explicit decoding(byte_order order) noexcept : order_(order) {}

    template <class String>
    void feed_by(feeding call, const utf16 &chunk, String &to) {
        append(to, (chunk.len() + 3) / 2 * 3, [&](auto *data, std::size_t most) {
            return call(&state_, chunk.order(), chunk.data(), chunk.len(), data, most);
        });
    }

    dethrux_decoder state_ = DETHRUX_DECODER_INIT;
    byte_order order_;
};

} // namespace detail

/**
 * Decodes a stream of UTF-16 that comes in chunks, cut anywhere, to UTF-8, with U+FFFD for each
 * unpaired surrogate.
 */
class decoder : public detail::decoding {
public:
    /** Begins a stream of UTF-16 in this byte order. */
    explicit decoder(byte_order order = byte_order::native) noexcept : decoding(order) {}

    /** @{ */
    /**
     * Appends the text of the next chunk that is certain: of bytes, or of code units in the
     * machine's byte order, which the stream must have.
     */
    template <class String>
    void feed(bytes chunk, String &to) {
        feed_by(dethrux_decoder_feed, {order_, chunk}, to);
    }
    template <class String>
    void feed(units chunk, String &to) {
        feed_by(dethrux_decoder_feed, chunk, to);
    }
    /** @} */

    /** Ends the stream: appends U+FFFD if it ends inside a character. A new stream begins. */
    template <class String>
    void finish(String &to) {
        detail::append(to, DETHRUX_DECODER_FINISH_MAX, [&](auto *data, std::size_t most) {
            return dethrux_decoder_finish(&state_, detail::order(order_), data, most);
        });
    }
};

/**
 * Decodes a stream of UTF-16 that comes in chunks, cut anywhere, to WTF-8, without loss.
 */
class wtf8_decoder : public detail::decoding {
public:
    /** Begins a stream of UTF-16 in this byte order. */
    explicit wtf8_decoder(byte_order order = byte_order::native) noexcept : decoding(order) {}

    /** @{ */
    /**
     * Appends the characters and surrogates of the next chunk that are certain: of bytes, or of
     * code units in the machine's byte order, which the stream has from then on.
     */
    template <class String>
    void feed(bytes chunk, String &to) {
        feed_by(dethrux_wtf8_decoder_feed, {order_, chunk}, to);
    }
    template <class String>
    void feed(units chunk, String &to) {
        feed_by(dethrux_wtf8_decoder_feed, chunk, to);
        order_ = byte_order::native;
    }
    /** @} */

    /**
     * Ends the stream: appends a pending leading surrogate. A new stream begins.
     *
     * @return whether the stream had whole code units: false if an odd byte at its end is left out
     */
    template <class String>
    [[nodiscard]] bool finish(String &to) {
        const dethrux_progress made =
            detail::append(to, DETHRUX_DECODER_FINISH_MAX, [&](auto *data, std::size_t most) {
                return dethrux_wtf8_decoder_finish(&state_, detail::order(order_), data, most);
            });
        return made.status == DETHRUX_DONE;
    }
};

/**
 * Decodes a stream of UTF-16 whose byte order its BOM gives, to UTF-8, with U+FFFD for each
 * unpaired surrogate. The BOM is not part of the text.
 */
class bom_decoder {
public:
    /** Begins a stream, which has this byte order if it has no BOM. */
    explicit bom_decoder(byte_order default_order) noexcept : default_order_(default_order) {}

    /** Appends the text of the next chunk that is certain. */
    template <class String>
    void feed(bytes chunk, String &to) {
        if (order_) {
            decoder_.feed(chunk, to);
            return;
        }
        std::uint8_t start[2] = {first_};
        const std::size_t more = std::size_t{2} - (has_first_ ? 1 : 0);
        const std::size_t taken = chunk.size() < more ? chunk.size() : more;
        if (taken > 0) {
            std::memcpy(start + (2 - more), chunk.data(), taken);
        }
        const bom found = detect_bom(default_order_, bytes(start, 2 - more + taken));
        if (found.is_undecided) {
            has_first_ = has_first_ || taken > 0;
            first_ = start[0];
            return;
        }
        decoder next(found.order);
        if (found.len == 0 && has_first_) {
            // One byte is pending, and appends nothing.
            next.feed(bytes(start, 1), to);
        }
        const std::size_t past = found.len == 0 ? 0 : taken;
        next.feed(bytes(chunk.data() + past, chunk.size() - past), to);
        decoder_ = next;
        order_ = found.order;
    }

    /** Ends the stream: appends U+FFFD if it ends inside a character. A new stream begins. */
    template <class String>
    void finish(String &to) {
        decoder last = decoder_;
        if (has_first_ && !order_) {
            last.feed(bytes(&first_, 1), to);
        }
        last.finish(to);
        *this = bom_decoder(default_order_);
    }

    /** Returns the number of pending bytes, at most three. */
    std::size_t pending() const noexcept {
        return order_ ? decoder_.pending() : std::size_t{has_first_};
    }

    /** Returns the byte order of the stream, or nothing if fewer than two bytes have come. */
    std::optional<byte_order> order() const noexcept { return order_; }

private:
    decoder decoder_;
    std::optional<byte_order> order_;
    byte_order default_order_;
    std::uint8_t first_ = 0;
    bool has_first_ = false;
};

/**
 * Encodes a stream of UTF-8 that comes in chunks, cut anywhere, in UTF-16, with U+FFFD for each
 * maximal subpart of an ill-formed sequence.
 *
 * A string of code units gets the machine's byte order, one of bytes the encoder's. Give one type
 * of string for a whole stream.
 */
class encoder {
public:
    /** Begins a stream; the byte order is the one of the UTF-16 to write. */
    explicit encoder(byte_order order = byte_order::native) noexcept : order_(order) {}

    /** Appends the text of the next chunk that is certain. */
    template <class String>
    void feed(bytes chunk, String &to) {
        detail::append_encoded(
            order_, chunk.size() * 2 + 2, to, [&](auto order, auto *data, std::size_t most) {
                return dethrux_encoder_feed(&state_, order, chunk.data(), chunk.size(), data, most);
            });
    }

    /** Ends the stream: appends U+FFFD if it ends inside a character. A new stream begins. */
    template <class String>
    void finish(String &to) {
        detail::append_encoded(order_, DETHRUX_ENCODER_FINISH_MAX, to,
            [&](auto... all) { return dethrux_encoder_finish(&state_, all...); });
    }

    /** Returns the number of pending bytes, at most three. */
    std::size_t pending() const noexcept { return state_.pending_len; }

private:
    dethrux_encoder state_ = DETHRUX_ENCODER_INIT;
    byte_order order_;
};

/**
 * Encodes a stream of WTF-8 that comes in chunks, cut anywhere, in UTF-16.
 *
 * The encoder keeps at most six bytes of the stream. A string of code units gets the machine's byte
 * order, one of bytes the encoder's. Give one type of string for a whole stream.
 */
class wtf8_encoder {
public:
    /** Begins a stream; the byte order is the one of the UTF-16 to write. */
    explicit wtf8_encoder(byte_order order = byte_order::native) noexcept : order_(order) {}

    /**
     * Appends what is certain of the next chunk.
     *
     * @return nothing, or where the stream is not WTF-8, counted from its start: then the stream is
     *   not read further
     */
    template <class String>
    [[nodiscard]] std::optional<error> feed(bytes chunk, String &to) {
        if (error_) {
            return error_;
        }
        const dethrux_progress made = detail::append_encoded(
            order_, chunk.size() * 2 + 4, to, [&](auto order, auto *data, std::size_t most) {
                return dethrux_wtf8_encoder_feed(
                    &state_, order, chunk.data(), chunk.size(), data, most);
            });
        fed_ += made.read;
        if (made.status == DETHRUX_ILL_FORMED) {
            error_ = error{fed_ - state_.pending_len, made.error_len};
            state_ = DETHRUX_WTF8_ENCODER_INIT;
        }
        return error_;
    }

    /**
     * Ends the stream: appends a pending leading surrogate. A new stream begins.
     *
     * @return nothing, or where the stream is not WTF-8, counted from its start
     */
    template <class String>
    [[nodiscard]] std::optional<error> finish(String &to) {
        const std::size_t start = fed_ - state_.pending_len;
        const dethrux_progress made =
            detail::append_encoded(order_, DETHRUX_WTF8_ENCODER_FINISH_MAX, to,
                [&](auto... all) { return dethrux_wtf8_encoder_finish(&state_, all...); });
        const std::optional<error> found =
            made.status == DETHRUX_DONE ? error_ : error{start + made.read, 0};
        *this = wtf8_encoder(order_);
        return found;
    }

    /** Returns the number of pending bytes, at most six. */
    std::size_t pending() const noexcept { return state_.pending_len; }

private:
    dethrux_wtf8_encoder state_ = DETHRUX_WTF8_ENCODER_INIT;
    std::size_t fed_ = 0;
    std::optional<error> error_;
    byte_order order_;
};

/** @} */

} // namespace dethrux

#endif
