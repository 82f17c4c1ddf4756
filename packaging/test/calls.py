#!/usr/bin/env python3
"""Tests packaging/calls on declarations. The last line is 'N passed, M failed'."""

import pathlib
import re
import runpy
import sys
import types

PACKAGING = pathlib.Path(__file__).resolve().parent.parent
sys.path.insert(0, str(PACKAGING))
script = types.SimpleNamespace(**runpy.run_path(str(PACKAGING / "calls")))

import header  # noqa: E402


def results():
    """Returns whether each result is what is expected of its kind of declaration."""
    made = lambda *words: header.Call("", "", *words)
    one = made("dethrux_progress", "dethrux_from_utf32_lossy", "dethrux_byte_order byte_order, "
               "const uint32_t *utf32,\n    size_t len, void *to, size_t capacity")
    place = made("bool", "dethrux_is_char_boundary", "dethrux_byte_order o, const void *utf16, "
                 "size_t len, size_t at")
    state = made("dethrux_progress", "dethrux_decoder_feed", "dethrux_decoder *decoder, "
                 "dethrux_byte_order o, const void *chunk, size_t len, void *to, size_t capacity")
    swap = made("void ", "dethrux_swap_byte_order", "void *utf16, size_t len")
    pair = made("size_t ", "dethrux_find", "dethrux_byte_order o, const void *utf16, size_t len, "
                "const void *pattern, size_t pattern_len")
    named = lambda name: next(it for it in header.calls() if it.name == name)
    flat = lambda text: " ".join(text.split()).replace("( ", "(")
    bytes_of = lambda *words: flat(header.for_bytes(*words))
    return {
        "C++ takes bytes": "inline int at(byte_order order, bytes text, int at) noexcept { return "
        "at(utf16(order, text), at); }"
        in bytes_of("inline ", "int", "at", "utf16 text, int at", " noexcept", "..."),
        "C++ takes two texts": "void f(byte_order a_order, bytes a, byte_order b_order, bytes b) { "
        "f(utf16(a_order, a), utf16(b_order, b)); }"
        in bytes_of("", "void", "f", "utf16 a, utf16 b", "", "..."),
        "C++ chooses a string": "return f<String>(utf16(order, text));"
        in bytes_of("template <class String = S>\n", "S", "f", "utf16 text", "", "..."),
        "C++ gives bytes": "inline std::string f(byte_order order, chars utf8) { std::string to; "
        "call_by<1>(order, utf8, to); }"
        in bytes_of("inline ", "std::u16string", "f", "chars utf8", "", "    std::u16string to;\n"
                    "    static_assert(size, \"bytes\");\n    call_by<2>(byte_order::native, utf8, "
                    "to);\n"),
        "a lossy function": "/** Does what dethrux_to_utf8_fit does, and replaces what is ill formed "
        "by U+FFFD. */ fit(dethrux_to_utf8_lossy, a)" in flat(header.lossy(
            "fit(dethrux_to_utf8, a)", "dethrux_to_utf8_fit", "", "to", "fit")),
        "C++ takes what has no byte order": not bytes_of("", "int", "f", "chars utf8", "", "..."),
        "code units are written": "DETHRUX_U16_BYTES(to), capacity * 2); found.written /= 2; return"
        in flat(header.form(one)),
        "UTF-32 is counted in its code units": "(utf32, len * 4); DETHRUX_WRITES(to, capacity)"
        in flat(header.check(one)),
        "the capacity of a form": "@param capacity `len * 2` suffices; a loop needs 2"
        in header.form(one),
        "an offset": "return at <= len && dethrux_is_char_boundary(DETHRUX_NATIVE_ENDIAN, "
        "DETHRUX_U16_BYTES(utf16), len * 2, at * 2);" in flat(header.form(place)),
        "a chunk is UTF-16": "const dethrux_unit *chunk" in header.form(state)
        and "found.read /= 2; return" in flat(header.form(state)),
        "a state": "DETHRUX_READS(&decoder->pending_len, 1)" in flat(header.check(state)),
        "an encoder's chunk is bytes": not made("dethrux_progress", "dethrux_encoder_feed",
        "dethrux_encoder *encoder, const void *chunk, size_t len").reads_utf16,
        "nothing is returned": "DETHRUX_U16 void dethrux_u16_swap_byte_order(dethrux_unit *utf16"
        in flat(header.form(swap))
        and "DETHRUX_DEFINE(void, swap_byte_order" in flat(header.check(swap)),
        "two texts": flat(header.form(pair)).count("DETHRUX_U16_BYTES") == 2
        and "DETHRUX_READS(pattern, pattern_len)" in flat(header.check(pair)),
        "no parameters": not made("uint32_t ", "dethrux_version", "void").parameters,
        "Rust takes slices": "pub fn find(order: ByteOrder, utf16: &[u8], pattern: &[u8]) -> "
        "Option<usize>" in script.rust_function(named("find"))
        and "utf16.as_ptr(), utf16.len(), pattern.as_ptr(), pattern.len()) })"
        in flat(script.rust_function(named("find"))),
        "Rust changes a slice": "(order: ByteOrder, utf16: &mut [u8]) -> usize {\n"
        in script.rust_function(named("make_well_formed"))
        and "(order, utf16.as_mut_ptr(), utf16.len()) }"
        in script.rust_function(named("make_well_formed")),
        "Rust writes UTF-32 to a buffer": "to_utf32<B: Buffer<u32> + ?Sized>(order"
        in script.rust_function(named("to_utf32")),
        "what Rust says": "///\n/// As the length of `to`, [`from_utf8_max_len`] suffices; a loop "
        "needs 4. The status is\n/// [`Status::Done`], [`Status::Incomplete`] or "
        "[`Status::NoSpace`]. With [`Status::Incomplete`], at\n/// most 3 bytes follow"
        in script.rust_function(named("from_utf8_partial")),
        "each form has a capacity": all(
            header.looked_up(header.CAPACITIES, it.name) for it in header.calls()
            if it.has_form() and it.result == "dethrux_progress"
        ),
        "no line is too long": all(len(it) <= header.WIDTH for it in header.header().splitlines()),
        "each call has its lines": all(
            header.header().count(f" dethrux_u16_{it.name}(") == it.has_form()
            for it in header.calls()
        ),
        "each call of the header": len(header.calls()) == len(re.findall(
            r"(?m)^[\w *]*\bdethrux_\w+\([^;{]*\);", (header.TOP / "include/dethrux.h").read_text()
            .partition("/** @cond */")[0])),
    }


if __name__ == "__main__":
    sys.exit(script.counted(results()))
