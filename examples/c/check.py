"""Makes the calls of the tables of cases/ that the package dethrux of bindings/python has. Prints
each case whose result differs, with both results, and finally how many passed. Cases of other
calls, and cases with a condition on memory or devices, are not run.

A function of the package whose name is that of a call is made with the values of a case, which its
parameters tell how to read. `OTHERS` has the calls that take more than that.
"""

import collections
import inspect
import json
import pathlib
import subprocess
import sys

import dethrux
from dethrux import Status

TABLES = pathlib.Path(__file__).resolve().parents[2] / "cases/to_json.py"
ORDERS = {"le": "little", "be": "big"}
OTHER_ORDER = {"little": "big", "big": "little"}
STOPS = {Status.DONE: ["end"], Status.INCOMPLETE: ["incomplete"], Status.NO_SPACE: ["no_space"]}
STOPS[Status.NOT_LATIN1] = ["not_latin1"]
NUMBERS = ("at", "length", "count", "index", "capacity")


def raw(word):
    """The bytes of a word."""
    return b"" if word == "-" else bytes.fromhex(word)


def pieces(words):
    return [raw(piece) for piece in words[0].split(",")] if words else []


def utf32(data):
    """UTF-32 in the other byte order, if it is not the machine's: a table has big endian."""
    units = (data[at : at + 4] for at in range(0, len(data), 4))
    return data if sys.byteorder == "big" else b"".join(unit[::-1] for unit in units)


def in_hex(found):
    return found.hex().upper() or "-"


def text(utf8):
    return "utf8:" + in_hex(utf8)


def stop(status, error_len):
    return STOPS.get(status) or ["ill_formed", error_len]


# The functions of the package.


def arguments_of(function, order, words):
    """The arguments of a function for the values of a case, by its parameters."""
    words, found = list(words), {}
    for name, parameter in inspect.signature(function).parameters.items():
        if "byteorder" in name:
            found[name] = order
        elif name in NUMBERS:
            word = words.pop(0)
            found[name] = sys.maxsize if word == "max" else word if word == "size" else int(word)
        elif parameter.default is parameter.empty:
            data = raw(words.pop(0))
            found[name] = utf32(data) if name == "utf32" else data
    if words:
        raise ValueError("there are more values")
    return found


def function_of(call):
    """The function of the package that has the name of a call, or None."""
    name = call.removeprefix("bytes::").removeprefix("search::")
    return getattr(dethrux, name, None) if name in dethrux.__all__ else None


def made(call, order, *words):
    """The words of the result of a function."""
    function = function_of(call)
    arguments = arguments_of(function, order, words)
    if "capacity" in arguments:
        return converted(function.__name__, arguments)
    return shown(function.__name__, function(**arguments))


def shown(name, found):
    """A result as a table spells it. The offset -1 means that there is none."""
    if isinstance(found, dethrux.Inspection):
        repertoire = found.repertoire.name.lower()
        return [found.valid_up_to, found.chars, repertoire, *stop(found.status, found.error_len)]
    if isinstance(found, dethrux.Validity):
        return ["done" if found.status == Status.DONE else found.valid_up_to // 4]
    if name == "to_utf32_lossy_len":
        found //= 4
    return [str(found).lower() if isinstance(found, bool) else "none" if found == -1 else found]


def length_of(name, source, order):
    """The capacity that suffices, by the function that counts."""
    names = "_".join(name.split("_")[:2])
    count = getattr(dethrux, f"{names}_lossy_len", None) or getattr(dethrux, f"{names}_len")
    return count(source, order) if name.startswith("to_") else count(source)


def converted(name, arguments):
    """The result of a conversion; more words if another way to call it gives another one."""
    source, order, room = arguments.values()
    reads, writes = (4 if it else 1 for it in ("from_utf32" in name, "to_utf32" in name))
    room = length_of(name, source, order) if room == "size" else room * writes
    found = getattr(dethrux, name)(source, order, room)
    output, read, status, error_len = found
    buffer = bytearray(room) + b"rest"
    into = getattr(dethrux, f"{name}_into")(source, order, memoryview(buffer)[:room])
    same = into == (read, len(output), status, error_len) and buffer.startswith(output)
    same &= buffer.endswith(b"rest")
    same &= status == Status.NO_SPACE or found == getattr(dethrux, name)(source, order)
    words = [read // reads, len(output) // writes, *stop(status, error_len // reads)]
    spelled = text if name.startswith("to_utf8") else in_hex
    return [*words, spelled(utf32(output) if writes == 4 else output), *["differs"] * (not same)]


def every_room(order, name, source):
    """The number of bytes that a conversion writes to a buffer of each length, and the output."""
    source, convert = raw(source), getattr(dethrux, name)
    output = convert(source, order).output
    found = [convert(source, order, room).output for room in range(len(output))]
    words = [len(it) if output.startswith(it) else "differs" for it in found]
    return [*words, len(output), text(output) if name.startswith("to_") else in_hex(output)]


# What takes more than one call.


def chunkings(source):
    singly = [source[at : at + 1] for at in range(len(source))]
    return [singly, *([source[:at], source[at:]] for at in range(len(source) + 1))]


def feed(decoder, chunk, room):
    """What a decoder writes for a chunk, at most this many bytes for each call."""
    written, status = b"", Status.NO_SPACE
    while status == Status.NO_SPACE:
        output, read, status, _error_len = decoder.feed_partial(chunk, room)
        written, chunk = written + output, chunk[read:]
    return written


def fed(order, parts, room=4096, kind=dethrux.Decoder):
    decoder = kind(order)
    return b"".join(feed(decoder, piece, room) for piece in parts) + decoder.finish()


def cut_anywhere(order, source, kind=dethrux.Decoder):
    """What a stream gives, and anything else that a chunking gives."""
    whole = fed(order, [source], kind=kind)
    rooms = (4, 5, 4096) if len(source) <= 64 else ()
    cuts = ((parts, room) for parts in chunkings(source) for room in rooms)
    return [whole, *({fed(order, parts, room, kind) for parts, room in cuts} - {whole})]


def from_utf8_lossy(order, source, room):
    """The call, and what differs from its whole result in any chunking of the input."""
    words = made("from_utf8_lossy", order, source, room)
    streams = cut_anywhere(order, raw(source), dethrux.Encoder) if words[2] == "end" else []
    return [*words, *({in_hex(stream) for stream in streams} - {words[-1]})]


def validate(order, source, *whole):
    valid_up_to, status, error_len = dethrux.validate(raw(source), order)
    if status == Status.DONE:
        return list(whole) or [source]
    return ["error", valid_up_to, "none" if status == Status.INCOMPLETE else error_len]


def every_any_chunking(_order, source):
    source = raw(source)
    found, bom_len, _status = dethrux.detect_bom(source, "big")
    return map(text, cut_anywhere(found, source[bom_len:]))


def lossy_feed(order, *words):
    decoder, found = dethrux.Decoder(order), []
    for piece in pieces(words):
        found += [text(decoder.feed(piece)), in_hex(decoder.pending)]
    return [*found, "U+FFFD" if decoder.finish() else "none"]


def swap_byte_order(_order, source):
    source = bytearray(raw(source))
    dethrux.swap_byte_order(source)
    return [in_hex(source)]


def make_well_formed(order, source):
    source = bytearray(raw(source))
    return [dethrux.make_well_formed(source, order), in_hex(source)]


def compare(order, first, second):
    first, second = raw(first), bytearray(raw(second))
    found = dethrux.compare(first, order, second, order)
    dethrux.swap_byte_order(second)
    if dethrux.compare(first, order, second, OTHER_ORDER[order]) != found:
        return ["differs"]
    return [{-1: "less", 0: "equal", 1: "greater"}[found]]


OTHERS = {
    "from_utf8_lossy": from_utf8_lossy,
    "swap_byte_order": swap_byte_order,
    "make_well_formed": make_well_formed,
    "bytes::compare": compare,
    "compare": compare,
    "validate_raw_utf16": lambda order, source: validate(order, source, "done"),
    "WStr::from_utf16": validate,
    "every_room": every_room,
    "every_chunking": lambda order, source: map(text, cut_anywhere(order, raw(source))),
    "AnyLossy::every_chunking": every_any_chunking,
    "Lossy::feed": lossy_feed,
    "decode_pieces": lambda order, *words: [text(fed(order, pieces(words)))],
}


# The functions that no table has; `WStr::from_utf16` is `validate`.
UNLISTED = {"decode", "decode_to_utf8", "detect_bom", "encode", "encode_from_utf8", "kernel"}
UNLISTED |= {"validate"}


def fault(case):
    """What is wrong with a case, or None."""
    call, order, values = case["call"], ORDERS[case["order"]], case["values"]
    try:
        found = OTHERS[call](order, *values) if call in OTHERS else made(call, order, *values)
        found = [*map(str, found)]
        return None if found == case["result"] else f"found {' '.join(found)}"
    except (TypeError, ValueError) as error:
        return repr(error)


def main():
    lines = subprocess.check_output([sys.executable, TABLES]).splitlines()
    counts, missing = collections.Counter(), {*dethrux._native.__all__} - UNLISTED
    missing = {name for name in missing if not name.endswith("_into")}
    missing |= {call.split("::")[-1] for call in OTHERS}
    for case in map(json.loads, lines):
        call = case["call"]
        if (call in OTHERS or function_of(call)) and not case["conditions"]:
            missing.discard(call.split("::")[-1])
            wrong = fault(case)
            counts[wrong is None] += 1
            if wrong is not None:
                print(f"Python failed: {' '.join(map(str, case.values()))}\n   {wrong}")
    for name in missing:
        counts[False] += 1
        print(f"Python failed: no case of {name}")
    print(f"{counts[True]} passed, {counts[False]} failed")
    return counts[False] != 0


sys.exit(main())
