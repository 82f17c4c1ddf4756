"""Inputs of the tests, and what CPython's codecs make of them: the results that are expected."""

import array
import ast
import codecs
import ctypes
import functools
import mmap
import os
import sys
import tempfile
import threading
import tracemalloc
import unittest
from pathlib import Path
from typing import NamedTuple, Optional

import dethrux
from dethrux import Status, _native

TOP = Path(os.environ.get("DETHRUX_TOP") or Path(__file__).resolve().parents[3])
CODECS = {"little": "utf-16-le", "big": "utf-16-be"}
ORDERS = tuple(CODECS)
REPLACEMENT = "\ufffd"
LARGEST = 2**64 - 1
LEADING, TRAILING = 0xD83D, 0xDE00
PAIR = (LEADING, TRAILING)

_UNITS = (
    (),
    (0x61,),
    (0x7F, 0x80, 0x7FF, 0x800, 0xFFFF),
    (0xFEFF, 0xFFFE),
    PAIR,
    (0x61, *PAIR, 0x4E00, *PAIR),
    (LEADING,),
    (TRAILING,),
    (TRAILING, LEADING),
    (LEADING, 0x61, LEADING),
    (LEADING, *PAIR, TRAILING, 0x62),
    (0x4E00, LEADING, LEADING),
    (0x61,) * 40 + (LEADING,) + (0x4E00,) * 3,
)
UTF8 = (
    b"",
    b"a",
    "a\x7f\x80\u07ff\u0800\uffff\U00010000\U0010ffff".encode(),
    b"a\xf0\x9f\x98\x80\xffb",
    b"\xf0",
    b"\xf0\x9f",
    b"\xf0\x9f\x98",
    b"a\xc3",
    b"\xe4\xb8\xe4\xb8\x80\xe4\xb8",
    b"\xed\xa0\x80\xc0\x80",
    b"\xed\xa0\x80a\xed\xb0\x80",
    b"a" * 40 + b"\x80" + "\u4e00".encode() * 3,
)


# The numbers that a function of the extension is given.
_NUMBERS = {"at": 1, "order": 0, "length": 9, "count": 2, "index": 1}


def stub(kind=ast.FunctionDef):
    """Return each function of the extension, or another kind of node, as the stub has it."""
    text = Path(_native.__file__).with_name("_native.pyi").read_text()
    return [it for it in ast.parse(text).body if isinstance(it, kind)]


# The parameters of each function of the extension that have no default, and their types.
REQUIRED = {
    node.name: {
        it.arg: ast.unparse(it.annotation)
        for it in node.args.args[: len(node.args.args) - len(node.args.defaults)]
    }
    for node in stub()
}


def values_of(name, raw=b"a\0b\0", text="ab", utf8=b"ab"):
    """Return a value of the right type for each parameter of a function that has no default."""
    by_type = {"ReadableBuffer": raw, "str": text, "bytearray": bytearray(4)}
    by_type["WritableBuffer"] = raw if isinstance(raw, bytearray) else bytearray(raw)
    by_name = {**_NUMBERS, "utf8": utf8, "wtf8": utf8, "buffer": bytearray(16), "capacity": None}
    by_name["second_byteorder"] = "big"
    given = REQUIRED[name].items()
    return {it: by_name.get(it, by_type.get(kind, "little")) for it, kind in given}


def with_parameter(kind):
    """Return the functions with a parameter of a type, and the name of each such parameter."""
    return [(name, it) for name in REQUIRED for it in REQUIRED[name] if REQUIRED[name][it] == kind]


def utf16(order):
    """Return well-formed and ill-formed bytes of even and of odd lengths."""
    samples = [b"".join(unit.to_bytes(2, order) for unit in units) for units in _UNITS]
    return [sample + odd for sample in samples for odd in (b"", b"\xd8", b"\x61")]


class Item(NamedTuple):
    """A character or an ill-formed sequence, which may be an incomplete character at the end."""

    length: int
    char: Optional[str]
    is_incomplete: bool = False


@functools.lru_cache(maxsize=None)
def items(raw, codec):
    """Return the characters and the ill-formed sequences of bytes, as CPython finds them."""
    found = []
    at = 0
    while at < len(raw):
        end = len(raw)
        ill_formed = []
        try:
            text = raw[at:].decode(codec)
        except UnicodeDecodeError as error:
            text = raw[at : at + error.start].decode(codec)
            is_incomplete = error.reason in ("truncated data", "unexpected end of data")
            ill_formed = [Item(error.end - error.start, None, is_incomplete)]
            end = at + error.end
        found += [Item(len(char.encode(codec)), char) for char in text] + ill_formed
        at = end
    return found


def outcome(call, *arguments):
    """Return what a call returns, or the exception with all that it says."""
    try:
        return call(*arguments)
    except UnicodeError as error:
        if "does not start with BOM" in str(error):
            # The class and the words depend on the version of CPython.
            return "no BOM"
        return type(error), error.args
    except (TypeError, LookupError) as error:
        # `str.encode` and `bytes.decode` put the words after some about the codec.
        return type(error), str(error).rpartition(": ")[2].rstrip(")")


def size(text):
    """Return what tells the kinds of equal texts apart, or nothing for what is not a text.

    It is not the size of the text itself: since Python 3.12 those of one character have UTF-8 too.
    """
    return sys.getsizeof(text * 2) if isinstance(text, str) else None


class Comparison(unittest.TestCase):
    """Compares decoding and encoding in a byte order with CPython: results, kinds and errors."""

    outcome = staticmethod(outcome)

    def assert_same(self, call, expected, *shown):
        """Compare what two calls return or raise, and which kind of str."""
        found, wanted = self.outcome(call), self.outcome(expected)
        self.assertEqual((found, size(found)), (wanted, size(wanted)), shown)

    def assert_decoded(self, data, order, errors="strict", raw=None):
        """Decode to a str, also as a codec does, and to UTF-8. Data that is not bytes has these."""
        codec, raw = CODECS[order], data if raw is None else raw
        name, handler = codec.replace("-", "_") + "_decode", "strict" if errors is None else errors
        shown, decode = (raw[:99], order, errors), lambda: raw.decode(codec, handler)
        self.assert_same(lambda: dethrux.decode(data, order, errors), decode, *shown)
        self.assert_same(lambda: raw.decode(f"dethrux-{codec}", handler), decode, *shown)
        to_utf8 = lambda: decode().encode("utf-8", handler)
        self.assert_same(lambda: dethrux.decode_to_utf8(data, order, errors), to_utf8, *shown)
        for final in (False, True):
            call, expected = getattr(_native, name), getattr(codecs, name)
            self.assert_same(
                lambda: call(data, errors, final), lambda: expected(raw, errors, final), *shown
            )

    def assert_encoded(self, text, order, errors="strict"):
        """Encode a str, also as a codec does."""
        codec = CODECS[order]
        name, handler = codec.replace("-", "_") + "_encode", "strict" if errors is None else errors
        shown, encode = (text[:99], order, errors), lambda: text.encode(codec, handler)
        self.assert_same(lambda: dethrux.encode(text, order, errors), encode, *shown)
        self.assert_same(lambda: text.encode(f"dethrux-{codec}", handler), encode, *shown)
        call, expected = getattr(_native, name), getattr(codecs, name)
        self.assert_same(lambda: call(text, errors), lambda: expected(text, errors), *shown)

    def assert_from_utf8(self, utf8, order, errors="strict"):
        """Encode UTF-8."""
        self.assert_same(
            lambda: dethrux.encode_from_utf8(utf8, order, errors),
            lambda: utf8.decode("utf-8", errors).encode(CODECS[order], errors),
            utf8,
            order,
            errors,
        )

    def assert_both_ways(self, text):
        """Encode and decode a text in both byte orders, also with a BOM."""
        for order, codec in CODECS.items():
            self.assert_encoded(text, order)
            self.assert_decoded(text.encode(codec), order)
            raw = ("\ufeff" + text).encode(codec)
            self.assertEqual(_native.utf_16_decode_all(raw), (text, len(raw)))


class Bytes(bytes):
    """A subclass, as programs may define one."""


class OwnBuffer:
    """A buffer of a class of Python, which can be one since Python 3.12."""

    def __init__(self, raw):
        self.raw = raw

    def __buffer__(self, flags):
        return memoryview(self.raw)


def spread(raw):
    """Return a view of every other byte of a longer buffer."""
    longer = bytearray(b"\xaa" * (2 * len(raw)))
    longer[::2] = raw
    return memoryview(longer)[::2]


def rows(raw):
    """Return a view of every other row of two bytes of a table, or of bytes if there are none."""
    if not raw or len(raw) % 2:
        return spread(raw)
    pairs = [raw[at : at + 2] + b"\xaa\xaa" for at in range(0, len(raw), 2)]
    return memoryview(bytearray(b"".join(pairs))).cast("B", [len(raw), 2])[::2]


def inside(raw):
    """Return a view of the middle of a longer buffer."""
    return memoryview(bytearray(b"\xaa\xaa" + raw + b"\xaa"))[2:-1]


def units(raw):
    """Return an array of code units, or of bytes if there is an odd one."""
    return array.array("B" if len(raw) % 2 else "H", raw)


def inside_bytes(raw):
    """Return a read-only view of the middle of longer bytes."""
    return memoryview(b"\xaa\xaa" + raw + b"\xaa")[2:-1]


def mapped(raw):
    """Return a read-only mapping of a file, or bytes if there are none."""
    if not raw:
        return raw
    with tempfile.TemporaryFile() as file:
        file.write(raw)
        file.flush()
        return mmap.mmap(file.fileno(), 0, access=mmap.ACCESS_READ)


def mapped_memory(raw):
    """Return a mapping that may be written to, or a bytearray if it were empty."""
    if not raw:
        return bytearray()
    mapping = mmap.mmap(-1, len(raw))
    mapping[:] = raw
    return mapping


def without_object(raw):
    """Return a read-only view of memory that belongs to no object of Python."""
    memory = ctypes.create_string_buffer(raw, len(raw) + 1)
    _MEMORY.append(memory)
    make = ctypes.pythonapi["PyMemoryView_FromMemory"]
    make.restype = ctypes.py_object
    make.argtypes = (ctypes.c_void_p, ctypes.c_ssize_t, ctypes.c_int)
    return make(ctypes.addressof(memory), len(raw), _READ)


# What keeps that memory, and the flag PyBUF_READ.
_MEMORY, _READ = [], 0x100

# Buffers that a call may write to.
WRITABLE = (bytearray, lambda raw: memoryview(bytearray(raw)), inside, units, mapped_memory)
WRITABLE += (lambda raw: (ctypes.c_ubyte * len(raw)).from_buffer_copy(raw),)
# Buffers that nobody may write to.
CONSTANT = (bytes, Bytes, memoryview, inside_bytes, mapped, lambda raw: memoryview(mapped(raw)))
CONSTANT += (lambda raw: memoryview(raw).cast("B", [len(raw), 1]) if raw else b"",)
CONSTANT += (lambda raw: memoryview(raw) if len(raw) % 2 else memoryview(raw).cast("H"),)
# Buffers that are not in one piece: they are copied.
IN_PIECES = (spread, rows, lambda raw: memoryview(raw[::-1])[::-1])
# All buffers that a call reads.
READABLE = (*CONSTANT, *WRITABLE, *IN_PIECES)
READABLE += (lambda raw: memoryview(bytearray(raw)).toreadonly(),)
READABLE += (lambda raw: memoryview(mapped_memory(raw)).toreadonly(), without_object)
if sys.version_info >= (3, 12):
    READABLE += (OwnBuffer,)
# Buffers that a call that writes in place refuses.
UNWRITABLE = (bytes, memoryview, mapped, spread)
UNWRITABLE += (lambda raw: memoryview(bytearray(raw)).toreadonly(),)
NOT_BUFFERS = ("a", 5, None, [1], 1.5, object())


class Index:
    """A number that is not an int, like NumPy's."""

    def __init__(self, number):
        self.number = number

    def __index__(self):
        return self.number


def peak(call, *arguments):
    """Return how many bytes of memory a call takes at most."""
    tracemalloc.start()
    call(*arguments)
    most = tracemalloc.get_traced_memory()[1]
    tracemalloc.stop()
    return most


def without_memory(start, call, *arguments):
    """Return what a call returns whose allocation of this number fails, or None if it raises."""
    try:
        from _testcapi import remove_mem_hooks, set_nomemory
    except ImportError:
        package = "libpython{}.{}-stdlib".format(*sys.version_info)
        raise AssertionError(f"there is no _testcapi: apt-get install {package}") from None
    found = None
    set_nomemory(start, start + 1)
    try:
        found = call(*arguments)
    except MemoryError:
        pass
    finally:
        remove_mem_hooks()
    return found


class WithoutMemory(unittest.TestCase):
    """Tests what is left if there is no memory."""

    def fails_in_turn(self, made, call, state, wanted, left, count=60):
        """Make each allocation of a call fail in turn: nothing changes, and again it succeeds."""
        outcomes = []
        for start in range(count):
            it = made()
            before = state(it)
            found = without_memory(start, call, it)
            outcomes.append(found is None)
            if found is None:
                self.assertEqual(state(it), before, start)
                found = call(it)
            self.assertEqual((found, state(it)), (wanted, left), start)
        # All allocations of the call had their turn.
        self.assertIn(True, outcomes)
        self.assertNotIn(True, outcomes[-9:])


def in_threads(work, arguments):
    """Call a function in threads at the same time, with one of the arguments each."""
    threads = [threading.Thread(target=work, args=(it,)) for it in arguments]
    for thread in threads:
        thread.start()
    for thread in threads:
        thread.join()
