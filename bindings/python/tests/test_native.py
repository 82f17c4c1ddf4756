"""The extension in C: kinds of str, arguments, memory, threads, interpreters."""

import array
import ast
import codecs
import gc
import importlib.machinery
import importlib.util
import inspect
import itertools
import os
import pickle
import platform
import re
import resource
import shutil
import subprocess
import sys
import sysconfig
import tempfile
import threading
import time
import unittest
import weakref
from pathlib import Path
from unittest import mock

import dethrux
from dethrux import _native, _types
from expected import CODECS, ORDERS, TOP, Comparison, in_threads, mapped, outcome, peak, stub
from expected import values_of, without_memory

# How many calls may not take memory: a million with DETHRUX_CALLS=1000000.
CALLS = int(os.environ.get("DETHRUX_CALLS") or 200_000)
C = {name: it for name, it in vars(_native).items() if inspect.isbuiltin(it)}
# The others have parameters. `test_package` tests this one.
del C["kernel"]
# Those that change an argument.
IN_PLACE = {"swap_byte_order", "make_well_formed"}
OF_STREAMS = {"feed_decoder", "feed_encoder", "finish_decoder", "finish_encoder"}
# The shortest input for which the GIL is given up, and how much is copied and swapped at a time.
LONG, BLOCK = 1 << 16, 1 << 14
# Around the most bytes that are converted on the stack, and more than any result has.
CAPACITIES = (0, 3, 1023, 1024, 1025, 1 << 20)
# A character of each kind of str, and the greatest and least ones around them.
CHARS = {1: "a\0\x7f", 2: "\xe9\x80\xff", 3: "\u4e00\u0100\ud7ff\ue000\uffff\ufeff"}
CHARS[4] = "\U0001f600\U00010000\U0010ffff"
LENGTHS = (*range(40), 63, 64, 65, 127, 128, 129, 341, 342, 511, 512, 513, 1024)
LONG_LENGTHS = (BLOCK // 2 + 1, BLOCK + 1, LONG // 4 - 1, LONG // 2 - 1, LONG // 2, LONG + 1)


def texts():
    """Return texts of each kind, with a character of the kind at each place."""
    for chars in CHARS.values():
        for length in LENGTHS:
            yield (chars * (length // len(chars) + 1))[:length]
        for length, char in itertools.product((1, 2, 7, 8, 9, 16, 17, 33), chars):
            for at in range(length):
                yield "a" * at + char + "a" * (length - at - 1)
        for length in LONG_LENGTHS:
            yield "a" * (length - 1) + chars[0]
            yield (chars * (length // len(chars) + 1))[:length]


def of_package(function):
    """Return how many functions in Python of the package a call enters."""
    entered = []

    def profile(frame, event, argument):
        if event == "call" and Path(frame.f_code.co_filename).parent.name == "dethrux":
            entered.append(frame.f_code.co_name)

    sys.setprofile(profile)
    try:
        function()
    except UnicodeError:
        pass
    finally:
        sys.setprofile(None)
    return entered


def parameters(name):
    """Return the names of the parameters of a function."""
    return list(inspect.signature(C[name]).parameters)


def arguments(*given):
    """Return arguments of the right types for a function."""
    return tuple(values_of(*given).values())


class Texts(Comparison):
    """Every kind of str in both byte orders."""

    def test_each_kind(self):
        for text in texts():
            self.assert_both_ways(text)
            for order, codec in CODECS.items():
                raw = text.encode(codec)
                self.assertEqual(C[f"{codec.replace('-', '_')}_decode_all"](raw), (text, len(raw)))
            self.assertEqual(C["utf_16_encode"](text), (text.encode("utf-16"), len(text)))
            native = text.encode(CODECS[sys.byteorder])
            self.assertEqual(C["utf_16_decode_all"](native), codecs.utf_16_decode(native))

    def test_subclasses(self):
        class Text(str):
            pass

        for text in ("", "a", "\xe9", "\u4e00", "\U0001f600"):
            self.assertEqual(dethrux.encode(Text(text), "big"), text.encode("utf-16-be"))
        self.assertEqual(dethrux.decode(b"a\0", Text("little")), "a")


class Blocks(Comparison):
    """Texts that change where a block ends."""

    # The number of code units of a block, and lengths around one and two of them.
    UNITS = BLOCK // 2
    LENGTHS = tuple(units + more for units in (UNITS, 2 * UNITS) for more in (-2, -1, 0, 1))
    KINDS = ("a", "\xe9", "\u4e00", "\U0001f600")
    ERRORS = ("strict", "replace", "ignore", "backslashreplace", "surrogatepass")

    def test_a_wider_character(self):
        """The first one is at each place around a border, and the last one or not."""
        for first, second in itertools.product(self.KINDS, repeat=2):
            for length, more in itertools.product(self.LENGTHS, (1, 2, self.UNITS)):
                count = length // len(first.encode("utf-16-le")) * 2
                self.assert_both_ways(first * count + second * more)
                self.assert_both_ways(first * (count - 1) + "b" + second * more)

    def test_each_order_of_kinds(self):
        for kinds in itertools.permutations(self.KINDS):
            for length in self.LENGTHS:
                self.assert_both_ways("".join(kind * length for kind in kinds))
                self.assert_both_ways("".join(kind * length + "a" for kind in kinds))

    def test_errors_at_a_border(self):
        """A surrogate that is not in a pair, and a pair, begin at each place around a border."""
        wrong = "\udc00", "\ud83d", "\ud83d\ud83d", "\ude00\ud83d\ude00", "\ud83d\ude00"
        for kind, length in itertools.product(self.KINDS[:3], self.LENGTHS):
            for unit, after in itertools.product(wrong, ("", "a", kind * 9, kind * self.UNITS)):
                text = kind * length + unit + after
                for order, codec in CODECS.items():
                    raw = text.encode(codec, "surrogatepass")
                    for errors in self.ERRORS:
                        self.assert_decoded(raw, order, errors)
                    self.assert_decoded(raw + b"\xd8", order, "replace")
                    self.assert_decoded(raw[:-1], order, "ignore")

    def test_errors_among_pairs(self):
        """The characters that are left are counted, but not all that replaces an error."""
        for wrong, count in itertools.product(("\udc00", "\ud83d"), (1, 15, 16, 17, 400)):
            text = "\U0001f600" * 9 + (wrong + "\U0001f600a") * count + "\u4e00" * self.UNITS
            for order, codec in CODECS.items():
                raw = text.encode(codec, "surrogatepass")
                for errors in self.ERRORS:
                    self.assert_decoded(raw, order, errors)

    def test_many_errors(self):
        """Without more room than the next error needs it takes seven times as long as CPython."""
        for order, codec in CODECS.items():
            raw = ("\U0001f600\udc00" * (1 << 18)).encode(codec, "surrogatepass")
            before = time.process_time()
            found = dethrux.decode(raw, order, "backslashreplace")
            between = time.process_time()
            expected = raw.decode(codec, "backslashreplace")
            after = time.process_time()
            self.assertEqual(found, expected)
            self.assertLess(between - before, 3 * (after - between) + 0.05)

    def test_surrogates_at_a_border(self):
        """Two of them are not a pair in a str, also if a block ends between them."""
        handlers = "strict", "ignore", "surrogatepass"
        for length, char in itertools.product(self.LENGTHS, "a\u4e00"):
            for wrong in ("\ud83d\ude00", "\ud83d", "\ude00"):
                for text in (char * length + wrong, char * length + wrong + "\u4e00" * length):
                    for order, errors in itertools.product(CODECS, handlers):
                        self.assert_encoded(text, order, errors)


class Functions(unittest.TestCase):
    """Their names, their types, and arguments that do not fit."""

    def test_the_types(self):
        """The stub has each function, with its parameters and their defaults."""
        declared = {}
        for node in stub():
            names = [it.arg for it in node.args.args]
            self.assertTrue(node.returns and all(it.annotation for it in node.args.args))
            defaults = map(ast.literal_eval, node.args.defaults)
            declared[node.name] = dict(zip(names[::-1], [*defaults][::-1])), names
        found = {}
        for name, function in C.items():
            each = inspect.signature(function).parameters
            self.assertEqual({it.kind.name for it in each.values()}, {"POSITIONAL_OR_KEYWORD"})
            defaults = {it: each[it].default for it in each}
            none = inspect.Parameter.empty
            found[name] = {it: defaults[it] for it in each if defaults[it] is not none}, [*each]
        self.assertEqual({**found, "kernel": ({}, [])}, declared)

    def test_names(self):
        for name, function in C.items():
            self.assertEqual((function.__name__, function.__module__), (name, "dethrux._native"))
            self.assertRegex(function.__doc__, r"(?s)^[A-Z].*[.]")
            self.assertIs(pickle.loads(pickle.dumps(function)), function)
            self.assertIs(getattr(dethrux, name, function), function)

    def test_the_codecs_stay_in_c(self):
        text = "a\xe9\u4e00\U0001f600"
        for name in ("utf-16-le", "utf-16-be", "utf-16"):
            raw = text.encode(name)
            codec = f"dethrux-{name}"
            raw.decode(codec)
            self.assertEqual(of_package(lambda: raw.decode(codec)), [])
            self.assertEqual(of_package(lambda: text.encode(codec)), [])
            self.assertEqual(raw.decode(codec), text)
            self.assertEqual(text.encode(codec), raw)

    def assert_wrong(self, message, name, *given, **named):
        with self.assertRaisesRegex(TypeError, rf"^{name}\(\) {message}$"):
            C[name](*given, **named)

    def test_wrong_arguments(self):
        for name in C:
            names, given = parameters(name), arguments(name)
            count = len(names)
            message = rf"takes at most {count} arguments \({count + 1} given\)"
            self.assert_wrong(message, name, *given, *(None,) * (count + 1 - len(given)))
            self.assert_wrong(f"missing required argument '{names[0]}' \\(pos 1\\)", name)
            message = "got an unexpected keyword argument 'other'"
            self.assert_wrong(message, name, *given, other=5)
            message = f"got multiple values for argument '{names[0]}'"
            self.assert_wrong(message, name, *given, **{names[0]: given[0]})
            required = [
                each.name
                for each in inspect.signature(C[name]).parameters.values()
                if each.default is inspect.Parameter.empty
            ]
            for at, missing in enumerate(required):
                named = dict(zip(required, given))
                del named[missing]
                message = rf"missing required argument '{missing}' \(pos {at + 1}\)"
                self.assert_wrong(message, name, **named)

    def test_each_parameter_is_a_keyword(self):
        for name in C:
            given = arguments(name)
            named = dict(zip(parameters(name), arguments(name)))
            self.assertEqual(outcome(lambda: C[name](**named)), outcome(C[name], *given), name)
            last = named.popitem()
            found = outcome(lambda: C[name](*arguments(name)[:-1], **dict([last])))
            self.assertEqual(found, outcome(C[name], *arguments(name)), name)

    def test_states(self):
        for name in ("feed_decoder", "feed_encoder", "finish_decoder", "finish_encoder"):
            rest = arguments(name)[1:]
            for wrong in (bytearray(3), bytearray(5), array.array("H", [0] * 3)):
                with self.assertRaisesRegex(ValueError, "^a state has four bytes$"):
                    C[name](wrong, *rest)
            for wrong in (b"\0" * 4, None, "abcd"):
                with self.assertRaises((TypeError, BufferError)):
                    C[name](wrong, *rest)
            # A length above three is three.
            state = bytearray(b"abc\xff")
            output = C[name](state, *rest)
            output = output if isinstance(output, bytes) else output.output
            self.assertGreater(len(output), 0)
            self.assertLess(state[3], 4)

    def test_final_is_a_truth(self):
        class Unknown:
            def __bool__(self):
                raise KeyError("unknown")

        for name in ("utf_16_le_decode", "utf_16_be_decode"):
            for final in (0, 1, [], "a", 1.5, None):
                expected = outcome(getattr(codecs, name), b"a\0b", "replace", bool(final))
                self.assertEqual(outcome(C[name], b"a\0b", "replace", final), expected)
                self.assertEqual(C[name](b"a\0b", "replace", final=final), expected)
            with self.assertRaises(KeyError):
                C[name](b"a\0", "strict", Unknown())
        with self.assertRaises(KeyError):
            C["utf_16_ex_decode"](b"a\0", "strict", 0, Unknown())

    def test_byte_orders_of_the_codecs(self):
        """`test_codecs` tests the numbers of byte orders."""
        for wrong in ("a", 1.5, 1 << 99):
            for name, first in (("utf_16_ex_decode", b"a\0"), ("utf_16_encode", "a")):
                with self.assertRaises((TypeError, OverflowError)):
                    C[name](first, None, wrong)

    def test_names_of_handlers(self):
        """None is `strict`. `test_codecs` tests the names that are an error."""

        class Name(str):
            pass

        for name in ("decode", "decode_to_utf8", "encode", "encode_from_utf8"):
            self.assertEqual(C[name](*arguments(name), None), C[name](*arguments(name)))
            self.assertEqual(C[name](*arguments(name), "not known"), C[name](*arguments(name)))
            wrong = arguments(name, b"a\0\0\xdc", "a\udc00", b"a\xff")
            for errors in ("replace", "surrogatepass", "not known", "strict"):
                expected = outcome(C[name], *wrong, errors)
                self.assertEqual(outcome(C[name], *wrong, Name(errors)), expected)

    def test_the_numbers_of_small_buffers(self):
        """Around the capacity that goes through the stack."""
        lengths = 338, 340, 341, 342, 344, 511, 512, 513, 1024
        for length, char, capacity in itertools.product(lengths, "a\u4e00", CAPACITIES):
            utf16, utf8 = char.encode("utf-16-be"), char.encode()
            for name, source, target in (("to_utf8", utf16, utf8), ("from_utf8", utf8, utf16)):
                chars = min(capacity // len(target), length)
                status = dethrux.Status.DONE if chars == length else dethrux.Status.NO_SPACE
                found = C[name](source * length, "big", capacity)
                self.assertEqual(found, (target * chars, len(source) * chars, status, 0))


class Buffers(unittest.TestCase):
    def test_a_released_buffer(self):
        view, mapping = memoryview(b"a\0"), mapped(b"a\0")
        view.release()
        mapping.close()
        for call, buffer in itertools.product((dethrux.decode, dethrux.validate), (view, mapping)):
            with self.assertRaisesRegex(ValueError, "released|closed"):
                call(buffer, "little")

    def test_not_held_after_the_call(self):
        raws = (b"a\0" * 5, b"\0\xdc", b"a\0" * LONG)
        for name, raw in itertools.product(C, raws):
            buffer = bytearray(raw)
            try:
                C[name](*arguments(name, buffer, "a", buffer))
            except UnicodeError:
                pass
            buffer.append(0)

    def test_the_owner_is_not_held_after_the_call(self):
        mapping = mapped(b"a\0" * LONG)
        view = memoryview(mapping)
        for name in C:
            try:
                C[name](*arguments(name, view, "a", view))
            except UnicodeError:
                pass
        view.release()
        mapping.close()

    def test_no_copy(self):
        """A long text needs no memory except for what is returned. `test_calls` has the others."""
        for char, (order, codec) in itertools.product("a\xe9\u4e00\U0001f600", CODECS.items()):
            text = char * LONG
            raw = text.encode(codec)
            for call, given, result in (("decode", raw, text), ("encode", text, raw)):
                most = sys.getsizeof(result) + 4096
                self.assertLess(peak(C[call], given, order), most, (call, char))

    def test_room(self):
        """A conversion takes the memory of the longest output for its length of input, no more."""
        raw, utf8 = "\u4e00".encode("utf-16-le") * LONG, "\u4e00".encode() * LONG
        names = "to_utf8", "to_utf8_lossy", "to_utf8_partial", "decode_to_utf8"
        calls = [(name, raw, len(raw) // 2 * 3) for name in names]
        names = "from_utf8", "from_utf8_lossy", "encode_from_utf8"
        calls += [(name, utf8, len(utf8) * 2) for name in names]
        names = "to_utf32", "to_utf32_lossy", "from_utf32", "from_utf32_lossy"
        calls += [(name, raw, len(raw) * 2 if name[0] == "t" else len(raw)) for name in names]
        calls += [("to_latin1", raw, len(raw) // 2), ("from_latin1", utf8, len(utf8) * 2)]
        for name, data, room in calls:
            # A block is freed first that is longer: `new_bytes` says why.
            self.assertLess(peak(C[name], data, "little"), room + BLOCK + 4096, name)


# What a call returns of a library whose calls only tell whether the thread has the GIL. `len` and
# `capacity` are parameters, or 0 without them.
TELLS = {
    "dethrux_progress": "(dethrux_progress) {len, capacity, DETHRUX_DONE, 0}",
    "dethrux_validity": "(dethrux_validity) {len, DETHRUX_DONE, 0}",
    "dethrux_inspection": "(dethrux_inspection) {len, len / 2, repertoire, DETHRUX_DONE, 0}",
    "dethrux_bom": "(dethrux_bom) {0, default_order, DETHRUX_BOM_ABSENT}",
    **dict.fromkeys(("size_t", "bool", "uint64_t", "int32_t", "uint32_t"), "len"),
}
TELLS_GIL = """
#include "dethrux.h"
int PyGILState_Check(void);
/* One more than whether each call had the GIL, joined by "or"; and what `inspect` finds. */
int held, repertoire;
static const size_t len, capacity;
const char *dethrux_kernel(void) { return ""; }
"""


def gil_library():
    """Return such a library in C, with each call of the header. A BOM is found with the GIL."""
    calls = (TOP / "dist" / "src" / "calls.inc").read_text()
    found = re.findall(r"(?:(\w+), )?(dethrux_\w+), (\([^()]*\)), \(", calls)
    lines = [TELLS_GIL]
    for result, name, parameters in found:
        tells = "" if name == "dethrux_detect_bom" else "held |= 1 + PyGILState_Check();"
        head = f"{result if result in TELLS else 'void'} {name}{parameters}"
        lines.append(f"{head} {{ {tells} return {TELLS.get(result, '')}; }}")
    return "\n".join(lines)


# Prints each call that does not give up the GIL if it should, or gives it up if it should not.
ASKS_GIL = r"""
import ctypes, sys
import dethrux
sys.path.insert(0, sys.argv[1])
from test_native import C, IN_PLACE, LONG, arguments, mapped
library = ctypes.CDLL(dethrux._native.__file__)
held, repertoire = (ctypes.c_int.in_dll(library, it) for it in ("held", "repertoire"))
# Calls that read a few bytes, and those that make no call of the library that tells.
SHORT = {"is_char_boundary", "floor_char_boundary", "floor_char_boundary_around", "shard_offset"}
SHORT |= {"finish_decoder", "finish_encoder"}
# From an offset that is not 0 on it keeps the GIL.
SHORT |= {"next_error"}
TELL = set(C) - {"detect_bom", "order_number"}
count = 0

def check(is_given_up, name, *given):
    global count
    held.value = 0
    C[name](*given)
    count += 1
    if held.value != (1 if is_given_up else 2):
        print(name, *map(type, given), is_given_up, held.value)

for size in (2, LONG - 2, LONG):
    raw = b"a\0" * (size // 2)
    constant = [raw, memoryview(raw), memoryview(raw)[:], mapped(raw), memoryview(mapped(raw))]
    constant += [memoryview(raw).cast("H"), memoryview(raw * 2)[::2]]
    # A copy of a buffer in pieces is nobody else's.
    constant += [memoryview(bytearray(raw) * 2)[::2]]
    writable = [bytearray(raw), memoryview(bytearray(raw)).toreadonly()]
    writable += [memoryview(bytearray(raw)), memoryview(memoryview(bytearray(raw)).toreadonly())]
    buffers = [(each, size >= LONG) for each in constant] + [(each, False) for each in writable]
    for kind in range(4):
        repertoire.value = kind
        # Only for a text what the input has makes a difference.
        names = [name for name in TELL if kind == 0 or name.endswith(("decode", "decode_all"))]
        for (buffer, is_given_up), name in ((buffer, name) for buffer in buffers for name in names):
            if not name.endswith("encode"):
                is_given_up = is_given_up and name not in SHORT
                is_given_up = size >= LONG if name in IN_PLACE else is_given_up
                check(is_given_up, name, *arguments(name, buffer, "", buffer))
        check(size >= LONG, "decode", raw, "big")
        check(size >= LONG, "next_error", raw, "big", 0)
    for one, other in ((raw, b"a\0"), (b"a\0", raw)):
        for first, second, is_constant in (
            (one, other, True),
            (memoryview(one), mapped(other), True),
            (bytearray(one), other, False),
            (one, memoryview(bytearray(other)), False),
        ):
            is_given_up = size >= LONG and is_constant
            check(is_given_up, "compare", first, "little", second, "big")
            check(is_given_up, "find", first, second, "little")
            check(is_given_up, "rfind", first, second, "big")
    repertoire.value = 2
    for char, width in (("a", 1), ("\u4e00", 2), ("\U0001f600", 4)):
        text = char * (size // width)
        for order in ("little", "big"):
            check(len(text) * width >= LONG, "encode", text, order)
        for name in ("utf_16_le_encode", "utf_16_be_encode", "utf_16_encode"):
            check(len(text) * width >= LONG, name, text)
print(count)
"""


class Gil(unittest.TestCase):
    def test_who_gives_it_up(self):
        """All calls for a long input that nobody can write to, and no other ones."""
        with tempfile.TemporaryDirectory() as folder:
            package = Path(folder) / "dethrux"
            ignored = shutil.ignore_patterns("*.so", "__pycache__")
            shutil.copytree(Path(dethrux.__file__).parent, package, ignore=ignored)
            # examples/slips plants a wrong line next to the package.
            sources = Path(dethrux.__file__).parent
            if not sources.joinpath("_native.c").is_file():
                sources = TOP / "bindings" / "python" / "src" / "dethrux"
            library = Path(folder) / "tells.c"
            library.write_text(gil_library())
            words = ["cc", "-std=c11", "-shared", "-fPIC", "-w", f"-I{TOP / 'dist/include'}"]
            words += [f"-I{sysconfig.get_path('include')}", str(sources / "_native.c")]
            made = package / f"_native{sysconfig.get_config_var('EXT_SUFFIX')}"
            subprocess.run([*words, str(library), "-o", str(made)], check=True)
            run = subprocess.run(
                [sys.executable, "-B", "-c", ASKS_GIL, str(Path(__file__).parent)],
                env={**os.environ, "PYTHONPATH": folder},
                stdout=subprocess.PIPE,
                check=True,
                text=True,
            )
        lines = run.stdout.splitlines()
        self.assertEqual(lines[:-1], [])
        self.assertGreater(int(lines[-1]), 2000)


class Memory(unittest.TestCase):
    """References, leaks and failures of allocations."""

    def calls(self):
        """Return calls of each function that succeed, and that fail."""
        found = []
        texts = ["", "ab", "\xe9", "\u4e00" * 400, "\U0001f600", "\ud800", "a" * LONG]
        # Each block of these needs a wider str than the one before.
        texts += ["a" * BLOCK + "\xe9", "a" * BLOCK + "\u4e00" * BLOCK + "\U0001f600"]
        raws = [text.encode("utf-16-le", "surrogatepass") for text in texts]
        for name in C:
            for raw, text in zip(raws, texts):
                utf8 = text.encode("utf-8", "surrogatepass")
                found.append((C[name], arguments(name, raw, text, utf8)))
            found.append((C[name], arguments(name, bytearray(raws[1]), "a", memoryview(b"ab"))))
            spread = memoryview(bytearray(raws[1] * 2))[::2]
            found.append((C[name], arguments(name, spread, "a", memoryview(b"a.b.")[::2])))
            found.append((C[name], (None,) * len(parameters(name))))
            if name not in IN_PLACE | OF_STREAMS:
                found.append((C[name], arguments(name, memoryview(b""), "", memoryview(b""))))
            if name.endswith("_into"):
                # A buffer that overlaps the input or is too small, and what is not a buffer.
                same = bytearray(8)
                for wrong in (same, memoryview(same)[1:], bytearray(1), b"", None):
                    found.append((C[name], (same, "little", wrong)))
            if name.endswith("find"):
                for ends in ((1, -1), (None, 3), (9, 1), ("no",), (0, 1.5), (1 << 70, -(1 << 70))):
                    found.append((C[name], (*arguments(name), *ends)))
            if "utf32" in name and name.startswith(("from", "validate")):
                for raw in (memoryview(b"aaa\0\0\0\xff")[1:], b"a\0\0\0\0\xd8\0\0b"):
                    found.append((C[name], arguments(name, raw)))
            for last in (-1, 5, 1 << 70, "no"):
                if parameters(name)[-1] in ("capacity", "at", "index", "byteorder"):
                    given = dict(zip(parameters(name), arguments(name)))
                    given[parameters(name)[-1]] = last
                    found.append((C[name], tuple(given.values())))
            if "errors" in parameters(name):
                for errors in ("replace", "ignore", "surrogatepass", "backslashreplace"):
                    wrong = "a\udc00b\ud800", b"a\0\0\xdc\0\xd8", b"a\xff\xed\xa0\x80"
                    given = arguments(name, wrong[1], wrong[0], wrong[2])
                    found.append((C[name], (*given, errors)))
                    found.append((C[name], (*arguments(name, bytearray(wrong[1])), errors)))
                    wrong = b"\0\xdc" * 9 + b"\0\xd8\x3d\xd8\0\xde" * 40
                    found.append((C[name], (*arguments(name, wrong), errors)))
                for errors in ("dethrux.test.wide", "no", "ignore\0", "\ud800", 5):
                    given = arguments(name, b"a\0\0\xdc\0\xd8", "a\udc00", b"\xff")
                    found.append((C[name], (*given, errors)))
        return found

    @staticmethod
    def run_call(function, given):
        try:
            return function(*given)
        except (ValueError, TypeError, LookupError, OverflowError) as error:
            return type(error)

    def setUp(self):
        codecs.register_error("dethrux.test.wide", lambda error: ("\U0001f600" * 9, error.end))
        # What is there is not searched for cycles again and again.
        gc.freeze()
        self.addCleanup(gc.unfreeze)

    def test_references(self):
        singletons = [None, True, False, NotImplemented, "", b"", (), "a", b"a", "strict", 0, 1, 2]
        singletons += ["little", "big", "utf-16-le", "\xe9", str, bytes, tuple, UnicodeDecodeError]
        singletons += [UnicodeEncodeError, codecs.lookup_error]
        singletons += map(
            codecs.lookup_error,
            ("strict", "replace", "ignore", "backslashreplace", "surrogatepass"),
        )
        for function, given in self.calls():
            self.run_call(function, given)
            gc.collect()
            everything = [*given, *dethrux.Status, dethrux.Progress, dethrux.Validity, function]
            others = list(map(sys.getrefcount, singletons))
            before = [sys.getrefcount(each) for each in everything]
            for _ in range(20):
                self.run_call(function, given)
            gc.collect()
            after = [sys.getrefcount(each) for each in everything]
            self.assertEqual(after, before, (function, given))
            # Python itself also takes and drops references to these.
            for each, count in zip(singletons, others):
                self.assertLess(abs(sys.getrefcount(each) - count), 10, (function, given, each))

    def test_no_leak(self):
        calls = [each for each in self.calls() if sys.getsizeof(each[1][0]) < LONG]

        def run(times):
            for _ in range(times):
                for function, given in calls:
                    self.run_call(function, given)
            gc.collect()
            return resource.getrusage(resource.RUSAGE_SELF).ru_maxrss

        times = CALLS // len(calls) + 1
        before, blocks = run(times // 4), sys.getallocatedblocks()
        after, more = run(times), sys.getallocatedblocks() - blocks
        self.assertLess(after - before, 1024, "KiB")
        self.assertLess(more, 100, "blocks")

    def test_no_blocks_are_left(self):
        """Not one block of memory for each call, also if it raises."""

        def left(function, given):
            before = sys.getallocatedblocks()
            for _ in range(40):
                self.run_call(function, given)
            gc.collect()
            return sys.getallocatedblocks() - before

        for function, given in self.calls():
            # At first Python itself keeps some of them for later.
            self.assertTrue(any(left(function, given) < 20 for _ in range(12)), (function, given))

    def test_long_results_take_no_new_pages(self):
        """The kernel gives no pages for a result if one that is as long was freed before."""
        if platform.libc_ver()[0] != "glibc":
            self.fail("the C library is not glibc")
        script = (
            "import resource, sys\n"
            "import dethrux\n"
            "raw, utf8 = b'a\\0' * (1 << 19), 'a\\u4e00'.encode() * (1 << 18)\n"
            "for call, data in ((dethrux.decode_to_utf8, raw), (dethrux.encode_from_utf8, utf8)):\n"
            "    call(data, 'little')\n"
            "    call(data, 'little')\n"
            "    before = resource.getrusage(resource.RUSAGE_SELF).ru_minflt\n"
            "    for _ in range(20):\n"
            "        call(data, 'little')\n"
            "    print(resource.getrusage(resource.RUSAGE_SELF).ru_minflt - before)\n"
        )
        run = subprocess.run(
            [sys.executable, "-B", "-c", script], stdout=subprocess.PIPE, check=True, text=True
        )
        # Without that each call takes more than 128 of them.
        for found in map(int, run.stdout.split()):
            self.assertLess(found, 640)

    def test_failures(self):
        """Each allocation of a call fails: it raises MemoryError, or returns what it does."""
        for function, given in self.calls():
            expected = self.run_call(function, given)
            if isinstance(expected, type) or function.__name__ in IN_PLACE | OF_STREAMS:
                continue
            # Python has small integers and some words once, and others change their counts, which
            # from 3.11 on begin at 999,999,999.
            owned = [each for each in given if not isinstance(each, int)]
            owned = [each for each in owned if sys.getrefcount(each) < 999_999_999]
            before = [sys.getrefcount(each) for each in owned]
            failed = 0
            for start in range(40):
                found = without_memory(start, function, *given)
                failed += found is None
                if found is not None:
                    self.assertEqual(found, expected)
            found = None
            after = [sys.getrefcount(each) for each in owned]
            self.assertEqual(after, before, function)
            if isinstance(expected, (str, bytes)) and len(expected) > 1:
                self.assertGreater(failed, 0, (function, given))


class Threads(unittest.TestCase):
    def test_long_texts(self):
        text = "a\xe9\u4e00\U0001f600" * LONG
        found = []

        def work(order):
            raw = text.encode(CODECS[order])
            for _ in range(4):
                found.append(dethrux.decode(raw, order) == text)
                found.append(dethrux.encode(text, order) == raw)
                found.append(dethrux.decode_to_utf8(raw, order) == text.encode())

        in_threads(work, ORDERS * 3)
        self.assertEqual(found, [True] * 6 * 12)

    def test_ill_formed_texts(self):
        """Threads decode the same bytes, with the handlers of CPython and one in Python."""
        codecs.register_error("dethrux.test.thread", lambda error: ("\U0001f600", error.end))
        handlers = ("replace", "ignore", "backslashreplace", "surrogatepass", "dethrux.test.thread")
        text = ("a" * BLOCK + "\udc00" + "\u4e00" * BLOCK + "\ud800") * 2
        raws = {codec: text.encode(codec, "surrogatepass") for codec in CODECS.values()}
        cases = list(itertools.product(CODECS.items(), handlers))
        expected = [raws[codec].decode(codec, errors) for (_, codec), errors in cases]
        found = []

        def work(_number):
            for _ in range(3):
                decoded = [
                    dethrux.decode(raws[codec], order, errors) for (order, codec), errors in cases
                ]
                found.append(decoded == expected)

        in_threads(work, range(6))
        self.assertEqual(found, [True] * 18)

    def test_a_buffer_that_another_thread_changes(self):
        """A call sees it as it was before a change, or after it."""
        texts = "a" * LONG, "\u4e00" * LONG
        raws = [text.encode("utf-16-le") for text in texts]
        buffer = bytearray(raws[0])
        done = threading.Event()

        def change():
            for raw in itertools.cycle(raws):
                try:
                    buffer[:] = raw
                except BufferError:
                    pass
                if done.is_set():
                    return

        interval = sys.getswitchinterval()
        sys.setswitchinterval(1e-5)
        thread = threading.Thread(target=change)
        thread.start()
        try:
            for _ in range(300):
                self.assertIn(dethrux.decode(buffer, "little"), texts)
                self.assertIn(dethrux.decode_to_utf8(buffer, "little"), map(str.encode, texts))
        finally:
            done.set()
            thread.join()
            sys.setswitchinterval(interval)


class Interpreters(unittest.TestCase):
    TYPES = ("Validity", "Progress", "Bom", "Status", "BomStatus", "IllFormed", "Inspection")
    TYPES += ("ProgressInto", "Repertoire")
    SCRIPT = (
        "import dethrux\n"
        "assert dethrux.decode(b'a\\0', 'little') == 'a'\n"
        "assert 'a'.encode('dethrux-utf-16-be') == b'\\0a'\n"
        "found = dethrux.validate(b'\\0\\xdc', 'little')\n"
        "assert type(found) is dethrux.Validity and found.status is dethrux.Status.ILL_FORMED\n"
        "assert dethrux.decode(b'\\0\\xdc', 'little', 'replace') == '\\ufffd'\n"
    )

    def test_each_has_its_own(self):
        for name in ("_interpreters", "_xxsubinterpreters"):
            try:
                interpreters = importlib.import_module(name)
                break
            except ImportError:
                continue
        else:
            self.fail("this Python has no module for interpreters")
        path = f"import sys\nsys.path[:] = {sys.path!r}\n"
        for _ in range(3):
            interpreter = interpreters.create()
            try:
                failed = interpreters.run_string(interpreter, path + self.SCRIPT)
                self.assertIsNone(failed)
            finally:
                interpreters.destroy(interpreter)
            found = dethrux.validate(b"\0\xdc", "little")
            self.assertIs(type(found), dethrux.Validity)
            self.assertEqual(dethrux.decode(b"\0\xdc", "little", "replace"), "\ufffd")

    def other(self):
        """Return another module of the same extension."""
        loader = importlib.machinery.ExtensionFileLoader("dethrux._native", _native.__file__)
        spec = importlib.util.spec_from_loader("dethrux._native", loader)
        module = importlib.util.module_from_spec(spec)
        loader.exec_module(module)
        return module

    def test_references(self):
        """A module keeps the types of the results and the handlers, and lets go of them."""
        statuses = tuple(dethrux.Status)
        kept = [dethrux.Validity, dethrux.Progress, dethrux.Bom, statuses[0], codecs.lookup_error]
        kept += [codecs.replace_errors, codecs.ignore_errors, codecs.backslashreplace_errors]
        kept += [codecs.lookup_error("surrogatepass"), tuple(dethrux.BomStatus)[0]]
        kept += [dethrux.IllFormed, dethrux.Inspection, dethrux.ProgressInto]
        kept += [tuple(dethrux.Repertoire)[0]]
        words = "little", "big", "strict"
        gc.collect()
        before = [sys.getrefcount(each) for each in kept]
        of_words = [sys.getrefcount(each) for each in words]
        for _ in range(3):
            others = [self.other() for _ in range(5)]
            self.assertEqual(others[-1].validate(b"a", "little"), (0, 2, 0))
            self.assertEqual([sys.getrefcount(each) - 5 for each in kept], before)
            del others
            gc.collect()
            self.assertEqual([sys.getrefcount(each) for each in kept], before)
            self.assertEqual([sys.getrefcount(each) for each in words], of_words)
        self.assertEqual(dethrux.decode(b"a\0", "little"), "a")

    def test_a_module_in_a_cycle(self):
        """A module is collected together with what it keeps, if that refers to the module."""

        class Members(list):
            pass

        class Kept:
            def __call__(self, error):
                return "", error.end

        def fake(name, kept):
            if name.endswith("Status") or name == "Repertoire":
                return Members([kept])
            return kept if name.islower() else type("Type", (), {"it": kept})

        names = [(_types, it) for it in self.TYPES]
        names += [(codecs, "lookup_error"), (codecs, "replace_errors")]
        names += [(codecs, "ignore_errors"), (codecs, "backslashreplace_errors")]
        for place, name in names:
            kept = Kept()
            with mock.patch.object(place, name, fake(name, kept)):
                kept.module = self.other()
            gone = weakref.ref(kept)
            del kept
            gc.collect()
            self.assertIsNone(gone(), name)

    def test_a_module_that_cannot_be_made(self):
        """Without what it keeps, or without memory, there is no module and no crash."""
        for place, name in (
            *((_types, name) for name in self.TYPES),
            (codecs, "lookup_error"),
            (codecs, "backslashreplace_errors"),
        ):
            with mock.patch.object(place, name):
                delattr(place, name)
                with self.assertRaises(AttributeError):
                    self.other()
        for name in ("Status", "BomStatus", "Repertoire"):
            with mock.patch.object(_types, name, 5), self.assertRaises(TypeError):
                self.other()
        for name in ("dethrux._types", "codecs"):
            with mock.patch.dict(sys.modules, {name: None}), self.assertRaises(ImportError):
                self.other()

    def test_another_handler_under_the_name_surrogatepass(self):
        """Only CPython's is known, and a module may be made when another one is there."""
        self.addCleanup(
            codecs.register_error, "surrogatepass", codecs.lookup_error("surrogatepass")
        )
        for handler in (codecs.strict_errors, lambda error: codecs.strict_errors(error)):
            codecs.register_error("surrogatepass", handler)
            other = self.other()
            for errors in ("surrogatepass", "strict"):
                with self.assertRaises(UnicodeDecodeError):
                    other.decode_to_utf8(b"a\0\0\xdc", "little", errors)


if __name__ == "__main__":
    unittest.main()
