"""The functions over bytes, the decoders, and what they refuse."""

import array
import codecs
import collections
import itertools
import re
import typing
import unittest

import dethrux
from dethrux import BomStatus, Status, _codecs, _native
from expected import CODECS, IN_PIECES, LARGEST, NOT_BUFFERS, ORDERS, READABLE, REPLACEMENT
from expected import REQUIRED, UNWRITABLE, UTF8, WRITABLE, Index, WithoutMemory, mapped, outcome
from expected import peak, utf16, values_of, with_parameter

DECODERS = (dethrux.Decoder, dethrux.Encoder)
STRICT = (dethrux.StrictDecoder, dethrux.StrictEncoder)
CONVERSIONS = [it.removesuffix("_into") for it in REQUIRED if it.endswith("_into")]
PAIR = b"\x3d\xd8\x00\xde"


def call_of(name, parameter, **more):
    """Return a call of a function as one of a parameter and a byte order, of this one if it has."""
    function = getattr(_native, name)
    if name == "detect_bom":
        return function
    orders = {"byteorder", f"{parameter}_byteorder"} & {*REQUIRED[name]}

    def call(value, order="little"):
        given = {**values_of(name), **dict.fromkeys(orders, order), **more, parameter: value}
        return function(**given)

    return call


# All calls that read a buffer, as functions of it and of a byte order: of the extension by their
# types, and those in Python.
READERS = {
    f"{name}, {parameter}": call_of(name, parameter)
    for name, parameter in with_parameter("ReadableBuffer")
}
READERS["utf_16_decode"] = lambda data, order: _codecs.utf_16_decode(data)
OF_PYTHON = {it.__name__: it for it in (dethrux.decode_to_wtf8, dethrux.encode_from_wtf8)}
OF_PYTHON["iter_errors"] = lambda data, order: list(dethrux.iter_errors(data, order))
for kind in (*DECODERS, *STRICT):
    OF_PYTHON[kind.__name__] = lambda data, order, kind=kind: kind(order).feed(data)
READERS |= OF_PYTHON
WITH_ORDER = OF_PYTHON | {
    f"{name}, {it}": call_of(name, it.removesuffix("_byteorder").replace(it, [*REQUIRED[name]][0]))
    for name, it in with_parameter("ByteOrder")
    if name != "order_number"
}
# Calls that write to a buffer.
IN_PLACE = {name: call_of(name, it) for name, it in with_parameter("WritableBuffer")}
# All numbers that a call takes: the name, and a function of the number.
CAPACITIES = [
    ("capacity", lambda number, call=getattr(dethrux, name): call(PAIR, "little", number))
    for name in CONVERSIONS
] + [
    ("capacity", lambda number, kind=kind: kind("little").feed_partial(PAIR, number))
    for kind in DECODERS
]
OFFSETS = [
    (it, call_of(name, it)) for name, it in with_parameter("int") if name in _native.__all__
]
OFFSETS_OF_FILES = [
    (it, call_of(name, it))
    for name, it in with_parameter("int")
    if name in ("floor_char_boundary_around", "shard_offset")
]


class Functions(unittest.TestCase):
    """Results that no table has."""

    def test_offsets_after_the_end(self):
        for order, raw in ((order, raw) for order in ORDERS for raw in utf16(order)):
            past = len(raw) + 1, 2 * len(raw) + 2, 2**63, LARGEST, 2**64, 2**64 + 2, 10**30
            for at in past:
                self.assertIs(dethrux.is_char_boundary(raw, order, at), False, at)
                self.assertEqual(dethrux.floor_char_boundary(raw, order, at), len(raw), at)

    def test_detect_bom(self):
        little = ("little", 2, BomStatus.PRESENT)
        big = ("big", 2, BomStatus.PRESENT)
        marks = {codecs.BOM_UTF16_LE: little, codecs.BOM_UTF16_BE: big}
        for length, default in itertools.product(range(4), ORDERS):
            absent = (default, 0, BomStatus.ABSENT)
            undecided = (default, 0, BomStatus.UNDECIDED)
            for data in itertools.product((0xFE, 0xFF, 0x61), repeat=length):
                expected = marks.get(bytes(data[:2]), absent) if length > 1 else undecided
                found = dethrux.detect_bom(bytes(data), default)
                self.assertEqual(found, expected, data)
                self.assertIs(type(found.status), BomStatus)
                if default == "big":
                    self.assertEqual(dethrux.detect_bom(bytes(data)), expected, data)

    def test_fields(self):
        self.assertEqual(typing.get_args(dethrux.ByteOrder), ORDERS)
        for kind, names in (
            (Status, ["DONE", "ILL_FORMED", "INCOMPLETE", "NO_SPACE", "NOT_LATIN1"]),
            (dethrux.Repertoire, ["ASCII", "LATIN1", "BMP", "UNICODE"]),
            (BomStatus, ["ABSENT", "PRESENT", "UNDECIDED"]),
        ):
            self.assertEqual([each.name for each in kind], names)
            self.assertEqual([each.value for each in kind], list(range(len(kind))))
        fields = {"output": b"a", "read": 2, "status": Status.ILL_FORMED, "error_len": 2}
        found = dethrux.to_utf8(b"a\0\0\xdc", "little")
        self.assertEqual(found._asdict(), fields)
        self.assertIs(type(found.status), Status)
        fields = {"valid_up_to": 2, "status": Status.ILL_FORMED, "error_len": 2}
        found = dethrux.validate(b"a\0\0\xdc", "little")
        self.assertEqual(found._asdict(), fields)
        self.assertIs(type(found.status), Status)
        fields = {"valid_up_to": 2, "chars": 1, "repertoire": dethrux.Repertoire.ASCII}
        fields |= {"status": Status.ILL_FORMED, "error_len": 2}
        found = dethrux.inspect(b"a\0\0\xdc", "little")
        self.assertEqual(found._asdict(), fields)
        self.assertIs(type(found.repertoire), dethrux.Repertoire)
        fields = {"byteorder": "little", "len": 2, "status": BomStatus.PRESENT}
        self.assertEqual(dethrux.detect_bom(codecs.BOM_UTF16_LE)._asdict(), fields)


class InPlace(unittest.TestCase):
    def test_each_kind_of_buffer(self):
        for kind in WRITABLE:
            buffer = kind(b"a\0\0\xdc")
            self.assertEqual(dethrux.make_well_formed(buffer, "little"), 1)
            self.assertIsNone(dethrux.swap_byte_order(buffer))
            self.assertEqual(bytes(memoryview(buffer)), "a\ufffd".encode("utf-16-be"))

    def test_only_the_view_changes(self):
        for order, codec in CODECS.items():
            raw = bytearray(b"\xaa\xaa" + "\udc00".encode(codec, "surrogatepass") + b"\xaa")
            self.assertEqual(dethrux.make_well_formed(memoryview(raw)[2:-1], order), 1)
            self.assertEqual(raw, b"\xaa\xaa" + REPLACEMENT.encode(codec) + b"\xaa")
            dethrux.swap_byte_order(memoryview(raw)[2:-1])
            self.assertEqual(raw[2:-1], REPLACEMENT.encode(codec)[::-1])
            raw.append(0)

    def test_refused(self):
        raw = b"\x00\xde\x61\x00"
        message = "^a writable buffer in one piece is required, not '.*'$"
        for (name, call), kind in itertools.product(IN_PLACE.items(), UNWRITABLE):
            with self.subTest(name=name, kind=kind):
                buffer = kind(raw)
                with self.assertRaisesRegex(TypeError, message):
                    call(buffer, "little")
                self.assertEqual(bytes(buffer), raw)
        for (name, call), wrong in itertools.product(IN_PLACE.items(), NOT_BUFFERS):
            with self.subTest(name=name, wrong=wrong):
                with self.assertRaisesRegex(TypeError, message):
                    call(wrong, "little")
        view, mapping = memoryview(bytearray(raw)), mapped(raw)
        view.release()
        mapping.close()
        for call, closed in itertools.product(IN_PLACE.values(), (view, mapping)):
            with self.assertRaisesRegex(ValueError, "released|closed"):
                call(closed, "little")
        buffer = bytearray(raw)
        with self.assertRaises(ValueError):
            dethrux.make_well_formed(buffer, "middle")
        with self.assertRaises(TypeError):
            dethrux.make_well_formed(buffer, 1)
        self.assertEqual(buffer, raw)


# Calls that allocate nothing for their result, as functions of a buffer and a byte order. A buffer
# of UTF-32 may also be copied because of its address.
NOT_LEAN = re.compile("decode|encode|utf32$", re.IGNORECASE)
LEAN = {name: call for name, call in READERS.items() if not NOT_LEAN.search(name)}
for name in CONVERSIONS:
    first = [*REQUIRED[name]][0]
    if first != "utf32":
        LEAN[f"{name}, {first}"] = call_of(name, first, capacity=0)
for kind in DECODERS:
    LEAN[kind.__name__] = lambda data, order, kind=kind: kind(order).feed_partial(data, 0)


class Reading(unittest.TestCase):
    """Which buffers are read in place, and until when they are held."""

    def test_what_is_copied(self):
        raw = b"a\0" * 10_000
        for (name, call), kind in itertools.product(LEAN.items(), READABLE):
            with self.subTest(name=name, kind=kind):
                most = peak(call, kind(raw), "little")
                self.assertEqual(most >= len(raw), kind in IN_PIECES, most)

    def test_held_for_the_call(self):
        """An argument that is asked for its number tries to change the buffer."""
        for buffer, change in (
            (mapped(b"a\0"), lambda mapping: mapping.close()),
            (bytearray(b"a\0"), lambda array: array.append(0)),
        ):
            held = []

            class Changes:
                def __index__(self):
                    with held_fails:
                        change(buffer)
                    held.append(len(buffer))
                    return 7

            for name in CONVERSIONS:
                held_fails = self.assertRaises(BufferError)
                getattr(dethrux, name)(buffer, "little", Changes())
            for kind in DECODERS:
                held_fails = self.assertRaises(BufferError)
                kind("little").feed_partial(buffer, Changes())
            self.assertEqual(held, [2] * len([*CONVERSIONS, *DECODERS]))
            change(buffer)

    def test_let_go_after_the_call(self):
        for (name, call), order in itertools.product(READERS.items(), ORDERS):
            for wrong in (order, "middle"):
                mapping, view = mapped(b"\x00\xd8a"), memoryview(b"\x00\xd8a")
                with self.subTest(name=name, wrong=wrong):
                    for buffer in (mapping, view):
                        try:
                            call(buffer, wrong)
                        except ValueError:
                            # The exception is alive, with its frames.
                            (mapping.close if buffer is mapping else view.release)()
                    mapping.close()
                    view.release()

    def test_let_go_after_a_wrong_second_buffer(self):
        buffer = bytearray(b"a\0")
        for call in (
            lambda wrong: dethrux.compare(buffer, "little", wrong, "little"),
            lambda wrong: dethrux.find(buffer, wrong, "little"),
            lambda wrong: dethrux.rfind(buffer, wrong, "little"),
        ):
            for wrong in NOT_BUFFERS:
                with self.assertRaises(TypeError):
                    call(wrong)
                buffer.append(0)

    def test_let_go_after_a_wrong_number(self):
        names = "is_char_boundary", "floor_char_boundary", "floor_char_boundary_around"
        calls = [
            lambda data, name=name: getattr(dethrux, name)(data, "big", -1)
            for name in (*names, *CONVERSIONS)
        ]
        for kind in DECODERS:
            finished = kind("big")
            finished.finish()
            calls.append(finished.feed)
            calls.append(lambda data, kind=kind: kind("little").feed_partial(data, -1))
        for call in calls:
            mapping = mapped(b"a\0")
            try:
                call(mapping)
            except ValueError:
                mapping.close()
            self.assertTrue(mapping.closed)


class Arguments(unittest.TestCase):
    def test_buffers(self):
        for (name, call), order in itertools.product(READERS.items(), ORDERS):
            for raw in (b"", b"a\0\x3d\xd8\x00\xde\0b", b"\xff\xfea\0b", b"\xd8\x3d\xde\0\xc3\xa4"):
                expected = outcome(call, raw, order)
                for kind in READABLE:
                    with self.subTest(name=name, order=order, raw=raw, kind=kind):
                        self.assertEqual(outcome(call, kind(raw), order), expected)

    def test_buffers_stay(self):
        for (name, call), order in itertools.product(READERS.items(), ORDERS):
            buffer = bytearray(b"\x00\xde\xde\x00a")
            with self.subTest(name=name, order=order):
                outcome(call, buffer, order)
                self.assertEqual(buffer, b"\x00\xde\xde\x00a")
                buffer.append(0)

    def test_not_buffers(self):
        for (name, call), wrong in itertools.product(READERS.items(), NOT_BUFFERS):
            with self.subTest(name=name, wrong=wrong), self.assertRaises(TypeError):
                call(wrong, "little")

    def test_not_texts(self):
        for wrong in (b"a", 5, None, ["a"], collections.UserString("a")):
            message = f"^a str is required, not {type(wrong).__name__!r}$"
            with self.subTest(wrong=wrong), self.assertRaisesRegex(TypeError, message):
                dethrux.encode(wrong, "little")

    def test_byte_orders(self):
        for name, call in WITH_ORDER.items():
            value = {"encode": "a", "make_well_formed": bytearray()}.get(name.split(",")[0], b"a\0")
            for wrong in ("middle", "", "LITTLE", "native", "littl"):
                message = "^byteorder must be either 'little' or 'big'$"
                with self.subTest(name=name, wrong=wrong):
                    with self.assertRaisesRegex(ValueError, message):
                        call(value, wrong)
            for wrong in (0, 1, None, b"little"):
                message = f"^byteorder must be str, not {type(wrong).__name__}$"
                with self.subTest(name=name, wrong=wrong):
                    with self.assertRaisesRegex(TypeError, message):
                        call(value, wrong)

    def test_byteorder_is_a_keyword(self):
        """`test_native` tests the keywords of the functions in C."""
        raw = b"a\0\x3d\xd8\x00\xde\xd8\x3d"
        for order in ORDERS:
            for kind in DECODERS:
                self.assertEqual(kind(byteorder=order)._order, ORDERS.index(order))
            for call in (dethrux.decode_to_wtf8, dethrux.encode_from_wtf8):
                by_keyword = outcome(lambda: call(raw, byteorder=order))
                self.assertEqual(by_keyword, outcome(call, raw, order))

    def test_numbers(self):
        for name, call in CAPACITIES + OFFSETS:
            for wrong in (-1, -(2**64), Index(-1)):
                with self.subTest(name=name, wrong=wrong):
                    with self.assertRaisesRegex(ValueError, f"^{name} must not be negative$"):
                        call(wrong)
            for wrong in (1.5, "1", b"1", [1]):
                with self.subTest(name=name, wrong=wrong), self.assertRaises(TypeError):
                    call(wrong)
            for number in (0, 1, 2, 3, 4):
                self.assertEqual(call(Index(number)), call(number))
        for _name, call in OFFSETS:
            with self.assertRaises(TypeError):
                call(None)

    def test_numbers_of_files(self):
        for name, call in OFFSETS_OF_FILES:
            for wrong in (2**64, 2**64 + 2, 10**30):
                message = rf"^{name} must be less than 2\*\*64$"
                with self.subTest(name=name, wrong=wrong):
                    with self.assertRaisesRegex(OverflowError, message):
                        call(wrong)


def unfinished(kind, order):
    """Return beginnings of 1, 2 and 3 bytes of a character that such a decoder keeps."""
    char = "\U0001f600".encode(CODECS[order] if kind is dethrux.Decoder else "utf-8")
    return [char[:length] for length in (1, 2, 3)]


def each_decoder():
    """Return each kind in each byte order, with CPython's codecs of what it reads and writes."""
    for order, codec in CODECS.items():
        yield dethrux.Decoder, order, codec, "utf-8"
        yield dethrux.Encoder, order, "utf-8", codec


def each_stream():
    """Return a new decoder, a sample, and CPython's codecs of what it reads and writes."""
    for kind, order, source, target in each_decoder():
        for raw in UTF8 if kind is dethrux.Encoder else utf16(order):
            yield kind(order), raw, source, target


class Decoders(WithoutMemory):
    """Streams of both kinds in both byte orders."""

    def test_every_capacity(self):
        """As many characters of the output as fit are written, and the rest with the next chunk."""
        for decoder, raw, source, target in each_stream():
            whole = decoder.feed(raw)
            pending = decoder.pending
            ends = {*itertools.accumulate(len(it.encode(target)) for it in whole.decode(target))}
            for capacity in (*range(len(whole) + 2), 10**30, None):
                with self.subTest(raw=raw, target=target, capacity=capacity):
                    decoder.reset()
                    found = decoder.feed_partial(raw, capacity)
                    limit = LARGEST if capacity is None else capacity
                    most = max((it for it in ends if it <= limit), default=0)
                    self.assertEqual(found.output, whole[:most])
                    if found.status != Status.NO_SPACE:
                        self.assertEqual(found, (whole, len(raw), Status.DONE, 0))
                    self.assertEqual(most < len(whole), found.status == Status.NO_SPACE)
                    rest = decoder.feed(raw[found.read :])
                    self.assertEqual(found.output + rest, whole)
                    self.assertEqual(decoder.pending, pending)

    def test_the_largest_output(self):
        """A chunk of each length, after pending bytes, that needs the capacity that is taken."""
        for order, codec in CODECS.items():
            wide = "\u4e00".encode(codec)
            decoder = dethrux.Decoder(order)
            decoder.feed("\U0001f600".encode(codec)[:2] + wide[:1])
            found = decoder.feed_partial(wide[1:] + wide)
            self.assertEqual(found, ("\ufffd\u4e00\u4e00".encode(), 3, Status.DONE, 0))
            decoder = dethrux.Encoder(order)
            decoder.feed(b"\xf0\x9f\x98")
            found = decoder.feed_partial(b"ab")
            self.assertEqual(found, ("\ufffdab".encode(codec), 2, Status.DONE, 0))

    def test_finish_and_reset(self):
        for kind, order, source, target in each_decoder():
            self.assertEqual(kind(order).finish(), b"")
            for pending in unfinished(kind, order):
                decoder, other = kind(order), kind(order)
                for begun in (decoder, other):
                    self.assertEqual((begun.pending, begun.feed(pending)), (b"", b""))
                    self.assertEqual(begun.pending, pending)
                self.assertEqual(decoder.finish(), REPLACEMENT.encode(target))
                self.assertEqual(decoder.pending, b"")
                # The other one has its own state.
                self.assertEqual(other.pending, pending)
                other.reset()
                self.assertEqual(other.pending, b"")
                self.assertEqual(other.feed("a".encode(source)), "a".encode(target))
                self.assertEqual(other.finish(), b"")

    def test_finished(self):
        message = r"^the decoder is finished: reset\(\) begins a new stream$"
        for kind in DECODERS + STRICT:
            decoder = kind("big")
            self.assertEqual(decoder.finish(), b"")
            calls = [decoder.finish, lambda: decoder.feed(b"")]
            if kind in DECODERS:
                calls.append(lambda: decoder.feed_partial(b"", 0))
            for call in calls:
                with self.assertRaisesRegex(ValueError, message):
                    call()
            decoder.reset()
            self.assertNotEqual(decoder.feed(b"\0a"), b"")

    def test_an_exception_changes_nothing(self):
        for kind, order, _source, target in each_decoder():
            decoder = kind(order)
            pending = unfinished(kind, order)[1]
            decoder.feed(pending)
            wrongs = [(wrong, None, TypeError) for wrong in NOT_BUFFERS]
            wrongs += [(b"a\0", -1, ValueError), (b"a\0", 1.5, TypeError)]
            for chunk, capacity, error in wrongs:
                with self.subTest(chunk=chunk, capacity=capacity), self.assertRaises(error):
                    decoder.feed_partial(chunk, capacity)
                self.assertEqual(decoder.pending, pending)
            with self.assertRaises(TypeError):
                decoder.feed(None)
            self.assertEqual(decoder.finish(), REPLACEMENT.encode(target))

    def test_without_memory(self):
        for kind, order, source, target in each_decoder():
            raw, text = "\U0001f600".encode(source), "\U0001f600".encode(target)
            for pending in unfinished(kind, order):
                rest = raw[len(pending) :]

                def made():
                    decoder = kind(order)
                    decoder.feed(pending)
                    return decoder

                calls = (
                    (lambda it: it.finish(), REPLACEMENT.encode(target), b""),
                    (lambda it: it.feed(rest), text, b""),
                    (lambda it: it.feed(bytearray(rest)), text, b""),
                    (lambda it: it.feed(rest + pending), text, pending),
                    (lambda it: it.feed_partial(rest, 4), (text, len(rest), Status.DONE, 0), b""),
                )
                for call, wanted, left in calls:
                    with self.subTest(target=target, pending=pending):
                        self.fails_in_turn(made, call, lambda it: it.pending, wanted, left)


if __name__ == "__main__":
    unittest.main()
