"""Errors, parts of a text, UTF-32, buffers of the caller, strict streams."""

import array
import itertools
import pickle
import time
import unittest

import dethrux
from dethrux import Status
from expected import CODECS, IN_PIECES, NOT_BUFFERS, ORDERS, UTF8, WRITABLE, WithoutMemory, items
from expected import peak, utf16

# UTF-32 that is well formed, and ill formed at the start and at the end.
UNITS = ((), (0x61,), (0x61, 0xE9, 0xFFFF, 0x10000, 0x10FFFF), (0xD800, 0x61), (0x61, 0xDFFF))
UNITS += ((0x110000,), (0x61, 0xFFFFFFFF, 0x62), (0xD7FF, 0xE000), (0xFEFF,), (0x61,) * 40)


def errors(raw, codec):
    """Return the ill-formed sequences, as CPython finds them."""
    found, at = [], 0
    for item in items(raw, codec):
        if item.char is None:
            status = Status.INCOMPLETE if item.is_incomplete else Status.ILL_FORMED
            found.append((at, item.length, status))
        at += item.length
    return found


class Errors(unittest.TestCase):
    def test_each(self):
        for order, raw in ((order, raw) for order in ORDERS for raw in utf16(order)):
            found = [*dethrux.iter_errors(raw, order)]
            self.assertEqual(found, errors(raw, CODECS[order]), (order, raw))
            self.assertEqual(len(found), dethrux.to_utf8_replacements(raw, order))
            for each in found:
                self.assertIs(type(each), dethrux.IllFormed)
                self.assertIs(type(each.status), Status)
                self.assertEqual((each.offset, each.len, each.status), each)

    def test_from_an_offset(self):
        for at, expected in ((0, 2), (2, 2), (4, None), (6, None), (7, None), (2**64, None)):
            found = dethrux._native.next_error(b"a\0\0\xdcb\0", "little", at)
            self.assertEqual(found and found.offset, expected)

    def test_arguments_are_tested_before_the_first_item(self):
        with self.assertRaises(ValueError):
            dethrux.iter_errors(b"", "middle")
        with self.assertRaises(TypeError):
            dethrux.iter_errors("a", "little")

    def test_the_buffer_is_held(self):
        buffer = bytearray(b"\0\xdc" * 2)
        found = dethrux.iter_errors(buffer, "little")
        next(found)
        with self.assertRaises(BufferError):
            buffer.append(0)
        self.assertEqual([*found], [(2, 2, Status.ILL_FORMED)])
        buffer.append(0)

    def test_linear_time(self):
        """Eight times the errors take less than 32 times as long: a copy for each takes 64."""
        for kind in (bytes, bytearray, IN_PIECES[0]):
            taken = []
            for count in (1 << 14, 1 << 17):
                buffer = kind(b"\0\xdc" * count)
                before = time.process_time()
                self.assertEqual(sum(1 for _ in dethrux.iter_errors(buffer, "little")), count)
                taken.append(time.process_time() - before)
            self.assertLess(taken[1], 32 * taken[0] + 0.1)


class Parts(unittest.TestCase):
    """`find` and `rfind` with a start and an end."""

    ENDS = (None, *range(-13, 14), 2**70, -(2**70))

    def test_each(self):
        """The definition: the pattern is between the ends, and at boundaries of the whole text."""
        for order, codec in CODECS.items():
            text = "ab\U0001f600ab".encode(codec)
            patterns = ["", "a", "b", "ab", "\U0001f600", "\ud83d", "\ude00", "b\U0001f600a"]
            for raw, each in itertools.product((text, text[:-1]), patterns):
                pattern = each.encode(codec, "surrogatepass")
                at = [0, *itertools.accumulate(item.length for item in items(raw, codec))]
                places = [it for it in at if raw.startswith(pattern, it)]
                places = [it for it in places if it + len(pattern) in at]
                for start, end in itertools.product(self.ENDS, repeat=2):
                    # `bytes.find` finds the empty pattern where any pattern may begin and end.
                    least = raw.find(b"", start, end)
                    most = raw.rfind(b"", start, end)
                    left = [it for it in places if least <= it and it + len(pattern) <= most]
                    left = left if least >= 0 else []
                    given = (raw, pattern, order, start, end)
                    self.assertEqual(dethrux.find(*given), min(left, default=-1), given)
                    self.assertEqual(dethrux.rfind(*given), max(left, default=-1), given)

    def test_one_end(self):
        text = "abcabc".encode("utf-16-le")
        self.assertEqual(dethrux.find(text, b"b\0", "little", 4), 8)
        self.assertEqual(dethrux.find(text, b"b\0", "little", end=3), -1)
        self.assertEqual(dethrux.rfind(text, b"b\0", "little", end=-3), 2)
        for wrong in ("1", 1.5, [1]):
            with self.assertRaises(TypeError):
                dethrux.find(text, b"", "little", wrong)
            with self.assertRaises(TypeError):
                dethrux.rfind(text, b"", "little", 0, wrong)


class Fixed(unittest.TestCase):
    """UTF-32, which may end inside a code unit. `check.py` tests the other conversions."""

    def test_inside_a_code_unit(self):
        """Whole code units, in the machine's byte order, are in the tables of cases."""
        for order, units, odd in itertools.product(ORDERS, UNITS, (1, 2, 3)):
            whole = array.array("I", units).tobytes()
            raw = whole + b"\x61\0\0"[:odd]
            found = dethrux.from_utf32(whole, order)
            if found.status == Status.DONE:
                found = found._replace(status=Status.INCOMPLETE)
            self.assertEqual(dethrux.from_utf32(raw, order), found)
            validity = found.read, found.status, found.error_len
            self.assertEqual(dethrux.validate_utf32(raw), validity)

    def test_replaced_at_the_end(self):
        for order, units, odd in itertools.product(ORDERS, UNITS, (1, 2, 3)):
            whole = array.array("I", units).tobytes()
            raw, last = whole + b"\x61\0\0"[:odd], "\ufffd".encode(CODECS[order])
            output = dethrux.from_utf32_lossy(whole, order).output
            length = len(output)
            self.assertEqual(dethrux.from_utf32_lossy_len(raw), length + 2)
            done = output + last, len(raw), Status.DONE, 0
            self.assertEqual(dethrux.from_utf32_lossy(raw, order), done)
            for capacity in range(length + 4):
                wanted = done
                if capacity < length:
                    wanted = dethrux.from_utf32_lossy(whole, order, capacity)
                elif capacity < length + 2:
                    wanted = output, len(whole), Status.NO_SPACE, 0
                self.assertEqual(dethrux.from_utf32_lossy(raw, order, capacity), wanted)
                buffer = bytearray(capacity)
                found = dethrux.from_utf32_lossy_into(raw, order, buffer)
                self.assertEqual(found, (wanted[1], len(wanted[0]), *wanted[2:]))
                self.assertTrue(buffer.startswith(wanted[0]))

    def test_any_address(self):
        for units, start in itertools.product(UNITS, range(4)):
            raw = array.array("I", units).tobytes()
            view = memoryview(b"\xff" * start + raw)[start:]
            self.assertEqual(dethrux.validate_utf32(view), dethrux.validate_utf32(raw))
            self.assertEqual(dethrux.from_utf32(view, "big"), dethrux.from_utf32(raw, "big"))
        # The library does not take any address: what has a wrong one is copied.
        raw = b"a\0\0\0" * 10_000
        view = memoryview(b"a" + raw)[1:]
        for call in (dethrux.validate_utf32, dethrux.from_utf32_lossy_len):
            self.assertGreater(peak(call, view), len(raw))

    def test_arrays(self):
        units = array.array("I", [0x61, 0x1F600])
        raw = "a\U0001f600".encode("utf-16-be")
        self.assertEqual(dethrux.from_utf32(units, "big"), (raw, 8, Status.DONE, 0))
        self.assertEqual(array.array("I", dethrux.to_utf32(raw, "big").output), units)


class Into(unittest.TestCase):
    """Conversions to a buffer of the caller."""

    def test_buffers(self):
        for kind in WRITABLE:
            buffer = kind(b"\0" * 8)
            found = dethrux.to_utf8_into(b"a\0b\0", "little", buffer)
            self.assertEqual(found, (4, 2, Status.DONE, 0))
            self.assertEqual(found._fields, ("read", "written", "status", "error_len"))
            self.assertIs(type(found.status), Status)
            self.assertEqual(bytes(memoryview(buffer))[:2], b"ab")

    def test_overlap(self):
        buffer = bytearray(b"a\0" * 8)
        view = memoryview(buffer)
        for source, target in ((view, view), (view[:8], view[7:]), (view[7:], view[:8])):
            with self.assertRaisesRegex(ValueError, "^the buffers must not overlap$"):
                dethrux.to_utf8_into(source, "little", target)
        self.assertEqual(buffer, b"a\0" * 8)
        found = dethrux.to_utf8_into(view[:8], "little", view[8:])
        self.assertEqual(found, (8, 4, Status.DONE, 0))
        found = dethrux.to_utf8_into(view[14:], "big", view[:14])
        self.assertEqual(found, (2, 3, Status.DONE, 0))
        # An empty buffer overlaps no other.
        found = dethrux.to_utf8_into(view[4:4], "little", view)
        self.assertEqual(found, (0, 0, Status.DONE, 0))
        found = dethrux.to_utf8_into(view, "little", view[4:4])
        self.assertEqual(found, (0, 0, Status.NO_SPACE, 0))

    def test_the_address_of_utf32(self):
        view = memoryview(bytearray(16))
        message = "^a buffer for UTF-32 must be aligned to four bytes$"
        for call in (dethrux.to_utf32_into, dethrux.to_utf32_lossy_into):
            for start in (1, 2, 3):
                with self.assertRaisesRegex(ValueError, message):
                    call(b"a\0", "little", view[start:])
                # An empty buffer may be anywhere, and an empty array is.
                for empty in (view[start:start], array.array("I")):
                    found = call(b"a\0", "little", empty)
                    self.assertEqual(found, (0, 0, Status.NO_SPACE, 0))
            self.assertEqual(call(b"a\0", "little", view[4:]), (2, 4, Status.DONE, 0))


class Strict(WithoutMemory):
    """Streams that raise at the first error."""

    def streams(self):
        """Return a kind, a byte order, a sample, and the codecs of what it reads and writes."""
        for order, codec in CODECS.items():
            for raw in utf16(order):
                yield dethrux.StrictDecoder, order, raw, codec, "utf-8"
            for raw in UTF8:
                yield dethrux.StrictEncoder, order, raw, "utf-8", codec

    def test_every_chunking(self):
        for kind, order, raw, source, target in self.streams():
            wrong = errors(raw, source)[:1]
            cuts = itertools.product(range(len(raw) + 1), range(9))
            for first, second in ((first, first + more) for first, more in cuts):
                decoder, found = kind(order), b""
                try:
                    for chunk in (raw[:first], raw[first:second], raw[second:]):
                        found += decoder.feed(chunk)
                    found += decoder.finish()
                except dethrux.StreamError as error:
                    self.check(error, decoder, raw, source, wrong[0])
                else:
                    self.assertEqual((wrong, found), ([], raw.decode(source).encode(target)))
                    self.assertEqual((decoder.offset, decoder.pending), (len(raw), b""))

    def check(self, error, decoder, raw, source, wrong):
        """Compare an exception with CPython's for the whole stream."""
        try:
            raw.decode(source)
        except UnicodeDecodeError as expected:
            self.assertEqual((error.offset, wrong[0]), (expected.start, expected.start))
            self.assertEqual(error.end - error.start, expected.end - expected.start)
            place = f", at byte {expected.start} of the stream"
            self.assertEqual((error.encoding, error.reason), (source, expected.reason + place))
        start = error.offset - error.start
        self.assertEqual(error.object, raw[start : start + len(error.object)])
        self.assertEqual(decoder.offset, start)
        copy = pickle.loads(pickle.dumps(error))
        self.assertEqual((copy.args, copy.offset), (error.args, error.offset))
        self.assertEqual((str(copy), copy.reason), (str(error), error.reason))

    def test_an_exception_changes_nothing(self):
        decoder = dethrux.StrictDecoder("little")
        self.assertEqual(decoder.feed(b"a\0\x3d"), b"a")
        for wrong in (b"\xd8a\0", b"\xdc"):
            with self.assertRaises(dethrux.StreamError) as caught:
                decoder.feed(wrong)
            self.assertEqual((caught.exception.offset, decoder.pending), (2, b"\x3d"))
        with self.assertRaises(dethrux.StreamError):
            decoder.finish()
        for wrong in NOT_BUFFERS:
            with self.assertRaises(TypeError):
                decoder.feed(wrong)
        self.assertEqual(decoder.feed(array.array("H", b"\xd8\0\xde\x62")), b"\xf0\x9f\x98\x80")
        self.assertEqual((decoder.pending, decoder.offset), (b"\x62", 6))

    def test_without_memory(self):
        char = "\U0001f600"
        for kind, raw, text in (
            (dethrux.StrictDecoder, char.encode("utf-16-le"), char.encode()),
            (dethrux.StrictEncoder, char.encode(), char.encode("utf-16-le")),
        ):

            def made():
                decoder = kind("little")
                decoder.feed(raw[:3])
                return decoder

            state = lambda it: (it.pending, it.offset)
            self.fails_in_turn(made, lambda it: it.feed(raw[3:]), state, text, (b"", 4))

    def test_reset(self):
        for kind in (dethrux.StrictDecoder, dethrux.StrictEncoder):
            decoder = kind("big")
            self.assertEqual((decoder.feed(b"\0a\0b"), decoder.offset)[1], 4)
            decoder.reset()
            self.assertEqual((decoder.pending, decoder.offset), (b"", 0))
            with self.assertRaises(ValueError):
                kind("middle")


if __name__ == "__main__":
    unittest.main()
