"""The codecs, compared with CPython's: results, errors, streams, threads; but not files."""

import codecs
import io
import itertools
import unittest

import dethrux._codecs
from expected import CODECS, UTF8, Comparison, Index, WithoutMemory, in_threads, outcome, spread
from expected import utf16

NAMES = ("utf-16-le", "utf-16-be", "utf-16")
UNITS = (0x41, 0xE9, 0x4E00, 0xD83D, 0xDE00, 0xFEFF, 0xFFFE)
# The first and the last surrogates of each kind, and the units around them.
LIMITS = (0x41, 0xD7FF, 0xD800, 0xDBFF, 0xDC00, 0xDDFF, 0xDFFF, 0xE000)


def resume_before_end(error):
    """Resume one before the end, counted from there, if that is after the error."""
    rest = len(error.object) - error.end
    return "<", -1 if rest > 1 else error.end


# Handlers of programs: what each returns for an error. The last ones break the rules. CPython's own
# codec calls each of them, for the whole input.
OWN_HANDLERS = {
    "bytes": lambda error: (b"ab", error.end),
    "index": lambda error: ("?", Index(error.end)),
    "back": resume_before_end,
    "wide": lambda error: ("\u20ac", error.end),
    "out": lambda error: ("?", error.end + 9),
    "none": lambda error: None,
    "raises": lambda error: (_ for _ in ()).throw(IndexError("of the handler")),
}
for short, handler in OWN_HANDLERS.items():
    codecs.register_error(f"dethrux.test.{short}", handler)
HANDLERS = (
    None,
    "",
    "strict",
    "replace",
    "ignore",
    "backslashreplace",
    "surrogatepass",
    "surrogateescape",
    "xmlcharrefreplace",
    "namereplace",
    "dethrux.test.missing",
    *(f"dethrux.test.{short}" for short in OWN_HANDLERS),
)


def utf16_of(text, order):
    """Return the code units of a text, of which each surrogate is one."""
    units = ((ord(char),) if ord(char) < 0x10000 else pair_of(ord(char)) for char in text)
    return b"".join(unit.to_bytes(2, order) for each in units for unit in each)


def pair_of(number):
    """Return the surrogate pair of a character."""
    return 0xD800 + (number - 0x10000 >> 10), 0xDC00 + (number & 0x3FF)


class Functions(Comparison):
    """The functions, compared with CPython's."""

    def assert_like(self, name, *arguments):
        """Compare a function of ``codecs``."""
        own, other = getattr(dethrux._codecs, name), getattr(codecs, name)
        self.assert_same(lambda: own(*arguments), lambda: other(*arguments), name, *arguments)

    def test_decode(self):
        for length, odd in itertools.product(range(4), (b"", b"\xd8")):
            among = LIMITS if length == 2 else UNITS
            for units in (*itertools.product(among, repeat=length), UNITS[3:5]):
                raws = {it: b"".join(one.to_bytes(2, it) for one in units) + odd for it in CODECS}
                for (order, raw), errors in itertools.product(raws.items(), HANDLERS):
                    self.assert_decoded(raw, order, errors)
                handlers = "replace", None, "dethrux.test.wide"
                for raw, errors in itertools.product(raws.values(), handlers):
                    for final in (False, True):
                        self.assert_like("utf_16_decode", raw, errors, final)
                        for order in (-1, 0, 1, True):
                            self.assert_like("utf_16_ex_decode", raw, errors, order, final)

    def test_samples(self):
        for order, errors in itertools.product(CODECS, HANDLERS):
            for raw in utf16(order):
                self.assert_decoded(raw, order, errors)
            for utf8 in UTF8 if errors is not None else ():
                self.assert_from_utf8(utf8, order, errors)

    def test_defaults(self):
        for name in ("le_decode", "be_decode", "decode", "ex_decode"):
            for raw in (b"a\0", b"a\0\x3d\xd8", b"\xfe\xff\0a\xd8", b"\xdc\xdc"):
                self.assert_like(f"utf_16_{name}", raw)
                self.assert_like(f"utf_16_{name}", raw, "replace")
        for name in ("le_encode", "be_encode", "encode"):
            for text in ("", "a", "\ud800"):
                self.assert_like(f"utf_16_{name}", text)
        for order, codec in CODECS.items():
            raw = "a\udc00".encode(codec, "surrogatepass")
            for call, given in (
                (dethrux.decode, raw),
                (dethrux.decode_to_utf8, raw),
                (dethrux.encode, "a\udc00"),
                (dethrux.encode_from_utf8, b"a\xff"),
            ):
                self.assert_same(lambda: call(given, order), lambda: call(given, order, "strict"))

    def test_encode(self):
        chars = "A\xe9\u4e00\U0001f600\ud83d\ude00"
        for length in range(4):
            for text in map("".join, itertools.product(chars, repeat=length)):
                for errors in HANDLERS:
                    for order in CODECS:
                        self.assert_encoded(text, order, errors)
                    self.assert_like("utf_16_encode", text, errors)
                for order in (-2, -1, 0, 1, 2):
                    self.assert_like("utf_16_encode", text, "surrogatepass", order)

    def test_wrong_types(self):
        for wrong in (5, None, [1], "a"):
            for name in ("le_decode", "be_decode", "decode", "ex_decode"):
                with self.subTest(name=name, wrong=wrong), self.assertRaises(TypeError):
                    getattr(dethrux._codecs, f"utf_16_{name}")(wrong)
        for wrong in (5, None, ["a"], b"a"):
            for name in ("le_encode", "be_encode", "encode"):
                with self.subTest(name=name, wrong=wrong), self.assertRaises(TypeError):
                    getattr(dethrux._codecs, f"utf_16_{name}")(wrong)

    def test_a_handler_under_the_name_replace(self):
        codecs.register_error("replace", lambda error: ("!", error.end))
        self.addCleanup(codecs.register_error, "replace", codecs.replace_errors)
        self.assert_like("utf_16_le_decode", b"\x00\xdcb\0", "replace", True)


class Names(Comparison):
    """Names of handlers that are odd: which class an exception has."""

    @staticmethod
    def outcome(call):
        """Return the result of a call, or the class of its exception."""
        try:
            return call()
        except Exception as error:
            return type(error)

    def test_odd_names(self):
        """They are refused also for well-formed input, but not if they are just unknown."""
        names = ["ignore\0x", "\0", "\ud800", "\xe4", "\xe4\0", "", "no"]
        names += [5, 1.5, b"ignore", ["ignore"]]
        for name, order in itertools.product(names, CODECS):
            for raw in (b"", b"a\0", b"a\0\0\xdc", b"a\0\0\xd8", b"a"):
                self.assert_decoded(raw, order, name)
            for text in ("", "a", "a\udc00", "\u4e00", "\U0001f600"):
                self.assert_encoded(text, order, name)
                codec = dethrux._codecs.utf_16_encode, codecs.utf_16_encode
                self.assert_same(*(lambda call=it: call(text, name) for it in codec))
            for utf8 in (b"", b"a", b"\xff", b"a\xed\xb0\x80"):
                self.assert_from_utf8(utf8, order, name)


class Handlers(Comparison):
    """Handlers under any names, and buffers that a handler changes."""

    def test_a_name_that_is_not_ascii(self):
        codecs.register_error("\xe4", lambda error: ("?", error.end))
        self.addCleanup(codecs.register_error, "\xe4", codecs.strict_errors)
        for order, codec in CODECS.items():
            self.assert_decoded("a\udc00".encode(codec, "surrogatepass"), order, "\xe4")
            self.assert_encoded("a\udc00", order, "\xe4")
            self.assert_from_utf8(b"a\xff", order, "\xe4")

    def test_handlers_of_cpython_under_other_names(self):
        """A handler is what is registered, whatever its name is."""
        wrong = "a\udc00\xe9\ud800b\ud800"
        names = "ignore", "backslashreplace", "surrogatepass"
        kept = {name: codecs.lookup_error(name) for name in (*names, "replace")}
        for name, handler in itertools.product(names, kept.values()):
            self.addCleanup(codecs.register_error, name, kept[name])
            for function in (handler, lambda error: ("!" * 9, error.end)):
                codecs.register_error(name, function)
                codecs.register_error("dethrux.test.alias", function)
                for order, each in itertools.product(CODECS, (name, "dethrux.test.alias")):
                    raw = utf16_of(wrong, order)
                    for data in (raw, raw + b"\xd8"):
                        self.assert_decoded(data, order, each)
            codecs.register_error(name, kept[name])

    def test_many_errors_of_each_handler(self):
        """One error, several in a row, and many."""
        handlers = ("replace", "ignore", "backslashreplace", "surrogatepass", "surrogateescape")
        for wrong in ("\udc00", "\ud800", "\udfff\udbff", "\ud800\ud83d\ude00", "\udc00\xff"):
            for count, kind in itertools.product((1, 2, 17, 300), ("", "a", "\xe9", "\u4e00")):
                for order in CODECS:
                    raw = utf16_of((kind + wrong) * count + kind, order)
                    for data, errors in itertools.product((raw, raw + b"\xd8"), handlers):
                        self.assert_decoded(data, order, errors)

    def test_room_for_backslashes(self):
        """They take more bytes of UTF-8 than any code unit."""
        for order, count, length in itertools.product(CODECS, (1, 2, 3, 40), range(40)):
            raw = utf16_of("\udc00" * count + "\u4e00" * length, order)
            self.assert_decoded(raw, order, "backslashreplace")

    def test_buffers(self):
        """A handler sees a copy of a buffer, and what it does to the buffer has no effect."""
        for change in ("write", "grow", "shrink"):
            for order, codec in CODECS.items():
                decode = f"{codec.replace('-', '_')}_decode"
                raw = "a\udc00bc\ud800d".encode(codec, "surrogatepass")
                found = []
                for function in (
                    getattr(codecs, decode),
                    getattr(dethrux._codecs, decode),
                    lambda *given: (dethrux.decode(given[0], order, given[1]), len(raw)),
                    lambda *given: (
                        dethrux.decode_to_utf8(given[0], order, given[1]).decode(),
                        len(raw),
                    ),
                ):
                    buffer = bytearray(raw)

                    def handler(error):
                        self.assertEqual((type(error.object), error.object), (bytes, raw))
                        if change == "write":
                            buffer[:] = bytes(len(raw))
                        elif change == "grow":
                            buffer.append(0)
                        else:
                            buffer.pop()
                        return "?", error.end

                    codecs.register_error("dethrux.test.buffer", handler)
                    try:
                        found.append(function(buffer, "dethrux.test.buffer", True))
                    except BufferError:
                        found.append(BufferError)
                    if change == "write":
                        self.assertEqual(buffer, bytes(len(raw)))
                    buffer.append(0)
                text = "a?bc?d", len(raw)
                expected = text if change == "write" else BufferError
                self.assertEqual(found, [expected] * 4)

    def test_buffers_in_pieces(self):
        for order, codec in CODECS.items():
            for text in ("a\udc00b", "ab", "\udc00" * 20):
                raw = text.encode(codec, "surrogatepass")
                for errors in ("strict", "replace", "ignore", "backslashreplace", "surrogatepass"):
                    self.assert_decoded(spread(raw), order, errors, raw)

    def test_an_exported_buffer(self):
        """Others may look at a buffer during a call, and a call leaves it free."""
        buffer = bytearray(b"a\0\0\xdc")
        with memoryview(buffer) as view:
            self.assertEqual(dethrux.decode(buffer, "little", "ignore"), "a")
            self.assertEqual(dethrux.decode(view, "little", "backslashreplace"), "a\\x00\\xdc")
            self.assertEqual(dethrux.decode_to_utf8(view, "little", "ignore"), b"a")
        buffer.append(0)
        self.assertEqual(len(buffer), 5)


class Interrupted(bytes):
    """A chunk that the user interrupts when a decoder takes what it has not read."""

    def __radd__(self, other):
        return Interrupted(other + bytes(self))

    def __getitem__(self, index):
        raise KeyboardInterrupt


class Streams(WithoutMemory):
    def test_interrupted(self):
        """After an interrupt the next call decodes as if there had been none."""
        for bom, name in ((b"\xfe\xff", "utf-16-be"), (b"\xff\xfe", "utf-16-le")):
            decoder = codecs.lookup("dethrux-utf-16").incrementaldecoder()
            before = decoder.getstate()
            with self.assertRaises(KeyboardInterrupt):
                decoder.decode(Interrupted(bom + "a".encode(name)))
            self.assertEqual(decoder.getstate(), before)
            # The byte order of the interrupted call is forgotten.
            self.assertEqual(decoder.decode("\ufeffb".encode("utf-16-be")), "b")

    def run_both(self, name, make, steps):
        """Run the steps, each a method and its arguments, on an object of both codecs."""
        objects = [make(codecs.lookup(prefix + name)) for prefix in ("", "dethrux-")]
        for method, *arguments in steps:
            expected, found = (outcome(getattr(each, method), *arguments) for each in objects)
            self.assertEqual(found, expected, (name, steps, method, arguments))

    def test_stateless(self):
        for name, errors in itertools.product(NAMES, ("strict", "replace", "surrogatepass")):
            for raw in (b"", b"a\0", b"\0a\xdc\0", b"\xfe\xff\0a\xd8", b"a\0\x3d\xd8", b"\xff\xff"):
                self.run_both(name, lambda info: info, [("decode", raw, errors), ("decode", raw)])
            for text in ("", "a\U0001f600", "\ud800"):
                self.run_both(name, lambda info: info, [("encode", text, errors), ("encode", text)])

    def test_encoders(self):
        texts = "\ud800", "a", "", "\U0001f600", "\udc00"
        steps = [("encode", text) for text in texts]
        steps += [("encode", "b", True), ("reset",), ("encode", "b")]
        steps += [("setstate", 2), ("encode", "c"), ("setstate", 0), ("encode", "d")]
        steps = [each for step in steps for each in (step, ("getstate",))]
        for name, errors in itertools.product(NAMES, ("strict", "replace", "surrogatepass")):
            self.run_both(name, lambda info: info.incrementalencoder(errors), steps)
            self.run_both(name, lambda info: info.incrementalencoder(), steps)

    def test_decoders(self):
        streams = [
            [("decode", chunk) for chunk in (b"\xff", b"\xfea", b"\0\x3d\xd8", b"\0")],
            [("decode", b"\xfe\xff\0a\xd8\x3d"), ("decode", b"\xde"), ("decode", b"\0\xdc\0")],
            [("decode", b"a\0b"), ("decode", b"\0", True)],
            [("decode", b"\xfe"), ("decode", b"", True)],
        ]
        ends = [
            [("decode", b"", True), ("decode", b"\0\xdc")],
            [("reset",), ("decode", b"\xfe\xff\xde\0"), ("decode", b"a", True)],
            [("setstate", (b"", 0)), ("decode", b"a\0\x3d\xd8")],
            [("setstate", (b"\x3d", 0)), ("decode", b"\xd8\0\xde")],
            [("setstate", (b"\xd8", 1)), ("decode", b"\x3d\xde\0")],
            [("setstate", (b"", 2)), ("decode", b"\xff\xfea\0")],
        ]
        for stream, end in itertools.product(streams, ends):
            self.run_decoders(NAMES, stream + end)
        for name in NAMES:
            raw = "a\ud83d\U0001f600\ude00".encode(name, "surrogatepass") + b"\x3d"
            for at in range(len(raw) + 1):
                self.run_decoders([name], [("decode", raw[:at]), ("decode", raw[at:], True)])

    def run_decoders(self, names, steps):
        """Run the steps, with the state after each, and with each handler."""
        steps = [each for step in steps for each in (step, ("getstate",))]
        for name, errors in itertools.product(names, ("strict", "replace", "surrogatepass")):
            self.run_both(name, lambda info: info.incrementaldecoder(errors), steps)
            self.run_both(name, lambda info: info.incrementaldecoder(), steps)

    def test_without_memory(self):
        text = "a\U0001f600"
        for name in NAMES:
            raw, info = text.encode(name), codecs.lookup(f"dethrux-{name}")
            # Three bytes of the last character stay for the next call.
            calls = (
                (info.incrementaldecoder, lambda it: it.decode(raw[:-1]), text[:-1]),
                (info.incrementalencoder, lambda it: it.encode(text), raw),
            )
            for kind, call, wanted in calls:
                after = kind()
                call(after)
                state = lambda it: it.getstate()
                self.fails_in_turn(kind, call, state, wanted, after.getstate(), 120)

    def test_no_bom(self):
        for raw in (b"a\0b", b"\0a", b"\0\xdc"):
            info = codecs.lookup("dethrux-utf-16")
            decoder = info.incrementaldecoder("replace")
            reader = info.streamreader(io.BytesIO(raw), "replace")
            for call in (lambda: decoder.decode(raw), reader.read):
                with self.assertRaises(UnicodeDecodeError) as caught:
                    call()
                expected = "utf-16", raw, 0, 2, "Stream does not start with BOM"
                self.assertEqual(caught.exception.args, expected)

    def test_stream_writers(self):
        steps = [("write", "a\U0001f600"), ("write", "b\ud800"), ("writelines", ["c", "d"])]
        steps += [("reset",), ("write", "e"), ("getvalue",), ("encode", "f"), ("encode", "\ud800")]
        for name, errors in itertools.product(NAMES, ("strict", "replace", "surrogatepass")):
            self.run_both(name, lambda info: info.streamwriter(io.BytesIO(), errors), steps)
            self.run_both(name, lambda info: info.streamwriter(io.BytesIO()), steps)

    def test_names(self):
        self.assertEqual(codecs.lookup("Dethrux UTF-16 LE").name, "dethrux-utf-16-le")
        for name in NAMES:
            self.assertEqual(codecs.lookup(f"dethrux-{name}").name, f"dethrux-{name}")
        with self.assertRaises(LookupError):
            codecs.lookup("dethrux-utf-15")

    def test_threads(self):
        text = "a\xe9\u4e00\U0001f600" * 2000
        found = [None] * 8

        def decode(number):
            name = NAMES[number % 3]
            raw, step = text.encode(name), 97 + number
            decoder = codecs.getincrementaldecoder(f"dethrux-{name}")()
            parts = [decoder.decode(raw[at : at + step]) for at in range(0, len(raw), step)]
            found[number] = "".join(parts) + decoder.decode(b"", True)

        in_threads(decode, range(8))
        self.assertTrue(all(each == text for each in found))


if __name__ == "__main__":
    unittest.main()
