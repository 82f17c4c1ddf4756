"""WTF-8, compared with CPython's ``surrogatepass``, and the difference."""

import unittest

import dethrux
from dethrux import Status
from expected import CODECS, ORDERS, utf16

# ``\ud83d\ude00`` as two encoded surrogates.
ENCODED_PAIR = b"\xed\xa0\xbd\xed\xb8\x80"


def wtf8_of(raw, codec):
    """Return what CPython makes of whole code units. It joins surrogate pairs."""
    return raw.decode(codec, "surrogatepass").encode("utf-8", "surrogatepass")


def each_input():
    """Return each byte order, its codec, and whole code units."""
    return [(*it, raw) for it in CODECS.items() for raw in utf16(it[0]) if len(raw) % 2 == 0]


class Wtf8(unittest.TestCase):
    def test_as_cpython(self):
        for order, codec, raw in each_input():
            wtf8 = wtf8_of(raw, codec)
            self.assertEqual(dethrux.decode_to_wtf8(raw, order), wtf8)
            self.assertEqual(dethrux.encode_from_wtf8(wtf8, order), raw)

    def test_an_encoded_pair(self):
        """CPython decodes an encoded pair, and so gives one text two spellings. WTF-8 does not."""
        for order, codec in CODECS.items():
            pair = ENCODED_PAIR.decode("utf-8", "surrogatepass").encode(codec, "surrogatepass")
            self.assertEqual(dethrux.decode_to_wtf8(pair, order), "\U0001f600".encode())
            found = dethrux.from_wtf8(b"a" + ENCODED_PAIR, order)
            self.assertEqual(found[1:], (4, Status.ILL_FORMED, 3))
            with self.assertRaises(UnicodeDecodeError) as caught:
                dethrux.encode_from_wtf8(b"a" + ENCODED_PAIR, order)
            expected = ("wtf-8", b"a" + ENCODED_PAIR, 4, 7, "invalid sequence")
            self.assertEqual(caught.exception.args, expected)

    def test_odd_bytes(self):
        for order, codec, raw in each_input():
            odd = raw + b"\xd8"
            with self.assertRaises(UnicodeDecodeError) as caught:
                dethrux.decode_to_wtf8(bytearray(odd), order)
            expected = (codec, odd, len(raw), len(odd), "truncated data")
            self.assertEqual(caught.exception.args, expected)
            self.assertIs(type(caught.exception.args[1]), bytes)

    def test_ends_inside(self):
        for data, read in ((b"a\xed\xa0", 1), (b"\xed\xa0\xbd\xed", 3), (b"ab\xf0\x9f\x98", 2)):
            for order in ORDERS:
                with self.assertRaises(UnicodeDecodeError) as caught:
                    dethrux.encode_from_wtf8(memoryview(data), order)
                expected = ("wtf-8", data, read, len(data), "unexpected end of data")
                self.assertEqual(caught.exception.args, expected)
                self.assertIs(type(caught.exception.args[1]), bytes)


if __name__ == "__main__":
    unittest.main()
