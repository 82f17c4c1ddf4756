"""The codecs: decoding to and encoding from ``str``, with the error handlers of ``codecs``.

Results and errors are the same as with CPython's codecs ``utf-16-le``,
``utf-16-be`` and ``utf-16``. An exception also names their encoding, so that
every handler treats these codecs like CPython's.
"""

import codecs
import sys
from typing import Any, Optional

from ._native import (
    utf_16_be_decode,
    utf_16_be_decode_all,
    utf_16_be_encode,
    utf_16_decode_all,
    utf_16_encode,
    utf_16_ex_decode,
    utf_16_le_decode,
    utf_16_le_decode_all,
    utf_16_le_encode,
)
from ._types import ReadableBuffer

_IS_LITTLE = sys.byteorder == "little"
# The number of the machine's byte order, and the functions of it and of the other one.
_NATIVE = -1 if _IS_LITTLE else 1
_NATIVE_DECODE = utf_16_le_decode if _IS_LITTLE else utf_16_be_decode
_OTHER_DECODE = utf_16_be_decode if _IS_LITTLE else utf_16_le_decode


def utf_16_decode(
    input: ReadableBuffer, errors: Optional[str] = None, final: bool = False
) -> tuple[str, int]:
    """Decode UTF-16 by its BOM, or in the machine's byte order if it has none.

    Return the text and how many bytes were read. Unless it is final, an
    incomplete character at the end is not read.
    """
    return utf_16_ex_decode(input, errors, 0, final)[:2]


# The codec of a byte order.


def _in_order(name: str, to_utf16: Any, from_part: Any, from_all: Any) -> codecs.CodecInfo:
    """Return the codec that these functions make: to UTF-16, from a part of it, from all of it."""

    class Encoder(codecs.IncrementalEncoder):
        """Encodes a text in parts."""

        def encode(self, input: str, final: bool = False) -> bytes:
            """Return the UTF-16 of the next part."""
            encoded: bytes = to_utf16(input, self.errors)[0]
            return encoded

    class Decoder(codecs.BufferedIncrementalDecoder):
        """Decodes UTF-16 in chunks, cut anywhere."""

        _buffer_decode = staticmethod(from_part)

    class Writer(codecs.StreamWriter):
        """Writes texts to a stream as UTF-16."""

        encode = staticmethod(to_utf16)

    class Reader(codecs.StreamReader):
        """Reads the text of a stream of UTF-16."""

        decode = staticmethod(from_part)

    return codecs.CodecInfo(
        name=name,
        encode=to_utf16,
        decode=from_all,
        incrementalencoder=Encoder,
        incrementaldecoder=Decoder,
        streamreader=Reader,
        streamwriter=Writer,
    )


# The codec that has a BOM.


def _encode_stream(input: str, errors: str, has_bom: bool) -> tuple[bytes, int]:
    """Encode a part of a text in the machine's byte order, with a BOM unless there is one."""
    return utf_16_encode(input, errors, _NATIVE if has_bom else 0)


class Utf16IncrementalEncoder(codecs.IncrementalEncoder):
    """Encodes a text in parts, in the machine's byte order, after one BOM."""

    def __init__(self, errors: str = "strict") -> None:
        super().__init__(errors)
        self._has_bom = False

    def encode(self, input: str, final: bool = False) -> bytes:
        """Return the UTF-16 of the next part, with the BOM before the first."""
        encoded = _encode_stream(input, self.errors, self._has_bom)[0]
        self._has_bom = True
        return encoded

    def reset(self) -> None:
        """Begin a new text."""
        self._has_bom = False

    def getstate(self) -> int:
        """Return 2 before the BOM, and 0 after it."""
        return 0 if self._has_bom else 2

    def setstate(self, state: Any) -> None:
        """Set what ``getstate`` returned."""
        self._has_bom = not state


class _BomDecoder:
    """Decodes parts of a stream in the byte order that its BOM has."""

    def __init__(self) -> None:
        self.function: Any = None

    def decode(self, data: bytes, errors: str, final: bool) -> tuple[str, int]:
        """Return the text and how many bytes were read; raise UnicodeDecodeError without a BOM."""
        if self.function is not None:
            text, read = self.function(data, errors, final)
            return text, read
        text, read, byteorder = utf_16_ex_decode(data, errors, 0, final)
        if byteorder:
            self.function = utf_16_le_decode if byteorder < 0 else utf_16_be_decode
        elif read >= 2:
            reason = "Stream does not start with BOM"
            raise UnicodeDecodeError("utf-16", data, 0, 2, reason)
        return text, read


class Utf16IncrementalDecoder(codecs.BufferedIncrementalDecoder):
    """Decodes UTF-16 in chunks, cut anywhere, in the byte order that its BOM has."""

    def __init__(self, errors: str = "strict") -> None:
        super().__init__(errors)
        self._decoder = _BomDecoder()

    def decode(self, input: Any, final: bool = False) -> str:
        """Return the text of the next chunk. After an exception nothing has changed."""
        function = self._decoder.function
        try:
            return super().decode(input, final)
        except BaseException:
            # There was memory for the text, but not for the bytes after it.
            self._decoder.function = function
            raise

    def _buffer_decode(self, input: Any, errors: str, final: bool) -> tuple[str, int]:
        return self._decoder.decode(input, errors, final)

    def reset(self) -> None:
        """Begin a new stream, which may have another byte order."""
        super().reset()
        self._decoder = _BomDecoder()

    def getstate(self) -> tuple[bytes, int]:
        """Return the pending bytes, and 0 for the machine's byte order, 1 for the other.

        Before the BOM was read, 2.
        """
        pending = super().getstate()[0]
        if self._decoder.function is None:
            return pending, 2
        return pending, int(self._decoder.function is _OTHER_DECODE)

    def setstate(self, state: tuple[bytes, int]) -> None:
        """Set what ``getstate`` returned."""
        super().setstate(state)
        self._decoder.function = {0: _NATIVE_DECODE, 1: _OTHER_DECODE}.get(state[1])


class Utf16StreamWriter(codecs.StreamWriter):
    """Writes texts to a stream, in the machine's byte order, after one BOM."""

    def __init__(self, stream: Any, errors: str = "strict") -> None:
        super().__init__(stream, errors)
        self._has_bom = False

    def encode(self, input: str, errors: str = "strict") -> tuple[bytes, int]:
        """Return the UTF-16 of a text, with the BOM before the first, and its length."""
        encoded = _encode_stream(input, errors, self._has_bom)
        self._has_bom = True
        return encoded

    def reset(self) -> None:
        """Begin a new stream, which gets a BOM."""
        super().reset()
        self._has_bom = False


class Utf16StreamReader(codecs.StreamReader):
    """Reads the text of a stream in the byte order that its BOM has."""

    def __init__(self, stream: Any, errors: str = "strict") -> None:
        super().__init__(stream, errors)
        self._decoder = _BomDecoder()

    def decode(self, input: bytes, errors: str = "strict") -> tuple[str, int]:
        """Return the text and how many bytes were read."""
        return self._decoder.decode(input, errors, False)

    def reset(self) -> None:
        """Begin a new stream, or the same again, with its BOM."""
        super().reset()
        self._decoder = _BomDecoder()


# The names.

_CODECS = {
    "dethrux_utf_16_le": _in_order(
        "dethrux-utf-16-le", utf_16_le_encode, utf_16_le_decode, utf_16_le_decode_all
    ),
    "dethrux_utf_16_be": _in_order(
        "dethrux-utf-16-be", utf_16_be_encode, utf_16_be_decode, utf_16_be_decode_all
    ),
    "dethrux_utf_16": codecs.CodecInfo(
        name="dethrux-utf-16",
        encode=utf_16_encode,
        decode=utf_16_decode_all,
        incrementalencoder=Utf16IncrementalEncoder,
        incrementaldecoder=Utf16IncrementalDecoder,
        streamreader=Utf16StreamReader,
        streamwriter=Utf16StreamWriter,
    ),
}


def search(name: str) -> Optional[codecs.CodecInfo]:
    """Return the codec of a name as ``codecs`` normalizes it, or None."""
    return _CODECS.get(name)
