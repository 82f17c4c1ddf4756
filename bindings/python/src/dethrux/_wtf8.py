"""WTF-8: any code units of UTF-16, without loss."""

from ._native import from_wtf8, to_wtf8
from ._types import ByteOrder, ReadableBuffer, Status, view_of


def decode_to_wtf8(utf16: ReadableBuffer, byteorder: ByteOrder) -> bytes:
    """Return all code units of UTF-16 in WTF-8.

    It is ``str(utf16, codec, "surrogatepass").encode("utf-8", "surrogatepass")``
    for the codec of the byte order. Raise ``UnicodeDecodeError`` for an odd
    byte at the end.
    """
    found = to_wtf8(utf16, byteorder)
    if found.status == Status.DONE:
        return found.output
    codec = "utf-16-be" if byteorder == "big" else "utf-16-le"
    raw = view_of(utf16).tobytes()
    raise UnicodeDecodeError(codec, raw, found.read, len(raw), "truncated data")


def encode_from_wtf8(wtf8: ReadableBuffer, byteorder: ByteOrder) -> bytes:
    """Return the UTF-16 of WTF-8, with each surrogate as one code unit.

    Raise ``UnicodeDecodeError`` if the bytes are not WTF-8.
    """
    found = from_wtf8(wtf8, byteorder)
    if found.status == Status.DONE:
        return found.output
    raw = view_of(wtf8).tobytes()
    if found.status == Status.INCOMPLETE:
        raise UnicodeDecodeError("wtf-8", raw, found.read, len(raw), "unexpected end of data")
    end = found.read + found.error_len
    raise UnicodeDecodeError("wtf-8", raw, found.read, end, "invalid sequence")
