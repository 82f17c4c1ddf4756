"""The ill-formed sequences of UTF-16."""

from collections.abc import Iterator

from ._native import next_error, order_number
from ._types import ByteOrder, IllFormed, ReadableBuffer, view_of


def iter_errors(utf16: ReadableBuffer, byteorder: ByteOrder) -> Iterator[IllFormed]:
    """Return an iterator over all ill-formed sequences, in the order of the bytes.

    Each becomes one U+FFFD in ``to_utf8_lossy``. The whole iteration takes linear
    time. You cannot resize the buffer until the iterator ends.
    """
    order_number(byteorder)
    view = view_of(utf16)
    return _each(view if view.c_contiguous else view.tobytes(), byteorder)


def _each(utf16: ReadableBuffer, byteorder: ByteOrder) -> Iterator[IllFormed]:
    """Return an iterator that holds a buffer in one piece."""
    found = next_error(utf16, byteorder, 0)
    while found:
        yield found
        found = next_error(utf16, byteorder, found.offset + found.len)
