"""The decoder and the encoder of a stream."""

from typing import Optional

from . import _native
from ._types import ByteOrder, Progress, ReadableBuffer, Status, view_of


class Decoder:
    """Decodes a stream of UTF-16, cut anywhere, to UTF-8 with U+FFFD for ill-formed sequences.

    One thread at a time may use it.
    """

    def __init__(self, byteorder: ByteOrder) -> None:
        self._order = _native.order_number(byteorder)
        self.reset()

    def reset(self) -> None:
        """Begin a new stream."""
        # ``dethrux_decoder`` or ``dethrux_encoder``: the pending bytes, and how many they are.
        self._state = bytearray(4)
        self._finished = False

    @property
    def pending(self) -> bytes:
        """The bytes that are not decoded yet, at most three."""
        return bytes(self._state[: self._state[3]])

    def feed(self, chunk: ReadableBuffer) -> bytes:
        """Return the text of the next chunk."""
        return self.feed_partial(chunk).output

    def feed_partial(self, chunk: ReadableBuffer, capacity: Optional[int] = None) -> Progress:
        """Decode the next chunk, and write at most ``capacity`` bytes.

        If the next character does not fit, the status is
        ``Status.NO_SPACE``: call again with the bytes after those that were
        read. With a capacity of four or more, something was written.
        """
        self._check_open()
        return self._feed(self._state, self._order, chunk, capacity)

    def finish(self) -> bytes:
        """End the stream, and return U+FFFD if bytes are pending, else nothing."""
        self._check_open()
        output = self._finish(self._state, self._order)
        self._finished = True
        return output

    def _check_open(self) -> None:
        if self._finished:
            raise ValueError("the decoder is finished: reset() begins a new stream")

    _feed = staticmethod(_native.feed_decoder)
    _finish = staticmethod(_native.finish_decoder)


class Encoder(Decoder):
    """Encodes a stream of UTF-8, cut anywhere, in UTF-16 in this byte order.

    Each ill-formed sequence becomes U+FFFD. One thread at a time may use it.
    """

    _feed = staticmethod(_native.feed_encoder)
    _finish = staticmethod(_native.finish_encoder)


class StreamError(UnicodeDecodeError):
    """The first ill-formed sequence of a stream, and its offset from the stream's beginning.

    ``object`` has the pending bytes and the chunk, ``start`` and ``end`` are
    offsets in it, and the bytes before ``start`` are well formed.
    """

    offset: int


class StrictDecoder:
    """Decodes a stream of UTF-16, cut anywhere, to UTF-8.

    Raise ``StreamError`` at the first ill-formed sequence. In that case the
    decoder is as before the call. One thread at a time may use it.
    """

    def __init__(self, byteorder: ByteOrder) -> None:
        _native.order_number(byteorder)
        self._byteorder: ByteOrder = byteorder
        self.reset()

    def reset(self) -> None:
        """Begin a new stream."""
        self._pending = b""
        self._offset = 0
        self._finished = False

    @property
    def pending(self) -> bytes:
        """The bytes that are not decoded yet, at most three."""
        return self._pending

    @property
    def offset(self) -> int:
        """How many bytes of the stream are decoded, without the pending ones."""
        return self._offset

    def feed(self, chunk: ReadableBuffer) -> bytes:
        """Return the text of the next chunk."""
        self._check_open()
        data = self._pending + view_of(chunk).tobytes()
        found = self._partial(data, self._byteorder)
        if found.status == Status.ILL_FORMED:
            self._refuse(data)
        # Nothing changes if there is no memory for the bytes that are left.
        pending, offset = data[found.read :], self._offset + found.read
        self._pending, self._offset = pending, offset
        return found.output

    def finish(self) -> bytes:
        """End the stream, and return no bytes. Raise ``StreamError`` if bytes are pending."""
        self._check_open()
        self._refuse(self._pending)
        self._finished = True
        return b""

    def _check_open(self) -> None:
        if self._finished:
            raise ValueError("the decoder is finished: reset() begins a new stream")

    def _refuse(self, data: bytes) -> None:
        """Raise what the whole conversion raises for the bytes, if they are ill formed."""
        try:
            self._whole(data, self._byteorder)
        except UnicodeDecodeError as error:
            raise self._error(error) from None

    def _error(self, error: UnicodeDecodeError) -> StreamError:
        """Return the exception for an error of the pending bytes and a chunk."""
        offset = self._offset + error.start
        reason = f"{error.reason}, at byte {offset} of the stream"
        found = StreamError(error.encoding, error.object, error.start, error.end, reason)
        found.offset = offset
        return found

    _partial = staticmethod(_native.to_utf8)
    _whole = staticmethod(_native.decode_to_utf8)


class StrictEncoder(StrictDecoder):
    """Encodes a stream of UTF-8, cut anywhere, in UTF-16 in this byte order.

    Raise ``StreamError`` at the first ill-formed sequence, like ``StrictDecoder``.
    """

    _partial = staticmethod(_native.from_utf8)
    _whole = staticmethod(_native.encode_from_utf8)
