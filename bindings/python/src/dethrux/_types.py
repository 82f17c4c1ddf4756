"""The types of the arguments and of the results."""

import enum
from typing import TYPE_CHECKING, Any, Literal, NamedTuple, Protocol, Union, cast

if TYPE_CHECKING:
    import _typeshed

# What the package has of this module.
__all__ = ["Bom", "BomStatus", "ByteOrder", "IllFormed", "Inspection", "Progress", "ProgressInto"]
__all__ += ["Repertoire", "Status", "Validity"]


class Array(Protocol):
    """An array of NumPy, or of a package that is like it."""

    @property
    def __array_interface__(self) -> dict[str, Any]: ...


ByteOrder = Literal["little", "big"]
ReadableBuffer = Union["_typeshed.ReadableBuffer", Array]
WritableBuffer = Union["_typeshed.WriteableBuffer", Array]


def view_of(buffer: ReadableBuffer) -> memoryview:
    """Return a view of a buffer."""
    return memoryview(cast(Any, buffer))


class Status(enum.IntEnum):
    """Why a call stopped."""

    DONE = 0
    ILL_FORMED = 1
    INCOMPLETE = 2
    NO_SPACE = 3
    NOT_LATIN1 = 4


class Repertoire(enum.IntEnum):
    """A set of characters. Each contains those before it."""

    ASCII = 0
    LATIN1 = 1
    BMP = 2
    UNICODE = 3


class BomStatus(enum.IntEnum):
    """Whether a stream begins with a byte order mark (BOM)."""

    ABSENT = 0
    PRESENT = 1
    UNDECIDED = 2


class Progress(NamedTuple):
    """What a conversion wrote, how many bytes it read, and why it stopped.

    ``error_len`` is the length of the ill-formed sequence after the bytes that
    were read if the status is ``Status.ILL_FORMED``, else 0.
    """

    output: bytes
    read: int
    status: Status
    error_len: int


class ProgressInto(NamedTuple):
    """How many bytes a conversion read and wrote to a buffer, and why it stopped.

    ``error_len`` is as in ``Progress``.
    """

    read: int
    written: int
    status: Status
    error_len: int


class IllFormed(NamedTuple):
    """The offset and the length of an ill-formed sequence, which one U+FFFD replaces.

    It is an unpaired surrogate, of two bytes, with ``Status.ILL_FORMED``. With
    ``Status.INCOMPLETE`` it is an incomplete character at the end, of one to
    three bytes.
    """

    offset: int
    len: int
    status: Status


class Inspection(NamedTuple):
    """The longest well-formed prefix, its characters, and what follows it.

    ``repertoire`` is the smallest one that has all the characters.
    """

    valid_up_to: int
    chars: int
    repertoire: Repertoire
    status: Status
    error_len: int


class Validity(NamedTuple):
    """The length of the longest well-formed prefix, and what follows it."""

    valid_up_to: int
    status: Status
    error_len: int


class Bom(NamedTuple):
    """The byte order of a stream, the length of its BOM, and whether it has one."""

    byteorder: ByteOrder
    len: int
    status: BomStatus
