"""UTF-16 in either byte order, to and from ``str`` and UTF-8, by the C library Dethrux.

Importing this package registers the codecs ``dethrux-utf-16-le``,
``dethrux-utf-16-be`` and ``dethrux-utf-16``, which return and raise what
CPython's ``utf-16-le``, ``utf-16-be`` and ``utf-16`` do.

Lengths, offsets and capacities count bytes.
"""

import typing as _typing
from codecs import register as _register

try:
    from . import _native
except ImportError as error:
    raise ImportError(
        f"the package has no extension for this Python ({error}): install it with pip, which "
        "needs a C compiler and Python.h",
        name="dethrux",
    ) from None
from ._codecs import search as _search
from ._errors import iter_errors as iter_errors
from ._native import *
from ._streams import Decoder as Decoder, Encoder as Encoder, StreamError as StreamError
from ._streams import StrictDecoder as StrictDecoder, StrictEncoder as StrictEncoder
from ._types import *
from ._version import __version__ as __version__
from ._wtf8 import decode_to_wtf8 as decode_to_wtf8, encode_from_wtf8 as encode_from_wtf8

# Type checkers take the names that are imported here without an underscore.
if not _typing.TYPE_CHECKING:
    __all__ = sorted(["__version__", *(it for it in vars() if not it.startswith("_"))])

_register(_search)
