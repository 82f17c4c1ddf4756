"""What mypy accepts and refuses: ``test.sh`` checks this file, and nothing runs it."""

import array
import mmap
from typing import Any

import dethrux


class Array:
    """What the stubs of NumPy say of an array."""

    @property
    def __array_interface__(self) -> dict[str, Any]:
        return {}


def read(data: bytes, mapping: mmap.mmap, numbers: "array.array[int]", of_numpy: Array) -> None:
    """Pass each kind of buffer that a call reads."""
    dethrux.validate(data, "little")
    dethrux.validate(bytearray(data), "little")
    dethrux.validate(memoryview(data), "little")
    dethrux.validate(mapping, "little")
    dethrux.validate(numbers, "little")
    dethrux.validate(of_numpy, "little")
    dethrux.find(of_numpy, numbers, "big", 1, None)
    dethrux.Decoder("big").feed(of_numpy)
    dethrux.StrictEncoder("big").feed(numbers)
    dethrux.decode_to_wtf8(of_numpy, "big")
    for error in dethrux.iter_errors(numbers, "big"):
        error.offset + error.len
    bom: dethrux.Bom = dethrux.detect_bom(data, "little")
    dethrux.validate(data, bom.byteorder)
    dethrux.next_error(data, "little", 0)  # type: ignore[attr-defined]
    dethrux.validate("a", "little")  # type: ignore[arg-type]
    dethrux.validate(5, "little")  # type: ignore[arg-type]
    dethrux.validate(data, "middle")  # type: ignore[arg-type]


def write(data: bytearray, numbers: "array.array[int]", of_numpy: Array) -> int:
    """Pass each kind of buffer that a call writes to."""
    dethrux.swap_byte_order(numbers)
    dethrux.make_well_formed(of_numpy, "little")
    dethrux.to_utf8_into(b"", "little", memoryview(data))
    dethrux.to_utf32_into(of_numpy, "little", numbers)
    dethrux.make_well_formed(b"", "little")  # type: ignore[arg-type]
    dethrux.to_utf8_into(b"", "little", b"")  # type: ignore[arg-type]
    return dethrux.to_latin1_into(numbers, "little", of_numpy).written
