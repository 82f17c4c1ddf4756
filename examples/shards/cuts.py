#!/usr/bin/env python3
"""Prints where to cut a file of UTF-16: a line 'NAME OFFSET LENGTH' for each part, in bytes.

    cuts.py INPUT utf-16-le|utf-16-be PARTS

It reads four bytes for each cut.
"""

import sys
from typing import BinaryIO, Iterator

import dethrux


def cuts(file: BinaryIO, byteorder: dethrux.ByteOrder, parts: int) -> Iterator[int]:
    """Yield the offsets between the parts, from 0 to the length of the file."""
    length = file.seek(0, 2)
    for index in range(parts + 1):
        at = dethrux.shard_offset(length, parts, index)
        file.seek(max(at // 2 * 2 - 2, 0))
        yield dethrux.floor_char_boundary_around(file.read(4), byteorder, at)


if __name__ == "__main__":
    name, encoding, parts = sys.argv[1:]
    with open(name, "rb") as file:
        found = list(cuts(file, "big" if encoding == "utf-16-be" else "little", int(parts)))
    for index, (start, end) in enumerate(zip(found, found[1:])):
        print(f"part-{index:05d} {start} {end - start}")
