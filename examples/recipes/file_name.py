"""Writes the file names of NTFS on standard input, each after a byte with its number of code units,
in WTF-8, each with a NUL after it. No two names become the same, and each can be read back.
"""

import io
import sys

import dethrux

names = io.BytesIO(sys.stdin.buffer.read())
while units := names.read(1):
    name = names.read(2 * units[0])
    if len(name) != 2 * units[0]:
        sys.exit("the input ends inside a name")
    wtf8 = dethrux.decode_to_wtf8(name, "little")
    assert dethrux.encode_from_wtf8(wtf8, "little") == name
    sys.stdout.buffer.write(wtf8 + b"\0")
