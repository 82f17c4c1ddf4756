#!/usr/bin/env python3
# Writes a library for macOS as assembly for Linux, as the loader leaves it in memory, so that its
# code can run here: .ci/macos.py LIBRARY FILE. For these calls the conventions are the same.
import struct
import sys

# Commands of the file, and the kinds of sections with pointers to functions of other libraries.
SEGMENT, SYMBOLS, DYNAMIC = 0x19, 0x2, 0xB
POINTERS = (6, 7)
# The type of a symbol that others see.
EXPORTED = 0xF


def commands(image):
    """Yields the kind and the place of each command."""
    at = 32
    for _ in range(struct.unpack_from("<I", image, 16)[0]):
        kind, size = struct.unpack_from("<2I", image, at)
        yield kind, at
        at += size


def symbols(image):
    """Returns the names of C, the types and the addresses of the symbols."""
    at = dict(commands(image))[SYMBOLS]
    table, count, names, _ = struct.unpack_from("<4I", image, at + 8)
    found = [struct.unpack_from("<I2BHQ", image, table + 16 * it) for it in range(count)]
    name_at = lambda it: image[names + it : image.index(b"\0", names + it)].decode()
    return [(name_at(it[0]).removeprefix("_"), it[1], it[4]) for it in found]


def words(image):
    """Returns the words of eight bytes in memory: a number, or the name of a function."""
    named, memory, filled = symbols(image), bytearray(), {}
    indirect = struct.unpack_from("<I", image, dict(commands(image))[DYNAMIC] + 56)[0]
    for at in (at for kind, at in commands(image) if kind == SEGMENT):
        start, size, offset, length, _, _, count = struct.unpack_from("<4Q3I", image, at + 24)
        memory[start:] = image[offset : offset + length].ljust(size, b"\0")
        for section in range(at + 72, at + 72 + 80 * count, 80):
            start, size, *_, flags, first = struct.unpack_from("<2Q6I", image, section + 32)
            if flags & 0xFF in POINTERS:
                for it in range(size // 8):
                    number = struct.unpack_from("<I", image, indirect + 4 * (first + it))[0]
                    filled[start // 8 + it] = named[number][0]
    return [filled.get(at, it) for at, (it,) in enumerate(struct.iter_unpack("<Q", memory))]


def main(library, file):
    with open(library, "rb") as it:
        image = it.read()
    # Only the loader of macOS calls dyld_stub_binder.
    lines = ['.section .macos, "awx"', ".balign 16384", ".weak dyld_stub_binder", "macos:"]
    lines += [f".quad {it}" for it in words(image)]
    for name, kind, value in symbols(image):
        if kind == EXPORTED:
            lines.append(f".globl {name}\n{name} = macos + {value}")
    lines.append('.section .note.GNU-stack, ""\n')
    with open(file, "w", encoding="utf-8") as it:
        it.write("\n".join(lines))


main(*sys.argv[1:])
