"""Guesses the byte order of UTF-16 on standard input, and prints le, be or unknown."""

import sys

import dethrux


def spaces(utf16: bytes, order: str) -> int:
    """Return how many spaces and line feeds the text has; 0 if it is ill formed."""
    if dethrux.validate(utf16, order).status == dethrux.Status.ILL_FORMED:
        return 0
    text = dethrux.decode(utf16, order, "replace")
    return text.count(" ") + text.count("\n")


utf16 = sys.stdin.buffer.read(4096)
bom = dethrux.detect_bom(utf16, "little")
little, big = spaces(utf16, "little"), spaces(utf16, "big")
if bom.len:
    print("be" if bom.byteorder == "big" else "le")
else:
    print("le" if little > big else "be" if big > little else "unknown")
