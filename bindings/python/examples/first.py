"""Reads a file of UTF-16 that Windows wrote, repairs it, and writes UTF-8."""

import sys
from pathlib import Path

import dethrux

path = Path(sys.argv[1])
raw = path.read_bytes()

# The BOM gives the byte order. Without one, Windows means little endian.
bom = dethrux.detect_bom(raw, "little")
order, codec = bom.byteorder, "dethrux-utf-16" if bom.len else "dethrux-utf-16-le"

# A codec takes Python's error handlers.
try:
    text = path.read_text(encoding=codec)
except UnicodeDecodeError as error:
    print(f"byte {error.start}: {error.reason}")
    text = path.read_text(encoding=codec, errors="replace")
print(text, end="")

# The functions work on bytes, without a str between.
utf16 = raw[bom.len :]
print(order, dethrux.validate(utf16, order))
path.with_suffix(".utf8").write_bytes(dethrux.decode_to_utf8(utf16, order, "replace"))

# A decoder takes a stream in chunks, cut anywhere.
decoder = dethrux.Decoder(order)
parts = [decoder.feed(utf16[at : at + 7]) for at in range(0, len(utf16), 7)]
assert b"".join(parts) + decoder.finish() == path.with_suffix(".utf8").read_bytes()
