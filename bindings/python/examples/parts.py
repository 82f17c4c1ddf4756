"""Inspects a text, searches a part of it, fills an array, and decodes a stream strictly."""

import array

import dethrux

utf16 = "Grüße 😀, Grüße".encode("utf-16-le")
print(dethrux.inspect(utf16, "little"))
print(dethrux.find(utf16, "G".encode("utf-16-le"), "little", 2))

units = array.array("I", bytes(4 * len(utf16)))
found = dethrux.to_utf32_into(utf16, "little", units)
print(found, "".join(map(chr, units[: found.written // 4])))

damaged = utf16[:12] + utf16[14:]
print(*dethrux.iter_errors(damaged, "little"))
decoder = dethrux.StrictDecoder("little")
try:
    for at in range(0, len(damaged), 5):
        decoder.feed(damaged[at : at + 5])
except dethrux.StreamError as error:
    print(error.offset, error.reason)
