"""Prints where UTF-16LE on standard input is ill formed, and the text around it."""

import sys

import dethrux

utf16 = sys.stdin.buffer.read()
at = 0
for error in dethrux.iter_errors(utf16, "little"):
    print(f'text "{dethrux.decode(utf16[at : error.offset], "little")}"')
    if error.status == dethrux.Status.INCOMPLETE:
        print("incomplete at byte", error.offset)
        break
    print(f"ill formed at byte {error.offset}, {error.len} bytes")
    at = error.offset + error.len
else:
    print(f'text "{dethrux.decode(utf16[at:], "little")}"')
    print("end at byte", len(utf16))
