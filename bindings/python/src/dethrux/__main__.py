"""The programs utf16_cat, utf16_enc and utf16_check, as ``python -m dethrux cat|enc|check``."""

import os
import signal
import sys
from collections.abc import Iterator
from typing import Callable, NamedTuple, Optional

from . import Decoder, Encoder, Status, count_chars, detect_bom, encode, iter_errors
from ._types import ByteOrder

HELP = """\
usage: python -m dethrux cat [le|be|auto] [FILE]
       python -m dethrux enc [le|be|le-bom|be-bom] [FILE]
       python -m dethrux check [le|be|auto] [FILE]

cat writes UTF-16 as UTF-8, and enc UTF-8 as UTF-16, with U+FFFD for each
ill-formed sequence; check reports those of UTF-16, and counts. Without FILE the
input is standard input. auto takes the byte order of the byte order mark (BOM),
or big endian without one, and is the default of cat and check. le-bom and be-bom
write a BOM first; le-bom is the default of enc.

The exit status is 0. It is 1 if check finds an ill-formed sequence, and if
reading, writing or an allocation fails. It is 2 for other arguments.
"""
# How many bytes are read at a time.
CHUNK = 1 << 16
ORDERS: dict[str, ByteOrder] = {"le": "little", "be": "big", "le-bom": "little", "be-bom": "big"}

Chunks = Iterator[bytes]
Write = Callable[[bytes], None]


class Failure(Exception):
    """A failure, with what the line on standard error says."""


def decode_stream(word: str, chunks: Chunks, write: Write) -> int:
    """Write UTF-16 as UTF-8. Return the status."""
    order, bom, chunks = begun(word, chunks)
    decoder = Decoder(order)
    for chunk in chunks:
        write(decoder.feed(chunk[bom:]))
        bom = 0
    write(decoder.finish())
    return 0


def encode_stream(word: str, chunks: Chunks, write: Write) -> int:
    """Write UTF-8 as UTF-16. Return the status."""
    encoder = Encoder(ORDERS[word])
    bom = encode("\ufeff", ORDERS[word]) if word.endswith("-bom") else b""
    for chunk in chunks:
        bom = write_after(bom, encoder.feed(chunk), write)
    write(write_after(bom, encoder.finish(), write))
    return 0


def write_after(bom: bytes, output: bytes, write: Write) -> bytes:
    """Write output after a BOM that it does not begin with. Return the BOM if there is no output."""
    if not output:
        return bom
    write(output if output.startswith(bom) else bom + output)
    return b""


def check_stream(word: str, chunks: Chunks, write: Write) -> int:
    """Write a line for each ill-formed sequence, and one that counts. Return the status."""
    order, offset, chunks = begun(word, chunks)
    bom, pending, chars, count = offset, b"", 0, 0
    for chunk in chunks:
        data = pending + chunk[bom:]
        bom = 0
        lines, leading, end = checked(data, order, offset)
        write("".join(lines).encode())
        chars += count_chars(memoryview(data)[:end], order) - leading
        count += len(lines)
        pending, offset = data[end:], offset + end
    last = f"{place(offset)} incomplete character\n" if pending else ""
    count += len(pending) > 0
    bytes_read = offset + len(pending)
    last += f"bytes: {bytes_read}, characters: {chars}, ill-formed: {count}\n"
    write(last.encode())
    return int(count > 0)


def checked(data: bytes, order: ByteOrder, offset: int) -> tuple[list[str], int, int]:
    """Return a line for each unpaired surrogate of bytes at an offset of the input.

    Also return how many of them are leading ones, and where an incomplete
    character at the end begins.
    """
    lines: list[str] = []
    leading = 0
    for error in iter_errors(data, order):
        if error.status == Status.INCOMPLETE:
            return lines, leading, error.offset
        unit = int.from_bytes(data[error.offset : error.offset + 2], order)
        leading += unit < 0xDC00
        kind = "leading" if unit < 0xDC00 else "trailing"
        lines.append(f"{place(offset + error.offset)} unpaired {kind} surrogate {unit:X}\n")
    return lines, leading, len(data)


def place(offset: int) -> str:
    """Return how a line of a report begins."""
    return f"0x{offset:X} ({offset}):"


def begun(word: str, chunks: Chunks) -> tuple[ByteOrder, int, Chunks]:
    """Return the byte order of an input, the length of its BOM, and its chunks."""
    if word != "auto":
        return ORDERS[word], 0, chunks
    head = b""
    for chunk in chunks:
        head += chunk
        if len(head) >= 2:
            break
    bom = detect_bom(head)
    return bom.byteorder, bom.len, after(head, chunks)


def after(head: bytes, chunks: Chunks) -> Chunks:
    """Return the chunks of an input whose head was read."""
    yield head
    yield from chunks


class Program(NamedTuple):
    """What a program does, and the words for its byte orders."""

    run: Callable[[str, Chunks, Write], int]
    words: tuple[str, ...]
    default: str


PROGRAMS = {
    "cat": Program(decode_stream, ("le", "be", "auto"), "auto"),
    "enc": Program(encode_stream, ("le", "be", "le-bom", "be-bom"), "le-bom"),
    "check": Program(check_stream, ("le", "be", "auto"), "auto"),
}


def read_chunks(file: int) -> Chunks:
    """Return the chunks of a file."""
    try:
        while chunk := os.read(file, CHUNK):
            yield chunk
    except OSError:
        raise Failure("read failed") from None


def write_all(file: int, is_open: bool, data: bytes) -> None:
    """Write bytes to a file. Raise ``OSError`` if it is not open or takes none."""
    view = memoryview(data)
    while view:
        written = os.write(file, view) if is_open else 0
        if written == 0:
            raise OSError
        view = view[written:]


def write_output(data: bytes) -> None:
    """Write bytes to standard output."""
    try:
        write_all(1, sys.stdout is not None, data)
    except OSError:
        raise Failure("write failed") from None


def opened(path: Optional[str]) -> int:
    """Return the descriptor of a file, or of standard input without one."""
    if path is None:
        # Another file may have the number of a standard input that is closed.
        return -1 if sys.stdin is None else 0
    try:
        return os.open(path, os.O_RDONLY)
    except (OSError, ValueError) as error:
        raise Failure(f"{path}: {getattr(error, 'strerror', error)}") from None


def say(line: str) -> None:
    """Write a line to standard error, if it takes one. A path has the bytes that it was given as."""
    try:
        write_all(2, sys.stderr is not None, os.fsencode(line))
    except OSError:
        pass


def guarded(name: str, call: Callable[[], int]) -> int:
    """Return the status of a call, or 1 after a line that says why it failed."""
    try:
        return call()
    except MemoryError:
        say(f"{name}: out of memory\n")
    except Failure as failure:
        say(f"{name}: {failure}\n")
    return 1


def help_of_all() -> int:
    """Write what the programs do."""
    write_output(HELP.encode())
    return 0


def refused(line: str) -> int:
    """Say what the arguments are, and return the status for other ones."""
    say(f"usage: python -m dethrux {line} [FILE]\n")
    return 2


def main(arguments: list[str]) -> int:
    """Run the program that the arguments name. Return the status."""
    # An interrupt ends the program, unless whoever started it ignores interrupts.
    if signal.getsignal(signal.SIGINT) is signal.default_int_handler:
        signal.signal(signal.SIGINT, signal.SIG_DFL)
    if "--help" in arguments[:2]:
        return guarded("dethrux", help_of_all)
    name, *rest = arguments or [""]
    if name not in PROGRAMS:
        return refused("|".join(PROGRAMS) + " [ORDER]")
    run, words, word = PROGRAMS[name]
    if rest and rest[0] in words:
        word = rest.pop(0)
    if len(rest) > 1 or (rest and rest[0].startswith("-")):
        return refused(f"{name} [{'|'.join(words)}]")
    path = rest[0] if rest else None
    return guarded(
        f"dethrux {name}", lambda: run(word, read_chunks(opened(path)), write_output)
    )


if __name__ == "__main__":
    sys.exit(main(sys.argv[1:]))
