#!/usr/bin/env python3
"""Writes the cases of the tables as data, for tests in other languages.

    cases/to_json.py [--tabs] [TABLE..]    (without tables: all of this folder)

Each case becomes one line for each of its byte orders: an object of JSON with the fields below, or
with --tabs the same fields separated by tabs, with lists separated by spaces.

    place       the file and the line, `views.txt:12`
    call        its name
    order       `le` or `be`
    conditions  a list, such as `refuse=2`
    values      a list of words
    result      a list of words

A word has one spelling: bytes are upper-case hex, and `-` for none; chunks are bytes separated by
commas; in a result a text is its UTF-8 in hex after `utf8:`, so that it differs from bytes; a
character is `U+0041`; a number is decimal. Other words are as in the table. No word has a space, a
quote or a backslash.

If a line cannot be read, nothing is written: the script names each such line, and fails.
"""

import json
import pathlib
import re
import sys

TEXT = r'"(?:[!#-&(-\[\]-~]|\\u\{[0-9A-F]+\})*"'
BYTES = rf"(?:-|\^?(?:[0-9A-F]{{2}})+|~?{TEXT})"
SPELLED = rf"(?:\d+\*{BYTES}(?:\+\d+\*{BYTES})*|{BYTES})"
CHUNKS = re.compile(rf"{SPELLED}(?:,{SPELLED})*")
NUMBER = re.compile(r"\d+|0x[0-9A-F]+")
CHARACTER = re.compile(r"'([!#-&(-\[\]-~]|\\u\{[0-9A-F]+\})'")
# Names and other words, a range, a format, and what separates edits.
WORD = re.compile(r"[A-Za-z_][\w:]*|(?:\d+|max)?\.\.=?(?:\d+|max)?|\{[:*^<>.?\d]*\}|/", re.ASCII)
CONDITION = re.compile(
    r"refuse=\d+(\.\.)?|with_capacity=\d+|capacity|counted|(reads|writes)=\d+(,\d+)*"
    r"|(read|write)=(fails|interrupted|nothing)@\d+"
)
ORDERS = {"le": ["le"], "be": ["be"], "both": ["le", "be"]}
CODECS = {"le": "utf-16-le", "be": "utf-16-be"}


def unescaped(text):
    """Return a text without its quotes, with the characters that are spelled by their number."""
    return re.sub(r"\\u\{(\w+)\}", lambda it: chr(int(it[1], 16)), text.strip("\"'"))


def part(word, order):
    """Return the bytes that a word without repetitions spells."""
    if word.startswith("~"):
        return unescaped(word[1:]).encode(CODECS[order])
    if word.startswith('"'):
        return unescaped(word).encode()
    units = bytes.fromhex(word.lstrip("^").strip("-"))
    if not word.startswith("^") or order == "be":
        return units
    return b"".join(units[at : at + 2][::-1] for at in range(0, len(units), 2))


def in_hex(spelled, order):
    """Return in hex the bytes that a word without commas spells."""
    parts = re.findall(rf"(?:(\d+)\*)?({BYTES})", spelled)
    return b"".join(int(count or 1) * part(one, order) for count, one in parts).hex().upper() or "-"


def decoded(word, order, is_result):
    """Return a word in its one spelling, or fail."""
    if NUMBER.fullmatch(word) and not re.fullmatch("0[0-9]+", word):
        return str(int(word, 0))
    if CHUNKS.fullmatch(word):
        is_text = is_result and '"' in word and "~" not in word
        chunks = [in_hex(it, order) for it in re.findall(SPELLED, word)]
        return is_text * "utf8:" + ",".join(chunks)
    if CHARACTER.fullmatch(word):
        return f"U+{ord(unescaped(word)):04X}"
    if WORD.fullmatch(word):
        return word
    raise ValueError(f"`{word}` is not a word of a case")


def cases(place, line):
    """Yield the cases of a line, one for each of its byte orders, or fail."""
    _name, how, call, *words = line.split()
    order, *conditions = how.split(";")
    wrong = [it for it in conditions if not CONDITION.fullmatch(it)]
    if wrong or not re.fullmatch(r"\w+(::\w+)*", call):
        raise ValueError(f"`{[*wrong, call][0]}` is not a condition or a call")
    equals = words.index("=")
    for one in ORDERS[order]:
        values = [decoded(it, one, False) for it in words[:equals]]
        result = [decoded(it, one, True) for it in words[equals + 1 :]]
        yield {"place": place, "call": call, "order": one, "conditions": conditions,
               "values": values, "result": result}


def flat(case):
    """Return a case with its fields separated by tabs."""
    return "\t".join(it if isinstance(it, str) else " ".join(it) for it in case.values())


def main(words):
    """Write the cases of the tables."""
    write = flat if "--tabs" in words else json.dumps
    tables = [pathlib.Path(it) for it in words if it != "--tabs"]
    written, unread = [], 0
    for table in tables or sorted(pathlib.Path(__file__).parent.glob("*.txt")):
        for number, line in enumerate(table.read_text("ascii").splitlines(), 1):
            if line.strip() and not line.startswith("#"):
                place = f"{table.name}:{number}"
                try:
                    written += [write(it) for it in cases(place, line)]
                except (KeyError, ValueError) as error:
                    unread += 1
                    print(f"{place}: {error}: {line}", file=sys.stderr)
    if unread:
        sys.exit(f"{unread} lines cannot be read")
    print("\n".join(written))


if __name__ == "__main__":
    main(sys.argv[1:])
