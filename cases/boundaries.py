"""Writes cases/boundaries.txt, by Python's codecs: characters and ill-formed sequences at each offset
of a block, and texts of each length."""

import codecs
import sys

# The first and the last characters of each length in UTF-8.
CHARACTERS = [0x7F, 0x80, 0x7FF, 0x800, 0xE000, 0xFFFF, 0x10000, 0x10FFFF]
# How much comes before: each offset of the shorter blocks, and the boundaries of the longer ones.
PLACES = [*range(18), *range(30, 35), *range(62, 67)]
# A character of each length in UTF-8, and the first or last ones of each.
MIXED = "a\xe9\u4e00\u4e00\x7f\U0001f600\U0010ffff\uffff\u07ff\ud7ff\ue000"
# Ill-formed sequences of UTF-8, some with a character after them, for runs of characters of two bytes
# and of three; and how many come before: by which byte of a block of 64, and of 48, they begin.
ILL_FORMED_UTF8 = ["80", "C0AF", "C1BF", "C341", "E09FBF", "E282C3A9", "EDA080", "EDBFBF", "E4B841", "F08FBFBF", "F5808080"]
RUNS = {"\xe9": [0, 1, 7, 8, 15, 16, 30, 31, 32, 33, 64], "\u4e00": [0, 1, 5, 15, 16, 17, 20, 21, 31, 32, 48]}
# Two units among letters, and what is written for them where they are made well formed.
WELL_FORMED = {
    "D83DDE00": "D83DDE00",
    "D8000061": "FFFD0061",
    "DBFFD800": "FFFDFFFD",
    "0061DC00": "0061FFFD",
    "DFFFDC00": "FFFDFFFD",
    "DC00D800": "FFFDFFFD",
    "D7FFE000": "D7FFE000",
}


def spelled(text):
    """A text in double quotes."""
    plain = lambda c: "!" <= c <= "~" and c not in "\"'\\+"
    return '"' + "".join(c if plain(c) else f"\\u{{{ord(c):X}}}" for c in text) + '"'


def line(name, call, values, *answer, how="both"):
    print(name, how, call, *values, "=", *answer)


def parts(*texts, mark=""):
    """Texts one after another, each this many times. Neighbours that stand once are one text."""
    found = []
    for count, text in texts:
        if count == 1 and text and found and found[-1][0] == 1:
            found[-1] = (1, found[-1][1] + text)
        elif count and text:
            found.append((count, text))
    if len(found) == 1 and found[0][0] == 1:
        return mark + spelled(found[0][1])
    return "+".join(f"{count}*{mark}{spelled(text)}" for count, text in found) or ("-" if mark else '""')


def utf16(*texts):
    return parts(*texts, mark="~")


def whole(texts):
    return "".join(text * count for count, text in texts)


def to_utf8(name, *texts):
    line(name, "WStr::to_utf8", [utf16(*texts)], parts(*texts))


def into_buffer(name, *texts):
    text = whole(texts)
    raw, utf8 = text.encode("utf-16-le"), text.encode()
    line(name, "to_utf8", [utf16(*texts), len(utf8)], len(raw), len(utf8), "end", parts(*texts))
    line(name, "from_utf8", [parts(*texts), len(raw)], len(utf8), len(raw), "end", utf16(*texts))


def from_utf8(name, *texts):
    line(name, "WString::from_str", [spelled(whole(texts))], utf16(*texts))
    line(name, "WString::push_str", ['~"x"', spelled(whole(texts))], "done", utf16((1, "x"), *texts))


def asked(name, *texts):
    text = whole(texts)
    line(name, "count_chars", [utf16(*texts)], len(text))
    line(name, "is_ascii", [utf16(*texts)], str(text.isascii()).lower())
    line(name, "WStrChars::count", [utf16(*texts)], len(text))
    line(name, "WStr::is_ascii", [utf16(*texts)], str(text.isascii()).lower())


def taken(name, units, before, after, odd):
    """By the codec's error: what comes before it, and its length where more bytes change nothing."""
    raw = b"\0a" * before + bytes.fromhex(units) + b"\0a" * after + b"\0" * odd
    ones = [f"{before}*^0061"] * (before > 0) + [f"1*^{units}"] + [f"{after}*^0061"] * (after > 0) + ["1*^00"] * odd
    try:
        codecs.utf_16_be_decode(raw, "strict", True)
        answer = ["+".join(ones)]
    except UnicodeDecodeError as error:
        is_cut = "truncated" in error.reason or "unexpected end" in error.reason
        answer = ["error", error.start, "none" if is_cut else 2]
    line(name, "WStr::from_utf16", ["+".join(ones)], *answer)


def ill_formed_utf8(name, run, before, ill, after):
    """By the codec's error, and its replacement of what is ill formed."""
    raw = run.encode() * before + bytes.fromhex(ill) + run.encode() * after
    front = [f"{before}*{run.encode().hex().upper()}"] * (before > 0)
    back = [f"{after}*{run.encode().hex().upper()}"] * (after > 0)
    given = "+".join([*front, f"1*{ill}", *back])
    try:
        codecs.utf_8_decode(raw, "strict", True)
        sys.exit(f"{given} is well formed")
    except UnicodeDecodeError as error:
        is_cut = error.reason == "unexpected end of data"
        why = ["incomplete"] if is_cut else ["ill_formed", error.end - error.start]
        text = raw[: error.start].decode()
        line(name, "from_utf8", [given, "size"], error.start, 2 * len(text), *why, utf16((before, run), (1, text[before:])))
    shown = raw.decode("utf-8", "replace")
    line(name, "from_utf8_lossy", [given, "size"], len(raw), 2 * len(shown), "end", utf16((before, run), (1, shown[before : len(shown) - after]), (after, run)))


def well_formed(name, units, before, after):
    front, back = f"{before}*^0061+" if before else "", f"+{after}*^0061" if after else ""
    size = 2 * before + 4 + 2 * after
    line(name, "write_well_formed", [f"{front}1*^{units}{back}", 256], size, f"{front}1*^{WELL_FORMED[units]}{back}")


def main():
    print("# Written by cases/boundaries.py, by Python's codecs: characters and ill-formed sequences at each offset")
    print("# of a block, and texts of each length, so that each SIMD lane of each conversion is used once.")
    for c in map(chr, CHARACTERS):
        name = f"place.U+{ord(c):04X}"
        for before in PLACES:
            to_utf8(name, (before, "a"), (1, c), (35, "a"))
            from_utf8(name, (before, "x"), (1, c), (20, "x"))
        for before in range(18):
            to_utf8(name, (before, "\u4e00"), (1, c), (35, "\u4e00"))
            into_buffer(name, (before, "\U0001f600"), (1, c), (20, "\U0001f600"))
        for before in (*range(507, 514), *range(1020, 1026)):
            to_utf8(name, (before, "a"), (1, c), (520, "a"))
            to_utf8(name, (before // 2, "\U0001f600"), (1, c), (600, "\U0001f600"))
        for before in range(2040, 2050):
            into_buffer(name, (before, "x"), (1, c), (20, "x"))
        for before in (*PLACES[18:], *range(126, 131)):
            asked(name, (before, "a"), (1, c), (35, "a"))
    for count in (*range(70), 150, 209):
        text = (MIXED * 30)[count % 11 : count % 11 + count]
        to_utf8("length", (1, text))
        into_buffer("length", (1, text))
        from_utf8("length", (1, text))
    for units in ("D83DDE00", "D8000061", "DC000061", "DBFFDFFF", "D800"):
        for before in PLACES:
            taken("taken", units, before, 0, 0)
            taken("taken", units, before, 35, 0)
            taken("taken.odd", units, before, 2, 1)
    for run, places in RUNS.items():
        for before in places:
            for ill in ILL_FORMED_UTF8:
                ill_formed_utf8("ill_formed", run, before, ill, 40)
            ill_formed_utf8("ill_formed", run, before, run.encode().hex().upper()[:-2], 0)
    for units in WELL_FORMED:
        for before in PLACES:
            well_formed("well_formed", units, before, 1)
            well_formed("well_formed", units, before, 6)


sys.exit(main())
