#!/usr/bin/env python3
"""Tests the page in headless Chromium: what it says of known bytes and of broken files of each kind,
which it repairs after clicks, cuts that are moved by the keyboard and the mouse, large files, both
themes, a narrow and a wide window. Python's codecs give what is expected. CHROMIUM names another
program. Prints what fails, and last a line 'N passed, M failed'."""

import itertools
import json
import os
import pathlib
import re
import shutil
import subprocess
import sys
import tempfile
import time

HERE = pathlib.Path(__file__).resolve().parent
TOP = HERE.parent
sys.dont_write_bytecode = True
sys.path[:0] = [str(HERE), str(TOP / ".ci")]

import build  # noqa: E402
import site_browser  # noqa: E402

MOST_BYTES = 900_000
LARGE = 40_000_000
# The most seconds that something on the page may take.
PATIENCE = 60
TEXT = "Gr\u00fc\u00dfe, \u4e16\u754c \U0001f600!"
KEYS = {"ArrowRight": 39, "ArrowLeft": 37, "Home": 36, "End": 35, "Delete": 46, "Tab": 9, "Enter": 13}

# Bytes in hex and how they are read; the kinds of the items with their names, the offsets of the
# errors and the text, by chapter 3.9 of the Unicode Standard (D91 and the conformance of ill-formed
# text).
KNOWN = (
    ("61 00 AC 20", "le", "char U+0061, char U+20AC", [], "a\u20ac"),
    ("D8 3D DE 00", "be", "pair U+1F600", [], "\U0001f600"),
    ("3D D8 00 DE", "le", "pair U+1F600", [], "\U0001f600"),
    ("00 DC 61 00", "le", "ill-formed ill-formed, char U+0061", [0], "\ufffda"),
    ("61 00 3D D8 62 00", "le", "char U+0061, ill-formed ill-formed, char U+0062", [2], "a\ufffdb"),
    ("D8 3D D8 3D DE 00", "be", "ill-formed ill-formed, pair U+1F600", [0], "\ufffd\U0001f600"),
    ("61 00 3D", "le", "char U+0061, incomplete incomplete", [2], "a\ufffd"),
    ("61 00 3D D8", "le", "char U+0061, incomplete incomplete", [2], "a\ufffd"),
    ("61 00 3D D8 00", "le", "char U+0061, incomplete incomplete", [2], "a\ufffd"),
    ("FE FF 00 61", "auto", "char U+0061", [], "a"),
    ("FF FE 61 00", "auto", "char U+0061", [], "a"),
    ("FF FE FF FE 61 00", "auto", "char U+FEFF, char U+0061", [], "\ufeffa"),
    ("EF BB BF C3 BC", "auto", "char U+00FC", [], "\u00fc"),
    ("61 E2 82 62 F0 9F 98 80 C3", "utf8", "char U+0061, ill-formed ill-formed, char U+0062, "
     "char U+1F600, incomplete incomplete", [1, 8], "a\ufffdb\U0001f600\ufffd"),
)
ITEMS = """[...document.querySelectorAll(".item")].map(it =>
    it.className.replace("item ", "") + " " + it.querySelector(".name").textContent).join(", ")"""
CUTS = """[...document.querySelectorAll(".cut")]
    .sort((one, other) => one.dataset.cut - other.dataset.cut).map(it => Number(it.ariaValueNow))"""
# The bytes that the chunks write, as the page shows them, and those that they read.
WRITTEN = """[...document.querySelectorAll("#chunks li")].map(it => [...it.querySelectorAll("p")]
    .find(row => row.textContent.startsWith("in UTF-8")).querySelector(".octets").textContent)"""
READ = """[...document.querySelectorAll("#chunks li:not(.end)")].map(it =>
    it.querySelector("p").lastElementChild.textContent)"""
# The offsets of the errors that are listed, and what each line says.
OFFSETS = """[...document.querySelectorAll("#errors strong")].map(it =>
    Number(it.firstChild.textContent.replace(/[^0-9]/g, "")))"""
ERRORS = "[...document.querySelectorAll('#errors li')].map(it => it.textContent.replace('Show', '').trim())"
ACTIVE = "document.activeElement"
CODECS = {"le": "utf-16-le", "be": "utf-16-be"}
NAMES = {"le": "UTF-16, little endian", "be": "UTF-16, big endian", "utf8": "UTF-8"}
GUESS = r" \((?:a|an uncertain) guess"
BOMS = {"le": b"\xff\xfe", "be": b"\xfe\xff"}
# Bytes that were dumped, and what xxd 2022-01-14, hexdump of util-linux 2.38 and od of coreutils 9.1
# print of them.
DUMPED = b"\xff\xfe" + "Gr\u00fc\u00dfe ff 00".encode("utf-16-le") + b" \0" * 24 + b"\x00\xdca\0b"
DUMPS = {
    "xxd": """00000000: fffe 4700 7200 fc00 df00 6500 2000 6600  ..G.r.....e. .f.
00000010: 6600 2000 3000 3000 2000 2000 2000 2000  f. .0.0. . . . .
00000020: 2000 2000 2000 2000 2000 2000 2000 2000   . . . . . . . .
00000030: 2000 2000 2000 2000 2000 2000 2000 2000   . . . . . . . .
00000040: 2000 2000 2000 2000 00dc 6100 62          . . . ...a.b
""",
    "hexdump -C": """00000000  ff fe 47 00 72 00 fc 00  df 00 65 00 20 00 66 00  |..G.r.....e. .f.|
00000010  66 00 20 00 30 00 30 00  20 00 20 00 20 00 20 00  |f. .0.0. . . . .|
00000020  20 00 20 00 20 00 20 00  20 00 20 00 20 00 20 00  | . . . . . . . .|
*
00000040  20 00 20 00 20 00 20 00  00 dc 61 00 62           | . . . ...a.b|
0000004d
""",
    "od -A x -t x1": """000000 ff fe 47 00 72 00 fc 00 df 00 65 00 20 00 66 00
000010 66 00 20 00 30 00 30 00 20 00 20 00 20 00 20 00
000020 20 00 20 00 20 00 20 00 20 00 20 00 20 00 20 00
*
000040 20 00 20 00 20 00 20 00 00 dc 61 00 62
00004d
""",
    "od -t x1": """0000000 ff fe 47 00 72 00 fc 00 df 00 65 00 20 00 66 00
0000020 66 00 20 00 30 00 30 00 20 00 20 00 20 00 20 00
0000040 20 00 20 00 20 00 20 00 20 00 20 00 20 00 20 00
*
0000100 20 00 20 00 20 00 20 00 00 dc 61 00 62
0000115
""",
}
# What is plainly the bytes 61 00 00 DC; what looks like hex or a dump, with what is wrong; and what
# does neither.
LITERALS = (
    "{0x61, 0x00, 0x00, 0xDC}",
    "&[0x61, 0x00,\n  0x00, 0xdc,\n];",
    "unsigned char a[] = {\n  0x61, 0x00, 0x00, 0xdc\n};\nunsigned int a_len = 4;\n",
    '"v"=hex(1):61,00,00,dc', '"v"=hex(7):61,00,\\\n  00,dc',
    "@=hex:61,00,00,dc", "hex(2):61,00,00,dc",
)
SLIPS = (
    ("61 00 0", "bytes in hex, but \u201c0\u201d ends with half a byte"),
    ("61 00 0O DC 62 00", "bytes in hex, but \u201c0O\u201d is not bytes in hex"),
    ("fffe 6100 00d", "bytes in hex, but \u201c00d\u201d ends with half a byte"),
    ("{0x61, 0x0, 0x0, 0xDC}", "bytes in hex, but \u201c0\u201d ends with half a byte"),
    ('"v"=hex(1):61,00,00,d', "bytes in hex, but \u201cd\u201d ends with half a byte"),
    ("$ xxd it\n" + DUMPS["xxd"], "a dump, but \u201c$ xxd it\u201d is not a line of a dump"),
    (DUMPS["hexdump -C"].replace("dc", "dO"), "a dump, but \u201cdO\u201d is not bytes in hex"),
    ("0000000 feff 0061 dc00", "a dump, but \u201c0000000 feff 0061 dc00\u201d has words of more than "
     "two digits, in the order of the machine: use xxd, hexdump -C or od -t x1"),
    ("0000000    feff    0061\n0000004", "a dump, but \u201c0000000    feff    0061\u201d has words"),
    ("000000 feff 0061\n000004", "a dump, but \u201c000000 feff 0061\u201d has words of more than"),
    ("$ od -x it\n0000000 feff 0061", "a dump, but \u201c$ od -x it\u201d is not a line of a dump"),
)
TEXTS = ("add 12 dead beef", "No", "7", "123", "10,000", "3:45", "1920x1080", "Chapter 12", "2 + 2 = 4")
TEXTS += ("[12]", "{10, 20}", "cafe: noir", "hex: be brief", "12345678\n87654321\nJohn Smith")
LONG = "Gr\u00fc\u00dfe, \u043c\u0438\u0440 \U0001f600! The quick brown fox jumps over the lazy dog.\n"
CHINESE = "\u4e16\u754c\u4f60\u597d\uff0c\u6211\u4eec\u7684\u6587\u4ef6\u574f\u4e86\u3002" * 9


class Page:
    """The page in a browser, and the counts of its tests."""

    def __init__(self, browser, path):
        self.browser, self.address = browser, pathlib.Path(path).as_uri()
        self.passed = self.failed = 0

    def test(self, holds, name):
        self.passed += bool(holds)
        self.failed += not holds
        if not holds:
            print(f"failed: {name}")

    def equal(self, found, wanted, name):
        self.test(found == wanted, f"{name}: {found!r:.300}, not {wanted!r:.300}")

    def says(self, name, words):
        """Tests that an element has these words."""
        self.test(words in self.text(name), f"{name}: {self.text(name)}, not {words}")

    def open(self):
        self.browser.open(self.address)
        self.wait("document.body.dataset.ready", "the page is ready")

    def value(self, expression):
        return self.browser.value(expression)

    def text(self, name):
        return self.value(f"document.getElementById('{name}').textContent")

    def wait(self, condition, what):
        """Waits until a condition is true."""
        end = time.monotonic() + PATIENCE
        while not self.value(condition):
            if time.monotonic() > end:
                raise RuntimeError(f"never came: {what}: {self.text('verdict-line')}")
            time.sleep(0.02)

    def done(self, what):
        """Waits until the report is shown."""
        self.wait("document.body.dataset.state === 'done'", f"the report on {what}")

    def enter(self, text, order="auto", form="hex"):
        """Enters bytes or a text as a user does."""
        self.value(
            f"byId('form').value = '{form}'; byId('order').value = '{order}'; byId('input').value ="
            f"{json.dumps(text)}; byId('input').dispatchEvent(new Event('input', {{bubbles: true}}))"
        )
        self.done(text[:40])

    def change(self, name, value):
        """Changes a control."""
        self.value(f"byId('{name}').value = '{value}'; byId('{name}').dispatchEvent(new Event('change'))")

    def choose(self, name, value):
        """Chooses an entry of a list, and waits for the report."""
        self.change(name, value)
        self.done(f"{name} {value}")

    def press(self, key):
        text = {"text": "\r"} if key == "Enter" else {}
        for kind in ("keyDown" if text else "rawKeyDown", "keyUp"):
            code = {"code": key, "windowsVirtualKeyCode": KEYS[key]}
            self.browser.call("Input.dispatchKeyEvent", type=kind, key=key, **code, **text)

    def click(self, name):
        """Clicks with the mouse on what is shown."""
        place = self.middle(f"#{name}")
        self.mouse("mousePressed", place)
        self.mouse("mouseReleased", place)

    def focus(self, cut):
        self.value(f"document.querySelector('[data-cut=\"{cut}\"]').focus()")

    def middle(self, selector):
        """Returns the middle of an element in the window."""
        return self.value(
            f"(() => {{ const it = document.querySelector('{selector}');"
            "it.scrollIntoView({block: 'center'}); const at = it.getBoundingClientRect();"
            "return [(at.left + at.right) / 2, (at.top + at.bottom) / 2] })()"
        )

    def mouse(self, kind, place):
        x, y = place
        buttons = {"button": "left", "buttons": int(kind != "mouseReleased"), "clickCount": 1}
        self.browser.call("Input.dispatchMouseEvent", type=kind, x=x, y=y, **buttons)

    def give_file(self, path):
        """Chooses a file, as the dialog does."""
        self.value("document.body.dataset.state = 'busy'")
        root = self.browser.call("DOM.getDocument")["root"]["nodeId"]
        found = self.browser.call("DOM.querySelector", nodeId=root, selector="#file")
        self.browser.call("DOM.setFileInputFiles", files=[str(path)], nodeId=found["nodeId"])

    def check(self, path, raw):
        """Gives the page a file with these bytes, and waits for the report."""
        self.give_file(written(path, raw))
        self.done(path.name)

    def saved(self, room, name, ending):
        """Saves a file by a click, and returns its bytes."""
        path = room / f"{name}.{ending}.txt"
        size = self.value(f"report.{'text' if ending == 'utf8' else 'utf16'}.size")
        start = clicked = time.monotonic()
        self.click(f"save-{ending}")
        while not (path.exists() and path.stat().st_size == size):
            now = time.monotonic()
            if now > start + PATIENCE:
                break
            # Chromium loses a download in a few hundred.
            if now > clicked + 5 and not path.exists():
                clicked = now
                self.click(f"save-{ending}")
            self.value("1")
            time.sleep(0.01)
        return path.read_bytes() if path.exists() else None


def repaired_file(page, room, name, raw, wanted):
    """Gives the page a broken file, and saves both files: the verdict's first words, a pattern for how
    the file is read, the offsets of the errors, the text, and the byte order and BOM of the repaired
    file."""
    words, reading, offsets, text, order, bom = wanted
    page.check(room / f"{name}.bin", raw)
    check_report(page, name, words, reading, offsets)
    check_saved(page, room, name, text, order, bom)


def check_report(page, name, words, reading, offsets):
    line = page.text("verdict-line")
    holds = line.startswith(words) and re.search(reading, line)
    page.test(holds, f"{name}: {line}, not {words} and {reading}")
    page.equal(page.value(OFFSETS), offsets, f"{name}: the errors")


def check_saved(page, room, name, text, order, bom):
    page.equal(page.saved(room, name, "utf8"), text.encode(), f"{name}: the saved text")
    repaired = (BOMS[order] if bom else b"") + text.encode(CODECS[order])
    page.equal(page.saved(room, name, "utf16"), repaired, f"{name}: the repaired file")


def unpaired_surrogates(page, room):
    """A surrogate of each kind at each place, in both byte orders, with a BOM and without."""
    codes = {"leading": "\ud83d", "trailing": "\udc00"}
    places = (0, 20, len(LONG))
    for order, bom, kind, place in itertools.product(CODECS, (True, False), codes, places):
        given = LONG[:place] + codes[kind] + LONG[place:]
        raw = (BOMS[order] if bom else b"") + given.encode(CODECS[order], "surrogatepass")
        at = 2 * bom + len(LONG[:place].encode(CODECS[order]))
        how = r" \(as its BOM says" if bom else GUESS
        text = raw[2 * bom :].decode(CODECS[order], "replace")
        wanted = ("Yes: 1 error in", NAMES[order] + how, [at], text, order, bom)
        repaired_file(page, room, f"{kind}-{place}-{order}-{bom}", raw, wanted)


def short_files(page, room):
    """An odd length and a pair that is cut, after one to three of its bytes."""
    for order, count, bom in itertools.product(CODECS, (1, 2, 3), (True, False)):
        raw = (BOMS[order] if bom else b"") + (LONG + "\U0001f600").encode(CODECS[order])[: count - 4]
        wanted = ("Yes: 1 error in", NAMES[order], [len(raw) - count], LONG + "\ufffd", order, bom)
        repaired_file(page, room, f"short-{count}-{order}-{bom}", raw, wanted)
    for raw in (b"", b"\xff\xfe"):
        words = f"No: there is no error in {len(raw)} bytes"
        page.check(room / f"empty-{len(raw)}", raw)
        page.says("verdict-line", words)


def written(path, raw):
    path.write_bytes(raw)
    return path


def wrong_orders(page, room):
    """Without a BOM the order is guessed. A wrong BOM gets a hint, and a click repairs it."""
    for text, order in itertools.product((LONG, CHINESE), CODECS):
        raw, name = text.encode(CODECS[order]), f"order-{order}-{len(text)}"
        wanted = ("No: there is no error", NAMES[order] + GUESS, [], text, order, False)
        repaired_file(page, room, name, raw, wanted)
        other = "be" if order == "le" else "le"
        page.choose("order", other)
        page.says("verdict-line", f"{NAMES[other]} (as you chose")
        page.equal(page.text("hint-line"), f"It looks more like {NAMES[order]}.", f"{name}: the hint")
        page.check(room / f"bom-{name}.bin", BOMS[other] + raw)
        page.says("verdict-line", f"{NAMES[other]} (as its BOM says")
        page.click("switch")
        page.done("the switch")
        check_report(page, f"bom-{name}", "Yes: 1 error", NAMES[order] + r" \(as you chose", [0])
        page.equal(page.value("document.activeElement.id"), "order", "the focus after the switch")
        page.equal(page.value("byId('hint').hidden"), True, "the hint after the switch")
        check_saved(page, room, f"bom-{name}", text, order, True)


def utf8_files(page, room):
    """UTF-8 is found, with a BOM and without, and with errors."""
    for bom, given, text in itertools.product(
        (b"", b"\xef\xbb\xbf"), (LONG, CHINESE, "plain ASCII\r\n"), ("", "\ufffd")
    ):
        raw = bom + given.encode() + (b"\xe2\x82" if text else b"") + b"end"
        offsets = [len(bom + given.encode())] if text else []
        how = NAMES["utf8"] + (r" \(as its BOM" if bom else GUESS)
        wanted = ("It is not UTF-16", how, offsets, given + text + "end", "le", True)
        repaired_file(page, room, f"utf8-{len(raw)}-{len(bom)}", raw, wanted)
    raw = LONG.encode()
    wanted = ("It is not UTF-16", NAMES["utf8"] + GUESS, [], LONG, "le", True)
    repaired_file(page, room, "utf8", raw, wanted)
    page.choose("order", "le")
    page.equal(page.text("hint-line"), "It looks more like UTF-8.", "the hint for UTF-8")


def shifted_files(page, room):
    """A byte is lost or added inside, in both byte orders: what follows is read from the next one."""
    changes = ("first", "second", "added", "both")
    for order, bom, change in itertools.product(CODECS, (True, False), changes):
        raw = (BOMS[order] if bom else b"") + (LONG * 2).encode(CODECS[order])
        at, far = 2 * bom + 40, 2 * bom + 100
        broken = {
            "first": raw[:at] + raw[at + 1 :],
            "second": raw[: at + 1] + raw[at + 2 :],
            "added": raw[:at] + b"\0" + raw[at:],
            "both": raw[:at] + b"\0" + raw[at:far] + raw[far + 1 :],
        }[change]
        decoded = lambda part: part.decode(CODECS[order])
        rest = at if change in ("added", "both") else at + 2
        parts, offsets = [raw[2 * bom : at], raw[rest:]], [at]
        if change == "both":
            parts, offsets = [parts[0], raw[at:far], raw[far + 2 :]], [at, far + 1]
        text = "\ufffd".join(map(decoded, parts))
        wanted = (f"Yes: {len(offsets)} error", NAMES[order], offsets, text, order, bom)
        repaired_file(page, room, f"shift-{change}-{order}-{bom}", broken, wanted)
        page.says("errors", "lost or added here")
    page.click("align")
    page.done("no search for shifts")
    page.test("lost or added" not in page.text("errors"), page.text("errors"))
    page.click("align")
    page.done("the search for shifts")
    raw = b"\xff\xfe" + CHINESE.encode("utf-16-le")[1:]
    wanted = ("Yes: 1 error", NAMES["le"], [2], "\ufffd" + CHINESE[1:], "le", True)
    repaired_file(page, room, "shift-start", raw, wanted)


def changed_line_ends(page, room):
    """A program wrote CRLF for each byte of an LF. Each line is shifted, and that takes linear time."""
    lines, line = 40_000, LONG.encode("utf-16-le")
    raw = BOMS["le"] + (line.replace(b"\n\0", b"\r\n\0") * lines) + line[:-2]
    page.check(room / "lines.bin", raw)
    offsets = [len(line) + number * (len(line) + 1) for number in range(20)]
    check_report(page, "lines", f"Yes: {lines:,} errors in {len(raw):,} bytes", NAMES["le"], offsets)
    text = LONG.replace("\n", "\ufffd\n") * lines + LONG[:-1]
    check_saved(page, room, "lines", text, "le", True)


def many_errors(page, room):
    """10 MB with more errors than are kept: it takes linear time, and the page stays alive."""
    text = LONG.replace("\n", "\udc00\ud83d") * 75_000
    raw = b"\xff\xfe" + text.encode("utf-16-le", "surrogatepass")[: 10_000_000]
    dense = b"\xff\xfe" + b"\x00\xdca\0" * 2_500_000
    for name, raw in (("many", raw), ("dense", dense)):
        wanted = raw[2:].decode("utf-16-le", "replace")
        page.value(
            "window.gap = 0; window.last = performance.now(); window.timer = setInterval(() => {"
            "const now = performance.now(); gap = Math.max(gap, now - last); last = now }, 20)"
        )
        start = time.monotonic()
        page.check(room / f"{name}.bin", raw)
        took = time.monotonic() - start
        page.value("clearInterval(timer)")
        count = wanted.count("\ufffd")
        page.says("verdict-line", f"Yes: {count:,} errors")
        page.says("range", f"of {count:,}")
        page.test(page.value("gap") < 2000, f"{name}: the page stood still for {page.value('gap')} ms")
        gap = page.value("gap")
        print(f"{name}: {count} errors after {took:.1f} s, at most {gap:.0f} ms without an answer")
        page.equal(page.saved(room, name, "utf8") == wanted.encode(), True, f"{name}: the text")
        repaired = b"\xff\xfe" + wanted.encode("utf-16-le")
        page.equal(page.saved(room, name, "utf16") == repaired, True, f"{name}: the repaired file")
    page.says("range", "the first 1,000,000 are listed")
    pages_of_errors(page)


def pages_of_errors(page):
    """The list has pages: the next, the one before, and one from any error on. It jumps to the last."""
    page.click("later-errors")
    page.wait(f"{OFFSETS}[0] === 82", "the next errors")
    page.equal(page.value("byId('errors').start"), 21, "the number of the first error that is listed")
    page.click("earlier-errors")
    page.wait(f"{OFFSETS}[0] === 2", "the errors before")
    page.change("row", 999999)
    page.wait(f"{OFFSETS}.length === 2", "the last errors")
    page.equal(page.value(OFFSETS), [2 + 4 * 999_998, 2 + 4 * 999_999], "the last errors")
    page.value("[...document.querySelectorAll('[data-show]')].at(-1).click()")
    page.wait("document.activeElement.dataset.item === '3999998'", "the focus on the last error")


def stopped_file(page, room):
    """A large file is checked with its progress, until it is stopped or to its end."""
    raw = (LONG.encode("utf-16-le") * (LARGE // len(LONG)))[:LARGE]
    page.give_file(written(room / "large.txt", raw))
    page.wait("byId('progress').value > 0", "progress")
    page.click("stop")
    page.equal(page.text("verdict-line"), "Stopped.", "a file that was stopped")
    page.equal(page.value("byId('busy').hidden && byId('found').hidden"), True, "what is shown of it")
    os.link(room / "large.txt", room / "again.txt")
    page.give_file(room / "again.txt")
    seen, end = set(), time.monotonic() + PATIENCE
    while page.value("document.body.dataset.state") != "done" and time.monotonic() < end:
        seen.add(page.value("byId('progress').value"))
    page.test(len(seen) > 2 and sorted(seen)[-1] > 0.5, f"the progress: {seen}")
    page.says("verdict-line", "No: there is no error in 40,000,000")


def files_in_turn(page, room):
    """While a file is read, another choice reads the same file, and another file takes its place."""
    os.link(room / "large.txt", room / "turn.txt")
    page.give_file(room / "turn.txt")
    page.wait("byId('progress').value > 0", "progress")
    page.value("window.stale = worker.onmessage")
    page.change("form", "text")
    page.says("verdict-line", "Reading turn.txt")
    page.change("order", "be")
    page.says("verdict-line", "Reading turn.txt")
    page.value("stale({data: {trouble: 'a stopped worker'}})")
    page.says("verdict-line", "Reading turn.txt")
    page.check(room / "small.txt", b"\xff\xfea\0\x00\xdc")
    page.says("verdict-line", "Yes: 1 error in 6 bytes of UTF-16, little endian (as its BOM says)")
    page.choose("order", "be")
    page.says("verdict-line", "in 6 bytes of UTF-16, big endian (as you chose)")
    page.change("form", "auto")
    page.says("verdict-line", "in 6 bytes of UTF-16, big endian (as you chose)")


def files_that_go(page, room):
    """If a file cannot be read, at first or later, one sentence says so."""
    page.check(room / "later.bin", b"a\0" * 300 + b"\0\xdc")
    (room / "later.bin").write_bytes(b"changed")
    page.value("document.querySelector('[data-show]').click()")
    page.wait("byId('found').hidden", "that a file has changed")
    line = page.text("verdict-line")
    page.test(re.fullmatch(r"later\.bin: [^.]+\.", line), f"a file that has changed: {line}")
    page.value("showMessage({name: 'gone.bin'}, {trouble: 'It is gone.'})")
    page.equal(page.text("verdict-line"), "gone.bin: It is gone.", "what the worker says of a file")


def answers_that_come_late(page):
    """What was asked for last is shown, and nothing of a report that is gone."""
    page.enter("61 00 " * 500 + "00 DC 61 00", "le")
    page.value(
        "window.readAll = Blob.prototype.arrayBuffer; window.count = 0;"
        "Blob.prototype.arrayBuffer = async function() { const ms = count++ ? 0 : 300;"
        "await new Promise(it => setTimeout(it, ms)); return readAll.call(this) };"
        "showAt(200).then(it => window.isFirst = it); showAt(600)"
    )
    page.wait("window.isFirst === false", "the first answer")
    page.equal(page.value("byId('offset').value"), "568", "the place that was asked for last")
    page.value(
        "Blob.prototype.arrayBuffer = readAll; window.isShown = false; var it = report;"
        "guarded(() => showMessage(it, {found: it})).then(() => isShown = true); showNothing('Gone.')"
    )
    page.wait("isShown", "the end of a report that is gone")
    page.equal(page.value("byId('found').hidden"), True, "what is shown of it")
    page.says("verdict-line", "Gone.")


def known_bytes(page):
    for source, order, items, offsets, text in KNOWN:
        page.enter(source, order)
        name = f"{source} in {order}"
        page.equal(page.value(ITEMS), items, name)
        page.equal(page.value(OFFSETS), offsets, f"the errors of {name}")
        page.equal(page.text("preview"), text, f"the text of {name}")
        is_utf8 = order == "auto" and source.startswith("EF BB BF")
        page.says("verdict-line", "It is not UTF-16" if is_utf8 else "Yes: " if offsets else "No: ")


def reasons(page):
    """Why each sequence is ill formed, with its place."""
    page.enter("DC 00 D8 3D 00 61 D8 3D D8 3D DE 00 D8", "be")
    leading = "D8 3D becomes U+FFFD: D83D is a leading surrogate, and"
    wanted = [
        "At byte 0 0x0 DC 00 becomes U+FFFD: DC00 is a trailing surrogate, "
        "and there is no leading one before it.",
        f"At byte 2 0x2 {leading} 0061 after it is not a trailing one.",
        f"At byte 6 0x6 {leading} D83D after it is not a trailing one.",
        "At byte 12 0xC D8 becomes U+FFFD: the text ends after one byte of a code unit.",
    ]
    page.equal(page.value(ERRORS), wanted, "the reasons")
    page.equal(page.text("becomes"), "FF FD", "U+FFFD in big endian")
    page.enter("3D D8 00", "le")
    page.says("errors", "after a leading surrogate")


def late_error(page):
    """The verdict is on all bytes, not on those that are shown."""
    page.enter("61 00 " * 500 + "00 DC", "auto")
    page.says("verdict-line", "Yes: 1 error in 1,002 bytes")
    page.equal(page.value("byId('verdict').className"), "verdict invalid", "the verdict on a late error")
    page.equal(page.value(OFFSETS), [1000], "a late error")


def forms_of_the_field(page):
    """Another form reads the same field again, and back again the same bytes."""
    source = "61 00 0D 00 0A 00 3D"
    page.enter(source)
    for form in ("text", "dump", "hex"):
        page.choose("form", form)
        page.equal(page.value("byId('input').value"), source, f"the field as {form}")
    page.equal(page.value("octets(shown.bytes)"), source, "bytes as hex, as text and again as hex")
    page.enter(TEXT, form="auto")
    page.equal(page.text("preview"), TEXT, "a text that was entered")
    for text in TEXTS:
        page.enter(text, form="auto")
        page.equal(page.text("preview"), text, f"the text {text!r}")
        page.says("verdict-line", f"No: there is no error in {2 * len(text)} bytes")
    for source, count in (("face", 2), ("be", 1), ("12", 1)):
        page.enter(source, form="auto")
        page.says("input-note", f"Read as bytes in hex: {count} byte")
    for source in LITERALS:
        page.enter(source, form="auto")
        page.says("input-note", "Read as bytes in hex: 4 bytes. That is a guess")
        page.equal(page.value(OFFSETS), [2], f"the errors of {source!r}")
    page.enter("a\\uDC00\\u{1F600}\\", "be", "text")
    page.equal(page.value("octets(shown.bytes)"), "00 61 DC 00 D8 3D DE 00 00 5C", "code units in a text")
    page.says("verdict-line", "(from your text)")


def dumps(page):
    """A dump gives its bytes, without its offsets and its column of text, also if that looks like hex."""
    wanted = DUMPED.hex(" ").upper()
    for name, dump in DUMPS.items():
        page.enter(dump, form="auto")
        page.says("input-note", "Read as a dump: 77 bytes.")
        found = page.value("report.file.arrayBuffer().then(it => window.raw = octets(new Uint8Array(it)))")
        page.wait("window.raw", "the bytes of a dump")
        page.equal(page.value("raw"), wanted, f"the bytes of a dump of {name}")
        page.value("window.raw = undefined")
        page.equal(page.value(OFFSETS), [72, 76], f"the errors of a dump of {name}")
    for command in (["xxd"], ["xxd", "-g1", "-c8", "-u"], ["hexdump", "-C"]):
        if shutil.which(command[0]):
            found = subprocess.run(command, input=DUMPED, stdout=subprocess.PIPE, check=True).stdout
            page.enter(found.decode(), form="auto")
            page.equal(page.value(OFFSETS), [72, 76], f"the errors of a dump of {command}")


def unreadable(page):
    """What cannot be read gets no verdict, and says why."""
    for form, source, words in (
        ("hex", "61 x0", "bytes in hex: \u201cx0\u201d is not bytes in hex."),
        ("hex", "61 0", "bytes in hex: \u201c0\u201d ends with half a byte."),
        ("dump", "no dump", "a dump: \u201cno dump\u201d is not a line of a dump."),
        ("dump", "0000: 61\n*\nffffffff: 61", "a dump: the dump leaves out too much."),
        ("dump", "0000: 6100\n0004: 61", "a dump: \u201c0004: 61\u201d does not follow the line before it."),
        ("dump", "0000: 6100\n*\n0001: 61", "a dump: \u201c0001: 61\u201d does not follow the line"),
    ):
        page.enter(source, form=form)
        page.says("verdict-line", f"This cannot be read as {words}")
        page.equal(page.value("byId('verdict').className"), "verdict", f"the colour of {source!r}")
        page.equal(page.value("byId('found').hidden"), True, f"what is shown of {source!r}")
    for source, words in SLIPS:
        page.enter(source, form="auto")
        page.says("verdict-line", f"This looks like {words}")
        page.says("verdict-line", ". If it is text, choose \u201ctext\u201d.")
        page.equal(page.value("byId('verdict').className"), "verdict", f"the colour of {source!r}")
        page.choose("form", "text")
        page.says("verdict-line", "(from your text)")
    page.enter("61 00", form="hex")
    page.equal(page.value("byId('found').hidden"), False, "what is shown of bytes after that")


def one_offset(page):
    """Offsets count from the start of the file, the BOM too, wherever they are shown."""
    page.enter("FE FF 00 61 DC 00 00 62")
    page.equal(page.value(OFFSETS), [4], "an error after a BOM")
    page.equal(page.value("byId('offset').value"), "2", "where the strip begins")
    page.value("document.querySelector('[data-show]').click()")
    page.wait("document.activeElement.dataset.item === '4'", "the item at the error")
    page.equal(page.value("document.activeElement.title.slice(0, 10)"), "At byte 4:", "what the item says")
    page.click("add")
    wanted = page.value("Number(document.querySelector('.cut').ariaValueNow)") + 2
    words = page.value("document.querySelector('.cut').ariaValueText")
    page.test(f"before byte {wanted}" in words, f"a cut: {words}")


def windows(page):
    """The strip moves through the file, and cuts no pair at its ends."""
    page.enter("3D D8 00 DE " * 200, "le")
    for name, start in (("later", 128), ("later", 256), ("earlier", 128)):
        page.click(name)
        page.wait(f"byId('offset').value === '{start}'", f"{name} bytes")
        page.equal(page.value(ITEMS), ", ".join(["pair U+1F600"] * 32), f"the bytes from {start} on")
    page.change("offset", 398)
    page.wait("byId('offset').value === '396'", "the bytes from the middle of a pair on")
    page.enter("61 00 " * 63 + "3D D8 " + "61 00 " * 9, "le")
    page.change("offset", 0)
    page.wait("shown.start === 0", "the bytes up to an error")
    why = page.value("[...document.querySelectorAll('.item')].at(-1).title")
    page.equal(why[:36], "At byte 126: D83D is a leading surro", "an error at the end of the window")
    page.enter("F0 9F 98 80 " * 100, "utf8")
    page.change("offset", 203)
    page.wait("byId('offset').value === '200'", "the bytes from the middle of a character on")
    page.equal(page.value(ITEMS), ", ".join(["char U+1F600"] * 32), "UTF-8 from there on")
    page.equal(page.value("byId('cutting').hidden"), True, "cuts in UTF-8")


def keyboard(page):
    """The order of the controls, the jump to an error and back, and the live verdict."""
    page.enter("61 00 00 DC 62 00 3D", "auto", "auto")
    page.value("byId('file').focus()")
    seen = []
    for _ in range(22):
        seen.append(page.value(f"{ACTIVE}.id || Object.values({ACTIVE}.dataset)[0]"))
        page.press("Tab")
    wanted = "file input form unpaired odd lost utf8 dump order align 2 6 save-utf8 save-utf16 preview "
    wanted += "earlier later offset add every random none"
    page.equal(" ".join(map(str, seen)), wanted, "the order of the controls")
    page.value("document.querySelector('[data-show]').focus()")
    page.press("Enter")
    page.wait("document.activeElement.dataset.item === '2'", "the focus after a jump")
    page.test(page.value(f"{ACTIVE}.getBoundingClientRect().top >= 0"), "the item is in the window")
    page.value("byId('back').focus()")
    page.press("Enter")
    page.equal(page.value("document.activeElement.dataset.show"), "2", "the focus after the way back")
    page.equal(page.value("byId('verdict').getAttribute('role')"), "status", "the live verdict")


def moved_cuts(page):
    """Moves each of two cuts to each place by the keyboard, and looks at the text."""
    source = "61 00 3D D8 00 DE 00 DC 3D D8 AC 20 3D"
    text, count = "a\U0001f600\ufffd\ufffd\u20ac\ufffd", len(source.split())
    page.enter(source, "le")
    page.click("none")
    page.click("add")
    page.click("add")
    for cut in (0, 1):
        page.focus(cut)
        page.press("Home")
        for at in range(count + 1):
            places = page.value(CUTS)
            page.equal(places[cut], at, f"the place of cut {cut + 1}")
            page.equal(page.text("joined"), text, f"the text with cuts at {places}")
            written = " ".join(it for it in page.value(WRITTEN) if it != "\u2013")
            page.equal(written, text.encode().hex(" ").upper(), f"the chunks with cuts at {places}")
            read = " ".join(it for it in page.value(READ) if it != "nothing")
            page.equal(read, source, f"what the chunks read with cuts at {places}")
            page.press("ArrowRight")
        page.equal(page.value("Number(document.activeElement.dataset.cut)"), cut, "the focus")
        page.equal(page.value(CUTS)[cut], count, "a cut at the end")
        page.press("ArrowLeft")
    page.test((tally(page) or 0) > 2 * count, f"the cuttings tried: {page.text('tally')}")
    page.press("Delete")
    page.equal(len(page.value(CUTS)), 1, "cuts after Delete")
    page.click("try")
    page.test((tally(page) or 0) >= 2 ** (count - 1), f"all cuttings: {page.text('tally')}")


def tally(page):
    """Returns how many cuttings were tried, which all gave one text."""
    found = re.match(r"([\d,]+) cuttings? tried, 1 text:", page.text("tally"))
    return found and int(found[1].replace(",", ""))


def pending_bytes(page):
    """What a chunk keeps."""
    page.enter("3D D8 00 DE", "le")
    kept = (
        "[...document.querySelectorAll('#chunks li:not(.end)')]"
        ".map(it => it.querySelector('p:last-of-type').lastElementChild.textContent)"
    )
    page.click("every")
    wanted = ["3D", "3D D8", "3D D8 00", "nothing"]
    page.equal(page.value(kept), wanted, "what is kept of a pair")
    page.equal(page.value(WRITTEN), ["\u2013"] * 3 + ["F0 9F 98 80", "\u2013"], "what is written of a pair")


def dragged_cuts(page):
    page.enter(TEXT.encode("utf-16-le").hex(), "le")
    page.click("none")
    page.click("add")
    start = page.middle(".cut")
    page.mouse("mousePressed", start)
    for at in (3, 17, 9):
        page.mouse("mouseMoved", page.middle(f'[data-gap="{at}"]'))
        page.equal(page.value(CUTS), [at], "the place of a dragged cut")
        page.equal(page.text("joined"), TEXT, "the text while a cut is dragged")
    page.mouse("mouseReleased", page.middle('[data-gap="9"]'))
    page.mouse("mouseMoved", page.middle('[data-gap="2"]'))
    page.equal(page.value(CUTS), [9], "a cut that was let go")
    place = page.middle('[data-gap="5"]')
    page.mouse("mousePressed", place)
    page.mouse("mouseReleased", place)
    page.equal(page.value(CUTS), [9, 5], "a cut where the strip was pressed")


def examples(page):
    wanted = {"unpaired": 2, "odd": 1, "lost": 1, "utf8": 0, "dump": 1}
    page.equal(page.value("Object.keys(EXAMPLES)"), list(wanted), "the examples")
    for name, count in wanted.items():
        page.value(f"document.querySelector('[data-example={name}]').click()")
        page.done(name)
        page.equal(page.value("report.count"), count, f"the errors of the example {name}")
        if page.value("shown.isStream"):
            page.click("random")
            page.equal(page.text("joined"), page.text("preview"), f"the example {name}, cut at random")
            page.click("try")
            page.test((tally(page) or 0) > 30, f"many cuttings of {name}: {page.text('tally')}")


def given_files(page):
    """A file that is dropped or pasted."""
    for event, field in (("DragEvent('drop'", "dataTransfer"), ("ClipboardEvent('paste'", "clipboardData")):
        for name, plain in (("given.1.txt", "given.1"), (".txt", ".txt"), ("given", "given")):
            page.value(
                "document.body.dataset.state = 'busy'; var all = new DataTransfer();"
                f"all.items.add(new File([Uint8Array.of(0, 0x61, 0xdc, 0, 0, 0x62)], '{name}'));"
                f"document.dispatchEvent(new {event}, {{{field}: all, cancelable: true}}))"
            )
            page.done("a file that was given")
            page.equal(page.text("preview"), "a\ufffdb", f"the text of a file by {event}")
            saved = page.value("byId('save-utf8').download")
            page.equal(saved, f"{plain}.utf8.txt", f"the name for {name}")
            page.equal(page.value("byId('file').value"), "", "the file that was chosen before")


def looks(page):
    """Both themes in a narrow and a wide window, with each example."""
    grounds = set()
    for width, theme in itertools.product((360, 1280), ("light", "dark")):
        size = {"height": 900, "deviceScaleFactor": 1, "mobile": False}
        page.browser.call("Emulation.setDeviceMetricsOverride", width=width, **size)
        site_browser.theme(page.browser, theme)
        for name in page.value("Object.keys(EXAMPLES).reverse()"):
            page.value(f"document.querySelector('[data-example={name}]').click()")
            page.done(name)
            found = page.value("document.documentElement.scrollWidth")
            page.test(found <= width, f"{name}: the page is {found} pixels wide in a window of {width}")
        grounds.add(page.value("getComputedStyle(document.body).backgroundColor"))
        contrasts(page, theme)
    page.equal(len(grounds), 2, "the grounds of two themes")


def contrasts(page, theme):
    """The colours of text have a contrast of 4.5, and edges of controls of 3, by WCAG 2."""
    pairs = itertools.product(("text", "quiet", "accent", "good", "bad"), ("ground", "card"))
    for front, back in (*pairs, ("bad", "bad-ground"), *(("text", f"tint-{it}") for it in range(4))):
        found = contrast(luminance(page, front), luminance(page, back))
        page.test(found >= 4.5, f"the contrast of {front} on {back} in the {theme} theme is {found:.2f}")
    found = contrast(luminance(page, "edge"), luminance(page, "ground"))
    page.test(found >= 3, f"the contrast of edges in the {theme} theme is {found:.2f}")


def contrast(one, other):
    return (max(one, other) + 0.05) / (min(one, other) + 0.05)


def luminance(page, name):
    """The relative luminance of a colour of the page, by WCAG 2."""
    style = "getComputedStyle(document.documentElement)"
    digits = page.value(f"{style}.getPropertyValue('--{name}')").strip("# ")
    digits = digits if len(digits) == 6 else "".join(it * 2 for it in digits)
    parts = [int(digits[at : at + 2], 16) / 255 for at in (0, 2, 4)]
    linear = [it / 12.92 if it <= 0.04045 else ((it + 0.055) / 1.055) ** 2.4 for it in parts]
    return sum(it * weight for it, weight in zip(linear, (0.2126, 0.7152, 0.0722)))


def unsupported(page):
    """An engine without vectors gets a clear message."""
    script = page.browser.call(
        "Page.addScriptToEvaluateOnNewDocument", source="WebAssembly.validate = () => false"
    )
    page.browser.open(page.address)
    page.wait("!document.getElementById('trouble').hidden", "the message")
    page.says("trouble", "SIMD")
    page.browser.call("Page.removeScriptToEvaluateOnNewDocument", identifier=script["identifier"])


def names(page):
    """Each control has a name, and the headline is that of docs/HEADLINE.md."""
    nameless = page.value(
        "[...document.querySelectorAll('button, input, select, textarea, progress, [role=slider]')]"
        ".filter(it => !(it.ariaLabel || it.textContent.trim() || it.labels?.length)).length"
    )
    page.equal(nameless, 0, "controls without a name")
    sentence = re.search(r"^> (.*)$", (TOP / "docs/HEADLINE.md").read_text(), re.MULTILINE)[1]
    page.equal(page.value("document.querySelector('blockquote').textContent"), sentence, "the headline")


def requests(page):
    """The page's policy refuses even a request that asks nobody. The console says so."""
    page.value(
        "window.went = ''; fetch('data:,text').then(() => went = 'went', () => went = 'refused')"
    )
    page.wait("went", "the request")
    page.equal(page.value("went"), "refused", "a request")


def errors(page):
    """What the console and the network said; a blob is of the page itself."""
    said = [it for it in page.browser.errors() if not it.startswith("requests blob:")]
    page.equal(said, [], "errors on the console")


def run(page, room):
    page.browser.call("Browser.setDownloadBehavior", behavior="allow", downloadPath=str(room))
    page.browser.call("DOM.enable")
    page.open()
    print(f"the page was ready after {page.value('document.body.dataset.ready')} ms")
    parts = (known_bytes, reasons, late_error, forms_of_the_field, dumps, unreadable, one_offset, windows)
    parts += (keyboard, moved_cuts, pending_bytes, dragged_cuts, examples, names, given_files)
    parts += (answers_that_come_late,)
    for part in parts:
        part(page)
        errors(page)
    parts = (unpaired_surrogates, short_files, wrong_orders, utf8_files, shifted_files, many_errors)
    for part in (*parts, changed_line_ends, stopped_file, files_in_turn, files_that_go):
        part(page, room)
        errors(page)
    looks(page)
    errors(page)
    unsupported(page)
    errors(page)
    requests(page)


def main():
    with tempfile.TemporaryDirectory(ignore_cleanup_errors=True) as folder:
        room = pathlib.Path(folder)
        path = room / "page.html"
        build.write(path)
        browser = site_browser.Browser(room / "profile")
        page = Page(browser, path)
        size = path.stat().st_size
        page.test(size < MOST_BYTES, f"the page has {size} bytes")
        try:
            browser.attach()
            run(page, room)
        except RuntimeError as error:
            page.test(False, error)
        finally:
            browser.close()
    print(f"{page.passed} passed, {page.failed} failed")
    return 1 if page.failed else 0


if __name__ == "__main__":
    sys.exit(main())
