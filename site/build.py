#!/usr/bin/env python3
"""Writes the page that checks and repairs files: one file, with the module and the binding in it.

    site/build.py FILE [BACK]

BACK is the address of a page that the page links to. The page's policy forbids each request, and
each program but its own.
"""

import base64
import gzip
import hashlib
import html
import pathlib
import re
import sys

HERE = pathlib.Path(__file__).resolve().parent
TOP = HERE.parent
BINDING = ("calls.js", "machine.js", "shapes.js", "streams.js", "load.js")
# The parts of the page's script. The first defines what the others share; the last starts the page.
SCRIPTS = ("common", "paste", "items", "strip", "cuts", "chunks", "report", "page")
IMPORT = re.compile(r"^import [^;]*;\n", re.MULTILINE)
NAMES = "instantiate, stringOf, unitsOf"
# The phrase of the headline that the page shows.
SHOWN = "and resuming by it, over every cutting of a stream, yields the text of the stream's one split."


def read(path):
    return path.read_text(encoding="utf-8")


def binding():
    """Returns the modules of the binding as one script, which defines `dethrux`."""
    modules = (IMPORT.sub("", read(TOP / "bindings/js" / it)) for it in BINDING)
    text = re.sub(r"^export ", "", "\n".join(modules), flags=re.MULTILINE)
    return f'"use strict";\nconst dethrux = (() => {{\n{text}\nreturn {{ {NAMES} }};\n}})();\n'


def module():
    """Returns the module, compressed and in base64."""
    packed = gzip.compress((TOP / "dist/wasm/dethrux.wasm").read_bytes(), 9, mtime=0)
    return base64.b64encode(packed).decode()


def headline():
    """Returns the headline of docs/HEADLINE.md, with the phrase marked that the page shows."""
    sentence = re.search(r"^> (.*)$", read(TOP / "docs/HEADLINE.md"), re.MULTILINE)[1]
    if not sentence.endswith(SHOWN):
        sys.exit("site/build.py: the headline ends with another phrase")
    before = html.escape(sentence.removesuffix(SHOWN), quote=False)
    return f"{before}<mark>{html.escape(SHOWN, quote=False)}</mark>"


def hashed(text):
    """Returns the source of a policy that allows this text."""
    digest = hashlib.sha256(text.encode()).digest()
    return f"'sha256-{base64.b64encode(digest).decode()}'"


def policy(style, *scripts):
    """Returns a policy that allows these, WebAssembly, and a worker of the page's own text."""
    sources = " ".join(map(hashed, scripts))
    return (
        f"default-src 'none'; style-src {hashed(style)}; worker-src blob:; "
        f"script-src {sources} 'wasm-unsafe-eval'; base-uri 'none'; form-action 'none'"
    )


def page(back=None):
    """Returns the page."""
    style, bound = read(HERE / "style.css"), binding()
    script = "\n".join(read(HERE / f"{it}.js") for it in SCRIPTS)
    link = f'<a href="{html.escape(back)}">Dethrux</a>' if back else "Dethrux"
    parts = {
        "policy": html.escape(policy(style, bound, script), quote=False),
        "style": style,
        "back": link,
        "headline": headline(),
        "version": read(TOP / "VERSION").strip(),
        "module": module(),
        "worker": read(HERE / "worker.js"),
        "binding": bound,
        "page": script,
    }
    for name in ("style", "worker", "binding", "page"):
        if "</" in parts[name]:
            sys.exit(f"site/build.py: </ in {name} could end its element")
    return re.sub(r"\{(\w+)\}", lambda it: parts[it[1]], read(HERE / "page.html"))


def write(path, back=None):
    """Writes the page to a file."""
    path = pathlib.Path(path)
    path.parent.mkdir(parents=True, exist_ok=True)
    path.write_text(page(back), encoding="utf-8")


if __name__ == "__main__":
    if len(sys.argv) not in (2, 3):
        sys.exit("usage: site/build.py FILE [BACK]")
    write(*sys.argv[1:])
