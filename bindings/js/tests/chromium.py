#!/usr/bin/env python3
"""Runs a file of the package's tests in headless Chromium, which has no options for it.

    bindings/js/tests/chromium.py FOLDER FILE

The folder has the installed package in node_modules, these tests, and in cases.json what
cases/to_json.py prints. A server on this machine gives it to the browser. Prints what failed, and
last a line 'N passed, M failed'. It is a failure if nothing comes from the browser for a minute.
CHROMIUM names another program."""

import functools
import http.server
import pathlib
import re
import sys
import tempfile
import threading

sys.dont_write_bytecode = True
sys.path.insert(0, str(pathlib.Path(__file__).resolve().parents[3] / ".ci"))

import site_browser  # noqa: E402

# The most seconds for a test, on a machine that does other things too.
site_browser.PATIENCE = 60
COUNTS = re.compile(r"(\d+) passed, (\d+) failed")


class Handler(http.server.SimpleHTTPRequestHandler):
    """Gives files, with the headers that a page needs to have a SharedArrayBuffer."""

    def end_headers(self):
        self.send_header("Cross-Origin-Opener-Policy", "same-origin")
        self.send_header("Cross-Origin-Embedder-Policy", "require-corp")
        super().end_headers()

    def log_message(self, *_):
        """Says nothing."""


def said(browser, address):
    """Opens a page, and yields what it says, each time with the kind: log, debug or thrown."""
    found = browser.call("Page.navigate", url=address)
    if "errorText" in found:
        raise RuntimeError(found["errorText"])
    while True:
        event = browser.events.pop(0) if browser.events else browser.next()
        if event["method"] == "Runtime.exceptionThrown":
            details = event["params"]["exceptionDetails"]
            yield "thrown", details.get("exception", {}).get("description") or details["text"]
        if event["method"] == "Runtime.consoleAPICalled":
            words = (str(it.get("value")) for it in event["params"]["args"])
            yield event["params"]["type"], " ".join(words)


def run(browser, address):
    """Prints what a page of tests says, and returns how many passed and failed."""
    failed, running = 0, "the page"
    try:
        browser.attach()
        for kind, text in said(browser, address):
            if kind == "debug":
                running = text
            elif kind == "thrown":
                failed += 1
                print(f"in Chromium: failed: {running}: {text}")
            elif counts := COUNTS.fullmatch(text):
                return int(counts[1]), int(counts[2]) + failed
            else:
                print(f"in Chromium: {text}")
    except RuntimeError as error:
        print(f"in Chromium: failed: {running}: {error}")
    return 0, failed + 1


def main(folder, file):
    handler = functools.partial(Handler, directory=folder)
    server = http.server.ThreadingHTTPServer(("127.0.0.1", 0), handler)
    threading.Thread(target=server.serve_forever, daemon=True).start()
    address = f"http://127.0.0.1:{server.server_port}/tests/chromium.html?{file}"
    with tempfile.TemporaryDirectory(ignore_cleanup_errors=True) as profile:
        browser = site_browser.Browser(profile)
        try:
            passed, failed = run(browser, address)
        finally:
            browser.close()
    print(f"{passed} passed, {failed} failed")
    return 1 if failed else 0


if __name__ == "__main__":
    if len(sys.argv) != 3:
        sys.exit("usage: bindings/js/tests/chromium.py FOLDER FILE")
    sys.exit(main(*sys.argv[1:]))
