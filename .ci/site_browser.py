"""Headless Chromium, for bindings/js/tests/chromium.py and site/test.py. CHROMIUM names another
program."""

import json
import os
import select
import subprocess
import time

# The seconds that a page, or an answer, may take.
PATIENCE = 20
# The errors that Chromium logs, by the events that it sends.
SAYS = {
    "Runtime.exceptionThrown": lambda it: it["exceptionDetails"]["text"],
    "Runtime.consoleAPICalled": lambda it: it["type"] == "error" and str(it["args"]),
    "Log.entryAdded": lambda it: it["entry"]["level"] == "error" and it["entry"]["text"],
    "Network.loadingFailed": lambda it: f"a request failed: {it['errorText']}",
    "Network.requestWillBeSent": lambda it: not it["request"]["url"].startswith(("file:", "data:"))
    and f"requests {it['request']['url']}",
}


class Browser:
    """Chromium, with commands and events as lines that end with a zero byte, by its DevTools."""

    def __init__(self, room):
        program = os.environ.get("CHROMIUM", "chromium")
        theirs, self.to = os.pipe()
        self.come, ours = os.pipe()
        # The protocol is on the files 3 and 4.
        command = f'exec "$@" 3<&{theirs} 4>&{ours}'
        options = ["--headless", "--remote-debugging-pipe", f"--user-data-dir={room}"]
        options += ["--no-first-run", "--disable-gpu", "--disable-dev-shm-usage"]
        options += ["--no-sandbox"] if os.geteuid() == 0 else []
        self.process = subprocess.Popen(
            ["bash", "-c", command, "bash", program, *options, "about:blank"],
            pass_fds=(theirs, ours),
            stdout=subprocess.DEVNULL,
            stderr=subprocess.DEVNULL,
        )
        os.close(theirs)
        os.close(ours)
        self.count, self.read, self.events, self.session = 0, b"", [], None

    def attach(self):
        """Opens a window whose events come to this program."""
        target = self.call("Target.createTarget", url="about:blank")["targetId"]
        found = self.call("Target.attachToTarget", targetId=target, flatten=True)
        self.session = found["sessionId"]
        for it in ("Page", "Runtime", "Log", "Network"):
            self.call(f"{it}.enable")

    def call(self, method, **parameters):
        """Returns the result of a command; events that come before it are kept."""
        self.count += 1
        message = {"id": self.count, "method": method, "params": parameters}
        if self.session:
            message["sessionId"] = self.session
        os.write(self.to, json.dumps(message).encode() + b"\0")
        while (found := self.next()).get("id") != self.count:
            self.events.append(found)
        if "error" in found:
            raise RuntimeError(f"{method}: {found['error']['message']}")
        return found["result"]

    def next(self):
        """Returns the next message."""
        end = time.monotonic() + PATIENCE
        while b"\0" not in self.read:
            ready, _, _ = select.select([self.come], [], [], max(end - time.monotonic(), 0))
            more = os.read(self.come, 1 << 16) if ready else b""
            if not more:
                raise RuntimeError("Chromium does not answer")
            self.read += more
        message, _, self.read = self.read.partition(b"\0")
        return json.loads(message)

    def open(self, address):
        """Loads a page, and keeps its events."""
        self.events = []
        self.call("Page.navigate", url=address)
        while not any(it.get("method") == "Page.loadEventFired" for it in self.events):
            self.events.append(self.next())

    def value(self, expression):
        found = self.call("Runtime.evaluate", expression=expression, returnByValue=True)
        return found["result"].get("value")

    def errors(self):
        """What the last page said in errors."""
        said = (SAYS[it["method"]](it["params"]) for it in self.events if it.get("method") in SAYS)
        return [it for it in said if it]

    def close(self):
        self.process.kill()
        self.process.wait()


def theme(browser, name):
    features = [{"name": "prefers-color-scheme", "value": name}]
    browser.call("Emulation.setEmulatedMedia", features=features)
