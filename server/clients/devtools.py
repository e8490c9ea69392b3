"""Drives a headless Chromium by the DevTools protocol, over two pipes: a message is JSON with a zero byte after it."""
import fcntl
import json
import os
import pathlib
import select
import subprocess
import time

from connection import Wrong
from server import PROCESSES

PROGRAM = "chromium"
SECONDS = 20
STEP_SECONDS = 0.05
HIGH = 20  # From here on a descriptor is neither 3 nor 4, which are those of Chromium.
FLAGS = [
    "--headless=new", "--no-sandbox", "--no-first-run", "--no-default-browser-check", "--remote-debugging-pipe",
    "--disable-gpu", "--disable-dev-shm-usage", "--disable-extensions", "--disable-sync", "--disable-breakpad",
    "--disable-background-networking", "--disable-component-update", "--disable-default-apps", "--hide-scrollbars",
    "--force-color-profile=srgb", "--host-resolver-rules=MAP * ~NOTFOUND, EXCLUDE 127.0.0.1",
]


class Refused(Wrong):
    """Chromium answers a call with an error. While a page is loaded that may only mean that it is too early."""


def high_pipe() -> tuple[int, int]:
    ends = os.pipe()
    high = tuple(fcntl.fcntl(it, fcntl.F_DUPFD_CLOEXEC, HIGH) for it in ends)
    for it in ends:
        os.close(it)
    return high


class Browser:
    """A Chromium that runs. `folder` is for what it keeps, and its HOME."""

    def __init__(self, folder: pathlib.Path):
        requests, self.to = high_pipe()
        self.since, replies = high_pipe()
        self.received = b""
        self.calls = 0
        script = f'exec "$@" 3<&{requests} 4>&{replies}'
        command = ["bash", "-c", script, "bash", PROGRAM, *FLAGS, f"--user-data-dir={folder}", "about:blank"]
        self.process = PROCESSES.start(
            command, stdout=subprocess.DEVNULL, stderr=subprocess.DEVNULL, pass_fds=(requests, replies),
            env={**os.environ, "HOME": str(folder)},
        )
        os.close(requests)
        os.close(replies)

    def end(self):
        PROCESSES.end(self.process)
        os.close(self.to)
        os.close(self.since)

    def call(self, method: str, session: str | None = None, **parameters) -> dict:
        """Calls a method of the protocol and returns its result. Events are dropped."""
        self.calls += 1
        message = {"id": self.calls, "method": method, "params": parameters}
        if session:
            message["sessionId"] = session
        os.write(self.to, json.dumps(message).encode() + b"\0")
        end = time.monotonic() + SECONDS
        while (answer := self.message(method, end)).get("id") != self.calls:
            pass
        if "error" in answer:
            raise Refused(f"Chromium refuses {method}: {answer['error']}")
        return answer["result"]

    def message(self, method: str, end: float) -> dict:
        while b"\0" not in self.received:
            if not select.select([self.since], [], [], max(0, end - time.monotonic()))[0]:
                raise Wrong(f"Chromium has not answered {method} within {SECONDS} s")
            piece = os.read(self.since, 1 << 16)
            if not piece:
                raise Wrong(f"Chromium ended before it answered {method}")
            self.received += piece
        message, _, self.received = self.received.partition(b"\0")
        return json.loads(message)


class Tab:
    """A tab of a browser. Without `has_scripts` no page in it runs one."""

    def __init__(self, browser: Browser, has_scripts: bool = True):
        self.browser = browser
        self.target = browser.call("Target.createTarget", url="about:blank")["targetId"]
        self.session = browser.call("Target.attachToTarget", targetId=self.target, flatten=True)["sessionId"]
        if not has_scripts:
            self.call("Emulation.setScriptExecutionDisabled", value=True)

    def __enter__(self):
        return self

    def __exit__(self, *_):
        self.browser.call("Target.closeTarget", targetId=self.target)

    def call(self, method: str, **parameters) -> dict:
        return self.browser.call(method, self.session, **parameters)

    def open(self, url: str):
        self.call("Page.navigate", url=url)
        self.await_(f"location.href === {json.dumps(url)} && document.readyState === 'complete'")

    def value(self, expression: str):
        """The value of an expression in JavaScript."""
        got = self.call("Runtime.evaluate", expression=expression, returnByValue=True)
        if "exceptionDetails" in got:
            raise Refused(f"{expression}: {got['exceptionDetails']}")
        return got["result"].get("value")

    def await_(self, expression: str):
        """Waits until an expression is true."""
        end = time.monotonic() + SECONDS
        got = None
        while time.monotonic() < end:
            try:
                if got := self.value(expression):
                    return
            except Refused as refused:
                got = refused
            time.sleep(STEP_SECONDS)
        text = self.value("document.body.innerText")
        raise Wrong(f"expected {expression} within {SECONDS} s, got {got!r} on the page\n{text}")

    def choose(self, selector: str, *files: pathlib.Path):
        """Chooses files in an input."""
        found = self.call("Runtime.evaluate", expression=f"document.querySelector({json.dumps(selector)})")
        names = [str(it) for it in files]
        self.call("DOM.setFileInputFiles", files=names, objectId=found["result"]["objectId"])

    def drop(self, *files: pathlib.Path):
        """Drags files onto the page and drops them."""
        data = {"items": [], "files": [str(it) for it in files], "dragOperationsMask": 1}
        for kind in ("dragEnter", "dragOver", "drop"):
            self.call("Input.dispatchDragEvent", type=kind, x=100, y=100, data=data)
