"""A headless Chromium for tests, driven over a pipe by the DevTools protocol, with the standard library alone."""
import base64
import contextlib
import fcntl
import itertools
import json
import os
import select
import shutil
import signal
import subprocess
import tempfile
import time
import unittest
from collections.abc import Callable
from typing import Any

NAMES = ("chromium", "chromium-browser", "google-chrome")
# Chromium has its pipes at the descriptors 3 and 4, below this one.
FIRST_FREE = 10
SECONDS = 60.0
# The keys that tests press: their codes, and the text that a key types.
KEYS = {"Tab": (9, ""), "Enter": (13, "\r"), "Escape": (27, ""), "ArrowLeft": (37, ""), "End": (35, "")}
WORDS = ("--headless=new", "--remote-debugging-pipe", "--no-first-run", "--no-default-browser-check", "--disable-gpu", "--disable-extensions", "--disable-sync", "--disable-component-update",
         "--disable-background-networking", "--disable-dev-shm-usage", "--hide-scrollbars", "--force-device-scale-factor=1")


def find_chromium() -> str:
    """The path of Chromium. SkipTest, with what to do: there is none."""
    for name in NAMES:
        if path := shutil.which(name):
            return path
    raise unittest.SkipTest("NO BROWSER, SO THE PAGE WAS NOT LOOKED AT: `apt-get install chromium` installs one")


class BrowserFault(Exception):
    """The browser did not do what it was asked to."""


class Chromium:
    """A browser with one tab. `events` has what the tab reported."""

    def __init__(self, program: str) -> None:
        self.folder = tempfile.mkdtemp()
        ours_to_write, ours_to_read = self._start(program)
        self.writer, self.reader = open(ours_to_write, "wb", buffering=0), open(ours_to_read, "rb", buffering=0)
        self.octets, self.numbers, self.session = b"", itertools.count(1), ""
        self.events: list[dict[str, Any]] = []
        target = self.call("Target.createTarget", url="about:blank")["targetId"]
        self.session = self.call("Target.attachToTarget", targetId=target, flatten=True)["sessionId"]
        for domain in ("Network", "Page", "Runtime", "Log", "Accessibility"):
            self.call(f"{domain}.enable")

    def _start(self, program: str) -> tuple[int, int]:
        """Starts it: it reads commands from its descriptor 3, and writes to 4. The other ends of both pipes."""
        pipes = [os.pipe(), os.pipe()]
        ends = [fcntl.fcntl(end, fcntl.F_DUPFD_CLOEXEC, FIRST_FREE) for end in (pipes[0][0], pipes[1][1])]
        words = [program, *WORDS, f"--user-data-dir={self.folder}", *(["--no-sandbox"] if os.getuid() == 0 else [])]
        self.process = subprocess.Popen(["bash", "-c", f'exec "$@" 3<&{ends[0]} 4>&{ends[1]}', "bash", *words], pass_fds=ends, process_group=0,
                                        stdin=subprocess.DEVNULL, stdout=subprocess.DEVNULL, stderr=subprocess.DEVNULL)
        for end in (pipes[0][0], pipes[1][1], *ends):
            os.close(end)
        return pipes[0][1], pipes[1][0]

    def call(self, method: str, **params: Any) -> dict[str, Any]:
        """The result of a method. BrowserFault: it failed, or the browser has ended, or does not answer in time."""
        number = next(self.numbers)
        message = {"id": number, "method": method, "params": params, **({"sessionId": self.session} if self.session else {})}
        self.writer.write(json.dumps(message).encode() + b"\0")
        until = time.monotonic() + SECONDS
        while True:
            for answer in self._messages(until):
                if answer.get("id") == number:
                    if "error" in answer:
                        raise BrowserFault(f"{method}: {answer['error']}")
                    result: dict[str, Any] = answer["result"]
                    return result

    def _messages(self, until: float) -> list[dict[str, Any]]:
        """The next messages; the events among them are kept. BrowserFault: there are none in time."""
        if not select.select([self.reader], [], [], max(0.0, until - time.monotonic()))[0]:
            raise BrowserFault("no answer in time")
        piece = self.reader.read(1 << 20)
        if not piece:
            raise BrowserFault("the browser has ended")
        *whole, self.octets = (self.octets + piece).split(b"\0")
        messages: list[dict[str, Any]] = [json.loads(it) for it in whole]
        self.events += [it for it in messages if "method" in it]
        return messages

    def open(self, url: str, width: int = 1280, height: int = 900, dark: bool = False) -> None:
        """Opens a page in a window of a size, and waits until it is loaded."""
        self.resize(width, height)
        self.call("Emulation.setEmulatedMedia", features=[{"name": "prefers-color-scheme", "value": "dark" if dark else "light"}])
        self.call("Page.navigate", url=url)
        self.wait_for("document.readyState === 'complete'")

    def resize(self, width: int, height: int) -> None:
        """Changes the size of the window."""
        self.call("Emulation.setDeviceMetricsOverride", width=width, height=height, deviceScaleFactor=1, mobile=width < 600)

    def evaluate(self, expression: str) -> Any:
        """The value of an expression in the page. BrowserFault: it raised an exception."""
        done = self.call("Runtime.evaluate", expression=expression, returnByValue=True, awaitPromise=True)
        if "exceptionDetails" in done:
            raise BrowserFault(f"{expression}: {done['exceptionDetails']}")
        return done["result"].get("value")

    def text(self, selector: str) -> str:
        """The text that is shown of an element, in one line; empty if there is no such element."""
        return " ".join(str(self.evaluate(f"document.querySelector({json.dumps(selector)})?.innerText ?? ''")).split())

    def wait_for(self, expression: str, seconds: float = 30.0) -> None:
        """Waits until an expression holds. BrowserFault: it does not in time."""
        self.wait_until(lambda: bool(self.evaluate(f"Boolean({expression})")), expression, seconds)

    def wait_until(self, holds: Callable[[], bool], said: str, seconds: float = 30.0) -> None:
        """Waits until a condition holds. BrowserFault: it does not in time."""
        until = time.monotonic() + seconds
        while not holds():
            if time.monotonic() > until:
                raise BrowserFault(f"not in {seconds:.0f} s: {said}; the page shows: {self.text('body')[:2000]}")
            time.sleep(0.1)

    def press(self, key: str) -> None:
        """Presses a key, and lets it go."""
        code, text = KEYS[key]
        for kind in ("keyDown", "keyUp"):
            more = {"text": text} if text and kind == "keyDown" else {}
            self.call("Input.dispatchKeyEvent", type=kind, key=key, code=key, windowsVirtualKeyCode=code, **more)

    def picture(self) -> bytes:
        """What is shown, as a PNG."""
        return base64.b64decode(self.call("Page.captureScreenshot", format="png")["data"])

    def requested(self) -> list[str]:
        """The addresses that the page asked for."""
        return [it["params"]["request"]["url"] for it in self.events if it["method"] == "Network.requestWillBeSent"]

    def complaints(self) -> list[str]:
        """Exceptions of scripts, and what the browser reported as an error, as a file that a rule forbids."""
        thrown = [str(it["params"]["exceptionDetails"]) for it in self.events if it["method"] == "Runtime.exceptionThrown"]
        return thrown + [it["params"]["entry"]["text"] for it in self.events if it["method"] == "Log.entryAdded" and it["params"]["entry"]["level"] == "error"]

    def close(self) -> None:
        """Ends the browser, and the processes that it started."""
        with contextlib.suppress(BrowserFault, OSError):
            self.session = ""
            self.call("Browser.close")
        try:
            self.process.wait(10)
        except subprocess.TimeoutExpired:
            os.killpg(self.process.pid, signal.SIGKILL)
            self.process.wait()
        self.writer.close()
        self.reader.close()
        shutil.rmtree(self.folder, ignore_errors=True)
