"""The observers of a served site, for `trials/watch-hour`: a hub, and everything that looks at a site through it, at once and without a pause."""
import contextlib
import json
import os
import pathlib
import pty
import subprocess
import sys
import threading
import time
import urllib.error
import urllib.request
from collections.abc import Callable, Iterator, Sequence

from temzaar.console import Console, ReplyFrame
from temzaar.faults import ToolFault
from temzaar.hub.lines import HUB_LISTS
from temzaar.hubconsole import HubConsole
from temzaar.ports import free_ports
from temzaar.process import ends_with_parent
from temzaar.script import SessionFault

TOOLS = pathlib.Path(__file__).resolve().parent.parent / "tools"
# What the page asks, and every how many seconds (python/temzaar/hub/page/board.js).
PAGE = {"/v1/state.json": 1.0, "/v1/calls.json?last=15": 2.0, "/v1/radios.json": 10.0, "/v1/history.json?span=hour": 10.0}
MACHINE, SCRAPER = {"/v1/site.json": 1.0}, {"/metrics": 5.0}
# What each of the two operators asks, in turn, a line each second.
LINES = (("status", "slots", "calls 0", "who"), ("radios 0", "lines 1", "calls 3", "history"))
LINE_SECONDS = 1.0
# Seconds that the hub has to start, an answer to come, and an observer to end.
STARTING, ANSWER, ENDING = 60.0, 30.0, 30.0
CONFIG = """[controller]
site_file = "{site}"
[line_port]
socket = "{room}/console.sock"
[roles]
full_users = [{user}]
[audit]
file = "{room}/audit.jsonl"
[http]
port = {port}
"""


class Observer(threading.Thread):
    """An observer: how many answers it received, and what went wrong. `look` looks at the site, and returns how many answers it received."""

    def __init__(self, name: str, look: Callable[[], int], end: Callable[[], object] = lambda: None) -> None:
        """Starts it. `end` wakes it up if it waits within `look`."""
        super().__init__(daemon=True)
        self.name, self.look, self.end = name, look, end
        self.answers, self.stopped = 0, threading.Event()
        self.faults: list[str] = []
        self.start()

    def run(self) -> None:
        while not self.stopped.is_set():
            try:
                self.answers += self.look()
            except (OSError, ValueError, ToolFault) as fault:
                if not self.stopped.is_set():
                    self.faults.append(str(fault))
                    self.stopped.wait(1)

    def stop(self) -> None:
        """Ends it."""
        self.stopped.set()
        self.end()
        self.join(ENDING)


class Asking:
    """A client of the hub's HTTP port that asks each path at its own interval, with the tag of the last answer, as the page does."""

    def __init__(self, port: int, paths: dict[str, float]) -> None:
        self.base, self.paths = f"http://127.0.0.1:{port}", paths
        self.due = dict.fromkeys(paths, time.monotonic())
        self.tags: dict[str, str] = {}

    def look(self) -> int:
        """Asks what is due, or waits for a moment. How many answers came. OSError: one did not come."""
        path = min(self.due, key=self.due.__getitem__)
        if (left := self.due[path] - time.monotonic()) > 0:
            time.sleep(min(left, 0.2))
            return 0
        self.due[path] += self.paths[path]
        request = urllib.request.Request(self.base + path, headers={"If-None-Match": self.tags[path]} if path in self.tags else {})
        try:
            with urllib.request.urlopen(request, timeout=ANSWER) as answer:
                octets, self.tags[path] = answer.read(), answer.headers.get("ETag", "")
        except urllib.error.HTTPError as fault:
            with fault:
                if fault.code != 304:
                    raise
            return 1
        if path.startswith("/v1/state.json") and not json.loads(octets)["controller"]["up"]:
            raise SessionFault("the controller is away")
        if not self.tags[path]:
            del self.tags[path]
        return 1


class Operator:
    """A `console` client whose standard input gets a line each second."""

    def __init__(self, socket: str, lines: Sequence[str]) -> None:
        self.lines, self.asked = lines, 0
        self.process = subprocess.Popen([TOOLS / "console", "--socket", socket, "--seconds", str(ANSWER)], stdin=subprocess.PIPE, stdout=subprocess.PIPE, preexec_fn=ends_with_parent())

    def look(self) -> int:
        """Asks the next line, reads its reply, and waits for the next second. ConsoleFault or OSError: there is none."""
        assert self.process.stdin and self.process.stdout
        line = self.lines[self.asked % len(self.lines)].encode()
        self.asked += 1
        self.process.stdin.write(line + b"\n")
        self.process.stdin.flush()
        frame = ReplyFrame(line, HUB_LISTS)
        while True:
            piece = self.process.stdout.readline()
            if not piece:
                raise SessionFault(f"the client ended at '{line.decode()}'")
            if piece.startswith(b"error"):
                raise SessionFault(piece.decode().strip())
            if frame.take(piece.rstrip(b"\n")):
                break
        time.sleep(LINE_SECONDS)
        return 1

    def close(self) -> None:
        """Ends the client."""
        self.process.terminate()
        self.process.wait()


class Viewer:
    """A `siteview` on a terminal of its own, which is read as it draws."""

    def __init__(self, socket: str) -> None:
        self.socket, self.is_closed, self.last = socket, False, b""
        self.start()

    def start(self) -> None:
        """Starts it."""
        self.terminal, inner = pty.openpty()
        environment = {**os.environ, "TERM": "xterm", "COLUMNS": "120", "LINES": "40"}
        self.process = subprocess.Popen([TOOLS / "siteview", "--hub", self.socket], stdin=inner, stdout=inner, stderr=inner, env=environment, preexec_fn=ends_with_parent())
        os.close(inner)

    def look(self) -> int:
        """Reads what it draws. How many pictures that were. SessionFault: it ended, and was started again."""
        try:
            octets = os.read(self.terminal, 65536)
        except OSError as fault:
            self.process.wait()
            os.close(self.terminal)
            if not self.is_closed:
                self.start()
            raise SessionFault(self.last.decode("utf-8", "replace").strip().rpartition("\n")[2]) from fault
        self.last = octets
        return octets.count(b"\x1b[H")

    def close(self) -> None:
        """Leaves it."""
        self.is_closed = True
        self.process.terminate()
        self.process.wait()


def wait_for_hub(socket: str, hub: subprocess.Popen[bytes]) -> None:
    """Waits until the hub answers with the controller's status. SessionFault: it does not in time."""
    until = time.monotonic() + STARTING
    while time.monotonic() < until and hub.poll() is None:
        with contextlib.suppress(OSError, ToolFault), HubConsole(socket) as console:
            if status_of(console).startswith("status"):
                return
        time.sleep(0.2)
    raise SessionFault("the hub does not answer")


def status_of(console: Console) -> str:
    """The first line of the reply to `status`."""
    return console.ask("status")[0]


@contextlib.contextmanager
def observe(room: str, site: str) -> Iterator[tuple[list[Observer], int]]:
    """A hub on the console of a site, by its file, and all observers; the number of the hub's process. All of them end at the end."""
    config, socket, port = pathlib.Path(room, "hub.toml"), f"{room}/console.sock", free_ports(1)
    config.write_text(CONFIG.format(site=site, room=room, user=os.getuid(), port=port), encoding="utf-8")
    with open(f"{room}/hub-notes.txt", "wb") as notes:
        hub = subprocess.Popen([sys.executable, TOOLS / "hub", "--config", config], stdin=subprocess.DEVNULL, stderr=notes, preexec_fn=ends_with_parent())
    with contextlib.ExitStack() as stack:
        stack.callback(hub.wait)
        stack.callback(hub.terminate)
        wait_for_hub(socket, hub)
        viewer, operators = Viewer(socket), [Operator(socket, lines) for lines in LINES]
        for it in (viewer, *operators):
            stack.callback(it.close)
        observers = [Observer("siteview", viewer.look, viewer.close)]
        observers += [Observer(f"console {number}", it.look, it.close) for number, it in enumerate(operators, 1)]
        observers += [Observer(name, Asking(port, paths).look) for name, paths in (("page", PAGE), ("site.json", MACHINE), ("metrics", SCRAPER))]
        yield observers, hub.pid
