"""The site of `trials/incidents`: base stations that can lose their power, fall silent or flood,
radios that call, the controller with its records, and the hub."""
import contextlib
import os
import pathlib
import re
import signal
import socket
import subprocess
import sys
import threading
import time
import urllib.error
import urllib.request
from collections import Counter, deque
from collections.abc import Callable, Iterator
from enum import Enum

from temzaar import code, pdus
from temzaar.cli.siteview import picture_rows, plain_text
from temzaar.console import ConsoleFault
from temzaar.frames import POLL, TO_CARRIER, Cutter, FrameType, Link, active, hello
from temzaar.hubconsole import HubConsole
from temzaar.pdus import Pdu, granted_parties, is_grant, is_late
from temzaar.picture import Ages, take_picture
from temzaar.ports import free_ports
from temzaar.process import Controller, ends_with_parent
from temzaar.sitefile import FREE_PORTS, Row, Site

TOP = pathlib.Path(__file__).resolve().parent.parent
# Seconds between two polls, those that a station waits for an answer, and from a lost connection to
# the next try.
PERIOD, ANSWER, AGAIN = 0.060, 1.0, 0.5
# How many bursts of noise a station that floods hands in with each poll.
FLOOD = 200
# Seconds after which systemd starts a service again, as its unit says.
RESTART = 2.0
CONFIG = """[controller]
site_file = "{folder}/site.toml"
name = "North"
[records]
file = "{folder}/state/site.db"
[line_port]
socket = "{folder}/console.sock"
[roles]
full_users = [{user}]
[audit]
file = "{folder}/audit/audit.jsonl"
[http]
port = {port}
[health]
records = "yes"
"""


class Does(Enum):
    """What a base station does."""

    SERVES = "polls, each 60 ms"
    DEAD = "has lost its power: its connection stays open, and nothing comes"
    FLOODS = "hands in noise without end"
    HALF = "hands in bursts, and does not poll"


class Air:
    """The radios: those that registered, and the calls that were granted, in which radios talk.
    While they are silent, grants are not taken."""

    def __init__(self, site: Site) -> None:
        self.site, self.by_lpcn = site, site.by_lpcn()
        self.registered: set[int] = set()
        self.granted: dict[tuple[int, int], tuple[int, int]] = {}
        self.grants: list[tuple[int, int, int, int]] = []
        self.requests: deque[bytes] = deque()
        self.are_silent = False

    def register(self, radio: int) -> None:
        """A radio asks to be registered."""
        self.requests.append(
            pdus.random_access(
                pdus.REGISTRATION, self.site.plan["regi"], radio, self.site.register_options()
            )
        )

    def call(self, radio: int, group: int) -> None:
        """A radio calls a talkgroup."""
        self.requests.append(pdus.random_access(pdus.TALKGROUP_VOICE, group, radio))

    def receive(self, pdu: Pdu, carrier: int, slot: int) -> None:
        """A PDU came on a slot of a carrier."""
        if pdu.name == "C_ACKD" and pdu["reason"] == pdus.REG_ACCEPTED:
            self.registered.add(pdu["target"])
        elif is_grant(pdu) and not is_late(pdu) and not self.are_silent:
            key, parties = (self.by_lpcn[pdu["lpcn"]], pdu["slot"]), granted_parties(pdu)
            if self.granted.get(key) != (parties.source, parties.target):
                self.grants.append((*key, parties.source, parties.target))
            self.granted[key] = parties.source, parties.target
        elif pdu.name == "P_CLEAR":
            self.granted.pop((carrier, slot), None)


class Station(threading.Thread):
    """A base station: it connects until it is welcome, and does what `does` says. `answered` is
    when its last poll was answered."""

    def __init__(self, site: Site, row: Row, air: Air) -> None:
        super().__init__(daemon=True)
        self.site, self.row, self.air, self.number = site, row, air, row["number"]
        self.does, self.ends, self.answered, self.longest = Does.SERVES, False, 0.0, 0.0
        self.start()

    def run(self) -> None:
        while not self.ends:
            try:
                with socket.create_connection(
                    (self.site.address, self.row["port"]), ANSWER
                ) as stream:
                    stream.settimeout(ANSWER)
                    self._serve(stream)
            except OSError:
                time.sleep(AGAIN)

    def _serve(self, stream: socket.socket) -> None:
        """Serves on one connection, until the station's power comes back. OSError: it ended."""
        link, cutter = Link(self.site.link_version), Cutter(TO_CARRIER)
        stream.sendall(hello(self.number, self.row["lpcn"], self.site.link_version))
        while not self.ends:
            began = time.monotonic()
            if self.does == Does.DEAD:
                while self.does == Does.DEAD and not self.ends:
                    time.sleep(0.01)
                return
            frames = b"".join(
                active(slot) for slot in (0, 1) if (self.number, slot) in self.air.granted
            )
            if self.does in (Does.FLOODS, Does.HALF):
                frames += b"".join(
                    link.rx(0, bytes(code.BURST_OCTETS))
                    for _ in range(FLOOD if self.does == Does.FLOODS else 1)
                )
            elif self.number == self.site.control and self.air.requests:
                frames += link.rx(0, code.burst_of(self.air.requests.popleft()))
            stream.sendall(frames + (POLL if self.does != Does.HALF else b""))
            if self.does != Does.HALF:
                self._take(stream, link, cutter)
                self.answered, self.longest = time.monotonic(), max(
                    self.longest, time.monotonic() - began
                )
            time.sleep(max(0.0, began + PERIOD - time.monotonic()))

    def _take(self, stream: socket.socket, link: Link, cutter: Cutter) -> None:
        """Takes the answer to a poll. OSError: there is none."""
        while octets := stream.recv(4096):
            for frame in cutter.feed(octets):
                if (
                    frame.kind == FrameType.TX
                    and (burst := link.take_tx(frame))
                    and (word := code.octets_of(burst.word))
                ):
                    self.air.receive(pdus.read(word), self.number, burst.slot)
                elif frame.kind == FrameType.DONE:
                    return
        raise ConnectionError("the controller ended the connection")


class Scene:
    """A site of four carriers, the hub, and what an operator looks at. `folder` has its files:
    `state` the records, `audit` the audit log."""

    def __init__(self, program: str, folder: pathlib.Path) -> None:
        self.program, self.folder, self.port = program, folder, free_ports(1)
        self.site = Site(
            str(TOP / "sites" / "sixteen_carriers.toml"),
            carriers=4,
            first_port=FREE_PORTS,
            term_entries=700,
        )
        for name in ("state", "audit"):
            folder.joinpath(name).mkdir(exist_ok=True)
        self.write_site()
        folder.joinpath("hub.toml").write_text(
            CONFIG.format(folder=folder, user=os.getuid(), port=self.port), encoding="utf-8"
        )
        self.notes: list[str] = []
        # how often each line was there at the last `begin`
        self.before: dict[str, Counter[str]] = {}
        self.controller = self.start_controller()
        self.air = Air(self.site)
        self.hub_notes = open(folder / "hub.notes", "w+", encoding="utf-8")
        self.hub = self.start_hub("--config", str(folder / "hub.toml"), stderr=self.hub_notes)
        self.stations = {row["number"]: Station(self.site, row, self.air) for row in self.site.rows}

    def write_site(self) -> None:
        """Writes the site file."""
        self.folder.joinpath("site.toml").write_text(self.site.text(), encoding="utf-8")

    def start_controller(self) -> Controller:
        """The controller, once it listens."""
        controller = Controller(
            self.program, self.site, (), {"STATE_DIRECTORY": str(self.folder / "state")}
        )
        controller.wait_until_served()
        return controller

    def restart(self, stop: Callable[[subprocess.Popen[str]], None], seconds: float) -> None:
        """Ends the controller, and starts it again after some seconds."""
        stop(self.controller.process)
        self.controller.process.wait(10)
        time.sleep(seconds)
        self.notes.extend(self.controller.notes)
        self.controller.stop()
        self.controller = self.start_controller()

    def start_hub(self, *words: str, **options: object) -> subprocess.Popen[str]:
        """A hub, with these words."""
        line = [sys.executable, str(TOP / "tools" / "hub"), *words]
        return subprocess.Popen(  # type: ignore[call-overload,no-any-return]
            line, stdin=subprocess.DEVNULL, text=True, preexec_fn=ends_with_parent(), **options
        )

    def stop(self) -> None:
        """Ends all of it."""
        for it in self.stations.values():
            it.ends = True
        self.hub.terminate()
        self.hub.wait(20)
        self.hub_notes.close()
        for it in self.stations.values():
            it.join(5)
        self.controller.stop()

    # ---- what an operator looks at

    def get(self, path: str) -> str:
        """The hub's answer to a request, with its status unless that is 200; empty without one."""
        try:
            with urllib.request.urlopen(f"http://127.0.0.1:{self.port}{path}", timeout=2) as answer:
                return str(answer.read().decode())
        except urllib.error.HTTPError as fault:
            with fault:
                return f"{fault.code} {fault.read().decode()}"
        except OSError:
            return ""

    def value(self, metric: str) -> float:
        """The value of a metric without labels; 0 if it is not there."""
        found = re.search(rf"^{metric} (\S+)$", self.get("/metrics"), re.M)
        return float(found[1]) if found else 0.0

    def siteview(self) -> str:
        """What `dmr_siteview` shows."""
        try:
            with HubConsole(str(self.folder / "console.sock"), 2.0) as console:
                return plain_text(
                    picture_rows(take_picture(console), console.site_name(), Ages(), 0)
                )
        except ConsoleFault as fault:
            return str(fault)

    def console(self, line: str, socket_path: str = "") -> str:
        """The reply to a line, through a hub."""
        try:
            with HubConsole(socket_path or str(self.folder / "console.sock"), 3.0) as console:
                return "\n".join(console.ask(line))
        except ConsoleFault as fault:
            return str(fault)

    def callbook(self) -> str:
        """What `dmr_callbook` prints of the last ten calls, and below them."""
        words = [
            sys.executable,
            str(TOP / "tools" / "callbook"),
            "--records",
            str(self.folder / "state" / "site.db"),
            "--last",
            "10",
        ]
        done = subprocess.run(words, capture_output=True, text=True, check=False, timeout=30)
        return done.stdout + done.stderr

    def look_since(self, source: str) -> str:
        """The lines of a place that were not there at the last `begin`."""
        before, since = Counter(self.before.get(source)), []
        for it in self.look(source).splitlines():
            before[it] -= 1
            if before[it] < 0:
                since.append(it)
        return "\n".join(since)

    def begin(self) -> float:
        """Begins an incident: what notes and records have already is not of it. The time."""
        self.before = {
            it: Counter(self.look(it).splitlines())
            for it in ("note", "hub's note", "audit log", "history", "events", "callbook")
        }
        return time.monotonic()

    def look(self, source: str) -> str:
        """The text of a place at which an operator looks."""
        looks: dict[str, Callable[[], str]] = {
            "page": lambda: self.get("/v1/state.json"),
            "/healthz": lambda: self.get("/healthz"),
            "/metrics": lambda: self.get("/metrics"),
            "siteview": self.siteview,
            "console": lambda: self.console("status"),
            "history": lambda: self.console("history"),
            "events": lambda: self.console("events 100"),
            "callbook": self.callbook,
            "calls.json": lambda: self.get("/v1/calls.json?last=20"),
            "note": lambda: "\n".join([*self.notes, *self.controller.notes]),
            "hub's note": lambda: self.folder.joinpath("hub.notes").read_text(encoding="utf-8"),
            "audit log": lambda: self.folder.joinpath("audit", "audit.jsonl").read_text(
                encoding="utf-8"
            ),
        }
        return looks[source]()

    def wait_until(self, holds: Callable[[], object], seconds: float) -> bool:
        """Waits until something holds. Whether it did in time."""
        until = time.monotonic() + seconds
        while not holds():
            if time.monotonic() > until:
                return False
            time.sleep(0.05)
        return True

    def is_quiet(self) -> bool:
        """Whether all carriers are up, the hub reports no fault, and no call is active."""
        return (
            self.get("/healthz").strip() == "ok"
            and self.console("status").split()[1:3] == ["carriers", "4"]
            and not self.air.granted
        )


def kill(process: subprocess.Popen[str]) -> None:
    """Ends a process at once."""
    process.send_signal(signal.SIGKILL)


@contextlib.contextmanager
def filled(folder: pathlib.Path) -> Iterator[None]:
    """A full file system."""
    filler = folder / "filler"
    with open(filler, "wb", buffering=0) as it, contextlib.suppress(OSError):
        for size in (4096, 1):
            with contextlib.suppress(OSError):
                while True:
                    it.write(bytes(size))
    try:
        yield
    finally:
        filler.unlink()
