"""A play in which things go wrong. Carriers break off, send no frames, stop reading or fall silent, and an operator behaves no better. The controller
is stopped and continued, and kept short of descriptors and memory.

Everything is drawn from a seed, and counted. Each connection that the controller ends must be one that it had to end. Each poll on another connection
is answered. After the trouble, everybody is served as if there had been none.
"""
import re
import resource
import selectors
import signal
import socket
import struct
import time
from argparse import Namespace
from collections import Counter, deque

from temzaar.frames import POLL, TO_CARRIER, Cutter, Frame, FrameType, Link, hello, rx
from temzaar.player import PERIOD, Backoff, Play, Sign
from temzaar.process import Controller
from temzaar.sitefile import Row, Site
from temzaar.sitekeys import WAIT_MS

# Seconds without trouble, at the beginning and at the end.
WARM_UP, QUIET = 8.0, 15.0
# How many octets of address space the controller may gain once the trouble begins, and how many KiB of memory it may have gained when it is over.
MORE_ADDRESSES, MORE_MEMORY = 64 * 1024 * 1024, 16 * 1024
# How many polls may wait for their answers.
MOST_AWAITED = 100
# Seconds within which the controller has to end a connection that it has to end.
SOON = 10.0
# Seconds within which the buffers of the controller's system are full of what the control carrier or an operator is sent.
FLOOD = 180.0
# Octets that the controller reads from a connection in a frame. It answers two octets of a POLL by as many of a DONE.
READ_IN_A_FRAME = 512
# How many times longer silence may take than the plan's time. The controller counts the time that a port waits, and none does while a term ends. While a
# carrier floods the site, terms of 5,000 entries end about once a second.
SLOWED = 2

NO_FRAMES = (
    b"\x06", b"\x01\x01", POLL[:1] + b"\x01", b"\x04\x01\x02", hello(0, 1), b"\xff" * 300,
    rx(0, b"\xff" * 25), rx(0, b"\xff" * 25, 0), rx(2, bytes(25), 0),
)


def received_octets(stream: socket.socket) -> bytes | None:
    """The octets that a connection has now; none if it has ended, and `None` if there are none yet."""
    try:
        return stream.recv(65536)
    except BlockingIOError:
        return None
    except OSError:
        return b""


def kept_at_most() -> int:
    """The most octets that the system keeps for a connection until its peer reads them. With bbr as congestion control it keeps them even if the peer reads none."""
    try:
        with open("/proc/sys/net/ipv4/tcp_wmem", encoding="ascii") as numbers:
            return int(numbers.read().split()[2])
    except (OSError, ValueError, IndexError):
        return 4 << 20


class TroubledCarrier:
    """A carrier and its connections, one after another."""

    KINDS = ("broken off", "no frame", "deaf", "never reads", "silent", "slow", "refused", "a stranger knocks")

    def __init__(self, play: "TroubledPlay", row: Row, due: float) -> None:
        self.play, self.row, self.number, self.lpcn = play, row, row["number"], row["lpcn"]
        self.random, self.counts = play.random, play.counts
        self.stream: socket.socket | None = None
        self.stranger: socket.socket | None = None
        self.stranger_goes = 0.0
        # when each poll without a DONE was sent
        self.awaited: deque[float] = deque()
        self.due, self.connects_at, self.welcomed, self.sent = due, 0.0, False, 0.0
        # when HELLO was sent, and since when, at the earliest, what is sent now can have waited
        self.hello_at, self.queued_since = 0.0, 0.0
        # what is wrong with the connection, until when, and why the controller has to end it
        self.trouble: str | None = None
        self.until = 0.0
        self.must_end: str | None = None
        self.down_since = time.perf_counter()
        self.cutter, self.link, self.again, self.backoff = Cutter(TO_CARRIER), Link(play.version), b"", Backoff(play.site.plan)

    def connect(self, small: bool = False, version: int | None = None) -> None:
        """Opens a connection; `small` keeps the buffers of both systems small, and `version` is another one for the HELLO."""
        self.stream = socket.socket()
        if small:
            self.stream.setsockopt(socket.IPPROTO_TCP, socket.TCP_MAXSEG, 536)
            self.stream.setsockopt(socket.SOL_SOCKET, socket.SO_RCVBUF, 4096)
        self.stream.settimeout(10)
        self.stream.connect((self.play.site.address, self.row["port"]))
        self.stream.setsockopt(socket.IPPROTO_TCP, socket.TCP_NODELAY, 1)
        self.stream.setblocking(False)
        self.play.selector.register(self.stream, selectors.EVENT_READ, self)
        self.counts["connections"] += 1
        self.hello_at = time.perf_counter()
        self.cutter, self.link, self.again, self.backoff = Cutter(TO_CARRIER), Link(self.play.version), b"", Backoff(self.play.site.plan)
        self.send(hello(self.number, self.lpcn, self.play.version if version is None else version))

    def close(self, reason: str, now: float, reset: bool = False) -> None:
        """Ends the connection. Polls without an answer are lost with it."""
        if self.stream is None:
            return
        self.play.selector.unregister(self.stream)
        if reset:
            self.stream.setsockopt(socket.SOL_SOCKET, socket.SO_LINGER, struct.pack("ii", 1, 0))
        self.stream.close()
        self.counts[f"polls lost, {reason}"] += len(self.awaited)
        if self.welcomed:
            self.down_since = self.sent
        self.awaited.clear()
        self.stream, self.welcomed, self.trouble, self.must_end = None, False, None, None
        self.connects_at = now + self.random.uniform(0.0, 1.0)

    def send(self, octets: bytes) -> None:
        """Sends as many of the octets as there is room for."""
        assert self.stream
        try:
            self.stream.send(octets)
        except BlockingIOError:
            pass

    def poll(self, now: float) -> None:
        """Sends what the carrier hears in a frame, and a poll."""
        assert self.stream
        frames = self.play.frames_heard(self, now)
        self.await_answer()
        self.stream.sendall(frames + POLL)

    def await_answer(self) -> None:
        """Counts a poll that is being sent."""
        self.backoff.poll()
        self.awaited.append(time.perf_counter())
        self.counts["polls"] += 1

    def begin_trouble(self, kind: str, now: float) -> None:
        """Starts a trouble on a connection that is in order."""
        self.counts[f"trouble: {kind}"] += 1
        if kind == "broken off":
            octets = self.link.rx(0, bytes(25))
            self.send(octets[:self.random.randrange(1, len(octets))])
            self.close(kind, now, reset=self.random.random() < 0.5)
        elif kind == "no frame":
            self.send(self.random.choice((*NO_FRAMES, rx(0, bytes(25), 0 if self.link.version == 1 else None))))
            self.trouble = self.must_end = kind
            self.until = now + SOON
        elif kind == "deaf":
            self.trouble, self.until = kind, now + self.random.uniform(0.5, 4.0)
        elif kind == "never reads":
            self.close("its carrier came again", now)
            self.connect(small=True)
            self.trouble = self.must_end = kind
            # another carrier than the control carrier is sent DONEs alone, which fill the buffers slowly
            dones = 0.0 if self.number == self.play.site.control else kept_at_most() / READ_IN_A_FRAME * PERIOD
            self.until = now + FLOOD + dones
        elif kind == "silent":
            self.trouble = self.must_end = kind
            self.until = now + self.play.site.plan["silence"] * WAIT_MS / 1000 * SLOWED + SOON
        elif kind == "slow":
            self.await_answer()
            self.send(POLL[:1])
            self.trouble, self.until = kind, now + self.random.uniform(0.1, 2.0)
        elif kind == "refused":
            self.close("its carrier came again", now)
            self.connect(version=self.random.choice((0, self.play.site.link_version + 1)))
            self.trouble = self.must_end = kind
            self.until = now + SOON
        else:
            self.stranger = socket.create_connection((self.play.site.address, self.row["port"]))
            self.stranger_goes = now + self.random.uniform(0.0, 3.0)

    def act(self, now: float) -> None:
        """Does what is due now."""
        if self.stranger and now > self.stranger_goes:
            self.stranger.close()
            self.stranger = None
        if self.stream is None:
            if now >= self.connects_at:
                self.connect()
            return
        try:
            self.act_connected(now)
        except OSError:
            self.controller_ended(now)

    def act_connected(self, now: float) -> None:
        """Does what is due on a connection. OSError: the controller has ended it."""
        if self.trouble == "never reads":
            self.send(POLL * 2000)
        elif self.trouble == "slow" and now > self.until:
            self.send(POLL[1:])
            self.trouble = None
        elif self.trouble == "deaf" and now > self.until:
            self.trouble = None
        if self.must_end and now > self.until:
            self.play.faults[f"connections that were not ended: {self.must_end}"] += 1
            self.close("not ended", now)
        elif now >= self.due and self.trouble in (None, "deaf") and self.welcomed:
            self.due = max(self.due + PERIOD, now)
            if len(self.awaited) < MOST_AWAITED:
                self.poll(now)
            else:
                self.counts["polls that were late"] += 1

    def controller_ended(self, now: float) -> None:
        """The controller ended the connection."""
        if self.must_end:
            self.counts[f"ended as it had to be: {self.must_end}"] += 1
        else:
            self.play.faults["connections that the controller ended for no reason"] += 1
        self.close(self.must_end or "for no reason", now)

    def receive(self, now: float) -> None:
        """Processes the octets received."""
        if self.trouble in ("deaf", "never reads"):
            return
        assert self.stream
        octets = received_octets(self.stream)
        if octets is None:
            return
        if not octets:
            self.controller_ended(now)
            return
        received = time.perf_counter()
        for frame in self.cutter.feed(octets):
            self.receive_frame(frame, received)
        if self.cutter.fault:
            self.play.faults[f"streams with {self.cutter.fault.value}"] += 1
            self.close("a stream that cannot be read", now)

    def receive_frame(self, frame: Frame, received: float) -> None:
        """Takes a frame."""
        if frame.kind == FrameType.TX and self.awaited:
            self.sent = self.awaited[0]
            self.play.receive_tx(self, frame, received)
        elif frame.kind == FrameType.DONE and self.awaited:
            self.sent = self.awaited.popleft()
            self.backoff.awaited.popleft()
            self.play.times.append(received - self.sent)
        elif frame.kind == FrameType.WELCOME and not self.welcomed and frame.body[0] == self.link.version:
            self.welcomed = True
            # the calls of a carrier that was lost have ended
            for slot in (0, 1):
                loss = Sign(False, (), self.down_since, received)
                self.play.signs[self.number, slot].append(loss)
            self.sent, self.queued_since = received, self.hello_at
        elif frame.kind == FrameType.REFUSED and self.must_end == "refused":
            self.counts["refusals read"] += 1
        else:
            self.play.faults[f"frames of type {frame.kind:02X} that were not to come"] += 1


class TroubledOperator:
    """An operator who asks, and now and then sends what is not a command, breaks off, or does not read."""

    # a line, how its reply begins, and whether that is a list
    ASKS = (
        (b"status\n", "status carriers ", False), (b"slots\n", "slot 0 0 ", True), (b"radios 1\n", "radio ", True),
        (b"calls 0\n", "call ", True), (b"hello\n", "error unknown command", False), (b"a" * 81 + b"\n", "error line too long", False),
    )

    def __init__(self, play: "TroubledPlay") -> None:
        self.play, self.random, self.counts = play, play.random, play.counts
        self.stream: socket.socket | None = None
        self.buffer, self.next_at, self.until, self.status = b"", 0.0, 0.0, ""
        self.asked: tuple[bytes, str, bool] | None = None
        # whether he does not read any more, until the controller ends the connection
        self.deaf = False

    def connect(self) -> None:
        """Opens a connection."""
        self.stream = socket.create_connection((self.play.site.address, self.play.site.console_port))
        self.stream.setblocking(False)
        self.play.selector.register(self.stream, selectors.EVENT_READ, self)
        self.buffer, self.asked, self.deaf = b"", None, False
        self.counts["operators' connections"] += 1

    def act(self, now: float, quiet: bool) -> None:
        """Does what is due now, four times a second; nothing wrong while it is `quiet`."""
        if now < self.next_at:
            return
        self.next_at = now + 0.25
        if self.deaf:
            self.ask_without_reading(now)
            return
        try:
            if self.stream is None:
                self.connect()
            elif self.asked is None:
                self.ask(now, quiet)
            elif now > self.until:
                self.play.faults["operators' lines without an answer"] += 1
                self.close()
        except OSError:
            self.play.faults["operators' connections that the controller ended"] += 1
            self.close()

    def ask(self, now: float, quiet: bool) -> None:
        """Sends a line, or stops reading, or breaks off within a line."""
        assert self.stream
        if not quiet and self.random.random() < 0.01:
            self.counts["operators who read nothing"] += 1
            self.deaf, self.until = True, now + FLOOD
        elif not quiet and self.random.random() < 0.05:
            self.stream.send(b"status")
            self.close()
            self.counts["operators' lines broken off"] += 1
        else:
            self.asked = self.ASKS[0] if quiet else self.random.choice(self.ASKS)
            self.until = now + SOON + 5
            self.stream.send(self.asked[0])
            self.counts["operators' lines"] += 1

    def ask_without_reading(self, now: float) -> None:
        """Asks and does not read, until the controller ends the connection."""
        assert self.stream
        try:
            self.stream.send(b"slots\n" * 2000)
        except BlockingIOError:
            pass
        except OSError:
            self.counts["operators who read nothing, ended"] += 1
            self.close()
            return
        if now > self.until:
            self.play.faults["operators who read nothing and were not ended"] += 1
            self.close()

    def close(self) -> None:
        """Ends the connection."""
        if self.stream:
            self.play.selector.unregister(self.stream)
            self.stream.close()
        self.stream, self.deaf = None, False

    def receive(self, _now: float) -> None:
        """Processes the octets received."""
        if self.deaf or self.stream is None:
            return
        octets = received_octets(self.stream)
        if octets is None:
            return
        if not octets:
            self.play.faults["operators' connections that the controller ended"] += 1
            self.close()
            return
        self.buffer += octets
        lines = self.buffer.decode().split("\n")
        if self.asked is None or (lines[-2:] != ["end", ""] if self.asked[2] else len(lines) < 2):
            return
        if not (lines[0].startswith(self.asked[1]) or self.asked[2] and lines[0] == "end"):
            self.play.faults[f"operators' lines that were answered otherwise: {lines[0]}"] += 1
        if self.asked[0] == b"status\n":
            self.status = lines[0]
        self.counts["operators' lines answered"] += 1
        self.buffer, self.asked = b"", None


class TroubledPlay(Play):
    """A play in which things go wrong, one at a time and together, and that ends quietly."""

    def __init__(self, site: Site, options: Namespace, controller: Controller) -> None:
        super().__init__(site, options)
        self.controller, self.selector, self.random = controller, selectors.DefaultSelector(), self.radios.random
        self.stopped_until: float | None = None
        self.few_until: float | None = None
        self.next_trouble, self.next_stop, self.next_few = 0.0, 0.0, 0.0
        # the controller's memory and descriptors when the trouble begins, and at the end
        self.begun: tuple[int, int] | None = None
        self.over: tuple[int, int] | None = None

    def limit(self, what: int, most: int) -> None:
        """Sets a limit of the controller's process."""
        resource.prlimit(self.controller.pid, what, (most, resource.prlimit(self.controller.pid, what)[1]))

    def run(self) -> float:
        began = time.monotonic()
        carriers = [TroubledCarrier(self, row, began + PERIOD * n / len(self.site.rows)) for n, row in enumerate(self.site.rows)]
        operator = TroubledOperator(self)
        starts, calms, ends = began + WARM_UP, began + self.options.seconds - QUIET, began + self.options.seconds
        self.next_stop = self.next_few = starts
        while (now := time.monotonic()) < ends:
            quiet = not starts < now < calms
            if not quiet:
                if self.begun is None:
                    self.begun = self.controller.memory(), self.controller.descriptors()
                    self.limit(resource.RLIMIT_AS, self.controller.addresses() + MORE_ADDRESSES)
                self.make_trouble(carriers, now)
            self.end_trouble(carriers, now, now >= calms)
            for carrier in carriers:
                carrier.act(now)
            operator.act(now, quiet)
            for key, _ in self.selector.select(0.005):
                if key.fileobj is key.data.stream:
                    key.data.receive(now)
        self.drain(carriers)
        self.over = self.controller.memory(), self.controller.descriptors()
        self.look_back(carriers, operator)
        return time.monotonic() - began

    def make_trouble(self, carriers: list[TroubledCarrier], now: float) -> None:
        """Starts a trouble on a carrier; now and then the controller is stopped, or has no descriptor left."""
        if now >= self.next_trouble:
            self.next_trouble = now + self.random.expovariate(self.options.troubles)
            carrier = self.random.choice(carriers)
            kind = self.random.choice(carrier.KINDS)
            # one at a time floods the site: more would make terms so short that ports seldom wait, and silence takes longer than the tool allows
            flooded = kind == "never reads" and any(it.trouble == kind for it in carriers)
            if carrier.welcomed and carrier.trouble is None and carrier.stranger is None and not flooded:
                carrier.begin_trouble(kind, now)
        if now >= self.next_stop and self.stopped_until is None:
            self.counts["times the controller was stopped"] += 1
            self.controller.process.send_signal(signal.SIGSTOP)
            self.stopped_until = now + self.random.uniform(0.1, 2.0)
            self.next_stop = now + self.random.uniform(5.0, 25.0)
        if now >= self.next_few and self.few_until is None:
            self.counts["times no descriptor was left"] += 1
            self.limit(resource.RLIMIT_NOFILE, self.controller.descriptors())
            self.few_until = now + self.random.uniform(0.5, 3.0)
            self.next_few = now + self.random.uniform(10.0, 40.0)

    def end_trouble(self, carriers: list[TroubledCarrier], now: float, quiet: bool) -> None:
        """Ends the trouble whose time is up; all of it once it is to be `quiet`."""
        for carrier in carriers:
            if quiet and carrier.trouble == "never reads":
                carrier.close("its carrier came again", now)
        if self.stopped_until is not None and (quiet or now >= self.stopped_until):
            self.controller.process.send_signal(signal.SIGCONT)
            self.stopped_until = None
        if self.few_until is not None and (quiet or now >= self.few_until):
            self.limit(resource.RLIMIT_NOFILE, 1024)
            self.few_until = None

    def drain(self, carriers: list[TroubledCarrier]) -> None:
        """Waits for the answers that are still to come."""
        until = time.monotonic() + 5
        while any(carrier.awaited for carrier in carriers) and time.monotonic() < until:
            for key, _ in self.selector.select(0.1):
                key.data.receive(time.monotonic())

    def look_back(self, carriers: list[TroubledCarrier], operator: TroubledOperator) -> None:
        """Counts what is wrong once nothing has gone wrong for a while."""
        assert self.begun and self.over
        self.faults["carriers that are not up in the end"] += sum(not carrier.welcomed for carrier in carriers)
        self.faults["polls without an answer"] += sum(len(carrier.awaited) for carrier in carriers)
        self.faults["radios that are not registered in the end"] += sum(not radio.registered for radio in self.radios.radios.values())
        if not operator.status.startswith(f"status carriers {len(carriers)} radios {len(self.radios.radios)} "):
            self.faults[f"last word of the controller: {operator.status}"] += 1
        self.faults["KiB more held in the end than allowed"] += max(0, self.over[0] - self.begun[0] - MORE_MEMORY)
        self.faults["descriptors more in the end"] += max(0, self.over[1] - self.begun[1])
        for carrier in carriers:
            carrier.close("the end", time.monotonic())
        lost = sum(count for name, count in self.counts.items() if name.startswith("polls lost, "))
        self.faults["polls neither answered nor lost"] += abs(self.counts["polls"] - len(self.times) - lost)
        for note in self.controller.notes:
            what = re.search(r"(disconnected: .*|term ended|cannot take connections|takes connections again)", note)
            if what:
                self.counts[f"noted: {what[1]}"] += 1

    def judge(self) -> Counter[str]:
        self.check_slots()
        return +self.faults

    def print_ends(self) -> None:
        """Prints the controller's memory and descriptors before and after."""
        assert self.begun and self.over
        print(f"seed {self.options.seed}; memory {self.begun[0]} KiB at the beginning, {self.over[0]} KiB at the end; descriptors {self.begun[1]} and {self.over[1]}")
