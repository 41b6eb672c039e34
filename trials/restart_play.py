"""The player of `trials/restart`: carriers that poll fast, and radios that join, leave and call talkgroups. It notes what it asks and what it sees, with times."""
import random
import time
from collections.abc import Callable

from restart_checks import Change, PlayedCall
from temzaar import code, pdus
from temzaar.frames import POLL, TO_CARRIER, Cutter, FrameType, Link, active, hello
from temzaar.pdus import Pdu, granted_parties, is_grant, is_late
from temzaar.process import connect
from temzaar.sitefile import Row, Site

# Seconds from one poll of a carrier to the next, and those for which a carrier waits for an answer at least, whatever the controller does.
PERIOD, LATEST = 0.015, 5.0
# Reasons of acknowledgements that `pdus` does not name.
MESSAGE_ACCEPTED, QUEUED, NOT_REGISTERED = 0x60, 0xA0, 0x2D
# Milliseconds after which a radio that hears no answer may do something else.
PATIENCE_MS = 2_000


def now_ms() -> int:
    """The time, in milliseconds since 1970."""
    return time.time_ns() // 1_000_000


class Gone(Exception):
    """The controller has ended the connection."""


class PlayedCarrier:
    """A carrier's connection: it polls, and waits for the answer."""

    def __init__(self, site: Site, row: Row, patience: float) -> None:
        self.number = row["number"]
        self.stream = connect(site.address, row["port"])
        self.stream.settimeout(patience)
        self.link, self.cutter = Link(site.link_version), Cutter(TO_CARRIER)
        self.longest = 0.0
        self.stream.sendall(hello(row["number"], row["lpcn"], site.link_version))

    def poll(self, before: bytes) -> list[tuple[int, bytes]]:
        """Sends frames and a poll, and returns the bursts of the answer, each with its slot. Gone: there is none."""
        began = time.monotonic()
        found = []
        try:
            self.stream.sendall(before + POLL)
            while True:
                octets = self.stream.recv(4096)
                if not octets:
                    raise Gone("the connection ended")
                for frame in self.cutter.feed(octets):
                    if frame.kind == FrameType.TX and (burst := self.link.take_tx(frame)):
                        found.append((burst.slot, burst.word))
                    elif frame.kind == FrameType.DONE:
                        self.longest = max(self.longest, time.monotonic() - began)
                        return found
        except OSError as fault:
            raise Gone(str(fault)) from fault

    def close(self) -> None:
        """Ends the connection."""
        self.stream.close()


class Player:
    """A run of the site: `registered` are the radios that it begins with, in the order of joining, and `patience` the seconds that it waits for anything."""

    def __init__(self, site: Site, radios: list[int], registered: list[int], seed: int, patience: float = LATEST) -> None:
        self.site, self.radios, self.random, self.patience = site, radios, random.Random(seed), patience
        self.registered = set(registered)
        self.changes: list[Change] = []
        self.calls: list[PlayedCall] = []
        # the open call of each slot, the pending change of each radio, and until when a radio does nothing else
        self.open: dict[tuple[int, int], PlayedCall] = {}
        self.pending: dict[int, Change] = {}
        self.busy: dict[int, int] = {}
        self.refused: list[tuple[int, int]] = []
        self.by_lpcn = site.by_lpcn()
        self.carriers = [PlayedCarrier(site, row, patience) for row in site.rows]
        self.to_send: list[bytes] = []
        # the end of the last step, and the longest time from one to the next: so late the player may have seen what the controller did
        self.stepped_ms, self.late_ms = now_ms(), 0

    def step(self, asks: bool = True) -> None:
        """A poll of each carrier. Without `asks` no radio asks anything of its own accord. Gone: the controller has ended."""
        for carrier in self.carriers:
            frames = b"".join(active(slot) for slot in (0, 1) if (carrier.number, slot) in self.open and self.random.random() < 0.1)
            if carrier.number == self.site.control and (octets := self.next_request(asks)):
                frames += carrier.link.rx(0, code.burst_of(octets))
            for slot, word in carrier.poll(frames):
                octets = code.octets_of(word)
                if octets is not None:
                    self.receive(pdus.read(octets), carrier.number, slot)
        stepped_ms = now_ms()
        self.stepped_ms, self.late_ms = stepped_ms, max(self.late_ms, stepped_ms - self.stepped_ms)

    def play(self, seconds: float, asks: bool = True) -> None:
        """Plays for some seconds. Gone: the controller has ended."""
        until = time.monotonic() + seconds
        while time.monotonic() < until:
            began = time.monotonic()
            self.step(asks)
            time.sleep(max(0.0, began + PERIOD - time.monotonic()))

    def next_request(self, asks: bool) -> bytes | None:
        """What some radio sends on the control slot; None for nothing."""
        if self.to_send:
            return self.to_send.pop()
        chance = self.random.random()
        self.pending = {radio: it for radio, it in self.pending.items() if it.asked_ms > now_ms() - PATIENCE_MS}
        free = [it for it in self.radios if it not in self.pending and self.busy.get(it, 0) < now_ms()]
        if not asks or chance > 0.5 or not free:
            return None
        radio = self.random.choice(free)
        if radio not in self.registered:
            return self.change(radio, joins=True)
        return self.change(radio, joins=False) if chance < 0.05 else self.call(radio)

    def change(self, radio: int, joins: bool) -> bytes:
        """The request of a radio that joins or leaves."""
        change = Change(radio, joins, now_ms())
        self.changes.append(change)
        self.pending[radio] = change
        return pdus.random_access(pdus.REGISTRATION, self.site.plan["regi"], radio, self.site.register_options() if joins else 0)

    def call(self, radio: int, group: int | None = None) -> bytes:
        """The request of a radio that calls a talkgroup."""
        self.busy[radio] = now_ms() + PATIENCE_MS
        return pdus.random_access(pdus.TALKGROUP_VOICE, group or self.random.choice(self.site.plan["groups"]), radio)

    def receive(self, pdu: Pdu, carrier: int, slot: int) -> None:
        """A PDU came on a slot."""
        if pdu.name == "C_ACKD":
            self.acknowledge(pdu)
        elif is_grant(pdu) and not is_late(pdu):
            parties = granted_parties(pdu)
            call = PlayedCall(parties.is_group, parties.source, parties.target, self.by_lpcn[pdu["lpcn"]], pdu["slot"], now_ms())
            was = self.open.get((call.carrier, call.slot))
            # another radio that asks for a talkgroup in use is sent the grant of its call again
            if was is None or was.key != call.key:
                self.calls.append(call)
                self.open[call.carrier, call.slot] = call
        elif pdu.name == "P_CLEAR" and (carrier, slot) in self.open:
            call = self.open.pop((carrier, slot))
            call.cleared_ms = now_ms()

    def acknowledge(self, pdu: Pdu) -> None:
        """An acknowledgement came: of a change, or a refusal."""
        radio, reason = pdu["target"], pdu["reason"]
        change = self.pending.get(radio)
        if change and pdu["additional"] == self.site.plan["regi"] and reason == (pdus.REG_ACCEPTED if change.joins else MESSAGE_ACCEPTED):
            change.answered_ms = now_ms()
            del self.pending[radio]
            (self.registered.add if change.joins else self.registered.discard)(radio)
        elif reason not in (QUEUED, pdus.REG_ACCEPTED, MESSAGE_ACCEPTED):
            self.refused.append((radio, reason))

    def is_granted(self, radio: int, group: int) -> bool:
        """Whether a call request of a radio is granted, while no other radio asks. Gone: the controller has ended."""
        self.to_send.append(self.call(radio, group))
        return self.wait_for(lambda: any(it.source == radio and it.target == group for it in self.calls))

    def is_refused(self, radio: int, group: int, reason: int) -> bool:
        """Whether a call request of a radio is refused for a reason, while no other radio asks. Gone: the controller has ended."""
        self.to_send.append(self.call(radio, group))
        return self.wait_for(lambda: (radio, reason) in self.refused)

    def wait_for(self, condition: Callable[[], bool], asks: bool = False) -> bool:
        """Plays until a condition holds. Whether it did in time. Gone: the controller has ended."""
        until = time.monotonic() + self.patience
        while not condition() and time.monotonic() < until:
            self.step(asks)
            time.sleep(PERIOD)
        return condition()

    def longest(self) -> float:
        """The longest time of an answer to a poll, in seconds."""
        return max(it.longest for it in self.carriers)

    def close(self) -> None:
        """Ends all connections."""
        for carrier in self.carriers:
            carrier.close()
