"""The play of a site's carriers and of the radios that they hear: what they send, and whether what comes back is right.

`Play` is in order throughout; `temzaar.trouble` has the play in which things go wrong.
"""
import heapq
import random
import selectors
import time
from argparse import Namespace
from collections import Counter, defaultdict, deque
from collections.abc import Callable, Collection
from dataclasses import dataclass
from typing import Any, Protocol

from temzaar import code, pdus
from temzaar.frames import BYE, POLL, TO_CARRIER, Cutter, Frame, FrameType, Link, active, hello
from temzaar.pdus import Pdu, granted_parties, is_grant, is_late
from temzaar.process import connect
from temzaar.script import SessionFault
from temzaar.sitefile import Row, Site

# Seconds between two polls of a carrier, as on the air.
PERIOD = 0.060
# Seconds after which a radio that hears no answer asks again.
PATIENCE = 2.0
# The share of its RX that a carrier retransmits, in version 2 of the link.
RETRANSMITTED = 0.1
# Seconds within which a port of the controller has to listen.
CONNECTING = 3.0

SlotKey = tuple[int | None, int]


class Radio:
    """A radio: it registers, and then calls now and then."""

    def __init__(self, address: int) -> None:
        self.address, self.registered = address, False
        self.asked: float | None = None
        # how often it asked to be registered, less how often that was acknowledged
        self.pending = 0


class Backoff:
    """The backoff that the control slot has to send (docs/SITE_MACHINE.md, "Backoff"), poll by poll since its carrier came up."""

    def __init__(self, plan: dict[str, Any]) -> None:
        self.low, self.high = plan["backoff_low"], plan["backoff_high"]
        self.noises = [0] * 32
        self.awaited: deque[int] = deque()

    def noise(self) -> None:
        """Noise was sent on the control slot."""
        self.noises[0] = min(15, self.noises[0] + 1)

    def poll(self) -> None:
        """A poll was sent: its answer has to have this backoff."""
        self.awaited.append(min(self.high, self.low + sum(self.noises)))
        self.noises = [0, *self.noises[:-1]]

    def is_in(self, fill: Pdu) -> bool:
        """Whether a fill in the answer to the oldest poll without a DONE has the right backoff."""
        return fill["backoff"] == self.awaited[0]


class CarrierInPlay(Protocol):
    """The part of a carrier that the play needs, in order or in trouble."""
    number: int
    link: Link
    backoff: Backoff
    # octets to send again with the next frames
    again: bytes
    # when the poll was sent that is being answered, and since when, at the earliest, what is sent now can have waited
    sent: float
    queued_since: float


class Radios:
    """The radios of a site: what they send on the control slot, and how they react to what they receive."""

    def __init__(self, site: Site, count: int, seed: int, counts: Counter[str]) -> None:
        self.site, self.counts, self.random = site, counts, random.Random(seed)
        self.radios = {address: Radio(address) for address in site.radios(count)}
        self.by_lpcn, self.groups = site.by_lpcn(), site.plan["groups"]
        self.to_send: list[bytes] = []
        # until when a radio talks on the slot of each active call
        self.talkers: dict[SlotKey, float] = {}
        self.registrations, self.acknowledged, self.not_asked = 0, 0, 0

    def burst(self, octets: bytes) -> bytes:
        """A burst with up to three bits flipped, anywhere."""
        return code.burst_of(octets, self.random.sample(range(code.PLACES), self.random.choice((0, 0, 1, 2, 3))))

    def next_request(self, now: float, backoff: Backoff) -> bytes | None:
        """The 25 octets that a radio sends on the control slot in this frame, or None. Noise is reported to the backoff."""
        if self.to_send:
            return self.burst(self.to_send.pop())
        if self.random.random() < 0.02:
            self.counts["noise sent"] += 1
            backoff.noise()
            return code.burst_of(pdus.random_access(pdus.REGISTRATION, self.site.plan["regi"], 1), self.random.sample(range(1, code.PLACES), 4))
        waiting = [it for it in self.radios.values() if not it.registered and (it.asked is None or now - it.asked > PATIENCE)]
        if waiting:
            return self.register(waiting[0], now)
        if self.random.random() < 0.25:
            return self.begin_call(now)
        return None

    def register(self, radio: Radio, now: float) -> bytes:
        """The burst of a radio's request to be registered."""
        if radio.asked is None:
            self.registrations += 1
        else:
            self.counts["registrations sent again"] += 1
        radio.asked, radio.pending = now, radio.pending + 1
        return self.burst(pdus.random_access(pdus.REGISTRATION, self.site.plan["regi"], radio.address, self.site.register_options()))

    def begin_call(self, now: float) -> bytes | None:
        """The burst of a request of some registered radio that has not asked recently; None if there is none."""
        free = [it for it in self.radios.values() if it.registered and now - (it.asked or 0) > PATIENCE]
        if not free:
            return None
        radio = self.random.choice(free)
        radio.asked = now
        if self.groups and self.random.random() < 0.6:
            self.counts["talkgroup requests"] += 1
            return self.burst(pdus.random_access(pdus.TALKGROUP_VOICE, self.random.choice(self.groups), radio.address))
        self.counts["individual requests"] += 1
        return self.burst(pdus.random_access(pdus.INDIVIDUAL_VOICE, self.random.choice(list(self.radios)), radio.address))

    def receive(self, pdu: Pdu, carrier: int, slot: int, now: float) -> None:
        """A PDU is sent on a slot of a carrier."""
        if pdu.name == "C_ACKD":
            self.acknowledge(pdu)
        elif pdu.name == "C_AHOY":
            self.counts["radios called"] += 1
            if self.random.random() < 0.8:
                self.to_send.append(pdus.write("C_ACKU", reason=pdus.MS_ACCEPTED, target=pdu["calling"], additional=pdu["called"]))
        elif is_grant(pdu):
            late = is_late(pdu)
            self.counts["late grants" if late else "grants"] += 1
            # a radio that enters late only listens
            if not late:
                self.talkers[self.by_lpcn.get(pdu["lpcn"]), pdu["slot"]] = now + self.random.uniform(0.2, 3.0)
        elif pdu.name == "P_CLEAR":
            self.counts["clears"] += 1
            self.talkers.pop((carrier, slot), None)

    def acknowledge(self, pdu: Pdu) -> None:
        """An acknowledgement came."""
        self.counts[f"acknowledged: {pdus.reason_in_words(pdu['reason'])}"] += 1
        radio = self.radios.get(pdu["target"])
        if radio and pdu["reason"] == pdus.REG_ACCEPTED and pdu["additional"] == self.site.plan["regi"]:
            self.not_asked += radio.pending == 0
            self.acknowledged += not radio.registered
            radio.registered, radio.pending = True, max(0, radio.pending - 1)

    def talks(self, carrier: int, slot: int, now: float) -> bool:
        """Whether a radio talks on a slot."""
        return self.talkers.get((carrier, slot), 0) > now


@dataclass(frozen=True)
class Sign:
    """A grant, a P_CLEAR or a loss that a slot showed. `parties` are without the caller for a P_CLEAR, and empty for a loss. It came at `received`, and can have
    been so since `since` at the earliest."""
    grants: bool
    parties: tuple[int, ...]
    since: float
    received: float

    def can_end(self, grant: "Sign", before: "Sign") -> bool:
        """Whether it, a P_CLEAR or a loss, can have ended the call of `grant` before the sign `before`, also while that grant still waited."""
        return grant.parties[:len(self.parties)] == self.parties and self.received > grant.since and self.since < before.received


def sign_of(pdu: Pdu, since: float, received: float) -> Sign:
    """What a grant or a P_CLEAR shows. A grant may have waited since the last fill before its
    poll."""
    grants = is_grant(pdu)
    parties = granted_parties(pdu) if grants else (pdu["group"], pdu["target"])
    return Sign(grants, parties, since, received)


def overlaps(signs: Collection[Sign]) -> int:
    """How many grants are of a call on a slot that another call holds: no P_CLEAR and no loss can have ended that one before."""
    grants = sorted((it for it in signs if it.grants), key=lambda it: it.received)
    ends = [it for it in signs if not it.grants]
    return sum(grant.parties != before.parties and not any(it.can_end(before, grant) for it in ends)
               for before, grant in zip(grants, grants[1:]))


class Carrier:
    """A carrier's connection: what was sent, and which answer is awaited."""

    def __init__(self, play: "Play", row: Row, begins: float) -> None:
        self.play, self.number = play, row["number"]
        try:
            self.stream = connect(play.site.address, row["port"], CONNECTING)
        except OSError as fault:
            raise SessionFault(f"carrier {self.number}: cannot connect to {play.site.address}:{row['port']}: {fault.strerror or fault}") from fault
        self.stream.setblocking(False)
        self.cutter, self.sent, self.due, self.welcomed = Cutter(TO_CARRIER), 0.0, begins, False
        self.link, self.again, self.backoff = Link(play.version), b"", Backoff(play.site.plan)
        self.queued_since = time.perf_counter()
        self.stream.send(hello(self.number, row["lpcn"], play.version))

    def poll(self, now: float) -> None:
        """Sends what the carrier hears in a frame, and a poll."""
        frames = self.play.frames_heard(self, now)
        self.backoff.poll()
        self.sent = time.perf_counter()
        self.stream.send(frames + POLL)
        self.play.counts["polls"] += 1

    def receive(self) -> bool:
        """Processes the octets received. Whether the poll is answered. ConnectionError: the controller ended the connection, or sent a frame out of turn."""
        octets = self.stream.recv(4096)
        if not octets:
            raise ConnectionError(f"carrier {self.number}: the controller ended the connection")
        now, answered = time.perf_counter(), False
        for frame in self.cutter.feed(octets):
            if frame.kind == FrameType.TX:
                self.play.receive_tx(self, frame, now)
            elif frame.kind == FrameType.DONE:
                self.play.times.append(now - self.sent)
                self.backoff.awaited.popleft()
                answered = True
            elif frame.kind == FrameType.WELCOME and frame.body[0] == self.link.version:
                self.welcomed = True
            else:
                raise ConnectionError(f"carrier {self.number}: frame {frame.octets().hex()}")
        if self.cutter.fault:
            raise ConnectionError(f"carrier {self.number}: {self.cutter.fault.value} at {self.cutter.octets[:40].hex()}")
        return answered


class Play:
    """A whole play: carriers, radios, counts, and what was found wrong."""

    def __init__(self, site: Site, options: Namespace) -> None:
        """`options` are those of `carriers`."""
        self.site, self.options = site, options
        self.counts: Counter[str] = Counter()
        self.faults: Counter[str] = Counter()
        # seconds from each poll to its DONE
        self.times: list[float] = []
        self.version = options.link_version or site.link_version
        self.by_lpcn = site.by_lpcn()
        # what each slot showed
        self.signs = defaultdict[SlotKey, list[Sign]](list)
        self.known: dict[bytes, bytes | None] = {}
        self.radios = Radios(site, options.radios, options.seed, self.counts)

    def frames_heard(self, carrier: CarrierInPlay, now: float) -> bytes:
        """The frames of what a carrier hears. In version 2 it retransmits some RX, at once or with the next frames: that changes nothing."""
        frames, carrier.again = carrier.again, b""
        frames += b"".join(active(slot) for slot in (0, 1) if self.radios.talks(carrier.number, slot, now))
        burst = self.radios.next_request(now, carrier.backoff) if carrier.number == self.site.control else None
        if burst is not None:
            octets = carrier.link.rx(0, burst)
            frames += octets
            self.counts["bursts sent"] += 1
            if carrier.link.version == 2 and self.radios.random.random() < RETRANSMITTED:
                self.counts["bursts sent again"] += 1
                if self.radios.random.random() < 0.5:
                    frames += octets
                else:
                    carrier.again = octets
        return frames

    def receive_tx(self, carrier: CarrierInPlay, frame: Frame, now: float) -> None:
        """A TX came."""
        burst = carrier.link.take_tx(frame)
        if burst is None:
            self.faults["TX of another version or number than was to come"] += 1
        else:
            self.receive_burst(carrier, burst.slot, burst.word, now)

    def receive_burst(self, carrier: CarrierInPlay, slot: int, word: bytes, now: float) -> None:
        """A burst came, for a slot of a carrier."""
        self.counts["bursts that came"] += 1
        if word not in self.known:
            self.known[word] = code.octets_of(word)
        octets = self.known[word]
        if octets is None:
            self.faults["bursts that are no codeword with its check"] += 1
            return
        pdu = pdus.read(octets)
        if pdu.name in ("C_ALOHA", "C_MOVE"):
            # nothing waited when the poll was sent
            carrier.queued_since = carrier.sent
            self.faults["fills with another backoff than the noise that was sent makes"] += not carrier.backoff.is_in(pdu)
        self.radios.receive(pdu, carrier.number, slot, time.monotonic())
        granted = self.by_lpcn.get(pdu["lpcn"]) if is_grant(pdu) else None
        if granted is not None:
            # a carrier that is not played has its P_CLEARs sent elsewhere, so its slots cannot be judged
            self.signs[granted, pdu["slot"]].append(sign_of(pdu, carrier.queued_since, now))
        elif pdu.name == "P_CLEAR":
            self.signs[carrier.number, slot].append(sign_of(pdu, carrier.sent, now))

    def run(self) -> float:
        """Plays. How many seconds it took."""
        selector, began = selectors.DefaultSelector(), time.monotonic()
        rows = self.site.rows
        carriers = [Carrier(self, row, began + PERIOD * n / len(rows)) for n, row in enumerate(rows)]
        for carrier in carriers:
            selector.register(carrier.stream, selectors.EVENT_READ, carrier)
        due = [(carrier.due, carrier.number, carrier) for carrier in carriers]
        heapq.heapify(due)
        ends = began + self.options.seconds
        awaited: set[Carrier] = set()
        while (now := time.monotonic()) < ends and (not self.options.polls or self.counts["polls"] < self.options.polls):
            while due and due[0][0] <= now:
                carrier = heapq.heappop(due)[2]
                if carrier not in awaited:
                    carrier.poll(now)
                    awaited.add(carrier)
                else:
                    self.counts["polls that were late"] += 1
                if not self.options.fast:
                    carrier.due = max(carrier.due + PERIOD, now)
                    heapq.heappush(due, (carrier.due, carrier.number, carrier))
            pause = max(0.0, (due[0][0] if due else ends) - time.monotonic())
            for key, _ in selector.select(min(pause, 0.1)):
                if key.data.receive():
                    awaited.discard(key.data)
                    if self.options.fast:
                        heapq.heappush(due, (0.0, key.data.number, key.data))
        self._drain(selector, awaited)
        for carrier in carriers:
            self.faults["carriers without WELCOME"] += not carrier.welcomed
            carrier.stream.setblocking(True)
            carrier.stream.sendall(BYE)
            carrier.stream.close()
        selector.close()
        return time.monotonic() - began

    def _drain(self, selector: selectors.BaseSelector, awaited: set[Carrier]) -> None:
        """Waits for the answers that are still to come."""
        until = time.monotonic() + 5
        while awaited and time.monotonic() < until:
            for key, _ in selector.select(0.1):
                if key.data.receive():
                    awaited.discard(key.data)
        self.faults["polls without an answer"] += len(awaited)

    def check_slots(self) -> None:
        """Counts the faults that the slots show."""
        found = sum(map(overlaps, self.signs.values()))
        self.faults["grants on a slot on which another stands"] = found
        self.faults["registrations acknowledged more often than they were asked for"] = self.radios.not_asked

    def judge(self) -> Counter[str]:
        """The faults, each with how often it occurred."""
        self.check_slots()
        self.faults["registrations without an acknowledgement"] += self.radios.registrations - self.radios.acknowledged
        if not self.radios.acknowledged:
            self.faults["plays in which no radio registered"] += 1
        return +self.faults

    def report(self, seconds: float, share: float | None, say: Callable[[str], None] = print) -> bool:
        """Prints counts, times and faults; `share` is the controller's share of a processor. Whether there is no fault."""
        faults, polls = self.judge(), len(self.times)
        say(f"{len(self.site.rows)} carriers, version {self.version} of the link, {len(self.radios.radios)} radios, {seconds:.0f} s: {polls} polls answered, {polls / seconds:.0f} a second")
        self.counts["registrations"], self.counts["registrations acknowledged"] = self.radios.registrations, self.radios.acknowledged
        for name, count in sorted(self.counts.items()):
            say(f"  {name}: {count}")
        if self.times:
            times = sorted(self.times)
            median, late = (times[min(polls - 1, int(polls * part))] * 1000 for part in (0.5, 0.99))
            say(f"answer to a poll: median {median:.2f} ms, 99th percentile {late:.2f} ms, most {times[-1] * 1000:.1f} ms")
        if share is not None:
            say(f"controller: {100 * share:.1f} % of one processor")
        for name, count in faults.items():
            say(f"FAULT: {count} {name}")
        return not faults
