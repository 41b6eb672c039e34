"""A site that is served on loopback, from term to term and from connection to connection. Skipped if the program was not built.

A busy machine delays the controller and these tests. So all bounds of times are wide: a lower one is two thirds of the time that the site file says.
"""
import contextlib
import pathlib
import re
import socket
import threading
import time
import unittest
from typing import Any

from temzaar import code, pdus
from temzaar.console import Console
from temzaar.frames import POLL, active, hello, rx
from temzaar.process import connect
from tests.served_kit import Carrier, free_site, received, served
from tests.support import SITES, TWO_CARRIERS, wait_until

SIXTEEN_CARRIERS = str(SITES / "sixteen_carriers.toml")
# the seconds after which an answer, an end or a note is late even on a busy machine
PATIENCE = 120
# waits of 100 ms until silence ends a connection that something else is to end
LONG = 600


def wakeups(pid: int) -> int:
    """How often the threads that a process has now have begun to wait."""
    threads = pathlib.Path(f"/proc/{pid}/task").glob("*/status")
    texts = [it.read_text(encoding="utf-8") for it in threads]
    return sum(int(re.findall(r"\nvoluntary_ctxt_switches:\s+(\d+)", it)[0]) for it in texts)


def page_faults(pid: int) -> int:
    """How often a process has touched a page of memory that it did not have yet."""
    stat = pathlib.Path(f"/proc/{pid}/stat").read_text(encoding="utf-8")
    return int(stat.rpartition(")")[2].split()[7])


class Served(unittest.TestCase):
    """A site, and its controller."""

    def serve(self, *words: str, path: str = TWO_CARRIERS, **changes: Any) -> None:
        """Serves the site of a file with changed keys, by these further words of the command line."""
        self.site = free_site(path, **changes)
        self.controller = self.enterContext(served(self.site, *words))

    def carrier(self, number: int) -> Carrier:
        """A carrier that was welcome."""
        carrier = Carrier(self.site.row(number), 1)
        carrier.stream.settimeout(PATIENCE)
        self.addCleanup(carrier.stream.close)
        return carrier

    def terms(self, since: int = 0) -> list[str]:
        """The counts of the terms that were noted to have ended, from note number `since` on."""
        return [found[1] for note in list(self.controller.notes)[since:] if (found := re.search(r"\] term ended: (.*); ports: ", note))]


class Terms(Served):
    """Terms, one after another."""

    def test_terms_of_ten_ticks(self) -> None:
        """If nobody connects, each entry is a tick. Three terms of ten entries last thirty ticks, and the time by which the clock was delayed, if it was."""
        began = time.monotonic()
        self.serve("--terms", "3", tick_ms=150, term_entries=10)
        served = time.monotonic()
        self.assertEqual(self.controller.process.wait(PATIENCE), 0, self.controller.notes)
        ended = time.monotonic()
        self.controller.reader.join(PATIENCE)
        self.assertEqual(self.terms(), ["10 entries, 0 polls, 0 bursts, 0 noise, 0 registrations, 0 refusals"] * 3)
        delays = re.findall(r"the clock was delayed by (\d+) ms", "\n".join(self.controller.notes))
        due = 30 * self.site.plan["tick_ms"] / 1000 + sum(map(int, delays)) / 1000
        self.assertGreater(ended - began, due / 1.5)
        self.assertLess(ended - served, due * 1.5)

    def test_an_idle_site_wakes_for_its_ticks(self) -> None:
        """If nobody connects to sixteen carriers and the console, their threads wake 25 times a second at most. A tick of 60 ms is 17 of these."""
        self.serve(path=SIXTEEN_CARRIERS, tick_ms=60)
        time.sleep(1)
        before, began = wakeups(self.controller.pid), time.monotonic()
        time.sleep(6)
        self.assertLess(wakeups(self.controller.pid) - before, 25 * (time.monotonic() - began))

    def test_one_site_for_all_terms(self) -> None:
        """Over the ends of three terms connections, a registration and a call go on, and each term has all its entries."""
        self.serve(tick_ms=50, term_entries=200, hang=60000, maximum=60000, silence=LONG)
        carriers = [self.carrier(row["number"]) for row in self.site.rows]
        control = next(it for it in carriers if it.number == self.site.control)
        radio, group = self.site.radios(1)[0], self.site.plan["groups"][0]
        request = rx(0, code.burst_of(pdus.random_access(pdus.TALKGROUP_VOICE, group, radio))) + POLL
        control.ask(rx(0, code.burst_of(pdus.random_access(pdus.REGISTRATION, self.site.plan["regi"], radio, self.site.register_options()))) + POLL)
        grant = control.ask(request)[0]
        self.assertEqual(pdus.read(grant).name, "TV_GRANT")
        with Console(self.site.address, self.site.console_port, PATIENCE) as console:
            asked = ("status", "radios 0", f"calls {control.number}")
            before = [console.ask(line) for line in asked]
            self.assertEqual(before, [["status carriers 2 radios 1 asks 0 lines 0 calls 1 fill aloha"], [f"radio {radio}"], [f"call {control.number} 1 group {group} from {radio}"]])
            since, until = len(self.controller.notes), time.monotonic() + PATIENCE
            while len(self.terms(since)) < 3:
                self.assertLess(time.monotonic(), until, self.controller.notes)
                for carrier in carriers:
                    carrier.ask(POLL)
                time.sleep(0.005)
            self.assertEqual([console.ask(line) for line in asked], before)
        # the radio that has the call asks for it again, and is sent the same grant
        self.assertIn(grant, control.ask(request) + control.ask(POLL))
        self.assertEqual({counts.partition(",")[0] for counts in self.terms()}, {"200 entries"})
        self.assertFalse(any(re.search(r"carrier \d: .* disconnected", note) for note in self.controller.notes), self.controller.notes)


class Connections(Served):
    """The connections of a port."""

    def test_silence_in_a_row(self) -> None:
        """A carrier that polls is not silent, however long it is connected. It is silent two seconds after its last poll, as the site file says."""
        self.serve(tick_ms=10, silence=20)
        carrier = self.carrier(1)
        sent = time.monotonic()
        for _ in range(30):
            time.sleep(0.1)
            before, sent = sent, time.monotonic()
            try:
                carrier.ask(POLL)
            except OSError:
                if time.monotonic() - before > 1:
                    self.skipTest("this machine is so busy that two polls were more than a second apart")
                raise
        self.assertEqual(received(carrier.stream), b"")
        self.assertGreater(time.monotonic() - sent, 2 / 1.5)
        self.assertTrue(self.controller.wait_for("carrier 1: .* disconnected: silence", PATIENCE), self.controller.notes)

    def test_silence_is_not_counted_in_ticks(self) -> None:
        """Half a second of silence, with ticks of a second. A minute is allowed: a port counts at most 100 ms of each wait, however long that was on a busy machine."""
        self.serve(tick_ms=1000, silence=5)
        carrier = self.carrier(1)
        carrier.stream.settimeout(60)
        self.assertEqual(received(carrier.stream), b"")
        self.assertTrue(self.controller.wait_for("carrier 1: .* disconnected: silence", PATIENCE), self.controller.notes)

    def test_refused_before_the_end(self) -> None:
        """With more octets after a refused HELLO than a link reads, REFUSED comes, and then the end of the stream. A reset does not come, by which REFUSED could be lost."""
        self.serve(silence=LONG)
        for octets, answer in ((hello(1, 2, 9), "840101"), (hello(0, 1), "840102")):
            with self.subTest(answer), connect(self.site.address, self.site.row(1)["port"]) as stream:
                stream.settimeout(PATIENCE)
                stream.sendall(octets + POLL * 3000)
                self.assertEqual(received(stream).hex(), answer)
                # a reset that follows the end is an error of the socket, and no read finds it
                time.sleep(0.2)
                self.assertEqual(stream.getsockopt(socket.SOL_SOCKET, socket.SO_ERROR), 0)

    def test_octets_that_were_kept(self) -> None:
        """An operator asks and does not read, until the console's port keeps replies and ends the connection. The next operator is sent one reply, and no other octet."""
        self.serve(path=SIXTEEN_CARRIERS, silence=LONG, term_entries=100000)
        place, until = (self.site.address, self.site.console_port), time.monotonic() + PATIENCE
        with socket.socket() as first:
            # with small segments and a small window the systems take few of the octets that are not read
            first.setsockopt(socket.SOL_SOCKET, socket.SO_RCVBUF, 4096)
            first.setsockopt(socket.IPPROTO_TCP, socket.TCP_MAXSEG, 88)
            first.connect(place)
            first.setblocking(False)
            while not self.controller.wait_for("console: .* disconnected: what was written was not read", 0.1):
                self.assertLess(time.monotonic(), until, self.controller.notes)
                with contextlib.suppress(OSError):
                    first.send(b"slots\n" * 1000)
        with connect(*place) as second:
            second.settimeout(PATIENCE)
            second.sendall(b"status\n")
            second.shutdown(socket.SHUT_WR)
            self.assertEqual(received(second), b"status carriers 0 radios 0 asks 0 lines 0 calls 0 fill aloha\n")


class TermMemory(Served):
    """A site of two carriers that send nothing but ACTIVE frames, as fast as their ports read. A term ends after less than a second."""

    def flood(self, number: int) -> None:
        """Sends ACTIVE frames of a carrier until the controller has stopped."""
        row = self.site.row(number)
        with connect(self.site.address, row["port"]) as stream, contextlib.suppress(OSError):
            stream.sendall(hello(number, row["lpcn"]))
            while True:
                stream.sendall(active(1) * 100)

    # entries of a term, and pages of the system, of 4,096 octets, that those of one journal take
    ENTRIES = 4000
    PAGES = ENTRIES * 568 // 4096

    def test_a_term_takes_over_the_lists_of_the_term_before(self) -> None:
        """Once each list has had its length, the end of a term touches fewer new pages than one journal has."""
        self.serve(tick_ms=60, term_entries=self.ENTRIES)
        senders = [threading.Thread(target=self.flood, args=(number,), daemon=True) for number in (0, 1)]
        for sender in senders:
            sender.start()
        wait_until(lambda: len(self.terms()) >= 4)
        before, first = page_faults(self.controller.pid), len(self.terms())
        wait_until(lambda: len(self.terms()) >= first + 5)
        faults, ends = page_faults(self.controller.pid) - before, len(self.terms()) - first
        self.controller.stop()
        for sender in senders:
            sender.join(10)
        said = f"{faults} page faults at {ends} ends of terms of {self.PAGES} pages"
        self.assertLess(faults / ends, self.PAGES / 2, said)
