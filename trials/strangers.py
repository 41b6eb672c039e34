"""Trials of those who have no part in a site, of floods, and of a controller that is stopped for a while. `trials/serve-hostile` runs them.

Each trial starts a controller of its own. While it lasts, carriers that behave are served, and their answers are timed.
"""
import multiprocessing
import os
import signal
import socket
import struct
import threading
import time
from collections.abc import Callable, Iterator
from contextlib import contextmanager

from peers import Polling, ask, carrier, ended, figures, want
from temzaar import code, pdus
from temzaar.frames import POLL, active, hello, rx
from temzaar.process import Controller, connect
from temzaar.sitefile import FREE_PORTS, Site

TOP = os.path.dirname(os.path.dirname(os.path.realpath(__file__)))
TWO, SIXTEEN = (os.path.join(TOP, "sites", name) for name in ("two_carriers.toml", "sixteen_carriers.toml"))
# The strangers that hold a connection at once, and the seconds within which a base station is served all the same.
STRANGERS, SERVED_WITHIN = 4000, 2.0
# Waits of 100 ms after which a connection is silent: in a trial of silence, of a stop, and of other things.
SHORT_SILENCE, MIDDLE_SILENCE, LONG_SILENCE = 20, 50, 100
# How long floods last, in seconds, and how much longer than its silence a connection may last on a busy machine, and in a storm of connects.
FLOOD_SECONDS, LATER, STORM_LATER = 10.0, 1.5, 6.0
# The connects of a storm, the processes that make them, and the notes that they may cause.
CONNECTS, PROCESSES, MOST_NOTES = 100_000, 4, 200
# Seconds for which the controller is stopped: longer than a call lasts without voice, and than a connection without an octet.
STOPPED_SECONDS = 8.0
RESET = struct.pack("ii", 1, 0)


@contextmanager
def served(program: str, path: str = TWO, **changes: int) -> Iterator[tuple[Site, Controller]]:
    """A site that is served, and its controller."""
    site = Site(path, first_port=FREE_PORTS, **changes)
    controller = Controller(program, site)
    try:
        controller.wait_until_served()
        yield site, controller
        want(controller.runs(), "the controller runs")
    finally:
        controller.stop()


def silent_strangers(site: Site, number: int) -> list[socket.socket]:
    """Strangers that connect to a carrier's port, send nothing and hold their connections."""
    return [connect(site.address, site.row(number)["port"]) for _ in range(STRANGERS)]


def seconds_to_welcome(site: Site, number: int) -> tuple[float, socket.socket]:
    """A base station connects and says HELLO. The seconds until its WELCOME, and its connection."""
    began = time.monotonic()
    stream = carrier(site, number)
    return time.monotonic() - began, stream


def strangers_that_hold(program: str) -> str:
    """4,000 strangers that connect and send nothing, then a base station: it is served within two seconds, also if its own link has died without an end"""
    with served(program, silence=LONG_SILENCE) as (site, controller):
        other = Polling(site, 0)
        strangers = silent_strangers(site, 1)
        first, stream = seconds_to_welcome(site, 1)
        stream.sendall(POLL)
        want(stream.recv(64), "its poll is answered")
        # nothing more comes from it, and its connection does not end; more strangers come, and then the base station again
        strangers += silent_strangers(site, 1)
        second, again = seconds_to_welcome(site, 1)
        want(controller.wait_for("carrier 1: .* disconnected: displaced by a newcomer"), "it is noted that the dead connection was displaced")
        other.stop()
        for it in (stream, again, *strangers):
            it.close()
    want(max(first, second) < SERVED_WITHIN, f"WELCOME came after {first:.2f} s, and after {second:.2f} s")
    return f"WELCOME after {first * 1000:.0f} ms, and {second:.2f} s after the dead link; other carrier, {figures(other.times)}"


def octets_now_and_then(program: str) -> str:
    """strangers that send an octet now and then, and no whole HELLO or line: their connections end after `silence` all the same"""
    with served(program, silence=SHORT_SILENCE) as (site, controller):
        other = Polling(site, 0)
        stranger = seconds_to_end(connect(site.address, site.row(1)["port"]), hello(1, site.row(1)["lpcn"]))
        want(controller.wait_for("carrier 1: .* disconnected: no HELLO"), "it is noted: a carrier's port")
        operator = seconds_to_end(connect(site.address, site.console_port), b"status")
        want(controller.wait_for("console: .* disconnected: a line did not end"), "it is noted: the console")
        with connect(site.address, site.console_port) as stream:
            want(ask(stream, "status").startswith("status "), "another operator is served")
        other.stop()
    least, most = SHORT_SILENCE / 10 - 0.2, SHORT_SILENCE / 10 + LATER
    want(least < stranger < most and least < operator < most, f"they end after {stranger:.1f} s and {operator:.1f} s")
    return f"ended after {stranger:.1f} s on a carrier's port, {operator:.1f} s on the console"


def seconds_to_end(stream: socket.socket, octets: bytes) -> float:
    """Sends an octet each half second, but never the last one, until the controller ends the connection. The seconds from the first octet to that."""
    began = time.monotonic()
    for octet in octets[:-1]:
        try:
            stream.sendall(bytes([octet]))
        except OSError:
            break
        if ended(stream, 0.5):
            break
    stopped = ended(stream, 20)
    want(stopped, "the connection is ended")
    stream.close()
    return time.monotonic() - began


class Flood(threading.Thread):
    """Sends octets on a connection as fast as they are taken, and reads all that comes."""

    def __init__(self, stream: socket.socket, octets: bytes) -> None:
        super().__init__(daemon=True)
        self.stream, self.octets, self.ends, self.came = stream, octets, False, 0
        self.stream.settimeout(0.001)
        self.start()

    def run(self) -> None:
        while not self.ends:
            for call in (lambda: self.stream.send(self.octets), self.read):
                try:
                    call()
                except TimeoutError:
                    pass
                except OSError:
                    return

    def read(self) -> None:
        """Reads once."""
        self.came += len(self.stream.recv(1 << 20))

    def stop(self) -> None:
        """Ends the flood, and the connection."""
        self.ends = True
        self.join(5)
        self.stream.close()


def floods_beside_others(program: str) -> str:
    """a flood of polls on one carrier and of lines on the console, while fifteen carriers poll: these are answered in time"""
    with served(program, SIXTEEN, silence=LONG_SILENCE, term_entries=10_000) as (site, controller):
        others = [Polling(site, row["number"]) for row in site.rows[:-1]]
        quiet = timed_for(others, FLOOD_SECONDS / 2)
        since = len(controller.notes)
        last = site.rows[-1]["number"]
        floods = [Flood(carrier(site, last), POLL * 1000), Flood(connect(site.address, site.console_port), b"status\n" * 300)]
        flooded = timed_for(others, FLOOD_SECONDS)
        for it in floods:
            it.stop()
        terms = sum("term ended" in note for note in controller.notes[since:])
        for it in others:
            it.stop()
    answered = ", ".join(f"{it.came / FLOOD_SECONDS / 1000:.1f}" for it in floods)
    return f"without floods {figures(quiet)}; with them {figures(flooded)}; {terms} notes of terms; answers to the floods {answered} kB/s"


def timed_for(others: list[Polling], seconds: float) -> list[float]:
    """How long the answers took that the carriers received in the next seconds."""
    counts = [len(it.times) for it in others]
    time.sleep(seconds)
    return [one for it, count in zip(others, counts, strict=True) for one in it.times[count:]]


def connect_often(address: str, port: int, count: int) -> None:
    """Connects and goes, this many times. After a reset the system keeps nothing of a connection."""
    for _ in range(count):
        with socket.socket() as stream:
            stream.connect((address, port))
            stream.setsockopt(socket.SOL_SOCKET, socket.SO_LINGER, RESET)


def a_storm_of_connects(program: str) -> str:
    """100,000 connects to a carrier's port: few notes, and nobody is late"""
    with served(program, silence=LONG_SILENCE) as (site, controller):
        others = [Polling(site, 0), Polling(site, 1)]
        since, began = len(controller.notes), time.monotonic()
        words = (site.address, site.row(1)["port"], CONNECTS // PROCESSES)
        storm = [multiprocessing.Process(target=connect_often, args=words) for _ in range(PROCESSES)]
        for process in storm:
            process.start()
        for process in storm:
            process.join()
        took = time.monotonic() - began
        want(all(process.exitcode == 0 for process in storm), "each connect is made")
        for it in others:
            it.stop()
        notes = len(controller.notes) - since
    want(notes < MOST_NOTES, f"{notes} notes")
    return f"{CONNECTS} connects in {took:.1f} s, {notes} notes; {figures(others[0].times + others[1].times)}"


def a_silent_stranger_in_a_storm(program: str) -> str:
    """a stranger that is served and sends nothing, while others connect without a pause: its connection ends after `silence` all the same"""
    with served(program, silence=SHORT_SILENCE) as (site, controller):
        other, port = Polling(site, 0), site.row(1)["port"]
        stranger, began = connect(site.address, port), time.monotonic()
        want(controller.wait_for("carrier 1: .* connected"), "the stranger is served")
        storm = [multiprocessing.Process(target=connect_often, args=(site.address, port, CONNECTS)) for _ in range(PROCESSES)]
        for process in storm:
            process.start()
        stopped, took = ended(stranger, 20), time.monotonic() - began
        for process in storm:
            process.terminate()
            process.join()
        other.stop()
    want(stopped and took < SHORT_SILENCE / 10 + STORM_LATER, f"it is ended: {took:.1f} s")
    return f"ended after {took:.1f} s; other carrier, {figures(other.times)}"


def calls(operator: socket.socket, number: int) -> list[str]:
    """The calls of a carrier, as the console lists them."""
    operator.sendall(f"calls {number}\n".encode())
    text = b""
    while not text.endswith(b"end\n"):
        octets = operator.recv(1024)
        want(octets, "the console answers")
        text += octets
    return text.decode().splitlines()[:-1]


def a_controller_that_is_stopped(program: str) -> str:
    """a controller that is stopped for eight seconds, and continued: a call with voice goes on, and so do the connections"""
    with served(program, silence=MIDDLE_SILENCE) as (site, controller):
        radio, group = site.radios(1)[0], site.plan["groups"][0]
        voice = Polling(site, site.control, burst(pdus.REGISTRATION, site.plan["regi"], radio, site.register_options()))
        time.sleep(0.5)
        voice.before_polls = burst(pdus.TALKGROUP_VOICE, group, radio)
        time.sleep(0.5)
        voice.before_polls = active(1)
        with connect(site.address, site.console_port) as operator:
            before = calls(operator, site.control)
            want(len(before) == 1, f"one call is active: {before}")
            controller.process.send_signal(signal.SIGSTOP)
            time.sleep(STOPPED_SECONDS)
            controller.process.send_signal(signal.SIGCONT)
            time.sleep(2)
            after = calls(operator, site.control)
            want(after == before, f"the call goes on: {after}")
        voice.stop(latest=STOPPED_SECONDS + 1)
        noted = [note for note in controller.notes if "delayed" in note]
        want(len(noted) == 1, f"it is noted once how long the clock was delayed: {noted}")
    return noted[0].partition("] ")[2]


def burst(kind: int, target: int, source: int, options: int = 0) -> bytes:
    """The RX of a radio's request on the control slot."""
    return rx(0, code.burst_of(pdus.random_access(kind, target, source, options)))


def a_page_that_posts(program: str) -> str:
    """a web page that sends a command to the console, as the body of a POST: it is not done, and noted"""
    with served(program, silence=LONG_SILENCE) as (site, controller):
        with connect(site.address, site.console_port) as page:
            body = "move 7\n"
            page.sendall(f"POST / HTTP/1.1\r\nHost: {site.address}:{site.console_port}\r\nContent-Length: {len(body)}\r\n\r\n{body}".encode())
            want(ended(page, 5), "the page's connection is ended")
        want(controller.wait_for("console: .* disconnected: a request of HTTP"), "it is noted")
        with connect(site.address, site.console_port) as operator:
            status = ask(operator, "status")
            want(status.endswith(" fill aloha"), f"the control channel is not moved: {status}")
    return status


STRANGE: tuple[Callable[[str], str], ...] = (
    strangers_that_hold, octets_now_and_then, floods_beside_others, a_storm_of_connects, a_silent_stranger_in_a_storm, a_controller_that_is_stopped,
    a_page_that_posts,
)
