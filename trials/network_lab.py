"""Hosts in network namespaces of their own, for `trials/network-recipes`: what they run, and what a peer that connects sees. Nothing reaches the real network."""
import contextlib
import ctypes
import os
import socket
import ssl
import subprocess
import threading
import time
from collections.abc import Callable, Sequence
from typing import NamedTuple, TypeVar

from temzaar.frames import BYE, POLL, TO_CARRIER, Cutter, FrameType, hello
from temzaar.process import ends_with_parent

Result = TypeVar("Result")
# setns(2): the descriptor is that of a network namespace.
CLONE_NEWNET = 0x40000000
# Seconds that a connection and an answer may take, if there is to be one and if not. A packet that is dropped is sent again after one second, three and seven.
PATIENCE, SHORT_PATIENCE = 10.0, 3.0
# The hosts, with their addresses on one network; that of the operator is elsewhere, and has a route.
HOSTS = {"site": "192.0.2.1/24", "carrier0": "192.0.2.10/24", "carrier1": "192.0.2.11/24", "stranger": "192.0.2.66/24", "operator": "198.51.100.2/28"}
ROUTES = {"operator": "192.0.2.0/24", "site": "198.51.100.0/28"}

# What a peer sees.
WELCOME = "WELCOME and DONE"
ANSWER = "an answer"
NOTHING = "no answer to the connection: it runs out of time"
REFUSED = "connection refused"
CLOSED = "connected, then closed without an octet"
SILENT = "connected, and no octet comes"
ALERT = "an alert of TLS, then closed"


class Failed(Exception):
    """A command failed, or a trial came out otherwise than it should."""


class Knock(NamedTuple):
    """What a peer sends, and how it knows an answer."""
    name: str
    octets: bytes
    answer: Callable[[bytes], str | None]


def carrier_answer(octets: bytes) -> str | None:
    """WELCOME, if these octets are that of a carrier which sent HELLO and POLL, whole."""
    kinds = [frame.kind for frame in Cutter(TO_CARRIER).feed(octets)]
    return WELCOME if kinds[:1] == [FrameType.WELCOME] and kinds[-1:] == [FrameType.DONE] else None


def base_station(number: int, lpcn: int) -> Knock:
    """A base station: HELLO and a poll."""
    return Knock(f"HELLO of carrier {number}", hello(number, lpcn) + POLL, carrier_answer)


OPERATOR = Knock("`status`", b"status\n", lambda octets: ANSWER if octets.startswith(b"status carriers ") and octets.endswith(b"\n") else None)
ANYBODY = Knock("an octet", b"\n", lambda octets: ANSWER if octets else None)


def talk(stream: socket.socket, knock: Knock) -> str:
    """Sends what a peer has to say, and what it sees then."""
    came = b""
    try:
        stream.sendall(knock.octets)
        while not (seen := knock.answer(came)):
            octets = stream.recv(4096)
            if not octets:
                return CLOSED if not came else f"closed after {came.hex()}"
            came += octets
    except TimeoutError:
        return SILENT if not came else f"silent after {came.hex()}"
    except ssl.SSLError:
        return ALERT
    except (ConnectionResetError, BrokenPipeError):
        return CLOSED
    if seen == WELCOME:
        stream.sendall(BYE)
    return seen


def move_to(name: str) -> None:
    """Moves this thread to a namespace. OSError: it cannot."""
    with open(f"/run/netns/{name}", "rb") as it:
        libc = ctypes.CDLL(None, use_errno=True)
        if libc.setns(it.fileno(), CLONE_NEWNET):
            raise OSError(ctypes.get_errno(), "setns")


def run(*words: str, given: str = "", **options: object) -> str:
    """Runs a command. Its output; Failed, with what it said: it ended with another status than 0."""
    done = subprocess.run(words, input=given, capture_output=True, text=True, check=False, timeout=60, **options)  # type: ignore[call-overload]
    if done.returncode:
        raise Failed(f"`{' '.join(words)}` ended with status {done.returncode}: {(done.stderr or done.stdout).strip()[-400:]}")
    return str(done.stdout)


class Service:
    """A program that a host runs until the trial ends. `lines` is what it has printed."""

    def __init__(self, words: Sequence[str]) -> None:
        self.lines: list[str] = []
        self.process = subprocess.Popen(words, stdin=subprocess.DEVNULL, stdout=subprocess.PIPE, stderr=subprocess.STDOUT, text=True, errors="replace", preexec_fn=ends_with_parent())
        self.reader = threading.Thread(target=self._read, daemon=True)
        self.reader.start()

    def _read(self) -> None:
        assert self.process.stdout
        self.lines.extend(iter(self.process.stdout.readline, ""))

    def wait_for(self, text: str, seconds: float = 10.0) -> None:
        """Waits until a line has a text. Failed: none does in time."""
        until = time.monotonic() + seconds
        while not any(text in line for line in list(self.lines)):
            if time.monotonic() > until or self.process.poll() is not None:
                raise Failed(f"no line with `{text}`: {''.join(self.lines)[-600:]}")
            time.sleep(0.05)

    def stop(self) -> None:
        """Ends it."""
        self.process.terminate()
        self.process.wait(10)
        self.reader.join(5)
        assert self.process.stdout
        self.process.stdout.close()


class Lab:
    """The hosts, each in a namespace, joined by a bridge in another one. All of it goes when the lab is closed."""

    def __init__(self) -> None:
        self.prefix = f"dmr{os.getpid()}"
        self.closing = contextlib.ExitStack()

    def __enter__(self) -> "Lab":
        try:
            self._add("lan")
            run("ip", "-n", self.name("lan"), "link", "add", "bridge0", "type", "bridge")
            run("ip", "-n", self.name("lan"), "link", "set", "bridge0", "up")
            for host, address in HOSTS.items():
                self._add(host)
                self._join(host, address)
        except Failed:
            self.closing.close()
            raise
        return self

    def __exit__(self, *_: object) -> None:
        self.closing.close()

    def name(self, host: str) -> str:
        """The name of a host's namespace."""
        return f"{self.prefix}-{host}"

    def _add(self, host: str) -> None:
        """Makes a namespace."""
        run("ip", "netns", "add", self.name(host))
        self.closing.callback(run, "ip", "netns", "delete", self.name(host))
        run("ip", "-n", self.name(host), "link", "set", "lo", "up")

    def _join(self, host: str, address: str) -> None:
        """Joins a host to the bridge, at an address."""
        run("ip", "-n", self.name("lan"), "link", "add", host, "type", "veth", "peer", "name", "eth0", "netns", self.name(host))
        run("ip", "-n", self.name("lan"), "link", "set", host, "master", "bridge0", "up")
        run("ip", "-n", self.name(host), "address", "add", address, "dev", "eth0")
        run("ip", "-n", self.name(host), "link", "set", "eth0", "up")
        if host in ROUTES:
            run("ip", "-n", self.name(host), "route", "add", ROUTES[host], "dev", "eth0")

    def run(self, host: str, *words: str, **options: str) -> str:
        """Runs a command on a host. Its output; Failed: it ended with another status than 0."""
        return run("ip", "netns", "exec", self.name(host), *words, **options)

    def serve(self, host: str, *words: str) -> Service:
        """Starts a program on a host, which runs until the lab is closed or it is stopped."""
        return Service(["ip", "netns", "exec", self.name(host), *words])

    def enters(self, host: str) -> Callable[[], None]:
        """For a process that was just forked: it gets SIGTERM when this one ends, and is on a host."""
        ask_system, name = ends_with_parent(), self.name(host)

        def enter() -> None:
            ask_system()
            move_to(name)

        return enter

    def on(self, host: str, act: Callable[[], Result]) -> Result:
        """The result of an act, by a thread that is on a host. Its sockets are that host's."""
        results: list[Result] = []
        faults: list[BaseException] = []

        def act_there() -> None:
            try:
                move_to(self.name(host))
                results.append(act())
            except BaseException as fault:
                faults.append(fault)

        thread = threading.Thread(target=act_there)
        thread.start()
        thread.join()
        if faults:
            raise faults[0]
        return results[0]

    def sees(self, host: str, address: str, port: int, knock: Knock, source: str | None = None, tls: ssl.SSLContext | None = None, patience: float = PATIENCE) -> str:
        """What a peer on a host sees that connects to a port, perhaps from another address of the host, perhaps with TLS."""
        def connect() -> str:
            try:
                with socket.create_connection((address, port), patience, (source, 0) if source else None) as stream:
                    if not tls:
                        return talk(stream, knock)
                    with tls.wrap_socket(stream) as wrapped:
                        return talk(wrapped, knock)
            except TimeoutError:
                return NOTHING
            except ConnectionRefusedError:
                return REFUSED
            except ssl.SSLError:
                return ALERT
            except OSError as fault:
                return f"no connection: {fault.strerror or fault}"
        return self.on(host, connect)
