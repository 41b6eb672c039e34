"""A site that the proved controller serves on loopback, for tests: its start, a carrier that polls,
and a radio that registers."""
import contextlib
import os
import socket
import subprocess
from collections.abc import Iterator, Mapping
from typing import Any

from temzaar import code
from temzaar.frames import DONE, TO_CARRIER, Cutter, FrameType, Link, hello, welcome
from temzaar.process import Controller, connect
from temzaar.sitefile import FREE_PORTS, Row, Site
from tests.support import TWO_CARRIERS, FolderCase, program

# Seconds that anything may take, on a machine that stalls.
PATIENCE = 60
# A HELLO of carrier 0, the burst of radio 1001's registration on slot 0, and a POLL.
REGISTRATION = bytes.fromhex("010401000001 021A000EB49CDF34F2749CECBA5CB3B7C40E88138C9A38F96248E180 0300")
# WELCOME, the burst of the acknowledgement, and DONE.
ACKNOWLEDGED = bytes.fromhex("810101 821A0041C3028A48FC8F403DC06F00EDA0F783E497542E405CB83CB0 8300")


def free_site(path: str = TWO_CARRIERS, **changes: Any) -> Site:
    """A site, that of two carriers if no other is named, on free ports and with changed keys."""
    return Site(path, first_port=FREE_PORTS, **changes)


@contextlib.contextmanager
def served(site: Site, *words: str, variables: Mapping[str, str] | None = None,
           **options: Any) -> Iterator[Controller]:
    """The controller of a site, once it listens, with these words of its command line. It is stopped
    at the end. SkipTest: it was not built."""
    with Controller(program("dmr_trunk"), site, words, variables, **options) as controller:
        controller.wait_until_served()
        yield controller


def received(stream: socket.socket) -> bytes:
    """All octets up to the end of a connection. ConnectionResetError: it is reset."""
    octets = b""
    while piece := stream.recv(65536):
        octets += piece
    return octets


def register_radio(site: Site) -> bytes:
    """Registers the radio of REGISTRATION. What the control carrier receives."""
    with connect(site.address, site.row(0)["port"]) as stream:
        stream.sendall(REGISTRATION)
        answer = b""
        while len(answer) < len(ACKNOWLEDGED) and (piece := stream.recv(4096)):
            answer += piece
        return answer


class Carrier:
    """A carrier that polls, and what it received."""

    def __init__(self, row: Row, version: int) -> None:
        self.number, self.received, self.stream = row["number"], b"", connect("127.0.0.1", row["port"])
        self.link, self.cutter = Link(version), Cutter(TO_CARRIER)
        self.ask(hello(row["number"], row["lpcn"], version), welcome(version))

    def ask(self, octets: bytes, end: bytes = DONE) -> list[bytes]:
        """Sends octets and reads on to the end of the answer. The PDUs that came."""
        self.stream.sendall(octets)
        answer = b""
        while not answer.endswith(end):
            piece = self.stream.recv(65536)
            if not piece:
                raise ConnectionError(f"the controller ended the connection of carrier {self.number}")
            answer += piece
        self.received += answer
        bursts = [self.link.take_tx(frame) for frame in self.cutter.feed(answer) if frame.kind == FrameType.TX]
        return [code.octets_of(burst.word) or b"" for burst in bursts if burst]


class ServedCase(FolderCase):
    """A test with a controller that is served with some variables of its environment: `variables`,
    which name files in the test's folder."""
    variables: dict[str, str]

    def setUp(self) -> None:
        super().setUp()
        self.built = program("dmr_trunk")
        self.variables = {"STATE_DIRECTORY": str(self.folder)}

    def serve(self, site: Site, *words: str,
              **options: Any) -> contextlib.AbstractContextManager[Controller]:
        """The controller, once it listens."""
        return served(site, *words, variables=self.variables, **options)

    def run_terms(self, site: Site, count: int) -> Controller:
        """The controller, after it has served some terms and ended well."""
        with self.serve(site, "--terms", str(count)) as controller:
            self.assertEqual(controller.process.wait(PATIENCE), 0, controller.notes)
        return controller

    def run_program(self, site: Site, *words: str, env: Mapping[Any, Any] | None = None,
                    **options: Any) -> subprocess.CompletedProcess[str]:
        """The program over a site file, run to its end. `env` is its environment, if not
        `variables`."""
        path = self.write("site.toml", site.text())
        return subprocess.run([self.built, "--site", str(path), *words], capture_output=True, text=True,
                              check=False, timeout=PATIENCE,
                              env=self.variables if env is None else env, **options)

    def expect_refusal(self, site: Site, variables: Mapping[Any, Any],
                       fault: str) -> subprocess.CompletedProcess[str]:
        """With these variables the program does not serve, but ends with a fault. It replays all the
        same. How it ended."""
        done = self.run_program(site, "--serve", "--terms", "1", env=variables)
        self.assertEqual((done.returncode, done.stderr.splitlines()[-1]), (1, f"dmr_trunk: {fault}"))
        replayed = self.run_program(site, "--script", os.devnull, env=variables)
        self.assertEqual(replayed.returncode, 0, replayed.stderr)
        return done
