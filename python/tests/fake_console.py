"""A controller's console in this process, on loopback, by docs/FORMATS.md: it serves one connection at a time, and cuts one that is silent. It can hang, and
send octets of the test's choice."""
import contextlib
import select
import socket
import threading
import time

from temzaar.sitefile import ConsolePlace


def slots(*states: str) -> list[str]:
    """The reply to `slots` of a site of two carriers, whose slots have these states."""
    return [*(f"slot {place // 2} {place % 2} {state}" for place, state in enumerate(states)), "end"]


# Slots: all free; carrier 1 is down; the carrier of the control channel is down; a burst waits for carrier 1.
FREE, DOWN, OFF_AIR = slots("control", "free", "free", "free"), slots("control", "free", "down", "down"), slots("control", "down", "free", "free")
WAITING = slots("control", "free", "waiting", "free")
# The reply to `status`, with the radios that are registered at first.
STATUS = b"status carriers 2 radios 40 asks 0 lines 1 calls 2 fill aloha\n"
# a site with two carriers, two calls and a request that waits
REPLIES = {
    "slots": slots("control", "call", "call", "free"),
    "calls 0": ["call 0 1 group 91 from 1001", "end"],
    "calls 1": ["call 1 0 radio 1002 from 1003", "end"],
    "lines 1": ["line 1 group 94 from 1004", "end"],
    "stay": ["ok"],
    "move 7": ["ok"],
    "end 0 1": ["ok"],
}


class FakeConsole:
    """The console. `asked` has the lines that came. While `is_hung` nothing is answered. `overlaps` counts lines that came before the reply to the one before."""

    def __init__(self, port: int = 0, silence: float = 60.0) -> None:
        self.silence, self.delay, self.is_hung, self.overlaps, self.connections = silence, 0.0, False, 0, 0
        self.radios = set(range(1001, 1041))
        self.replies = dict(REPLIES)
        self.octets: dict[str, bytes] = {}
        self.asked: list[str] = []
        self.ends = False
        self.streams: list[socket.socket] = []
        self.listener = socket.create_server(("127.0.0.1", port))
        self.port = int(self.listener.getsockname()[1])
        self.thread = threading.Thread(target=self._listen, daemon=True)
        self.thread.start()

    def place(self) -> ConsolePlace:
        """Its address and port."""
        return ConsolePlace("127.0.0.1", self.port, self.silence)

    def _listen(self) -> None:
        while not self.ends:
            try:
                stream, _ = self.listener.accept()
            except OSError:
                return
            self.connections += 1
            self.streams.append(stream)
            with stream, contextlib.suppress(OSError):
                self._serve(stream)

    def _serve(self, stream: socket.socket) -> None:
        """Serves one connection to its end."""
        stream.setsockopt(socket.IPPROTO_TCP, socket.TCP_NODELAY, 1)
        octets = b""
        while not self.ends:
            if not select.select([stream], [], [], self.silence)[0]:
                return
            piece = stream.recv(4096)
            if not piece:
                return
            octets += piece
            while b"\n" in octets:
                line, _, octets = octets.partition(b"\n")
                self.overlaps += bool(octets)
                self._answer(stream, line.decode("latin-1"))

    def _answer(self, stream: socket.socket, line: str) -> None:
        """Answers a line."""
        self.asked.append(line)
        while self.is_hung and not self.ends:
            time.sleep(0.005)
        if self.delay:
            time.sleep(self.delay)
            self.overlaps += bool(select.select([stream], [], [], 0)[0])
        stream.sendall(self.octets.get(line) or "".join(f"{it}\n" for it in self.reply(line)).encode())

    def reply(self, line: str) -> list[str]:
        """The lines of the reply."""
        words = line.split()
        if words == ["status"]:
            return [STATUS.decode().rstrip().replace(" 40 ", f" {len(self.radios)} ")]
        if words[:1] == ["radios"] and len(words) == 2:
            return [*(f"radio {it}" for it in sorted(self.radios) if it >= int(words[1]))][:16] + ["end"]
        if words[:1] == ["drop"] and len(words) == 2 and words[1].isdecimal():
            known = int(words[1]) in self.radios
            self.radios.discard(int(words[1]))
            return ["ok" if known else "error not registered"]
        return self.replies.get(" ".join(words), ["error unknown command"])

    def cut(self) -> None:
        """Ends the connections."""
        for stream in self.streams:
            with contextlib.suppress(OSError):
                stream.shutdown(socket.SHUT_RDWR)
        self.streams.clear()

    def stop(self) -> None:
        """Stops it, as the end of the controller does: its port refuses connections then."""
        self.ends = True
        with contextlib.suppress(OSError):
            self.listener.shutdown(socket.SHUT_RDWR)
        self.listener.close()
        self.cut()
        self.thread.join(5)
