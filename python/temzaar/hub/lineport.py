"""The port that operators connect to: a unix socket, and a TCP port on loopback if the config asks for one."""
import asyncio
import contextlib
import itertools
import os
import socket
import stat
from collections.abc import Awaitable, Callable

from temzaar.faults import ToolFault
from temzaar.hub.notes import note
from temzaar.hub.places import NoPlace, Place, Places
from temzaar.hub.roles import Peer, People, Role, Rules
from temzaar.hub.session import Desk, Session, error_line
from temzaar.hub.turn import Pacer

LOOPBACK = "127.0.0.1"
# Everybody on the machine may connect to the socket: the roles decide who is served.
SOCKET_MODE = 0o666
# How many connections wait to be accepted: half a second at most. How many are accepted in a second, and at once after a rest. Seconds after
# one that failed.
BACKLOG, ACCEPTS_PER_SECOND, ACCEPTS_AT_ONCE, RETRY_SECONDS = 256, 500.0, 100, 0.1
# What the ends of sessions are called that the hub ended, and why there is no place for a newcomer.
CUTS = ("idle", "slow reader", "http")
NO_PLACE = {"full": "the hub serves as many connections as it may: try again later", "user full": "the user {} has as many connections as one user may"}
# How many octets of lines wait at least before the hub reads no more.
INPUT_OCTETS = 4096
# For how long, and how many octets, the hub reads on after it has refused a connection.
SHORT_SECONDS, SHORT_OCTETS = 0.1, 8192
# How long the hub waits, when it stops, for answers that are pending.
STOP_SECONDS = 3.0

Accept = Callable[[asyncio.StreamReader, asyncio.StreamWriter], Awaitable[None]]


class PortFault(ToolFault):
    """A port cannot be opened. The text says which, and why."""


def bind_socket(path: str) -> socket.socket:
    """A unix socket at a path, in place of one that nobody serves any more. PortFault: it cannot be made, or another hub serves it."""
    with contextlib.ExitStack() as undo:
        made = undo.enter_context(socket.socket(socket.AF_UNIX, socket.SOCK_STREAM))
        try:
            if is_served(path):
                raise PortFault(f"another process serves {path}")
            with contextlib.suppress(FileNotFoundError):
                if not stat.S_ISSOCK(os.lstat(path).st_mode):
                    raise PortFault(f"{path} is not a socket")
                os.unlink(path)
            made.bind(path)
            os.chmod(path, SOCKET_MODE)
        except OSError as fault:
            raise PortFault(f"cannot listen on {path}: {fault.strerror or fault}") from fault
        undo.pop_all()
        return made


def is_served(path: str) -> bool:
    """Whether a process listens on the socket at a path."""
    with socket.socket(socket.AF_UNIX, socket.SOCK_STREAM) as probe:
        probe.settimeout(1)
        try:
            probe.connect(path)
        except BlockingIOError:
            return True
        except (OSError, TimeoutError):
            return False
        return True


class Listener:
    """Accepts connections on a socket that is bound, at a pace: those that connect without end take a part of the loop's time alone."""

    def __init__(self, made: socket.socket, accept: Accept, limit: int) -> None:
        """Begins to listen. `limit` is how many octets of a peer wait at least before the hub reads no more."""
        self.made, self.accept, self.limit = made, accept, limit
        self.pacer = Pacer(ACCEPTS_PER_SECOND, ACCEPTS_AT_ONCE)
        made.setblocking(False)
        made.listen(BACKLOG)
        self.task = asyncio.create_task(self._run())

    async def _run(self) -> None:
        """Accepts until it is cancelled, and closes the socket then."""
        with self.made:
            while True:
                try:
                    await self._accept_one()
                except OSError:
                    # the peer has gone, or there are too many descriptors
                    await asyncio.sleep(RETRY_SECONDS)
                await self.pacer.wait()

    async def _accept_one(self) -> None:
        """Waits for a connection, and accepts it. OSError: it cannot be accepted."""
        loop = asyncio.get_running_loop()
        stream, _ = await loop.sock_accept(self.made)
        protocol = asyncio.StreamReaderProtocol(asyncio.StreamReader(limit=self.limit), self.accept)
        await loop.connect_accepted_socket(lambda: protocol, stream)

    def close(self) -> None:
        """Accepts no more."""
        self.task.cancel()


def listen_on_loopback(port: int, accept: Accept, limit: int) -> Listener:
    """Listens on a port on loopback. PortFault: it is taken, or may not be used."""
    try:
        return Listener(socket.create_server((LOOPBACK, port)), accept, limit)
    except OSError as fault:
        raise PortFault(f"cannot listen on port {port}: {fault.strerror or fault}") from fault


async def read_on(reader: asyncio.StreamReader, writer: asyncio.StreamWriter, seconds: float, left: int) -> None:
    """Reads on after a refusal, for some seconds and octets at most: octets that were not read would make the system drop what was written."""
    with contextlib.suppress(TimeoutError, OSError):
        writer.write_eof()
        async with asyncio.timeout(seconds):
            while left > 0 and (piece := await reader.read(4096)):
                left -= len(piece)


class LinePort:
    """Accepts operators, and serves each until it leaves."""

    def __init__(self, desk: Desk, rules: Rules) -> None:
        keys = desk.keys
        self.desk, self.people = desk, People(rules)
        # a part is kept for those who may change the site, however many others come
        self.places = Places(keys.connections, keys.connections_per_user, min(keys.connections_per_user, keys.connections // 2))
        self.numbers = itertools.count(1)
        self.tasks: dict[asyncio.Task[None], Session | None] = {}
        self.listeners: list[Listener] = []
        self.made: os.stat_result | None = None

    async def open(self) -> None:
        """Opens the ports. PortFault: one of them cannot be opened."""
        keys = self.desk.keys
        bound = bind_socket(keys.socket)
        self.made = os.stat(keys.socket)
        self.listeners.append(Listener(bound, self._accept, INPUT_OCTETS))
        note(f"operators: listening on {keys.socket}")
        if keys.tcp_port:
            self.listeners.append(listen_on_loopback(keys.tcp_port, self._accept, INPUT_OCTETS))
            note(f"operators: listening on {LOOPBACK}:{keys.tcp_port}, role read")

    async def _accept(self, reader: asyncio.StreamReader, writer: asyncio.StreamWriter) -> None:
        """Serves a connection, or refuses it."""
        task = asyncio.current_task()
        assert task
        self.tasks[task] = None
        try:
            await self._admit(task, reader, writer)
        except asyncio.CancelledError:
            pass
        finally:
            del self.tasks[task]
            await self._close(writer)

    async def _admit(self, task: asyncio.Task[None], reader: asyncio.StreamReader, writer: asyncio.StreamWriter) -> None:
        """Serves a connection if the limits and the role of its peer allow it."""
        try:
            peer = await self._identify(writer)
        except OSError as fault:
            await self._refuse(reader, writer, None, "unknown", f"the hub cannot find out who you are: {fault.strerror}")
            return
        if peer.role == Role.NONE:
            await self._refuse(reader, writer, peer, "no role", "the user {} has no role here")
            return
        try:
            place = self.places.take(peer.key, peer.role, lambda: self._give_way(writer))
        except NoPlace as fault:
            await self._refuse(reader, writer, peer, fault.reason, NO_PLACE[fault.reason])
            return
        try:
            await self._serve(task, place, await self.people.find_name(peer), reader, writer)
        finally:
            self.places.leave(place)

    async def _serve(self, task: asyncio.Task[None], place: Place, peer: Peer, reader: asyncio.StreamReader, writer: asyncio.StreamWriter) -> None:
        """Serves a connection that has a place."""
        desk = self.desk
        session = Session(next(self.numbers), peer, desk, place, reader, writer)
        self.tasks[task] = desk.sessions[session.number] = session
        desk.counts.line_accepts.add()
        try:
            ended = await session.run()
        finally:
            del desk.sessions[session.number]
        if ended in CUTS:
            desk.counts.line_cuts.add(reason=ended)
        if ended == "slow reader":
            writer.transport.abort()

    def _give_way(self, writer: asyncio.StreamWriter) -> None:
        """Ends a connection that has sent no line, since another one needs its place."""
        self.desk.counts.line_cuts.add(reason="gave way")
        writer.transport.abort()

    async def _identify(self, writer: asyncio.StreamWriter) -> Peer:
        """Who has connected. A peer over TCP is anybody on the machine, and may ask only. OSError: the socket does not report it."""
        stream: socket.socket = writer.get_extra_info("socket")
        if stream.family != socket.AF_UNIX:
            return Peer("tcp", Role.READ)
        return await self.people.find_peer(stream)

    async def _refuse(self, reader: asyncio.StreamReader, writer: asyncio.StreamWriter, peer: Peer | None, reason: str, text: str) -> None:
        """Reports why a connection is not served; the text has a place for the name of its user."""
        self.desk.counts.line_refusals.add(reason=reason)
        with self.places.refusing() as has_time:
            if peer and has_time:
                peer = await self.people.find_name(peer)
            name = peer.user if peer else ""
            if peer and reason == "no role":
                self.desk.notes.warn(reason, peer.key, f"operators: {name} has no role, and was refused")
            writer.write(error_line(text.format(name)))
            if has_time:
                await read_on(reader, writer, SHORT_SECONDS, SHORT_OCTETS)

    async def _close(self, writer: asyncio.StreamWriter) -> None:
        """Closes a connection, once its peer has read what was written, or after the time for that."""
        writer.close()
        try:
            async with asyncio.timeout(self.desk.keys.write_seconds):
                await writer.wait_closed()
        except TimeoutError:
            writer.transport.abort()
        except OSError:
            pass

    async def close(self) -> None:
        """Takes no more connections, and ends those that there are. Lines that are being answered have a moment for it."""
        for listener in self.listeners:
            listener.close()
        self._unlink()
        self.people.close()
        for task, session in list(self.tasks.items()):
            if session is None or not session.is_busy:
                task.cancel()
        if self.tasks:
            await asyncio.wait(set(self.tasks), timeout=STOP_SECONDS)
        for task in list(self.tasks):
            task.cancel()
        if self.tasks:
            await asyncio.wait(set(self.tasks), timeout=STOP_SECONDS)

    def _unlink(self) -> None:
        """Removes the socket's name, if it is still the one that was made."""
        with contextlib.suppress(OSError):
            if self.made and os.path.samestat(os.stat(self.desk.keys.socket), self.made):
                os.unlink(self.desk.keys.socket)
