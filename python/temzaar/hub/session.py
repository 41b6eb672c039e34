"""An operator's connection: its lines, one after another, and their replies."""
import asyncio
import contextlib
import itertools
import time
from collections.abc import Callable, Coroutine, Iterable, Iterator
from dataclasses import dataclass, field
from typing import Any

from temzaar.console import COMMANDS, TOO_LONG, UNKNOWN, are_numbers
from temzaar.hub.audit import AuditFault, AuditLog
from temzaar.hub.config import LinePortKeys
from temzaar.hub.counts import HubCounts
from temzaar.hub.eventfeed import ACKNOWLEDGED, record_of_event
from temzaar.hub.eventlog import Acknowledgement, EventLog, KeptEvent
from temzaar.hub.eventviews import event_row, event_rows
from temzaar.hub.lines import ACKNOWLEDGE, ALL, NAME, NO_ANSWER, OWN_COMMANDS, WHO_SITE, Line, LineCutter, LineKind, escape_octets
from temzaar.hub.link import ConsoleLink, NoAnswer
from temzaar.hub.moment import utc_text
from temzaar.hub.namebook import NameBook
from temzaar.hub.notes import Quota, UserNotes
from temzaar.hub.places import Place
from temzaar.hub.roles import Peer, Role
from temzaar.hub.turn import LongWork, Paces
from temzaar.names import KINDS, Kind

# How many octets are read at once.
PIECE = 4096
# How many lines a user may send in a second, and at once after a rest. A piece without the end of a line counts as one.
LINES_PER_SECOND, LINES_AT_ONCE = 200.0, 400
# The reply to a command that has changed the site.
DONE = b"ok\n"
# How many commands without the role for them a user may send in a second.
REFUSALS_PER_SECOND = 2.0
# How many of these the audit log has in REFUSALS_SECONDS; of the others, their number.
MOST_REFUSALS, REFUSALS_SECONDS = 10, 3600.0
# How the first line of a web page's request begins.
HTTP = tuple(f"{it} ".encode() for it in ("GET", "HEAD", "POST", "PUT", "DELETE", "CONNECT", "OPTIONS", "TRACE", "PATCH"))
HISTORY_ROWS, MOST_HISTORY_ROWS = 16, 100
NOT_RECORDED = "not done: the audit log cannot be written"
HELP = tuple((it.words, it.about + (" (role full)" if it.changes else "")) for it in (*COMMANDS, *OWN_COMMANDS))


@dataclass
class Desk:
    """What all sessions share. `on_change` is called after a command has changed the site; `name` is that of the site, if the config has one. `book` has
    the names of radios, talkgroups and carriers, and `events` what happened; `find_control` returns the carrier with the control channel, if that is known."""
    link: ConsoleLink
    audit: AuditLog
    keys: LinePortKeys
    counts: HubCounts
    on_change: Callable[[], None]
    name: str
    book: NameBook
    events: EventLog
    find_control: Callable[[], int | None]
    sessions: dict[int, "Session"] = field(default_factory=dict)
    lines: Paces = field(default_factory=lambda: Paces(LINES_PER_SECOND, LINES_AT_ONCE))
    refusals: Paces = field(default_factory=lambda: Paces(REFUSALS_PER_SECOND))
    own_work: LongWork = field(default_factory=LongWork)
    recorded_refusals: Quota = field(default_factory=lambda: Quota(MOST_REFUSALS, REFUSALS_SECONDS))
    notes: UserNotes = field(default_factory=UserNotes)
    changes: Iterator[int] = field(default_factory=lambda: itertools.count(1))
    tasks: set[asyncio.Future[None]] = field(default_factory=set)

    def keep_task(self, work: Coroutine[Any, Any, None]) -> None:
        """Does work for which nobody waits. If the audit log cannot be written, that was noted."""
        task = asyncio.ensure_future(work)
        self.tasks.add(task)
        task.add_done_callback(self._forget_task)

    def _forget_task(self, task: asyncio.Future[None]) -> None:
        """Work has ended for which nobody waited."""
        self.tasks.discard(task)
        if not task.cancelled():
            task.exception()

    async def end(self) -> None:
        """Writes what has only been counted as yet."""
        self.recorded_refusals.end()
        self.notes.quota.end()
        if self.tasks:
            await asyncio.wait(set(self.tasks))


@dataclass
class Session:
    """A connection that is served."""
    number: int
    peer: Peer
    desk: Desk
    place: Place
    reader: asyncio.StreamReader
    writer: asyncio.StreamWriter
    since: float = field(default_factory=time.time)
    lines: int = 0
    is_busy: bool = False

    async def run(self) -> str:
        """Serves the connection to its end. Why it has ended."""
        cutter, keys = LineCutter(), self.desk.keys
        self.writer.transport.set_write_buffer_limits(high=keys.output_octets)
        loop = asyncio.get_running_loop()
        until = loop.time() + keys.idle_seconds
        try:
            while True:
                self.is_busy = False
                async with asyncio.timeout_at(until):
                    octets = await self.reader.read(PIECE)
                if not octets:
                    return "end of input"
                if not self.lines and self.peer.uid is None and octets.startswith(HTTP):
                    return "http"
                if lines := cutter.feed(octets):
                    await self._answer_all(lines)
                    until = loop.time() + keys.idle_seconds
                else:
                    await self.desk.lines.wait(self.peer.key)
        except TimeoutError:
            return "idle"
        except SlowReader:
            return "slow reader"
        except OSError:
            return "broke off"

    async def _answer_all(self, lines: list[bytes | None]) -> None:
        """Answers lines at their user's pace. SlowReader: the peer does not read."""
        self.place.has_spoken = True
        for line in lines:
            self.is_busy = False
            await self.desk.lines.wait(self.peer.key)
            self.is_busy = True
            await self._write(await self._answer(line))
            # lines that are there already do not keep the loop from turning
            await asyncio.sleep(0)

    async def _write(self, reply: bytes) -> None:
        """Writes a reply. SlowReader: the peer does not read."""
        self.writer.write(reply)
        try:
            async with asyncio.timeout(self.desk.keys.write_seconds):
                await self.writer.drain()
        except TimeoutError as fault:
            raise SlowReader from fault

    async def _answer(self, octets: bytes | None) -> bytes:
        """The reply to a line; None is one that was too long."""
        self.lines += 1
        if octets is None:
            self.desk.counts.lines.add(kind="too long")
            return TOO_LONG
        line = Line.read(octets)
        self.desk.counts.lines.add(kind=line.kind.value)
        if line.kind == LineKind.QUESTION:
            return await self._ask(line)
        if line.kind == LineKind.CHANGE or line.name == ACKNOWLEDGE:
            record = self._record_of(line)
            if self.peer.role < Role.FULL:
                return await self._refuse(line, record)
            return await (self._acknowledge(line, record) if line.name == ACKNOWLEDGE else self._change(line, record))
        if line.kind == LineKind.OWN:
            return await self.desk.own_work.do(lambda: self._answer_own(line))
        return UNKNOWN

    async def _ask(self, line: Line) -> bytes:
        """The controller's reply, or why there is none."""
        try:
            return await self.desk.link.ask(self.asker, line.octets)
        except NoAnswer as fault:
            return error_line(f"{NO_ANSWER}: {fault.reason}" if fault.was_sent else fault.reason)

    @property
    def asker(self) -> str:
        """Those who share a turn: the connections of one user."""
        return f"user {self.peer.key}"

    async def _change(self, line: Line, record: dict[str, Any]) -> bytes:
        """Does a command that changes the site, if the audit log has it."""
        try:
            await self._record(line, record, "asked")
        except AuditFault:
            self.desk.counts.changes.add(command=line.name, outcome="not recorded")
            return error_line(NOT_RECORDED)
        outcome, reply = await self._do(line)
        with contextlib.suppress(AuditFault):
            await self._record(line, record, outcome, reply)
        return reply

    def _record_of(self, line: Line | None) -> dict[str, Any]:
        """What all records of a line have; None: they are of many lines. The name that they share is when the hub asks, and a number."""
        return {"id": f"{int(time.time())}-{next(self.desk.changes)}", "user": self.peer.user, "uid": self.peer.uid, "pid": self.peer.pid,
                "role": self.peer.role.name.lower(), "connection": self.number, "line": line.text if line else None}

    async def _refuse(self, line: Line, record: dict[str, Any]) -> bytes:
        """Refuses a command that needs the role full. The audit log has the first ones of an hour, and then the number of the others."""
        reply = error_line("not allowed: this needs the role full")
        await self.desk.refusals.wait(self.peer.key)
        if self.desk.recorded_refusals.take(self.peer.key, self._record_refusals):
            with contextlib.suppress(AuditFault):
                await self._record(line, record, "refused", reply)
        else:
            self.desk.counts.changes.add(command=line.name, outcome="refused")
        return reply

    def _record_refusals(self, count: int) -> None:
        """Records how many more commands of the user were refused."""
        self.desk.keep_task(self._record(None, {**self._record_of(None), "count": count}, "refusals"))

    async def _do(self, line: Line) -> tuple[str, bytes]:
        """Passes a command on. How it ended, and the reply."""
        try:
            reply = await self.desk.link.ask(self.asker, line.octets)
        except NoAnswer as fault:
            if fault.was_sent:
                self.desk.on_change()
                return "unanswered", error_line(f"{NO_ANSWER}: {fault.reason}; the controller may have done it")
            return "not sent", error_line(f"not done: {fault.reason}")
        if reply == DONE:
            self.desk.on_change()
        return "answered", reply

    async def _record(self, line: Line | None, record: dict[str, Any], event: str, reply: bytes | None = None) -> None:
        """Writes a record of the audit log, of a line if there is one. AuditFault: it cannot be written."""
        said = escape_octets(reply.rstrip(b"\n")) if reply is not None else None
        now = time.time()
        try:
            await self.desk.audit.record({"time": utc_text(now, decimals=True), "event": event, **record, "reply": said})
        except AuditFault as fault:
            self.desk.counts.audit_faults.add()
            text = f"audit log: {fault}; {record['user']}: {record['line']}: {event}{': ' + said if said else ''}"
            self.desk.notes.warn("audit log", self.peer.key, text)
            raise
        self.desk.counts.audit_records.add()
        if line and event != "asked":
            self.desk.counts.changes.add(command=line.name, outcome=event)

    def _answer_own(self, line: Line) -> bytes:
        """The reply to one of the hub's own commands."""
        rows: Iterator[str]
        if line.name in ("history", "events") and len(line.words) <= 2:
            count = line.words[1] if len(line.words) == 2 else str(HISTORY_ROWS).encode()
            if not count.isdigit() or not 1 <= int(count[:4]) <= MOST_HISTORY_ROWS or len(count) > 8:
                return UNKNOWN
            rows = self._history_rows(int(count)) if line.name == "history" else iter(event_rows(self.desk.events, int(count), self.desk.find_control()))
        elif line.name == "names":
            kind, *numbers = [it.decode("ascii", "replace") for it in line.words[1:]] or [""]
            if kind not in KINDS or not numbers or not are_numbers(numbers):
                return UNKNOWN
            rows = self._name_rows(KINDS[kind], numbers)
        elif len(line.words) > 1:
            return UNKNOWN
        else:
            rows = self._who_rows() if line.name == "who" else (f"help {command}: {about}" for command, about in HELP)
        return list_reply(rows)

    async def _acknowledge(self, line: Line, record: dict[str, Any]) -> bytes:
        """Acknowledges events, if the audit log has it. The reply has the events."""
        found, log = self._find_events(line), self.desk.events
        if isinstance(found, bytes):
            return found
        forgotten = log.forgotten if line.words[1:] == (ALL.encode(),) else 0
        if found or forgotten:
            try:
                await self._record(None, {**record, "events": [record_of_event(it) for it in found], "forgotten": forgotten}, ACKNOWLEDGED, DONE)
            except AuditFault:
                return error_line(NOT_RECORDED)
            log.acknowledge(found, forgotten, Acknowledgement(int(1000 * time.time()), self.peer.user))
        return list_reply(event_row(it, self.desk.find_control()) for it in found)

    def _find_events(self, line: Line) -> list[KeptEvent] | bytes:
        """The events that a line acknowledges; an error as a reply if it names none, or one that does not wait."""
        words = [it.decode("ascii", "replace") for it in line.words[1:]]
        if words == [ALL]:
            return self.desk.events.waiting()
        if not words or not are_numbers(words):
            return UNKNOWN
        found = []
        for number in dict.fromkeys(map(int, words)):
            kept = self.desk.events.of_number(number)
            if kept is None or not kept.is_waiting:
                return error_line(f"there is no event {number}" if kept is None else f"event {number} does not wait for an acknowledgement")
            found.append(kept)
        return found

    def _history_rows(self, count: int) -> Iterator[str]:
        """The last commands that were to change the site, oldest first."""
        for it in self.desk.audit.last(count):
            yield f"history {it['time']} {it['user']} {it['event']}: {it['line']}: {it['reply']}"

    def _name_rows(self, kind: Kind, numbers: list[str]) -> Iterator[str]:
        """The names of those of some numbers that have one."""
        for number in map(int, numbers):
            if name := self.desk.book.names.name_of(kind, number):
                yield f"{NAME}{kind} {number} {escape_octets(name.encode())}"

    def _who_rows(self) -> Iterator[str]:
        """The console, the site's name, and each connection."""
        link = self.desk.link
        place = link.place.name if link.place else "unknown"
        yield f"who console {place} {'up' if link.state.is_up else 'away'} since {utc_text(link.state.since.wall)}"
        if self.desk.name:
            yield f"{WHO_SITE}{escape_octets(self.desk.name.encode())}"
        for session in self.desk.sessions.values():
            own = " (you)" if session is self else ""
            yield f"who {session.number} {session.peer.user} {session.peer.role.name.lower()} since {utc_text(session.since)} lines {session.lines}{own}"


class SlowReader(Exception):
    """A peer does not read its replies."""


def list_reply(rows: Iterable[str]) -> bytes:
    """A reply of rows."""
    return "".join(f"{row}\n" for row in (*rows, "end")).encode("ascii", "replace")


def error_line(reason: str) -> bytes:
    """A reply of the hub that reports an error, in the form of the controller's own."""
    return f"error {escape_octets(reason.encode('utf-8', 'replace'))}\n".encode("ascii")
