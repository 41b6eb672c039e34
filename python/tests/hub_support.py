"""A hub in this process, over a fake controller, for tests."""
import asyncio
import contextlib
import json
import os
import pathlib
import sqlite3
import tempfile
import time
import unittest
from array import array
from collections.abc import Callable
from typing import Any
from unittest import mock

from temzaar.console import CHANGES, ReplyFrame
from temzaar.hub import notes
from temzaar.hub.config import AuditKeys, Config, ControllerKeys, HealthKeys, HttpKeys, LinePortKeys, NamesKeys, PollKeys, RecordsKeys
from temzaar.hub.lines import HUB_LISTS
from temzaar.hub.roles import Role, Rules
from temzaar.hub.service import Hub
from tests.fake_console import FakeConsole
from tests.made_records import NOON, make_records

NOBODY: frozenset[int] = frozenset()
ME = frozenset({os.getuid()})
FULL = Rules(ME, NOBODY, NOBODY, NOBODY, Role.NONE)
READ = Rules(NOBODY, NOBODY, ME, NOBODY, Role.NONE)
NONE = Rules(NOBODY, NOBODY, NOBODY, NOBODY, Role.NONE)


async def wait_until(condition: Callable[[], object], seconds: float = 40.0) -> None:
    """Waits until a condition holds. AssertionError: it does not in time."""
    until = time.monotonic() + seconds
    while not condition():
        assert time.monotonic() < until, "it did not come in time"
        await asyncio.sleep(0.005)


def array_octets(it: object) -> int:
    """How much memory the arrays take that something has."""
    if isinstance(it, array):
        return len(it) * it.itemsize
    parts = it if isinstance(it, dict) else getattr(it, "__dict__", {})
    return sum(map(array_octets, parts.values()))


def quiet_notes() -> contextlib.AbstractContextManager[object]:
    """The hub's notes are not written meanwhile."""
    return mock.patch.object(notes, "print", lambda *_, **__: None, create=True)


def change_records(path: pathlib.Path, statement: str, *values: object) -> None:
    """Changes rows of a file of records."""
    with contextlib.closing(sqlite3.connect(path)) as conn, conn:
        conn.execute(statement, values)


def make_recent_records(path: pathlib.Path, seconds: float = 30) -> int:
    """Makes a file of records whose last term ended some seconds ago. By how many milliseconds its times are later than those of the made rows."""
    make_records(path)
    later = int(1000 * (time.time() - seconds)) - NOON - 160_000
    for changed in ("terms SET ended_ms = ended_ms + ?1", "events SET at_ms = at_ms + ?1", "calls SET began_ms = began_ms + ?1, ended_ms = ended_ms + ?1"):
        change_records(path, f"UPDATE {changed}", later)
    return later


class Operator:
    """A connection to the line port."""

    def __init__(self, reader: asyncio.StreamReader, writer: asyncio.StreamWriter) -> None:
        self.reader, self.writer = reader, writer

    async def ask(self, line: bytes) -> bytes:
        """The reply to a line, to the octet."""
        self.writer.write(line + b"\n")
        frame, reply = ReplyFrame(line, HUB_LISTS), b""
        while True:
            piece = await asyncio.wait_for(self.reader.readline(), 20)
            reply += piece
            if not piece or frame.take(piece.rstrip(b"\n")):
                return reply

    async def rest(self) -> bytes:
        """Everything up to the end of the connection."""
        with contextlib.suppress(ConnectionResetError):
            return await asyncio.wait_for(self.reader.read(), 20)
        return b""

    def close(self) -> None:
        """Leaves."""
        self.writer.close()


class HubCase(unittest.IsolatedAsyncioTestCase):
    """A test over a hub and a fake controller. `db` is the path of a file of records, and `names` that of a file of names; neither is there at first."""

    async def asyncSetUp(self) -> None:
        # debugging an event loop takes longer than the tests
        asyncio.get_running_loop().set_debug(False)
        self.folder = self.enterContext(tempfile.TemporaryDirectory(ignore_cleanup_errors=True))
        self.fake = FakeConsole()
        self.addCleanup(self.fake.stop)
        self.socket, self.audit, self.site = (os.path.join(self.folder, name) for name in ("console.sock", "audit.jsonl", "site.toml"))
        self.db, self.names = (pathlib.Path(self.folder, name) for name in ("site.db", "names.csv"))
        self.write_site(self.fake.port)
        self.enterContext(quiet_notes())

    def write_site(self, port: int) -> None:
        """Writes the site file, with this port of the console."""
        with open(self.site, "w", encoding="utf-8") as it:
            it.write(f"console_port = {port}\nsilence = 600\n")

    def write_names(self, text: str) -> None:
        """Writes the file of names, in place of the one that is there, as an editor does."""
        new = self.names.with_suffix(".new")
        new.write_text(text, encoding="utf-8")
        os.replace(new, self.names)

    def config(self, line_port: dict[str, Any] | None = None, http: dict[str, Any] | None = None, health: HealthKeys = HealthKeys(), answer_seconds: float = 10.0, records: object = "",
               site_name: str = "") -> Config:
        """A config in the test's folder, with the file of names if it is there. `line_port` and `http` are keys of these sections; `records` is the path of a file of records."""
        return Config(controller=ControllerKeys(site_file=self.site, name=site_name, answer_seconds=answer_seconds, reconnect_seconds=0.2),
                      poll=PollKeys(state_seconds=0.2, radios_seconds=0.5, questions_per_second=1000), records=RecordsKeys(file=str(records), read_seconds=0.1),
                      names=NamesKeys(str(self.names) if self.names.exists() else "", 0.05), line_port=LinePortKeys(socket=self.socket, **(line_port or {})),
                      audit=AuditKeys(file=self.audit), http=HttpKeys(**(http or {})), health=health)

    async def start(self, rules: Rules = FULL, config: Config | None = None) -> Hub:
        """A hub that runs until the test's end, that the controller answers, and that has read its names. `hub` is the last one that was started."""
        hub = self.hub = Hub(config or self.config(), rules)
        self.task = asyncio.create_task(hub.run())

        async def stop() -> None:
            hub.stop()
            await asyncio.wait({self.task}, timeout=15)
            self.assertTrue(self.task.done())

        self.addAsyncCleanup(stop)
        await wait_until(lambda: (hub.link.state.is_up and (hub.book.version or not hub.book.is_used)) or self.task.done())
        if self.task.done():
            self.task.result()
        return hub

    async def connect(self) -> Operator:
        """A connection to the line port."""
        operator = Operator(*await asyncio.open_unix_connection(self.socket))
        self.addCleanup(operator.close)
        return operator

    async def dial(self, port: int, octets: bytes = b"", ends: bool = False) -> tuple[asyncio.StreamReader, asyncio.StreamWriter]:
        """A connection to a port, on which some octets are written, the last ones if `ends` says so."""
        reader, writer = await asyncio.open_connection("127.0.0.1", port)
        self.addCleanup(writer.close)
        writer.write(octets)
        if ends:
            writer.write_eof()
        return reader, writer

    async def operate(self, rules: Rules = FULL, config: Config | None = None) -> Operator:
        """A connection to the line port of a hub that is started for it."""
        await self.start(rules, config)
        return await self.connect()

    def records(self) -> list[dict[str, Any]]:
        """The records of the audit log."""
        with open(self.audit, encoding="ascii") as it:
            return [json.loads(line) for line in it]

    def changes_asked(self) -> list[str]:
        """The commands that change the site and came to the controller."""
        return [it for it in self.fake.asked if it.split()[:1] and it.split()[0] in CHANGES]
