"""Who may take what of the hub: places, notes, records of refusals, and threads that may hang."""
import asyncio
import contextlib
import io
import os
import socket
import threading
import time
import unittest
from unittest import mock

from temzaar.hub import audit, notes, places, roles
from temzaar.hub.notes import MOST_NOTES, Quota, UserNotes, note, warn
from temzaar.hub.places import MOST_REFUSED, SILENT_SECONDS, NoPlace, Place, Places
from temzaar.hub.roles import Role
from temzaar.hub.session import MOST_REFUSALS
from temzaar.hub.turn import Paces
from temzaar.hub.worker import Late, Worker
from temzaar.hubconsole import HubConsole
from temzaar.ports import free_ports
from tests.fake_console import STATUS
from tests.hub_support import NONE, READ, HubCase, wait_until
from tests.test_hub_held import AttackCase
from tests.test_hub_web import WebCase


class Taken(unittest.TestCase):
    """Places, by a clock of the test."""

    def setUp(self) -> None:
        self.now, self.ended = 100.0, list[str]()
        self.enterContext(mock.patch.object(time, "monotonic", lambda: self.now))

    def take(self, among: Places, user: str, role: Role = Role.READ, has_spoken: bool = True) -> Place:
        """A place of a user."""
        place = among.take(user, role, lambda: self.ended.append(user))
        place.has_spoken = has_spoken
        return place

    def assert_full(self, among: Places, user: str, role: Role, reason: str) -> None:
        """There is no place for a user."""
        with self.assertRaises(NoPlace) as refused:
            self.take(among, user, role)
        self.assertEqual(refused.exception.reason, reason)

    def test_a_part_is_kept_for_the_role_full(self) -> None:
        some = Places(most=4, of_a_user=3, kept=2)
        first = self.take(some, "reader")
        self.take(some, "reader")
        self.assert_full(some, "another reader", Role.READ, "full")
        self.take(some, "root", Role.FULL)
        self.take(some, "root", Role.FULL)
        self.assert_full(some, "root", Role.FULL, "full")
        some.leave(first)
        some.leave(first)
        self.take(some, "root", Role.FULL)
        self.assert_full(some, "root", Role.FULL, "user full")
        self.assertEqual(self.ended, [])

    def test_the_silent_give_way(self) -> None:
        some = Places(most=3, of_a_user=2)
        self.take(some, "a", has_spoken=False)
        self.take(some, "b", has_spoken=False)
        self.take(some, "root", Role.FULL, has_spoken=False)
        self.assert_full(some, "c", Role.READ, "full")
        self.now += SILENT_SECONDS
        self.take(some, "c")
        self.take(some, "d")
        # one with a greater role does not give way
        self.assert_full(some, "e", Role.READ, "full")
        self.assertEqual(self.ended, ["a", "b"])

    def test_of_one_user_its_own_give_way(self) -> None:
        some = Places(most=9, of_a_user=2)
        self.take(some, "other", has_spoken=False)
        self.take(some, "a", has_spoken=False)
        self.take(some, "a")
        self.now += 1
        self.take(some, "a")
        self.assert_full(some, "a", Role.READ, "user full")
        self.assertEqual(self.ended, ["a"])

    def test_refusals_with_time(self) -> None:
        some = Places(1, 1)
        with contextlib.ExitStack() as refusals:
            times = [refusals.enter_context(some.refusing()) for _ in range(MOST_REFUSED + 1)]
        self.assertEqual((times[:-1], times[-1], some.refused), ([True] * MOST_REFUSED, False, 0))


class Limited(unittest.IsolatedAsyncioTestCase):
    """Quotas, notes and threads."""

    async def asyncSetUp(self) -> None:
        asyncio.get_running_loop().set_debug(False)

    async def test_a_quota_and_how_many_were_too_many(self) -> None:
        some, reports = Quota(2, 0.05), list[tuple[str, int]]()
        taken = [some.take(kind, lambda more, kind=kind: reports.append((kind, more))) for kind in ("a", "a", "a", "b", "a")]  # type: ignore[misc]
        self.assertEqual((taken, reports), ([True, True, False, True, False], []))
        await wait_until(lambda: reports)
        self.assertEqual((reports, some.counts), ([("a", 2)], {}))
        self.assertTrue(some.take("a", lambda _: None))

    async def test_notes_of_a_kind_and_user(self) -> None:
        written, some = list[str](), UserNotes()
        with mock.patch.object(notes, "print", lambda text, **_: written.append(text), create=True):
            for _ in range(1000):
                some.warn("no role", "eve", "eve has no role")
            some.warn("no role", "bob", "bob has no role")
            some.quota.end()
        self.assertEqual(written[MOST_NOTES:], ["[WARN  dmr_hub] bob has no role", "[WARN  dmr_hub] eve has no role (980 more of this kind in 60 s)"])

    def test_the_journal_receives_the_level_of_a_warning(self) -> None:
        state = os.stat("/dev/null")
        for variable, mark in ((f"{state.st_dev}:{state.st_ino}", "<4>"), ("1:2", ""), (None, "")):
            stream = mock.Mock(wraps=io.StringIO(), fileno=lambda: os.open("/dev/null", os.O_WRONLY))
            stream.getvalue = stream._mock_wraps.getvalue
            with mock.patch.object(notes.sys, "stderr", stream), mock.patch.dict(os.environ, {"JOURNAL_STREAM": variable} if variable else {}, clear=True):
                warn("a\x1b[2J")
                note("b")
            self.assertEqual(stream.getvalue(), f"{mark}[WARN  dmr_hub] a\\x1b[2J\n[INFO  dmr_hub] b\n")

    async def test_a_thread_that_hangs(self) -> None:
        worker, hangs, done = Worker("test", 0.1), threading.Event(), list[int]()
        self.addCleanup(worker.close)
        self.assertEqual(await worker.do(lambda: 7), 7)
        with self.assertRaises(ZeroDivisionError):
            await worker.do(lambda: 1 // 0)
        hanging = asyncio.create_task(worker.do(lambda: hangs.wait(20)))
        await asyncio.sleep(0.02)
        for work in (hanging, worker.do(lambda: done.append(1))):
            with self.assertRaises(Late):
                await work
        waiting = worker.pieces.qsize()
        with self.assertRaises(Late):
            await worker.do(lambda: done.append(2))
        self.assertEqual(worker.pieces.qsize(), waiting)
        hangs.set()
        await wait_until(lambda: worker.began is None)
        self.assertEqual((await worker.do(lambda: 8), done), (8, []))


class Hanging(HubCase):
    """A disk or a directory service that does not answer."""

    def hang(self, place: object, name: str) -> None:
        """A function does not return before the test's end."""
        ends = threading.Event()
        self.enterContext(mock.patch.object(place, name, lambda *_: ends.wait(20)))
        self.addCleanup(ends.set)

    async def test_the_names_of_users(self) -> None:
        """Operators are known by their numbers then, and the audit log is written meanwhile."""
        first = await self.operate()
        await first.ask(b"status")
        worker = self.hub.line_port.people.worker
        worker.seconds = 0.5
        self.hang(roles, "user_name")
        others = [await self.connect() for _ in range(5)]
        await wait_until(lambda: worker.began)
        self.assertEqual(await first.ask(b"drop 1001"), b"ok\n")
        for other in others:
            self.assertRegex(await other.ask(b"status"), b"^status carriers 2 radios 39 ")
        self.assertIn(f" uid {os.getuid()} full ", (await first.ask(b"who")).decode())

    async def test_the_audit_log(self) -> None:
        """Commands are refused, soon; questions are answered."""
        operator = await self.operate()
        self.hub.audit.worker.seconds = 0.2
        self.hang(audit.os, "fsync")
        for _ in range(3):
            self.assertEqual(await operator.ask(b"drop 1001"), b"error not done: the audit log cannot be written\n")
        self.assertEqual(await operator.ask(b"status"), STATUS)
        self.assertEqual(self.changes_asked(), [])
        self.assertEqual(self.hub.audit.fault, f"cannot write {self.audit}: it has not ended after 0.2 s")


class Refused(HubCase):
    """What users without the role for it can do to the log and the notes."""

    async def test_refusals_do_not_fill_the_log_or_the_history(self) -> None:
        hub = await self.start(READ)
        hub.desk.refusals = Paces(1e6)
        hub.audit.recent.append({"time": "2026", "user": "root", "event": "answered", "line": "move 9", "reply": "ok"})
        operator = await self.connect()
        for number in range(MOST_REFUSALS + 150):
            await operator.ask(b"drop %d" % number)
        self.assertEqual([(it["event"], it["line"]) for it in self.records()], [("refused", f"drop {number}") for number in range(MOST_REFUSALS)])
        self.assertEqual(hub.counts.changes.get(command="drop", outcome="refused"), MOST_REFUSALS + 150)
        self.assertIn(b"root answered: move 9: ok\n", await operator.ask(b"history 100"))
        await hub.desk.end()
        last = self.records()[-1]
        self.assertEqual((len(self.records()), last["event"], last["count"], last["uid"], last["line"], last["reply"]), (MOST_REFUSALS + 1, "refusals", 150, os.getuid(), None, None))
        self.assertNotIn(b"refusals", await operator.ask(b"history 100"))

    async def test_notes_about_those_without_a_role(self) -> None:
        written = list[str]()
        with mock.patch.object(notes, "print", lambda text, **_: written.append(text), create=True):
            hub = await self.start(NONE)
            for _ in range(100):
                other = await self.connect()
                self.assertRegex(await other.rest(), b"has no role here")
            self.assertEqual(sum("has no role" in it for it in written), MOST_NOTES)
        self.assertEqual(hub.counts.line_refusals.get(reason="no role"), 100)

    async def test_a_web_page_gives_no_lines(self) -> None:
        port = free_ports(1)
        hub = await self.start(config=self.config({"tcp_port": port}))
        for octets, replies in ((b"POST / HTTP/1.1\r\nHost: x\r\n\r\ndrop 1001\n", b""), (b"OPTIONS " + b"x" * 99 + b"\ndrop 1001\n", b""), (b"status\nPOST x\n", STATUS + b"error unknown command\n")):
            reader, _ = await self.dial(port, octets, ends=True)
            self.assertEqual(await reader.read(), replies)
        self.assertEqual((hub.counts.line_cuts.get(reason="http"), self.records()), (2, []))


class Crowds(AttackCase):
    """Many connections."""

    async def test_readers_leave_places_for_the_role_full(self) -> None:
        """The readers are those over TCP."""
        hub = await self.serve(connections=6, connections_per_user=4)
        replies = []
        for count in range(5):
            # those that are refused hear of it first
            reader, _ = await self.dial(self.tcp, b"status\n" if count < 3 else b"")
            replies.append(await reader.readline())
        self.assertEqual(replies[:3], [STATUS] * 3)
        self.assertEqual(set(replies[3:]), {b"error the hub serves as many connections as it may: try again later\n"})
        for _ in range(3):
            self.assertEqual(await (await self.connect()).ask(b"status"), STATUS)
        self.assertEqual((len(hub.line_port.places.taken), hub.counts.line_refusals.get(reason="full")), (6, 2))

    async def test_silent_operators_give_way(self) -> None:
        hub = await self.serve(connections_per_user=2)
        silent = [await self.connect() for _ in range(2)]
        await wait_until(lambda: len(hub.line_port.places.taken) == 2)
        await asyncio.sleep(SILENT_SECONDS)
        for _ in range(2):
            self.assertEqual(await (await self.connect()).ask(b"status"), STATUS)
        for it in silent:
            self.assertEqual(await it.rest(), b"")
        self.assertEqual(hub.counts.line_cuts.get(reason="gave way"), 2)

    async def test_those_without_a_role_take_no_place(self) -> None:
        """The hub does not ask for the names of all of them, and refuses each."""
        hub = await self.start(NONE, self.config({"connections": 2}))
        others = [await self.connect() for _ in range(80)]
        for it in others:
            self.assertRegex(await it.rest(), rb"^error the user \S+( \d+)? has no role here\n$")
        self.assertEqual((hub.counts.line_refusals.values, hub.line_port.places.taken, hub.desk.sessions), ({(("reason", "no role"),): 80}, {}, {}))

    async def test_a_queue_that_is_full(self) -> None:
        """The console tries again while too many others connect to the hub."""
        path = os.path.join(self.folder, "full.sock")
        with socket.socket(socket.AF_UNIX) as listener, contextlib.ExitStack() as streams:
            listener.bind(path)
            listener.listen(0)
            waiting = streams.enter_context(socket.socket(socket.AF_UNIX))
            waiting.connect(path)

            def free() -> None:
                time.sleep(0.1)
                listener.accept()[0].close()

            thread = threading.Thread(target=free)
            thread.start()
            await asyncio.to_thread(lambda: HubConsole(path, 5).close())
            thread.join()


class Http(WebCase):
    """Connections to the HTTP port."""

    async def test_silent_connections_give_way(self) -> None:
        hub = await self.serve(connections=4, request_seconds=30)
        for _ in range(4):
            await self.dial(self.port, b"GET / HT")
        await wait_until(lambda: len(hub.web_port.places.taken) == 4)
        await asyncio.sleep(SILENT_SECONDS)
        for _ in range(8):
            self.assertEqual((await self.get("/healthz")).status, 200)
        self.assertEqual(hub.counts.http_refusals.get(), 1)

    async def test_a_refusal_arrives(self) -> None:
        """Also if the request was sent before it, and not read."""
        await self.serve(connections=1, request_seconds=30)
        await self.dial(self.port)
        with mock.patch.object(places, "SILENT_SECONDS", 60):
            answers = [await self.get("/" + "x" * 6000) for _ in range(20)]
        self.assertEqual({(it.status, it.headers.get("retry-after"), it.body) for it in answers}, {(503, "1", b"too many connections\n")})

    async def test_responses_are_kept_until_something_changes(self) -> None:
        hub = await self.serve()
        made = []
        for name in ("_make_calls", "_make_radios"):
            make = getattr(hub.board, name)
            setattr(hub.board, name, lambda *it, make=make: (made.append(it), make(*it))[1])
        for path in ("/v1/calls.json?last=7", "/v1/radios.json"):
            first, second = await self.get(path), await self.get(path)
            self.assertEqual((first.status, first.body), (200, second.body))
        self.assertEqual(made, [({"last": 7},), ({},)])
        self.fake.radios.discard(1001)
        self.fake.replies["calls 0"] = ["call 0 1 group 92 from 1001", "end"]
        await wait_until(lambda: hub.model.calls.count == 3 and hub.model.radios and 1001 not in hub.model.radios.radios)
        self.assertEqual((await self.view("/v1/calls.json?last=7"))["seen"], 3)
        self.assertNotIn(1001, (await self.view("/v1/radios.json"))["registered"])
        for number in range(100):
            await self.get(f"/v1/calls.json?last={number + 1}")
        self.assertLessEqual(len(hub.board.kept["/v1/calls.json"].responses), 16)
