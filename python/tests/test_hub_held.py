"""Whether somebody can hold the hub's loop: each test is an attack, during which an operator is answered in time.

Hub, attackers and operator share a thread here. So the time of an answer is the processor's time of that thread, which other work of the machine does
not change.
"""
import asyncio
import contextlib
import statistics
import time
from collections.abc import Coroutine
from typing import Any
from unittest import mock

from temzaar.console import Parties
from temzaar.hub.moment import Moment
from temzaar.hub.seencalls import SeenCall
from temzaar.hub.service import Hub
from temzaar.hub.session import Session
from temzaar.hub.turn import AHEAD_SECONDS, MOST_PACERS, SHARE, LongWork, Pacer, Paces
from temzaar.ports import free_ports
from tests.fake_console import STATUS
from tests.hub_support import FULL, HubCase, Operator, wait_until

# Seconds of the processor within which an operator is answered, half of the time, while the others do their worst; and how often it asks.
ANSWERED_WITHIN, QUESTIONS = 0.05, 15


class AttackCase(HubCase):
    """A hub with a port for everybody and with HTTP."""

    async def serve(self, http: dict[str, Any] | None = None, **line_port: Any) -> Hub:
        """Starts it."""
        self.tcp, self.http = free_ports(1), free_ports(1)
        return await self.start(FULL, self.config({"tcp_port": self.tcp, **line_port}, {"port": self.http, **(http or {})}))

    async def assert_in_time(self, operator: Operator, *attacks: Coroutine[Any, Any, None]) -> None:
        """An operator is answered in time, and the console is not lost, while these attacks go on and what was written before is read."""
        tasks, times = [asyncio.create_task(it) for it in attacks], []
        for _ in range(QUESTIONS):
            began = time.thread_time()
            self.assertEqual(await operator.ask(b"status"), STATUS)
            times.append(time.thread_time() - began)
            await asyncio.sleep(0.02)
        for it in tasks:
            it.cancel()
        self.assertLess(statistics.median(times), ANSWERED_WITHIN)
        self.assertEqual((self.hub.link.connection, self.hub.counts.losses.get()), (1, 0))


class Lines(AttackCase):
    """Lines that come faster than they are answered."""

    async def assert_harmless(self, octets: bytes) -> None:
        """Sixteen strangers write octets, and an operator is answered in time. The history is as long as it may be."""
        hub = await self.serve()
        operator = await self.connect()
        hub.audit.recent.extend({"time": "now", "user": "x", "event": "answered", "line": f"move {number}", "reply": "ok"} for number in range(100))
        for _ in range(16):
            await self.dial(self.tcp, octets)
        await self.assert_in_time(operator)

    async def test_empty_lines(self) -> None:
        await self.assert_harmless(b"\n" * 200_000)

    async def test_lists_of_the_hub(self) -> None:
        await self.assert_harmless(b"history 100\nwho\nhelp\n" * 2000)

    async def test_octets_without_a_line(self) -> None:
        await self.assert_harmless(b"z" * 4_000_000)

    async def test_the_loop_turns_after_each_line(self) -> None:
        """Also after the first lines of a user, which do not come at a pace."""
        await self.serve()
        operator = await self.connect()
        loop, write, turns, written = asyncio.get_running_loop(), Session._write, 0, []

        def turn() -> None:
            nonlocal turns
            turns += 1
            if len(written) < 20:
                loop.call_soon(turn)

        async def noted(session: Session, reply: bytes) -> None:
            written.append(turns)
            await write(session, reply)

        with mock.patch.object(Session, "_write", noted):
            loop.call_soon(turn)
            operator.writer.write(b"\n" * 20)
            await wait_until(lambda: len(written) == 20)
        self.assertEqual(len(set(written)), 20)

    async def test_questions_come_at_a_pace(self) -> None:
        """Of lines that a user sends at once some are answered at once, the others at their pace, over all connections."""
        paces, waits = Paces(per_second=100, at_once=20), list[float]()

        async def wait(seconds: float) -> None:
            waits.append(round(seconds, 6))

        with mock.patch.object(asyncio.get_running_loop(), "time", lambda: 1000.0), mock.patch.object(asyncio, "sleep", wait):
            for user in (*"a" * 23, "b"):
                await paces.wait(user)
        self.assertEqual(waits, [0.01, 0.02, 0.03])

    async def test_lines_of_a_user_come_at_a_pace(self) -> None:
        """Over all connections of the user."""
        hub = await self.serve()
        hub.desk.lines = Paces(per_second=0.01, at_once=5)
        for _ in range(2):
            (await self.connect()).writer.write(b"status\n" * 5)
        await wait_until(lambda: hub.counts.lines.get(kind="question") == 5)
        await asyncio.sleep(0.1)
        self.assertEqual(hub.counts.lines.get(kind="question"), 5)

    async def test_connections_come_at_a_pace(self) -> None:
        hub = await self.serve()
        hub.line_port.listeners[1].pacer = Pacer(per_second=0.01, at_once=5)
        for _ in range(2):
            await self.connect()
        for _ in range(10):
            await self.dial(self.tcp)
        # the one that was waited for before the pace was changed, five more, and those of the other port
        await wait_until(lambda: hub.counts.line_accepts.get() == 1 + 5 + 2)
        await asyncio.sleep(0.1)
        self.assertEqual(hub.counts.line_accepts.get(), 1 + 5 + 2)

    async def test_paces_of_users_who_rest_are_forgotten(self) -> None:
        paces = Paces(per_second=1e6)
        for number in range(3 * MOST_PACERS):
            await paces.wait(f"{number}")
        self.assertLessEqual(len(paces.pacers), MOST_PACERS)


class Requests(AttackCase):
    """Requests of HTTP that take the loop."""

    async def test_headers_of_blanks(self) -> None:
        await self.serve()
        operator = await self.connect()
        octets = b"GET / HTTP/1.0\r\nX: a" + b" " * 7900 + b"b\r\n\r\n"

        async def attack() -> None:
            while True:
                await self.dial(self.http, octets, ends=True)
                await asyncio.sleep(0.01)

        await self.assert_in_time(operator, *(attack() for _ in range(4)))

    async def test_long_responses(self) -> None:
        """Requests for calls, each with a query of its own: a response takes the processor some ten milliseconds."""
        hub = await self.serve()
        operator = await self.connect()
        for number in range(1000):
            hub.model.calls.ended.append(SeenCall(number, (0, 1), Parties("group", 91, 1001), Moment(1.5, 1.5), False, Moment(2.5, 2.5), True))

        async def attack(last: int) -> None:
            while True:
                reader, writer = await self.dial(self.http, f"GET /v1/calls.json?last={last} HTTP/1.0\r\n\r\n".encode())
                with contextlib.suppress(OSError):
                    await reader.read()
                writer.close()

        await self.assert_in_time(operator, *(attack(1000 - number) for number in range(24)))

    async def test_long_work_has_a_part_of_the_time(self) -> None:
        """Pieces that were asked for at once: after each of them the loop is free for others, three times as long as the piece took, less what it had ahead."""
        work, pieces = LongWork(), list[tuple[float, float]]()

        def take_time() -> None:
            began = time.monotonic()
            time.sleep(0.03)
            pieces.append((began, time.monotonic()))

        await asyncio.gather(*(work.do(take_time) for _ in range(6)))
        for (began, ended), (following, _) in zip(pieces[1:], pieces[2:], strict=False):
            self.assertGreaterEqual(following - ended, 0.99 * (ended - began) * (1 / SHARE - 1) - AHEAD_SECONDS)

    async def test_long_work_that_fails_leaves_the_turn_to_others(self) -> None:
        work = LongWork()
        with self.assertRaises(ZeroDivisionError):
            await work.do(lambda: 1 / 0)
        self.assertEqual(await work.do(lambda: 7), 7)
