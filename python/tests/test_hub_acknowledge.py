"""Events at the hub's console and over HTTP: who may acknowledge them, what the audit log has of that, and what is known after a restart of the hub."""
import asyncio
import contextlib
import json
import os
import re
import shutil
import sqlite3
import time

from temzaar.hub.service import Hub
from temzaar.hubconsole import Completions, HubConsole
from temzaar.ports import free_ports
from temzaar.siteevents import EventKind
from tests.fake_console import DOWN, FREE, OFF_AIR, slots
from tests.hub_support import FULL, READ, Operator, Rules, make_recent_records, wait_until
from tests.made_records import NOON, make_records
from tests.test_hub_web import WebCase

TIME = r"\d{4}-\d\d-\d\dT\d\d:\d\d:\d\d\.\d{3}Z"


class EventCase(WebCase):
    """A hub over a site of two carriers without calls."""

    async def asyncSetUp(self) -> None:
        await super().asyncSetUp()
        self.fake.replies["slots"] = FREE

    async def rows(self, operator: Operator, line: bytes = b"events") -> list[str]:
        """The rows of a reply, without their numbers and with `T` for times."""
        *rows, end = (await operator.ask(line)).decode().splitlines()
        self.assertEqual(end, "end", rows)
        return [re.sub(TIME, "T", re.sub(r"^event \d+ ", "", it)) for it in rows]

    async def lose_and_return(self, hub: Hub, *slots: list[str]) -> None:
        """The site shows each of these slots, one after the other, and all of it is up again."""
        for it in (*slots, FREE):
            await self.show(hub, slots=it)

    async def serve_and_lose(self, *slots: list[str], rules: Rules = FULL) -> tuple[Hub, Operator]:
        """A hub and an operator; the site has shown each of these slots, and all of it is up again."""
        hub = await self.serve(rules=rules)
        operator = await self.connect()
        await self.lose_and_return(hub, *slots)
        return hub, operator


class AtTheConsole(EventCase):
    """The lines `events` and `acknowledge`."""

    async def test_a_carrier(self) -> None:
        _, operator = await self.serve_and_lose(DOWN, FREE, OFF_AIR)
        wanted = ["T - hub_started: the hub was started", "T waits carrier_lost: carrier 1 was lost; over T", "T - carrier_back: carrier 1 came up",
                  "T waits control_lost: no control channel: carrier 0 was lost, and the site was off the air; over T", "T - control_back: the control channel is back: carrier 0 came up"]
        self.assertEqual(await self.rows(operator), wanted)
        self.assertEqual(await self.rows(operator, b"acknowledge 2"), ["T - carrier_lost: carrier 1 was lost; over T; acknowledged T by " + self.records()[0]["user"]])
        record = self.records()[0]
        self.assertEqual((record["event"], record["line"], record["reply"], record["role"], record["uid"], record["forgotten"]), ("acknowledged", "acknowledge 2", "ok", "full", os.getuid(), 0))
        self.assertEqual([(it["kind"], it["carrier"]) for it in record["events"]], [("carrier_lost", 1)])
        # those that wait are listed before others
        self.assertEqual(await self.rows(operator, b"events 1"), [wanted[3]])
        self.assertEqual(len(await self.rows(operator, b"acknowledge all")), 1)
        self.assertEqual(await self.rows(operator, b"events 1"), [wanted[4]])
        self.assertEqual((await self.rows(operator, b"acknowledge all"), len(self.records())), ([], 2))
        # they are not commands that change the site
        self.assertEqual((await self.rows(operator, b"history"), self.changes_asked()), ([], []))

    async def test_lines_that_are_wrong(self) -> None:
        hub, operator = await self.serve_and_lose(DOWN)
        unknown = (b"events x", b"events 0", b"events 101", b"events 1 2", b"acknowledge", b"acknowledge x", b"acknowledge 2 all", b"acknowledge -1", b"acknowledge 123456789")
        for line, reply in (*((it, "unknown command") for it in unknown), (b"acknowledge 9", "there is no event 9"), (b"acknowledge 1", "event 1 does not wait for an acknowledgement"),
                            (b"acknowledge 2 3", "event 3 does not wait for an acknowledgement")):
            self.assertEqual((await operator.ask(line)).decode(), f"error {reply}\n", line)
        self.assertEqual((self.records(), len(hub.events.waiting())), ([], 1))
        self.assertEqual(len(await self.rows(operator, b"acknowledge  02 2\r")), 1)

    async def test_the_role_read(self) -> None:
        hub, operator = await self.serve_and_lose(DOWN, rules=READ)
        self.assertEqual(len(await self.rows(operator)), 3)
        self.assertEqual(await operator.ask(b"acknowledge all"), b"error not allowed: this needs the role full\n")
        self.assertEqual([(it["event"], it["line"], it["role"]) for it in self.records()], [("refused", "acknowledge all", "read")])
        self.assertEqual(len(hub.events.waiting()), 1)

    async def test_an_audit_log_that_cannot_be_written(self) -> None:
        hub, operator = await self.serve_and_lose(DOWN)
        os.rename(self.folder, self.folder + ".away")
        self.addCleanup(shutil.rmtree, self.folder + ".away", ignore_errors=True)
        self.assertEqual(await operator.ask(b"acknowledge 2"), b"error not done: the audit log cannot be written\n")
        self.assertEqual(len(hub.events.waiting()), 1)
        os.rename(self.folder + ".away", self.folder)
        self.assertEqual(len(await self.rows(operator, b"acknowledge 2")), 1)

    async def test_help_and_completion(self) -> None:
        _, operator = await self.serve_and_lose(DOWN, FREE, DOWN)
        self.assertIn(b"help acknowledge N ..: ", await operator.ask(b"help"))

        def complete() -> list[list[str]]:
            """What the console offers."""
            with HubConsole(self.socket) as console:
                completions = Completions(console)
                return [completions.find(before, begun) for before, begun in (("", "e"), ("", "a"), ("acknowledge ", ""), ("acknowledge ", "a"), ("acknowledge 2 ", ""), ("acknowledge all ", ""))]

        self.assertEqual(await asyncio.to_thread(complete), [["end", "events"], ["acknowledge"], ["2", "4", "all"], ["all"], ["2", "4"], []])

    async def test_the_controller_goes_away(self) -> None:
        operator = await self.operate()
        self.fake.stop()
        await wait_until(lambda: self.hub.events.waiting())
        self.assertRegex((await self.rows(operator))[1], "^T waits controller_away: the controller was away: .")


class AfterARestart(EventCase):
    """What is known once the hub was started again. It reads records that end ten minutes ago."""

    async def asyncSetUp(self) -> None:
        await super().asyncSetUp()
        make_recent_records(self.db, 600)

    async def begin(self) -> Operator:
        """An operator of a hub that has read the records, and knows that all carriers are up."""
        hub = await self.start(config=self.config(records=self.db))
        await wait_until(lambda: hub.model.picture and hub.records and hub.records.last and all(it.ended_ms for it in hub.events.kinds[EventKind.CARRIER_LOST]))
        return await self.connect()

    async def restart(self) -> Operator:
        """The same of another hub, in the place of the first."""
        self.hub.stop()
        await self.task
        return await self.begin()

    async def test_what_was_acknowledged(self) -> None:
        """The records are of the last hour. Carrier 1 was lost, and the hub sees it up. What was acknowledged is not to be acknowledged again, and the rest is."""
        operator = await self.begin()
        late = ": the audit log that the hub read begins later"
        recorded = ["T waits controller_started: the controller was started", "T - control_back: the control channel is back: carrier 0 came up", "T - carrier_back: carrier 1 came up",
                    f"T waits past_hub: end 1 0, past the hub: ok{late}", "T - refused: radio 1002 was refused: Group_Not_Allowed, about 99", "T waits carrier_lost: carrier 1 was lost; over T",
                    "T - refused: radio 1002 was refused: Group_Not_Allowed, about 99", f"T waits past_hub: move 7, past the hub: ok{late}",
                    "T waits controller_started: the controller was started; no records of the 70.0 s before", "T - control_back: the control channel is back: carrier 0 came up",
                    "T - refused: radio 1004 was refused: Called_Party_Busy, about 1002", f"T waits past_hub: drop 999, past the hub: not registered{late}", f"T waits past_hub: stay, past the hub: ok{late}"]
        self.assertEqual([it for it in await self.rows(operator) if "hub_started" not in it], recorded)
        numbers = [it.number for it in self.hub.events.waiting()]
        await self.rows(operator, b"acknowledge " + " ".join(map(str, numbers[:3])).encode())
        operator = await self.restart()
        rows = [it for it in await self.rows(operator) if "hub_started" not in it]
        user = self.records()[0]["user"]
        wanted = [*recorded]
        for place in (0, 3, 5):
            wanted[place] = wanted[place].replace("waits", "-") + f"; acknowledged T by {user}"
        # the audit log has a record now, and still begins later than these
        self.assertEqual(rows, wanted)
        await self.rows(operator, b"acknowledge all")
        await self.restart()
        self.assertEqual((self.hub.events.waiting(), len(self.records())), ([], 2))

    async def test_commands_through_the_hub(self) -> None:
        """The records have the hub's own command, and another one."""
        operator = await self.begin()
        await self.rows(operator, b"acknowledge all")
        await operator.ask(b"drop 1001")
        asked = int(1000 * time.time())
        with contextlib.closing(sqlite3.connect(self.db)) as conn, conn:
            conn.execute("INSERT INTO terms SELECT 4, ?, tick_ms, last_tick + ticks, entries, heard, requests, noise, active, polls, ticks, commands, grants, late_entries, registrations, refusals, begun, "
                         "ended, most_lines FROM terms WHERE number = 3", (asked + 30,))
            for number, at_ms, radio in ((17, asked - 10, 1001), (18, asked + 15, 1001), (19, asked + 20, 1002)):
                conn.execute("INSERT INTO events VALUES (?, 4, 1, ?, 'drop_command', NULL, NULL, ?, NULL, NULL, NULL, 'done')", (number, at_ms, radio))
        await wait_until(lambda: self.hub.records and self.hub.records.last and self.hub.records.last.number == 4)
        wanted = [f"T - command: drop 1001 by {self.records()[0]['user']}: ok", "T waits past_hub: drop 1001, past the hub: ok", "T waits past_hub: drop 1002, past the hub: ok"]
        self.assertEqual([it for it in await self.rows(operator, b"events 100") if "drop 100" in it], wanted)
        operator = await self.restart()
        self.assertEqual([it for it in await self.rows(operator, b"events 100") if "drop 100" in it], wanted)


class OverHttp(EventCase):
    """`/v1/events.json`, and times in the query of calls."""

    async def events(self, query: str = "") -> list[tuple[int, str]]:
        """Events: number and kind."""
        return [(it["number"], it["kind"]) for it in (await self.view(f"/v1/events.json{query}"))["events"]]

    async def test_a_list(self) -> None:
        _, operator = await self.serve_and_lose(DOWN)
        self.assertEqual(await self.events(), [(2, "carrier_lost"), (3, "carrier_back"), (1, "hub_started")])
        self.assertEqual(await self.events("?last=1"), [(2, "carrier_lost")])
        view = await self.view("/v1/events.json")
        self.assertEqual({name: view[name] for name in ("waiting", "forgotten", "complete")}, {"waiting": 1, "forgotten": 0, "complete": True})
        event = view["events"][0]
        self.assertEqual({name: event[name] for name in event if name not in ("time", "ended")},
                         {"number": 2, "kind": "carrier_lost", "text": "carrier 1 was lost", "recorded": False, "waits": True, "acknowledged": None, "carrier": 1})
        self.assertLess(event["time"], event["ended"])
        for query, numbers in ((f"?from={event['time']}", [2, 3]), (f"?to={event['time']}", [2, 1]), (f"?from={event['ended']}&to={event['ended'].replace('Z', '%2B00:00')}", [3]), ("?from=1000", [2, 3, 1]),
                               ("?to=1000", []), ("?refusals=no", [2, 3, 1])):
            self.assertEqual([number for number, _ in await self.events(query)], numbers, query)
        self.assertFalse((await self.view("/v1/events.json?from=1000"))["complete"])
        self.assertEqual((await self.metrics())["dmr_site_events_unacknowledged"], 1)
        await operator.ask(b"acknowledge 2")
        self.assertEqual((await self.metrics())["dmr_site_events_unacknowledged"], 0)
        event = next(it for it in (await self.view("/v1/events.json"))["events"] if it["number"] == 2)
        self.assertEqual((event["waits"], event["acknowledged"]["user"]), (False, self.records()[0]["user"]))
        self.assertRegex(event["acknowledged"]["time"], f"^{TIME}$")

    async def test_a_tag(self) -> None:
        """It stays the same until there is an event. HTTP changes nothing."""
        hub = await self.serve()
        tag = (await self.get("/v1/events.json")).headers["etag"]
        await self.show(hub)
        self.assertEqual((await self.get("/v1/events.json")).headers["etag"], tag)
        await self.lose_and_return(hub, DOWN)
        self.assertNotEqual((await self.get("/v1/events.json")).headers["etag"], tag)
        answer = await self.send(f"POST /v1/events.json HTTP/1.1\r\nHost: localhost:{self.port}\r\n\r\n".encode())
        self.assertEqual((answer.status, len(hub.events.waiting())), (405, 1))

    async def test_calls_of_a_time(self) -> None:
        """Calls that were active at some time between two, by the records that `made_records` has, and one that is active."""
        self.fake.replies["slots"] = slots("control", "free", "call", "free")
        hub = await self.serve(records=make_records(self.db))
        self.assertEqual(hub.model.calls.count, 1)
        for query, numbers, is_complete in (
                ("", [(1, False), (5, True), (4, True), (3, True), (2, True), (1, True)], True), ("last=6", [(1, False), (5, True), (4, True), (3, True), (2, True), (1, True)], True),
                ("last=5", [(1, False), (5, True), (4, True), (3, True), (2, True)], False), ("from=2026-11-27T11:59:21Z&to=2026-11-27T12:00:06.000Z", [(3, True), (2, True)], True),
                ("from=2026-11-27T13:00:06%2B01:00&to=2026-11-27T12:00:09Z", [(4, True), (3, True)], True), (f"from={NOON + 6_001}&to={NOON + 8_999}", [], True),
                (f"to={NOON - 54_000}", [(1, True)], True), (f"to={NOON - 54_001}", [], True), (f"from={NOON + 149_501}", [(1, False)], True),
                (f"from={NOON}&to={NOON + 10_000}&radio=1003", [(4, True), (3, True)], True), (f"from={NOON}&to={NOON + 10_000}&group=92", [(3, True)], True)):
            view = await self.view(f"/v1/calls.json?{query}")
            self.assertEqual(([(it["number"], it["recorded"]) for it in view["calls"]], view["complete"]), (numbers, is_complete), query)

    async def test_names(self) -> None:
        """They are next to numbers in the text, and have keys of their own."""
        self.write_names("carrier,1,Mast South\n")
        await self.serve_and_lose(DOWN)
        event = (await self.view("/v1/events.json"))["events"][0]
        self.assertEqual((event["text"], event["carrier_name"]), ("carrier 1 [Mast South] was lost", "Mast South"))


class Many(EventCase):
    """A hundred thousand rows of events, and the hub answers."""

    async def test_an_operator_meanwhile(self) -> None:
        later = make_recent_records(self.db, 600)
        with contextlib.closing(sqlite3.connect(self.db)) as conn, conn:
            conn.executemany("INSERT INTO events VALUES (?, 3, 1, ?, ?, 1, NULL, ?, 99, NULL, 47, NULL)",
                             ((number, NOON + later + 100_000 + number // 2, ("refused", "was_lost", "came_up")[number % 3], 1 + number // 3) for number in range(100, 100_100)))
        self.port = free_ports(1)
        hub = await self.start(config=self.config(http={"port": self.port}, records=self.db))
        operator = await self.connect()
        slowest = 0.0
        while not (hub.records and hub.records.last):
            began = time.monotonic()
            await operator.ask(b"status")
            slowest = max(slowest, time.monotonic() - began)
        self.assertLess(slowest, 5)
        self.assertLess(len(json.dumps(await self.view("/v1/events.json?last=1000"))), 400_000)
        self.assertEqual(max(map(len, hub.events.kinds.values())), 100)
