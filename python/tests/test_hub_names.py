"""The hub's names: read again when their file changes, shown next to numbers, and found by a text. Of a file that cannot be used nothing is taken."""
import json
import os
import time
from typing import Any
from unittest import mock

from temzaar.hub import namebook
from temzaar.hub.config import HealthKeys, NamesKeys
from temzaar.hub.namebook import NameBook, NameIndex
from temzaar.hub.service import Hub
from temzaar.names import Kind, Names, parse_names
from temzaar.picture import RadioList
from tests.fake_console import DOWN
from tests.hub_support import wait_until
from tests.made_records import make_records
from tests.test_hub_web import WebCase

# The fake console has carriers 0 and 1, and the radios 1001 to 1040. 1001 has a call to group 91, 1003 one to 1002, and 1004 waits for group 94.
NAMES = "kind,number,name\nradio,1001,Bus 12\nradio,1003,Süd <b>\nradio,1500,Bus 99\nradio,91,nobody\ntalkgroup,91,Drivers\ntalkgroup,1002,nobody\ncarrier,1,Mast North\n"


def names_of(text: str) -> Names:
    """The names of a text."""
    return parse_names(text.encode(), "names.csv").names


class NamesCase(WebCase):
    """A hub with an HTTP port and a file of names."""

    async def serve_names(self, text: str = NAMES, health: HealthKeys = HealthKeys(), records: object = "") -> Hub:
        """Starts it, once the file was written."""
        self.write_names(text)
        return await self.serve(health, records)


class Views(NamesCase):
    """What machines get."""

    async def test_the_site(self) -> None:
        await self.serve_names()
        view = await self.view("/v1/site.json")
        state = view["state"]
        self.assertEqual(view["names"], {"count": 7, "bad_lines": 0, "fault": None})
        self.assertEqual([it["name"] for it in state["carriers"]], [None, "Mast North"])
        calls = [state["carriers"][carrier]["slots"][slot]["call"] for carrier, slot in ((0, 1), (1, 0))]
        self.assertEqual([(it["target"], it["target_name"], it["source"], it["source_name"]) for it in calls], [(91, "Drivers", 1001, "Bus 12"), (1002, None, 1003, "Süd <b>")])
        self.assertEqual([(it["target"], it["target_name"], it["source_name"]) for it in state["queue"]], [(94, None, None)])
        self.assertEqual((state["control"]["name"], view["radios"]["names"]), (None, {"1001": "Bus 12", "1003": "Süd <b>"}))
        self.assertEqual((await self.view("/v1/state.json"))["radios"].keys(), {"time", "age_seconds", "complete", "count"})

    async def test_without_names(self) -> None:
        """The same keys, without names; and no file is read."""
        hub = await self.serve()
        view = await self.view("/v1/site.json")
        self.assertEqual((view["names"], view["state"]["carriers"][1]["name"], view["radios"]["names"]), (None, None, {}))
        self.assertEqual({it[name] for it in view["state"]["queue"] for name in ("target_name", "source_name")}, {None})
        self.assertEqual((await self.view("/v1/names.json?find=a"), hub.book.worker.thread), ({"complete": True, "names": []}, None))

    async def test_calls(self) -> None:
        """Seen calls and recorded ones; the name of what the query asks for."""
        await self.serve_names(records=make_records(self.db))
        view = await self.view("/v1/calls.json?group=91&last=1")
        self.assertEqual((view["name"], view["calls"][0]["target_name"], view["calls"][0]["source_name"], view["calls"][0]["carrier_name"]), ("Drivers", "Drivers", "Bus 12", None))
        self.assertEqual([(await self.view(f"/v1/calls.json{query}"))["name"] for query in ("", "?radio=1500", "?radio=7", "?group=1500")], [None, "Bus 99", None, None])
        rows = (await self.view("/v1/calls.json?radio=1003"))["calls"]
        self.assertEqual({(it["source_name"], it["carrier_name"]) for it in rows if it["source"] == 1003 and it["carrier"] == 1}, {("Süd <b>", "Mast North")})

    async def test_radios(self) -> None:
        await self.serve_names()
        view = await self.view("/v1/radios.json?begins=100&most=3")
        self.assertEqual({name: view[name] for name in view if name != "changed"},
                         {"complete": True, "registered": [1001, 1002, 1003], "count": 40, "found": 9, "names": {"1001": "Bus 12", "1003": "Süd <b>"}})
        whole = await self.view("/v1/radios.json")
        self.assertEqual((len(whole["registered"]), whole["found"], whole["names"]), (40, 40, {"1001": "Bus 12", "1003": "Süd <b>"}))

    async def test_search(self) -> None:
        """By a part of the name, in upper or lower case. It asks for what it shows: the greatest number of names is the query's."""
        await self.serve_names()
        bus = [{"kind": "radio", "number": 1001, "name": "Bus 12", "registered": True}, {"kind": "radio", "number": 1500, "name": "Bus 99", "registered": False}]
        for query, names, is_complete in (("bus", bus, True), ("BUS%201", bus[:1], True), ("bus&most=1", bus[:1], False), ("12", bus[:1], True), ("s%C3%BCd", [{**bus[0], "number": 1003, "name": "Süd <b>"}], True),
                                          ("S%C3%9CD", [{**bus[0], "number": 1003, "name": "Süd <b>"}], True), ("drivers", [{"kind": "talkgroup", "number": 91, "name": "Drivers", "registered": None}], True),
                                          ("north", [{"kind": "carrier", "number": 1, "name": "Mast North", "registered": None}], True), ("x", [], True)):
            self.assertEqual(await self.view(f"/v1/names.json?find={query}"), {"complete": is_complete, "names": names}, query)

    async def test_health_has_names_and_metrics_have_none(self) -> None:
        self.fake.replies["slots"] = DOWN
        await self.serve_names(health=HealthKeys(carrier_seconds=0.0))
        answer = await self.get("/healthz")
        self.assertRegex(answer.body.decode(), r"^carrier 1 \[Mast North\] is down since \S+Z\n$")
        text = (await self.get("/metrics")).body.decode()
        for name in ("Mast North", "Bus 12", "Drivers"):
            self.assertNotIn(name, text)
        self.assertIn('dmr_site_carrier_up{carrier="1"} 0', text)

    async def test_the_command(self) -> None:
        await self.serve_names()
        operator = await self.connect()
        for line, reply in ((b"names radio 1001 1002 1003", b"name radio 1001 Bus 12\nname radio 1003 S\\xc3\\xbcd <b>\nend\n"), (b"names talkgroup 91", b"name talkgroup 91 Drivers\nend\n"),
                            (b"names carrier 0 1\r", b"name carrier 1 Mast North\nend\n"), (b"names radio 7", b"end\n"), (b"names radio 99999999", b"end\n"),
                            *((it, b"error unknown command\n") for it in (b"names", b"names radio", b"names group 91", b"names radio x", b"names radio 123456789", b"names radio 1001 x", b"names radio \xff"))):
            self.assertEqual(await operator.ask(line), reply, line)
        # replies of the controller have no names
        self.assertEqual(await operator.ask(b"calls 0"), b"call 0 1 group 91 from 1001\nend\n")


class Reload(NamesCase):
    """The file changes while the hub runs."""

    async def test_a_change(self) -> None:
        hub = await self.serve_names()
        tag = (await self.get("/v1/calls.json")).headers["etag"]
        self.write_names("radio,1001,Bus 13\n")
        await wait_until(lambda: hub.book.version == 2)
        self.assertEqual((await self.view("/v1/site.json"))["state"]["carriers"][0]["slots"][1]["call"]["source_name"], "Bus 13")
        answer = await self.get("/v1/calls.json")
        self.assertEqual((json.loads(answer.body)["calls"][-1]["source_name"], answer.headers["etag"] == tag), ("Bus 13", False))
        self.assertEqual((await self.view("/v1/names.json?find=bus"))["names"][0]["name"], "Bus 13")
        self.write_names("")
        await wait_until(lambda: hub.book.version == 3)
        self.assertEqual((len(hub.book.names), (await self.view("/v1/radios.json"))["names"]), (0, {}))

    async def test_a_bad_file(self) -> None:
        """It is noted once, the JSON says so, and the names that were read before stay."""
        with mock.patch.object(namebook, "warn") as warned, mock.patch.object(namebook, "note") as noted:
            hub = await self.serve_names()
            self.assertEqual(noted.call_args.args, (f"names: {self.names}: 7 names",))
            for change, fault in ((lambda: self.write_names("a;b\n"), "line 1: not kind,number,name, three fields with commas between them; no line of the file is right"),
                                  (lambda: os.unlink(self.names), "No such file or directory"), (lambda: os.mkdir(self.names), "Is a directory"),
                                  (lambda: (os.rmdir(self.names), os.mkfifo(self.names)), "a pipe, and not a file")):
                change()
                await wait_until(lambda fault=fault: fault in hub.book.fault)
                for _ in range(3):
                    await hub.book.look()
                self.assertEqual(warned.call_args.args, (f"names: {self.names}: {fault}; the names that were read before stay",))
                view = await self.view("/v1/site.json")
                self.assertEqual((view["names"]["fault"], view["names"]["count"], view["state"]["carriers"][1]["name"]), (f"{self.names}: {fault}", 7, "Mast North"))
            self.assertEqual((warned.call_count, hub.book.version), (4, 1))
            self.write_names(NAMES)
            await wait_until(lambda: hub.book.version == 2)
            self.assertEqual((await self.view("/v1/site.json"))["names"]["fault"], None)

    async def test_bad_lines(self) -> None:
        """They are noted by their numbers, without what they have; the others are used."""
        with mock.patch.object(namebook, "warn") as warned:
            hub = await self.serve_names("radio,1001,a\nradio,x,\x1b[2J\n" + "secret\n" * 7)
        said = [it.args[0] for it in warned.call_args_list]
        self.assertEqual((len(said), said[0], hub.book.bad_count), (6, f"names: {self.names}: line 2: the number of a radio is from 1 to 16777215", 8))
        self.assertEqual(said[-1], f"names: {self.names}: 3 more lines are not used; `dmr_check --names {self.names}` lists them")
        self.assertNotIn("secret", " ".join(said))
        self.assertEqual((await self.view("/v1/site.json"))["names"], {"count": 1, "bad_lines": 8, "fault": None})

    async def test_a_file_that_cannot_be_read_at_first(self) -> None:
        """The hub serves, and takes the file when it is there. A file that is bad and stays the same is read once."""
        book = NameBook(NamesKeys(str(self.names)))
        with mock.patch.object(namebook, "warn"), mock.patch.object(namebook, "note"), mock.patch.object(namebook, "scan_names", wraps=namebook.scan_names) as scanned:
            await book.look()
            self.assertIn("No such file", book.fault)
            self.write_names("nothing\n")
            for _ in range(3):
                await book.look()
            self.assertEqual((scanned.call_count, book.version), (2, 0))
            self.write_names(NAMES)
            for _ in range(3):
                await book.look()
        self.assertEqual((scanned.call_count, book.version, book.fault, book.names), (3, 1, "", names_of(NAMES)))
        book.worker.close()


class Many(NamesCase):
    """A hundred thousand names."""

    async def test_a_search_takes_milliseconds(self) -> None:
        names = names_of("".join(f"radio,{it},Bus of line {it} in the north\n" for it in range(1, 100_001)))
        index = NameIndex(names)
        for text, count, is_complete in (("line 99999", 1, True), ("north", 50, False), ("zzz", 0, True), ("", 0, True)):
            began = time.process_time()
            rows, found_all = index.find(text, 50)
            self.assertEqual((len(rows), found_all), (count, is_complete), text)
            self.assertLess(time.process_time() - began, 0.05, text)
        self.assertEqual(index.find("LINE 99999", 5)[0][0].number, 99_999)

    async def test_the_page_gets_what_it_asks_for(self) -> None:
        hub = await self.serve_names("".join(f"radio,{it},Bus {it}\n" for it in range(1, 100_001)))
        hub.model.take_radios(RadioList(tuple(range(1, 4097)), True), hub.model.seen or mock.ANY)
        with mock.patch.object(hub.model, "take_radios"):
            answer = await self.get("/v1/radios.json?most=200")
            self.assertLess(len(answer.body), 8000)
            self.assertEqual((len(json.loads(answer.body)["names"]), json.loads(answer.body)["found"]), (200, 4096))
            self.assertLess(len((await self.get("/v1/names.json?find=bus&most=50")).body), 5000)
            state: Any = await self.view("/v1/state.json")
            self.assertEqual((state["radios"]["count"], state["names"]["count"]), (4096, 100_000))
        self.assertEqual(hub.book.names.name_of(Kind.RADIO, 100_000), "Bus 100000")
