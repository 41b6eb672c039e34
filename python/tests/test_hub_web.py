"""The hub's HTTP port: its views, and requests, clients and loads that are to leave the console unharmed."""
import asyncio
import contextlib
import json
import re
import shutil
import subprocess
import time
from typing import Any

from temzaar.hub.config import HealthKeys
from temzaar.hub.poller import MOST_RADIOS
from temzaar.hub.roles import Rules
from temzaar.hub.service import Hub
from temzaar.hub.web import Response
from temzaar.picture import RadioList
from temzaar.ports import free_ports
from tests.fake_console import DOWN
from tests.hub_support import FULL, HubCase, wait_until
from tests.made_records import make_records

GET = "GET {} HTTP/1.1\r\nHost: localhost:{}\r\n\r\n"


def samples_of(text: str) -> dict[str, float]:
    """The samples of a text in the format of Prometheus."""
    return {name: float(value) for name, value in re.findall(r"^(\w+(?:\{[^}]*\})?) (\S+)$", text, re.M)}


class Answer:
    """A response: its status, its headers and its body."""

    def __init__(self, octets: bytes) -> None:
        head, _, self.body = octets.partition(b"\r\n\r\n")
        lines = head.decode("latin-1").split("\r\n")
        self.status = int(lines[0].split()[1]) if octets else 0
        self.headers = {name.lower(): value for name, _, value in (line.partition(": ") for line in lines[1:])}


class WebCase(HubCase):
    """A hub with an HTTP port, and readers of its JSON."""

    async def serve(self, health: HealthKeys = HealthKeys(), records: object = "", rules: Rules = FULL, **http: Any) -> Hub:
        """Starts it, with a file of records if one is named. It has a picture and a list of radios then, and has read the records or failed to."""
        self.port = free_ports(1)
        hub = await self.start(rules, self.config(http={"port": self.port, **http}, health=health, records=records))
        await wait_until(lambda: hub.model.picture and hub.model.radios and (hub.records is None or hub.records.last or hub.records.fault))
        return hub

    async def send(self, octets: bytes, ends: bool = False) -> Answer:
        """The response to some octets."""
        with contextlib.suppress(ConnectionError):
            reader, writer = await self.dial(self.port, octets, ends)
            try:
                return Answer(await asyncio.wait_for(reader.read(), 20))
            finally:
                writer.close()
        return Answer(b"")

    async def get(self, path: str) -> Answer:
        """The response to a GET."""
        return await self.send(GET.format(path, self.port).encode())

    async def view(self, path: str) -> Any:
        """The JSON of a path."""
        answer = await self.get(path)
        self.assertEqual((answer.status, answer.headers["content-type"]), (200, "application/json"), answer.body)
        return json.loads(answer.body)

    async def metrics(self) -> dict[str, float]:
        """The samples that the hub serves."""
        return samples_of((await self.get("/metrics")).body.decode())

    async def calls(self, query: str = "") -> list[tuple[int, str, int, int, bool]]:
        """Seen calls: number, kind, target, source, and whether each has ended."""
        view = await self.view(f"/v1/calls.json{query}")
        return [(it["number"], it["kind"], it["target"], it["source"], it["ended"] is not None) for it in view["calls"]]

    async def show(self, hub: Hub, **replies: list[str]) -> None:
        """Has the controller answer otherwise, and waits for two pictures of that: the first may have been begun before."""
        self.fake.replies.update({name.replace("_", " "): lines for name, lines in replies.items()})
        for _ in range(2):
            before = hub.model.seen
            await wait_until(lambda before=before: hub.model.seen is not before)

    async def until_health(self, status: int, pattern: str) -> None:
        """Waits for a status with a body. AssertionError: they do not come."""
        answers = []
        for _ in range(200):
            answers.append(await self.get("/healthz"))
            if answers[-1].status == status and re.match(pattern, answers[-1].body.decode()):
                return
            await asyncio.sleep(0.05)
        raise AssertionError({it.body for it in answers})

    async def assert_unharmed(self) -> None:
        """The console answers an operator at once, and the hub answers HTTP."""
        operator, began = await self.connect(), time.monotonic()
        self.assertTrue((await operator.ask(b"status")).startswith(b"status carriers 2"))
        self.assertLess(time.monotonic() - began, 10)
        operator.close()
        self.assertEqual((self.changes_asked(), self.fake.connections, self.fake.overlaps), ([], 1, 0))


class Shown(WebCase):
    """The views."""

    async def test_site_json(self) -> None:
        await self.serve()
        answer = await self.get("/v1/site.json")
        self.assertEqual((answer.status, answer.headers["content-type"], answer.headers["cache-control"]), (200, "application/json", "no-store"))
        view = json.loads(answer.body)
        self.assertEqual((view["site"], view["controller"]["up"], view["controller"]["console"], view["controller"]["reason"]), ("site", True, f"127.0.0.1:{self.fake.port}", None))
        state = view["state"]
        self.assertEqual(state["counts"], {"carriers": 2, "radios": 40, "asks": 0, "lines": 1, "calls": 2})
        self.assertEqual(state["fill"], {"kind": "aloha", "channel": None})
        self.assertLess(state["age_seconds"], 5)
        first, second = state["carriers"]
        self.assertEqual((first["number"], first["up"], first["slots"][0]), (0, True, {"slot": 0, "state": "control", "call": None}))
        call = first["slots"][1]["call"]
        self.assertEqual((call["kind"], call["target"], call["source"], call["older"]), ("group", 91, 1001, True))
        self.assertEqual((second["slots"][0]["call"]["kind"], second["slots"][1]), ("radio", {"slot": 1, "state": "free", "call": None}))
        self.assertEqual([(it["place"], it["target"], it["source"]) for it in state["queue"]], [(1, 94, 1004)])
        self.assertEqual((view["radios"]["registered"], view["radios"]["complete"]), ([*range(1001, 1041)], True))
        for text in (view["time"], state["time"], view["controller"]["since"], first["since"], view["radios"]["time"]):
            self.assertRegex(text, r"^\d{4}-\d\d-\d\dT\d\d:\d\d:\d\d\.\d{3}Z$")

    async def test_metrics(self) -> None:
        hub = await self.serve()
        operator = await self.connect()
        self.assertEqual(await operator.ask(b" stay\r"), b"ok\n")
        answer = await self.get("/metrics")
        self.assertEqual((answer.status, answer.headers["content-type"]), (200, "text/plain; version=0.0.4; charset=utf-8"))
        found = samples_of(answer.body.decode())
        for name, value in (('dmr_site_info{site="site"}', 1), ("dmr_site_controller_up", 1), ('dmr_site_carrier_up{carrier="1"}', 1), ('dmr_site_slots{state="call"}', 2),
                            ('dmr_site_slots{state="down"}', 0), ("dmr_site_registered_radios", 40), ("dmr_site_waiting_requests", 1), ("dmr_site_active_calls", 2),
                            ("dmr_site_move_channel", 0), ("dmr_hub_console_connects_total", 1), ("dmr_hub_line_connections", 1), ('dmr_hub_lines_total{kind="change"}', 1),
                            ('dmr_hub_changes_total{command="stay",outcome="answered"}', 1), ("dmr_hub_audit_records_total", 2)):
            self.assertEqual(found.get(name), value, name)
        self.assertIn('dmr_hub_answer_duration_seconds_bucket{le="+Inf"}', found)
        self.fake.stop()
        await wait_until(lambda: not hub.link.state.is_up)
        found = await self.metrics()
        self.assertEqual((found["dmr_site_controller_up"], found['dmr_site_info{site="site"}'], "dmr_site_active_calls" in found), (0, 1, False))

    async def test_promtool_finds_nothing(self) -> None:
        if not shutil.which("promtool"):
            self.skipTest("there is no promtool: the package prometheus has it")
        await self.serve(records=make_records(self.db))
        body = (await self.get("/metrics")).body
        done = await asyncio.to_thread(subprocess.run, ["promtool", "check", "metrics"], input=body, capture_output=True, check=False)
        self.assertEqual((done.returncode, done.stdout + done.stderr), (0, b""))

    async def test_health(self) -> None:
        await self.serve(HealthKeys(controller_seconds=0.5, carrier_seconds=0.5))
        await self.until_health(200, r"^ok\n$")
        self.fake.replies["slots"] = DOWN
        await self.until_health(503, r"^carrier 1 is down since \S+Z\n$")
        self.fake.stop()
        await self.until_health(503, r"^the controller is away: .*\n$")

    async def test_health_of_some_carriers(self) -> None:
        hub = await self.serve(HealthKeys(carriers=(0,), carrier_seconds=0, controller_seconds=60))
        self.fake.replies["slots"] = DOWN
        await wait_until(lambda: not hub.model.carriers[1].is_up)
        await self.until_health(200, "ok")

    async def test_head_and_a_query(self) -> None:
        await self.serve()
        answer = await self.send(f"HEAD /metrics?a=b HTTP/1.0\r\nHost: 127.0.0.1:{self.port}\r\n\r\n".encode())
        self.assertEqual((answer.status, answer.body), (200, b""))
        self.assertGreater(int(answer.headers["content-length"]), 1000)


class Harmless(WebCase):
    """What comes over HTTP changes nothing and delays nobody."""

    async def test_bad_requests(self) -> None:
        await self.serve()
        host = f"Host: localhost:{self.port}\r\n"
        for octets, status in ((b"drop 1001\n" * 3 + b"\r\n\r\n", 400), (b"\x00\xff\r\n\r\n", 400), (b"GET  /metrics HTTP/1.1\r\n\r\n", 400), (b"GET /metrics\r\n\r\n", 400),
                               (f"GET /metrics HTTP/2.0\r\n{host}\r\n".encode(), 505), (f"GET http://localhost/metrics HTTP/1.1\r\n{host}\r\n".encode(), 400),
                               (f"POST /v1/site.json HTTP/1.1\r\n{host}\r\n".encode(), 405), (f"DELETE / HTTP/1.1\r\n{host}\r\n".encode(), 405), (f"GET /drop/1001 HTTP/1.1\r\n{host}\r\n".encode(), 404),
                               (f"GET /../etc/passwd HTTP/1.1\r\n{host}\r\n".encode(), 404), (b"GET /metrics HTTP/1.1\r\n\r\n", 400), (f"GET /metrics HTTP/1.1\r\n{host}{host}\r\n".encode(), 400),
                               (b"GET /v1/site.json HTTP/1.1\r\nHost: evil.example\r\n\r\n", 421), (f"GET /metrics HTTP/1.1\r\n{host} folded: x\r\n\r\n".encode(), 400),
                               (f"GET /metrics HTTP/1.1\r\n{host}a b\r\n\r\n".encode(), 400), (f"GET /metrics HTTP/1.1\r\n{host}Content-Length: 5\r\n\r\nstay\n".encode(), 400),
                               (f"GET /metrics HTTP/1.1\r\n{host}Transfer-Encoding: chunked\r\n\r\n".encode(), 400)):
            with self.subTest(octets):
                answer = await self.send(octets)
                self.assertEqual(answer.status, status)
                self.assertEqual(answer.headers["connection"], "close")
        self.assertEqual((await self.send(b"GET /metr", ends=True)).status, 400)
        await self.assert_unharmed()

    async def test_a_host_of_the_config_in_capitals(self) -> None:
        await self.serve(hosts=("Board.Example",))
        for host, status in (("board.example", 200), ("BOARD.example:1", 200), ("localhost", 421)):
            self.assertEqual((await self.send(f"GET /metrics HTTP/1.1\r\nHost: {host}\r\n\r\n".encode())).status, status)

    async def test_commands_in_a_request_reach_no_console(self) -> None:
        await self.serve()
        for path in ("/v1/site.json?drop=1001", "/metrics?line=stay%0a", "/healthz?%0D%0Amove%207"):
            self.assertEqual((await self.get(path)).status, 200)
        self.assertLessEqual(set(self.fake.asked), {"status", "slots", "calls 0", "calls 1", "lines 1", "radios 0", "radios 1017", "radios 1033"})
        await self.assert_unharmed()

    async def test_huge_headers(self) -> None:
        hub = await self.serve(header_octets=1024)
        answer = await self.send(b"GET /metrics HTTP/1.1\r\n" + b"a: " + b"x" * 50_000)
        self.assertEqual(answer.status, 431)
        many = "".join(f"a{n}: b\r\n" for n in range(70))
        self.assertEqual((await self.send(f"GET / HTTP/1.1\r\n{many}\r\n".encode())).status, 431)
        self.assertEqual(hub.counts.http_requests.get(code="431"), 2)
        await self.assert_unharmed()

    async def test_slow_clients(self) -> None:
        await self.serve(request_seconds=0.5, connections=8)
        slow = [await self.dial(self.port, b"GET /met") for _ in range(6)]
        began = time.monotonic()
        self.assertEqual((await self.get("/metrics")).status, 200)
        await self.assert_unharmed()
        for reader, _ in slow:
            self.assertIn(Answer(await reader.read()).status, (408, 0))
        self.assertLess(time.monotonic() - began, 30)

    async def ask_and_not_read(self, hub: Hub) -> asyncio.StreamWriter:
        """A connection that has asked for a long response, and does not read it."""
        hub.web_port.views["/healthz"] = lambda _: Response(b"x" * 30_000_000)  # type: ignore[index]
        _, writer = await asyncio.open_connection("127.0.0.1", self.port, limit=1024)
        writer.transport.pause_reading()  # type: ignore[attr-defined]
        writer.write(GET.format("/healthz", self.port).encode())
        await wait_until(lambda: hub.counts.http_requests.get(code="200"))
        return writer

    async def test_a_client_that_does_not_read(self) -> None:
        hub = await self.serve(request_seconds=60)
        writer = await self.ask_and_not_read(hub)
        await self.assert_unharmed()
        self.assertTrue(hub.web_port.tasks)
        writer.transport.abort()
        await wait_until(lambda: not hub.web_port.tasks)

    async def test_a_client_that_does_not_read_is_cut_off(self) -> None:
        hub = await self.serve(request_seconds=0.5)
        writer = await self.ask_and_not_read(hub)
        await wait_until(lambda: not hub.web_port.tasks)
        await self.assert_unharmed()
        writer.transport.abort()

    async def test_many_radios_delay_nobody(self) -> None:
        hub = await self.serve()
        hub.model.radios = RadioList(tuple(range(MOST_RADIOS)), False)
        # the hub's own processor time: how long it takes depends on other work too
        began = time.thread_time()
        hub.views.site_json()
        self.assertLess(time.thread_time() - began, 1)

    async def test_thousands_of_connections(self) -> None:
        hub = await self.serve(connections=8, request_seconds=1.0)
        statuses = set()
        for _ in range(25):
            opened = [await asyncio.open_connection("127.0.0.1", self.port) for _ in range(80)]
            for _, writer in opened:
                writer.close()
            statuses.add((await self.get("/healthz")).status)
        self.assertLessEqual(statuses, {200, 503, 0})
        self.assertGreater(hub.counts.http_refusals.get(), 100)
        await self.assert_unharmed()
        await self.until_health(200, "ok")

    async def test_no_port_unless_it_is_asked_for(self) -> None:
        self.assertIsNone((await self.start()).web_port.listener)
