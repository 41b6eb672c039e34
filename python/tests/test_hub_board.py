"""The operators' page and its paths: files with their types and headers, no other file, and tags. Then seen calls, samples, the state while the controller is
away, and queries that are refused."""
import json
import re
from unittest import mock

from temzaar.hub import pagefiles, service
from temzaar.hub.web import BROWSER_RULES, CONTENT_POLICY
from temzaar.ports import free_ports
from tests.hub_support import wait_until
from tests.support import TOP
from tests.test_hub_web import Answer, WebCase


class Files(WebCase):
    """The files of the page."""

    async def test_types_and_headers(self) -> None:
        await self.serve()
        for name in pagefiles.NAMES:
            answer = await self.get(pagefiles.path_of(name))
            self.assertEqual((answer.status, answer.body), (200, (pagefiles.FOLDER / name).read_bytes()), name)
            self.assertEqual(answer.headers["cache-control"], "no-cache")
            self.assertRegex(answer.headers["etag"], r'^"[0-9a-f]{32}"$')
        kinds = {(await self.get(path)).headers["content-type"] for path in ("/", "/page/board.js", "/page/board.css", "/page/icon.svg")}
        self.assertEqual(kinds, {"text/html; charset=utf-8", "text/javascript; charset=utf-8", "text/css; charset=utf-8", "image/svg+xml"})

    async def test_every_response_has_the_rules_for_browsers(self) -> None:
        hub = await self.serve()
        self.assertEqual(CONTENT_POLICY, "default-src 'none'; script-src 'self'; style-src 'self'; connect-src 'self'; img-src 'self'; base-uri 'none'; form-action 'none'; frame-ancestors 'none'")
        for path in (*hub.web_port.views, "/nothing"):
            answer = await self.get(path)
            self.assertEqual({name: answer.headers.get(name.lower()) for name in BROWSER_RULES}, BROWSER_RULES, path)
        self.assertEqual((BROWSER_RULES["X-Content-Type-Options"], BROWSER_RULES["Referrer-Policy"]), ("nosniff", "no-referrer"))

    async def test_no_other_file(self) -> None:
        await self.serve()
        for path in ("/page/", "/page", "/page/../views.py", "/page/..%2fviews.py", "/page/%2e%2e/views.py", "//etc/passwd", "/page//etc/passwd", "/page/board.js/", "/page/board.js%00.css", "/PAGE/board.js",
                     "/index.html", "/page/index.html", "/./page/board.js", "/page/..\\views.py", "/favicon.ico", "/v1/", "/page/board.js;a"):
            answer = await self.get(path)
            self.assertEqual((answer.status, answer.body[:13]), (404, b"there is /, /"), path)
        self.assertEqual((await self.get("/?x=y")).status, 200)

    async def test_a_tag_that_is_known(self) -> None:
        await self.serve()
        for path in ("/", "/page/board.js", "/v1/radios.json", "/v1/calls.json"):
            tag = (await self.get(path)).headers["etag"]
            for sent, status in ((tag, 304), (f'W/{tag}', 304), (f'"other", {tag}', 304), ("*", 304), ('"other"', 200), ("nonsense", 200), (tag.strip('"'), 200)):
                answer = await self.get_with(path, sent)
                self.assertEqual(answer.status, status, (path, sent))
                self.assertEqual((answer.headers["etag"], answer.headers["cache-control"]), (tag, "no-store" if path.startswith("/v1/") else "no-cache"))
                if status == 304:
                    self.assertEqual((answer.body, answer.headers.get("content-length"), answer.headers.get("content-type")), (b"", None, None))
        self.assertEqual((await self.get_with("/v1/state.json", "*")).status, 200)

    async def get_with(self, path: str, tag: str) -> Answer:
        """The response to a GET by a client that has a response with a tag."""
        return await self.send(f"GET {path} HTTP/1.1\r\nHost: localhost:{self.port}\r\nIf-None-Match: {tag}\r\n\r\n".encode())

    async def test_a_page_that_cannot_be_read_is_left_out(self) -> None:
        with mock.patch.object(pagefiles, "NAMES", ("index.html", "missing.js")), mock.patch.object(service, "warn") as warned:
            await self.serve()
        self.assertRegex(warned.call_args_list[0].args[0], r"^page: cannot read .*missing\.js: No such file or directory$")
        answer = await self.get("/")
        self.assertEqual((answer.status, answer.body[:22]), (404, b"there is /v1/site.json"))
        self.assertEqual((await self.get("/metrics")).status, 200)

    async def test_what_the_page_loads_is_served(self) -> None:
        """Each file that the page or a script names is one of the files; no file names another host, and none has a script or a style within the HTML."""
        html = (pagefiles.FOLDER / pagefiles.START).read_text(encoding="utf-8")
        named = set(re.findall(r'(?:src|href)="(/[^"]*)"', html))
        self.assertEqual(re.findall(r"<script(?![^>]* src=)|<style|style=| on\w+=|javascript:", html), [])
        for name in pagefiles.NAMES:
            text = (pagefiles.FOLDER / name).read_text(encoding="utf-8")
            named |= {f"/page/{it}" for it in re.findall(r'from "\./([^"]+)"', text)}
            self.assertEqual([it for it in re.findall(r"https?://[^\"' )]+|//\w[\w.]+\.\w+", text) if it != "http://www.w3.org/2000/svg"], [], name)
            self.assertNotRegex(text, r"innerHTML|outerHTML|insertAdjacentHTML|document\.write|\beval\(|new Function", name)
        self.assertEqual(named, {pagefiles.path_of(name) for name in pagefiles.NAMES if name != pagefiles.START})
        self.assertEqual({path.name for path in pagefiles.FOLDER.iterdir()}, set(pagefiles.NAMES))

    async def test_they_are_installed(self) -> None:
        """The Makefile and setuptools take the folder, whatever is in it."""
        self.assertIn("hub/page/*", (TOP / "Makefile").read_text(encoding="utf-8"))
        self.assertIn('"temzaar.hub" = ["page/*"]', (TOP / "python" / "pyproject.toml").read_text(encoding="utf-8"))


class Parts(WebCase):
    """The parts of the site that the page asks for."""

    async def test_the_state(self) -> None:
        await self.serve()
        whole, part = await self.view("/v1/site.json"), await self.view("/v1/state.json")
        self.assertEqual([*part], [*whole])
        self.assertEqual(part["state"]["carriers"][0]["slots"], [{**it, "call": it["call"] and {**it["call"], "age_seconds": mock.ANY}} for it in whole["state"]["carriers"][0]["slots"]])
        self.assertEqual(part["radios"], {**{name: mock.ANY for name in whole["radios"] if name not in ("registered", "names")}, "count": 40})

    async def test_the_radios(self) -> None:
        hub = await self.serve()
        view = await self.view("/v1/radios.json")
        self.assertEqual((view["registered"], view["complete"]), ([*range(1001, 1041)], True))
        self.assertRegex(view["changed"], r"^\d{4}-\d\d-\d\dT\d\d:\d\d:\d\d\.\d{3}Z$")
        listed = hub.model.radios_seen
        await wait_until(lambda: hub.model.radios_seen is not listed)
        self.assertEqual(await self.view("/v1/radios.json"), view)
        self.fake.radios.discard(1001)
        await wait_until(lambda: hub.model.radios and len(hub.model.radios.radios) == 39)
        self.assertNotEqual((await self.view("/v1/radios.json"))["changed"], view["changed"])

    async def test_before_the_first_picture(self) -> None:
        self.fake.octets["slots"] = b"error not yet\n"
        self.fake.octets["radios 0"] = b"nothing\nend\n"
        self.port = free_ports(1)
        await self.start(config=self.config(http={"port": self.port}))
        self.assertEqual(((await self.view("/v1/state.json"))["state"], (await self.view("/v1/state.json"))["radios"], await self.view("/v1/radios.json"), await self.calls()), (None, None, None, []))
        history = await self.view("/v1/history.json")
        self.assertEqual((set(history["pictures"]), set(history["figures"]["slots_in_use"]["mean"])), ({0}, {None}))


class Calls(WebCase):
    """Seen calls."""

    async def test_a_call_ends_and_another_begins(self) -> None:
        hub = await self.serve()
        self.assertEqual(await self.calls(), [(2, "radio", 1002, 1003, False), (1, "group", 91, 1001, False)])
        tag = (await self.get("/v1/calls.json")).headers["etag"]
        await self.show(hub)
        self.assertEqual((await self.get("/v1/calls.json")).headers["etag"], tag)
        await self.show(hub, calls_0=["call 0 1 group 92 from 1009", "end"])
        self.assertEqual(await self.calls(), [(3, "group", 92, 1009, False), (2, "radio", 1002, 1003, False), (1, "group", 91, 1001, True)])
        view = await self.view("/v1/calls.json")
        self.assertEqual({name: view[name] for name in ("poll_seconds", "seen", "kept")}, {"poll_seconds": 0.2, "seen": 3, "kept": 10_000})
        first = view["calls"][2]
        self.assertEqual((first["carrier"], first["slot"], first["older"], first["end_seen"], first["seconds"] > 0), (0, 1, True, True, True))
        self.assertEqual({view["calls"][0][name] for name in ("ended", "end_seen", "seconds")}, {None})
        self.assertLess(first["began"], first["ended"])
        for query, numbers in (("?radio=1003", [2]), ("?group=92", [3]), ("?group=91&radio=1003", []), ("?last=2", [3, 2])):
            self.assertEqual([it[0] for it in await self.calls(query)], numbers, query)

    async def test_the_controller_goes_away_and_comes_back(self) -> None:
        hub = await self.serve()
        self.fake.cut()
        await wait_until(lambda: hub.link.connection == 2 and hub.model.calls.count == 4)
        view = await self.view("/v1/calls.json")
        self.assertEqual([(it["number"], it["older"], it["end_seen"]) for it in view["calls"]], [(4, True, None), (3, True, None), (2, True, False), (1, True, False)])

    async def test_bad_queries_are_refused_by_name(self) -> None:
        """Each path has its own keys."""
        await self.serve()
        for path, said in (("calls.json?radio=x", "radio: not a whole number: 1 to 16777215"), ("calls.json?size=5", "size: unknown key: there is radio, group, from, to, last"),
                           ("history.json?drop=1001", "drop: unknown key: there is span"), ("radios.json?last=1", "last: unknown key: there is begins, most"),
                           ("names.json?look=a", "look: unknown key: there is find, most"), ("events.json?kind=x", "kind: unknown key: there is from, to, refusals, last")):
            answer = await self.get(f"/v1/{path}")
            self.assertEqual((answer.status, answer.body.decode(), answer.headers["content-type"]), (400, f"{said}\n", "text/plain; charset=utf-8"))
        await self.assert_unharmed()


class History(WebCase):
    """Samples."""

    async def test_the_hour_and_the_day(self) -> None:
        hub = await self.serve()
        await self.show(hub)
        for query, step in (("", 5), ("?span=hour", 5), ("?span=day", 120)):
            answer = await self.get(f"/v1/history.json{query}")
            view = json.loads(answer.body)
            self.assertEqual((answer.headers["cache-control"], view["step_seconds"], len(view["pictures"])), ("no-store", step, 720))
            self.assertNotIn("etag", answer.headers)
            self.assertGreaterEqual(sum(view["pictures"]), 3)
            for figure, value in (("slots_in_use", 2), ("slots_up", 3), ("queue_length", 1), ("registered_radios", 40), ("carriers_up", 2)):
                columns = view["figures"][figure]
                self.assertEqual([*columns], ["min", "mean", "max"])
                self.assertEqual({len(column) for column in columns.values()}, {720})
                self.assertEqual([column[-1] if column[-1] is not None else column[-2] for column in columns.values()], [value] * 3, figure)
            self.assertGreaterEqual(view["figures"]["longest_wait_seconds"]["max"][-1] or 0, 0)

    async def test_no_samples_while_the_controller_is_away(self) -> None:
        hub = await self.serve()
        self.fake.stop()
        await wait_until(lambda: not hub.link.state.is_up)
        before = sum((await self.view("/v1/history.json"))["pictures"])
        view = await self.view("/v1/state.json")
        self.assertEqual((view["controller"]["up"], bool(view["controller"]["reason"]), view["state"]["counts"]["calls"]), (False, True, 2))
        self.assertGreater(before, 0)
        self.assertEqual(sum((await self.view("/v1/history.json"))["pictures"]), before)
