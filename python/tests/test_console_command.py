"""The command dmr_console: in a pipe, with words, on a terminal; and what it completes; and siteview through the hub. A hub in this process answers."""
import asyncio
import os
import pathlib
import pty
import select
import subprocess
import tempfile
import time
import unittest
from unittest import mock

from temzaar.cli.siteview import Prompt, View, plain_text
from temzaar.console import Console
from temzaar.hubconsole import Completions, HubConsole, HubNames, ask_names, has_ended, name_lines
from temzaar.names import FileNames, Kind
from tests.fake_console import STATUS, FakeConsole
from tests.hub_support import NONE, HubCase, wait_until
from tests.support import run_tool, tool_words
from tests.test_siteview import Written


class ToolCase(HubCase):
    """A test that runs tools over a hub."""

    def environment(self) -> dict[str, str]:
        """The environment of the tools."""
        return {**os.environ, "DMR_HUB_SOCKET": self.socket, "XDG_STATE_HOME": self.folder, "TERM": "dumb"}

    async def run_tool(self, name: str, *words: str, given: str = "") -> subprocess.CompletedProcess[str]:
        """Runs a tool to its end."""
        return await asyncio.to_thread(run_tool, name, *words, input=given, env=self.environment())

    async def show_site(self, *words: str) -> subprocess.CompletedProcess[str]:
        """Runs siteview once, with the site file, to its end."""
        return await self.run_tool("siteview", "--site", self.site, "--once", *words)


class Command(ToolCase):
    """The command as a process."""

    async def run_console(self, *words: str, given: str = "") -> subprocess.CompletedProcess[str]:
        """Runs the command to its end."""
        return await self.run_tool("console", *words, given=given)

    async def test_lines_in_a_pipe_and_words(self) -> None:
        await self.start()
        shown = STATUS.decode()
        for words, given, status, replies in (((), "status\nlines 1\nstay", 0, f"{shown}line 1 group 94 from 1004\nend\nok\n"), ((), "drop 7\nstatus\n", 3, f"error not registered\n{shown}"),
                                              (("calls", "0"), "", 0, "call 0 1 group 91 from 1001\nend\n"), (("--socket", self.socket, "calls", "x"), "", 3, "error unknown command\n")):
            done = await self.run_console(*words, given=given)
            self.assertEqual((done.returncode, done.stdout, done.stderr), (status, replies, ""))

    async def test_faults(self) -> None:
        done = await self.run_console("status")
        self.assertEqual((done.returncode, done.stdout, done.stderr), (1, "", f"console: cannot connect to the hub {self.socket}: No such file or directory\n"))
        done = await self.run_console("--tcp", "here", "status")
        self.assertEqual((done.returncode, done.stderr.splitlines()[-1]), (2, "console: error: argument --tcp: 'here' is not ADDRESS:PORT"))
        self.assertEqual((await self.run_console("--tcp", "a:1", "--socket", "b")).returncode, 2)

    async def test_a_user_without_a_role(self) -> None:
        await self.start(NONE)
        done = await self.run_console(given="status\nstatus\n")
        self.assertIn(done.returncode, (1, 3))
        self.assertIn("has no role here", done.stdout + done.stderr)
        self.assertNotIn("Traceback", done.stderr)

    async def test_on_a_terminal(self) -> None:
        await self.start()
        shown = await asyncio.to_thread(self.type_keys, ["stat\t\n", "drop 103\t\n", "end 1 \t\n", "\x03", "quit\n"])
        self.assertIn("status carriers 2 radios 40", shown)
        self.assertIn("drop 103", shown)
        self.assertIn("end 1 0", self.fake.asked)
        with open(os.path.join(self.folder, "dmr_console", "history"), encoding="utf-8") as it:
            self.assertIn("status \n", it.read())

    async def test_names_on_a_terminal(self) -> None:
        """They are next to numbers on a terminal. In a pipe a program gets the octets of the controller and of the hub."""
        self.write_names("radio,1001,Süd 12\nradio,1003,Bus 13\ntalkgroup,91,Drivers\ncarrier,0,Mast North\n")
        await self.start()
        shown = await asyncio.to_thread(self.type_keys, ["calls 0\n", "slots\n", "radios 1001\n", "drop 1003\n", "history\n", "names radio 1001 1003\n", "names r\t7\n", "quit\n"])
        for text in ("call 0 [Mast North] 1 group 91 [Drivers] from 1001 [Süd 12]\r\n", "slot 0 [Mast North] 1 call\r\n", "radio 1001 [Süd 12]\r\nradio 1002\r\nradio 1003 [Bus 13]\r\n",
                     "answered: drop 1003 [Bus 13]: ok\r\n", "name radio 1001 Süd 12\r\nname radio 1003 Bus 13\r\nend\r\n", "names radio 7\r\n"):
            self.assertIn(text, shown)
        done = await self.run_console(given="calls 0\nnames radio 1001\n")
        self.assertEqual(done.stdout, "call 0 1 group 91 from 1001\nend\nname radio 1001 S\\xc3\\xbcd 12\nend\n")
        self.assertEqual([it for it in self.fake.asked if "names" in it], [])

    def type_keys(self, pieces: list[str]) -> str:
        """What the command shows on a terminal on which these keys are typed, each piece after a prompt. AssertionError: it does not end well."""
        ours, theirs = pty.openpty()
        shown = b""
        with subprocess.Popen(tool_words("console"), stdin=theirs, stdout=theirs, stderr=theirs, env=self.environment(), start_new_session=True) as process:
            os.close(theirs)
            try:
                for count, piece in enumerate(pieces, 1):
                    until = time.monotonic() + 30
                    while shown.count(b"dmr> ") < count and time.monotonic() < until:
                        if select.select([ours], [], [], 0.1)[0]:
                            shown += os.read(ours, 4096)
                    os.write(ours, piece.replace("\x03", "").encode() or b"\n")
                self.assertEqual(process.wait(30), 0, shown)
            finally:
                process.kill()
                os.close(ours)
        return shown.decode("utf-8", "replace")


class Siteview(ToolCase):
    """The picture of a site through the hub."""

    async def test_through_the_hub(self) -> None:
        """The hub holds the console all the time: siteview would wait for it in vain."""
        await self.start()
        for words in (("--site", self.site), ("--hub", self.socket)):
            done = await self.run_tool("siteview", *words, "--once")
            self.assertEqual((done.returncode, done.stderr), (0, ""))
            self.assertIn("carriers 2 of 2 up   radios 40   asks 0   lines 1   calls 2   fill aloha\n", done.stdout)
            self.assertIn("group 91 from 1001\n", done.stdout)
        self.assertEqual(self.fake.connections, 1)

    async def test_names(self) -> None:
        """Those of the hub, or those of the file that the words name."""
        self.write_names("radio,1001,Bus 12\ntalkgroup,94,Night\ncarrier,1,Mast South\nx\n")
        await self.start()
        shown, noted = ("group 91 from 1001 [Bus 12]\n", "   1 [Mast South]  radio 1002 from 1003", "   1     group 94 [Night] from 1004\n"), f"siteview: {self.names}: line 4: "
        for words, said in (((), ""), (("--names", str(self.names)), noted)):
            done = await self.show_site(*words)
            self.assertEqual((done.returncode, done.stderr[:len(noted)]), (0, said))
            for text in shown:
                self.assertIn(text, done.stdout)
        done = await self.show_site("--names", f"{self.names}x")
        self.assertEqual((done.returncode, done.stderr), (1, f"siteview: {self.names}x: No such file or directory\n"))

    async def test_the_name_of_the_site(self) -> None:
        """It is that of the hub's config, or that of the words."""
        name = "Süd \\ 1"
        await self.start(config=self.config(site_name=name))
        for words, shown in (((), f"site {name}   127.0.0.1:{self.fake.port}   "), (("--name", "North"), f"site North   127.0.0.1:{self.fake.port}   ")):
            done = await self.show_site(*words)
            self.assertEqual((done.returncode, done.stderr, done.stdout[:len(shown)]), (0, "", shown))

    async def test_the_end_of_a_connection_is_seen(self) -> None:
        await self.start(config=self.config({"idle_seconds": 3.0}))
        console = await self.open_console()
        self.assertFalse(has_ended(console))
        self.assertEqual(await asyncio.to_thread(console.ask, "stay"), ["ok"])
        await wait_until(lambda: has_ended(console))

    async def test_a_hub_of_another_console(self) -> None:
        await self.start()
        other = FakeConsole()
        other.radios.clear()
        self.addCleanup(other.stop)
        self.write_site(other.port)
        self.assertIn("radios 0 ", (await self.show_site()).stdout)

    async def test_a_user_without_a_role(self) -> None:
        await self.start(NONE)
        done = await self.show_site()
        self.assertEqual(done.returncode, 1)
        self.assertRegex(done.stderr, rf"^siteview: the hub {self.socket}: the user \S+ has no role here\n$")

    async def test_without_a_hub(self) -> None:
        self.assertIn("radios 40 ", (await self.show_site()).stdout)
        done = await self.run_tool("siteview", "--hub", self.socket, "--once")
        self.assertEqual((done.returncode, done.stderr), (1, f"siteview: cannot connect to the hub {self.socket}: No such file or directory\n"))

    async def open_console(self) -> HubConsole:
        """A connection to the hub."""
        console = await asyncio.to_thread(HubConsole, self.socket)
        self.addCleanup(console.close)
        return console

    async def test_one_answer_is_missing(self) -> None:
        """siteview shows why, and goes on."""
        await self.start()
        view = View(await self.open_console(), "here")
        for reason in ("no answer: no answer in 1 s", "the hub is busy: the line was not sent in time"):
            with mock.patch.object(Console, "ask", return_value=[f"error {reason}"]):
                view.look()
            self.assertEqual((view.picture, view.away), (None, reason))
        await asyncio.to_thread(view.look)
        self.assertIsNotNone(view.picture)

    async def test_the_controller_is_away(self) -> None:
        hub = await self.start()
        view = View(await self.open_console(), "here")
        await asyncio.to_thread(view.look)
        self.assertIsNotNone(view.picture)
        self.fake.stop()
        await wait_until(lambda: "cannot connect" in hub.link.state.reason)
        await asyncio.to_thread(view.look)
        rows = list(view.rows())
        self.assertRegex(rows[1][0][0], "^the controller is away: cannot connect")
        prompt = Prompt(view.console)
        await asyncio.to_thread(prompt.take_keys, "slots\n")
        self.assertRegex(prompt.answer[0], "^the controller is away: ")
        again = FakeConsole(self.fake.port)
        self.addCleanup(again.stop)
        await wait_until(lambda: hub.link.state.is_up)
        await asyncio.to_thread(view.look)
        self.assertIsNotNone(view.picture)


class Completed(unittest.TestCase):
    """Completions, over a fake controller."""

    def setUp(self) -> None:
        self.fake = FakeConsole()
        self.addCleanup(self.fake.stop)
        self.console = Console("127.0.0.1", self.fake.port)
        self.addCleanup(self.console.close)

    def test_words(self) -> None:
        self.fake.radios = {1001, 1002, 100, 20, 10011, 1999}
        completions = Completions(self.console)
        for before, begun, words in (("", "st", ["stay", "status"]), ("", "h", ["help", "history"]), ("drop ", "100", ["100", "1001", "1002", "10011"]), ("drop ", "2", ["20"]), ("drop ", "x", []),
                                     ("calls ", "", ["0", "1"]), ("end ", "", ["0", "1"]), ("end 1 ", "", ["0"]), ("end 1 0 ", "", []), ("status ", "", []), ("nonsense ", "", [])):
            with self.subTest(before + begun):
                self.assertEqual(completions.find(before, begun), words)

    def test_a_console_at_fault(self) -> None:
        self.fake.stop()
        self.assertEqual(Completions(self.console).find("drop ", "1"), [])


class NamesOfTheHub(unittest.TestCase):
    """What a client asks the hub for names, and what it takes for one. The console's replies are written down."""

    def setUp(self) -> None:
        self.console = mock.Mock(Console)

    def test_lines(self) -> None:
        """None is longer than a line may be, and each number is asked for once."""
        lines = [*name_lines({(Kind.RADIO, it) for it in range(16777200, 16777216)} | {(Kind.CARRIER, 0), (Kind.TALKGROUP, 91)})]
        self.assertEqual(([it.split()[1] for it in lines], max(map(len, lines)) <= 80), (["radio", "radio", "radio", "talkgroup", "carrier"], True))
        self.assertEqual(sorted(int(word) for it in lines for word in it.split()[2:]), sorted([0, 91, *range(16777200, 16777216)]))

    def test_what_is_no_name_is_left_out(self) -> None:
        self.console.ask.return_value = ["name radio 1001 S\\xc3\\xbcd", "name radio 1002 a]b", "name radio 1003 \\x1b[2J", "name radio 1004", "name bus 1 a", "name radio x a", "names radio 5 a",
                                         "error unknown command", ""]
        names = ask_names(self.console, {(Kind.RADIO, 1001)})
        self.assertEqual((len(names), names.name_of(Kind.RADIO, 1001)), (1, "Süd"))
        self.console.ask.return_value = ["error unknown command"]
        self.assertEqual(len(ask_names(self.console, {(Kind.RADIO, 1)})), 0)

    def test_the_hub_is_asked_again_after_some_seconds(self) -> None:
        self.console.ask.return_value = ["name radio 1001 Bus 12"]
        source, asked = HubNames(self.console), self.console.ask.call_args_list
        with mock.patch("temzaar.hubconsole.time.monotonic", return_value=100.0) as clock:
            for texts in (["group 91 from 1001"], ["group 91 from 1001"], ["radio 1001 from 1001"]):
                self.assertEqual(source.find(texts).name_of(Kind.RADIO, 1001), "Bus 12")
            self.assertEqual(asked, [mock.call("names radio 1001"), mock.call("names talkgroup 91")])
            source.find(["radio 1002 from 1001"])
            self.assertEqual(asked[2:], [mock.call("names radio 1002")])
            clock.return_value = 110.5
            source.find(["group 91 from 1001"])
        self.assertEqual(asked[3:], [mock.call("names radio 1001"), mock.call("names talkgroup 91")])

    def test_a_file_that_changes(self) -> None:
        """It is read again; of a file that cannot be used nothing is taken, and the picture says so."""
        path = pathlib.Path(self.enterContext(tempfile.TemporaryDirectory()), "names.csv")
        path.write_text("radio,1003,Bus 12\n", encoding="utf-8")
        source = FileNames(str(path))
        view = View(Written(), "here", source)
        for text, shown, fault in (("", "[Bus 12]", ""), ("radio,1003,Tram 7\n", "[Tram 7]", ""), ("nothing\n", "[Tram 7]", f"names: {path}: line 1: not kind,number,name"), ("radio,1003,Bus 9\n", "[Bus 9]", "")):
            if text:
                path.with_suffix(".new").write_text(text, encoding="utf-8")
                os.replace(path.with_suffix(".new"), path)
            view.look()
            rows = plain_text(view.rows())
            self.assertIn(f"radio 1002 from 1003 {shown}", rows)
            self.assertEqual((source.fault[:len(fault)], bool(source.fault), source.fault in rows), (fault, bool(fault), True))
