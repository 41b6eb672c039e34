"""`restart`: a served site that is stopped at the end of a term and comes back, and consoles of a
test's choice that do not."""
import asyncio
import contextlib
import os
import pathlib
import re
import shlex
import socket
import subprocess
import sys
import threading
import time
from collections import deque
from collections.abc import Callable
from typing import Any
from unittest import mock

from temzaar import code, pdus
from temzaar.cli import restart
from temzaar.console import Console, Status
from temzaar.frames import POLL, hello, rx
from temzaar.hubconsole import VARIABLE
from temzaar.picture import take_picture
from temzaar.plannedstop import MOST_NAMED, Seen, lost_lines, named, wait_for_term
from temzaar.process import Controller
from temzaar.records import RecordedTerm
from temzaar.sitefile import Site
from tests.fake_console import FakeConsole
from tests.hub_support import HubCase
from tests.made_records import add_term, locked, make_records
from tests.served_kit import PATIENCE, free_site
from tests.support import TOP, TWO_CARRIERS, FolderCase, call_tool, program, tool_words, wait_until
from tests.test_siteview import Written

FAKE = str(TOP / "python" / "tests" / "fake_controller.py")
# A command that asks a port of the test for a restart, and ends when that was done.
ASK = "import socket, sys; sys.exit(int(socket.create_connection(('127.0.0.1', {})).recv(9) or 9))"
# What the console answers of a site without calls; and of slots, if carrier 1 is down.
QUIET = {"slots": ["slot 0 0 control", "slot 0 1 free", "slot 1 0 free", "slot 1 1 free", "end"], "lines 1": ["end"]}
ONE_DOWN = ["slot 0 0 control", "slot 0 1 free", "slot 1 0 down", "slot 1 1 down", "end"]


class Restarter:
    """Does something when the command runs, and has the command end with a status."""

    def __init__(self, action: Callable[[], None], status: int = 0) -> None:
        self.action, self.status, self.runs = action, status, 0
        self.listener = socket.create_server(("127.0.0.1", 0))
        self.command = shlex.join([sys.executable, "-c", ASK.format(self.listener.getsockname()[1])])
        self.thread = threading.Thread(target=self._serve, daemon=True)
        self.thread.start()

    def _serve(self) -> None:
        with contextlib.suppress(OSError):
            while True:
                with self.listener.accept()[0] as stream:
                    self.runs += 1
                    self.action()
                    stream.sendall(b"%d" % self.status)

    def close(self) -> None:
        """Ends."""
        self.listener.shutdown(socket.SHUT_RDWR)
        self.listener.close()
        self.thread.join(PATIENCE)


class BaseStation:
    """A carrier that polls, and connects again when its connection ends."""

    def __init__(self, site: Site, number: int) -> None:
        self.row, self.bursts, self.ends = site.row(number), deque[bytes](), False
        self.thread = threading.Thread(target=self._run, daemon=True)
        self.thread.start()

    def _run(self) -> None:
        while not self.ends:
            with contextlib.suppress(OSError), socket.create_connection(("127.0.0.1", self.row["port"]), 5) as stream:
                stream.sendall(hello(self.row["number"], self.row["lpcn"]))
                while not self.ends:
                    stream.sendall((rx(0, self.bursts.popleft()) if self.bursts else b"") + POLL)
                    if not stream.recv(4096):
                        break
                    time.sleep(0.03)
            time.sleep(0.05)

    def say(self, kind: int, target: int, source: int, options: int = 0) -> None:
        """A radio requests something."""
        self.bursts.append(code.burst_of(pdus.random_access(kind, target, source, options)))

    def stop(self) -> None:
        """Ends."""
        self.ends = True
        self.thread.join(PATIENCE)


class RestartCase(FolderCase):
    """A test with a folder, and without the hub of this machine."""

    def setUp(self) -> None:
        super().setUp()
        self.enterContext(mock.patch.dict(os.environ, {VARIABLE: str(self.folder / "no-hub")}))
        self.path, self.records = self.folder / "site.toml", self.folder / "site.db"

    def restarter(self, action: Callable[[], None] = lambda: None, status: int = 0) -> Restarter:
        """A command, and what it does."""
        it = Restarter(action, status)
        self.addCleanup(it.close)
        return it

    def run_tool(self, command: str, *more: str, controller: str = FAKE) -> subprocess.CompletedProcess[str]:
        """Runs the tool over the site file and the file of records."""
        return call_tool(restart.main, "--site", str(self.path), "--records", str(self.records), "--controller", controller, "--command", command, *more)


class Served(RestartCase):
    """A served site of two carriers, with terms of some tenths of a second."""

    def setUp(self) -> None:
        super().setUp()
        self.built = program("dmr_trunk")
        self.site = free_site(tick_ms=10, term_entries=50, hang=60000, maximum=65535)
        self.write("site.toml", self.site.text())
        self.serve()
        self.addCleanup(lambda: self.controller.stop())
        self.stations = [BaseStation(self.site, row["number"]) for row in self.site.rows]
        for it in self.stations:
            self.addCleanup(it.stop)

    def serve(self) -> None:
        """Starts the controller."""
        self.controller = Controller(self.built, self.site, (), {"STATE_DIRECTORY": str(self.folder)})
        self.controller.wait_until_served()

    def start_again(self) -> None:
        """What the command does."""
        self.controller.stop()
        self.serve()

    def counts(self) -> dict[str, int]:
        """What the console counts."""
        with Console("127.0.0.1", self.site.console_port) as console:
            return Status(console.ask("status")).counts

    def begin_call(self) -> None:
        """Two radios register, and one calls a talkgroup."""
        wait_until(lambda: self.counts()["carriers"] == 2)
        for radio in (1001, 1002):
            self.stations[0].say(pdus.REGISTRATION, self.site.plan["regi"], radio, self.site.register_options())
        wait_until(lambda: self.counts()["radios"] == 2)
        self.stations[0].say(pdus.TALKGROUP_VOICE, 91, 1001)
        wait_until(lambda: self.counts()["calls"] == 1)

    def test_all_comes_back(self) -> None:
        """At the end of a term: the radios are registered again, the call is lost."""
        self.begin_call()
        command = self.restarter(self.start_again)
        done = self.run_tool(command.command, controller=self.built)
        self.assertEqual((done.returncode, done.stderr, command.runs), (0, "", 1))
        self.assertRegex(done.stdout, rf"""(?x)\A
            {re.escape(str(self.path))}:\ .*dmr_trunk\ accepts\ it\n
            2\ carriers\ up,\ 2\ radios\ registered,\ 1\ call,\ 0\ requests\ in\ the\ queue\n
            waiting\ for\ the\ end\ of\ a\ term,\ at\ most\ 600\ s\n
            term\ \d+\ ended,\ after\ \d+\.\d\ s\n
            running:\ .*\n
            lost:\ 1\ call\n
            \ \ call\ \d/\d\ group\ 91\ from\ 1001\n
            not\ recorded:\ the\ [\d.]+\ m?s\ since\ \d{{4}}-.*\n
            console:\ answered\ \d+\.\d\ s\ after\ the\ stop\n
            carriers:\ 2\ up\ before,\ 2\ now\n
            radios:\ 2\ registered\ before,\ 2\ now\n
            now:\ \d+\.\d\ s\ after\ the\ stop\n\Z""")

    def test_a_site_file_that_is_refused(self) -> None:
        command = self.restarter(self.start_again)
        self.write("site.toml", self.site.text().replace("hang = 60000", "hang = 0"))
        done = self.run_tool(command.command, controller=self.built)
        self.assertEqual((done.returncode, done.stdout, command.runs), (1, "", 0))
        self.assertRegex(done.stderr, r"^restart: nothing was restarted: .*site\.toml: .* refuses it: dmr_trunk: site file: out of range hang; dmr_check shows the place\n$")

    def test_a_new_talkgroup(self) -> None:
        """What the tool is for: a site file with one more talkgroup and fewer radios."""
        self.begin_call()
        self.site.plan["groups"] = [*self.site.plan["groups"], 95]
        self.site.plan["radios"] = [[1002, 1999]]
        self.write("site.toml", self.site.text())
        done = self.run_tool(self.restarter(self.start_again).command, controller=self.built)
        self.assertEqual((done.returncode, done.stderr), (0, ""))
        self.assertIn("radios: 2 registered before, 1 now; no longer in the site file: 1001\n", done.stdout)


class Answered(RestartCase):
    """A console of the test's choice, and a file of records that grows when the test has it grow."""

    def setUp(self) -> None:
        super().setUp()
        self.fake = FakeConsole()
        self.addCleanup(lambda: self.fake.stop())
        site = free_site()
        site.plan["console_port"] = self.fake.port
        self.write("site.toml", site.text())
        make_records(self.records, terms=1)

    def start_again(self, **replies: list[str]) -> None:
        """The console ends, and another one listens on its port, without calls."""
        self.fake.stop()
        self.fake = FakeConsole(self.fake.port)
        self.fake.replies |= {**QUIET, **replies}

    def test_what_is_lost(self) -> None:
        """Two calls and a request; radios that do not come back are named."""
        def without_two() -> None:
            self.start_again()
            self.fake.radios -= {1003, 1040}

        def wait(*words: Any) -> RecordedTerm | None:
            """Waits as the tool does; meanwhile a term is recorded."""
            threading.Timer(0.3, add_term, (self.records, 2)).start()
            return wait_for_term(*words)

        with mock.patch.object(restart, "wait_for_term", wait):
            done = self.run_tool(self.restarter(without_two).command)
        self.assertEqual((done.returncode, done.stderr), (3, ""))
        self.assertIn("lost: 2 calls, 1 request in the queue\n  call 0/1 group 91 from 1001\n  call 1/0 radio 1002 from 1003\n  request group 94 from 1004\n", done.stdout)
        self.assertIn("term 2 ended, after ", done.stdout)
        self.assertIn("carriers: 2 up before, 2 now\nradios: 40 registered before, 38 now; not back: 1003, 1040\n", done.stdout)

    def test_a_carrier_that_stays_away(self) -> None:
        """Without waiting for a term; the status says that not all is back."""
        command = self.restarter(lambda: self.start_again(slots=ONE_DOWN))
        done = self.run_tool(command.command, "--now", "--back", "0.5")
        self.assertEqual((done.returncode, done.stderr), (3, ""))
        self.assertIn("carriers: 2 up before, 1 now; not back: 1\nradios: 40 registered before, 40 now\n", done.stdout)
        self.assertNotIn("waiting for", done.stdout)

    def test_a_quiet_site(self) -> None:
        """Nothing is lost but what was not recorded."""
        self.start_again()
        done = self.run_tool(self.restarter(self.start_again).command, "--now")
        self.assertEqual((done.returncode, done.stderr), (0, ""))
        self.assertRegex(done.stdout, r"(?m)^no call was active, and no request waited$\n^not recorded: the .* since ")

    def test_anyway(self) -> None:
        """No term ends in time: what is not recorded begins with the last one."""
        done = self.run_tool(self.restarter(self.start_again).command, "--within", "0.3", "--anyway")
        self.assertEqual((done.returncode, done.stderr), (0, ""))
        self.assertRegex(done.stdout, r"\nno term ended within 0\.3 s\nrunning: ")
        self.assertRegex(done.stdout, r"\nnot recorded: the \d+ h \d+ min since 2026-11-27 ")

    def test_dry_run(self) -> None:
        command = self.restarter()
        done = self.run_tool(command.command, "--dry-run", "--within", "5")
        self.assertEqual((done.returncode, done.stderr, command.runs), (0, "", 0))
        self.assertEqual(done.stdout, f"{self.path}: {FAKE} accepts it\n2 carriers up, 40 radios registered, 2 calls, 1 request in the queue\n"
                                      f"would wait for the end of a term, at most 5 s, and run: {command.command}\n")
        self.assertEqual(self.run_tool("true", "--dry-run", "--now").stdout.splitlines()[-1], "would run: true")

    def test_refused(self) -> None:
        """Each fault before the command: nothing is run."""
        command = self.restarter()
        hint = "; with --now the end of a term is not waited for"
        for words, said in ((["--within", "0.3"], f"no term ended within 0.3 s{hint}"),
                            (["--records", str(self.folder / "none")], f"{self.folder}/none: No such file or directory{hint}"),
                            (["--site", str(self.folder / "none")], f"cannot read {self.folder}/none: No such file or directory"),
                            (["--controller", str(self.folder / "none")], f"cannot run {self.folder}/none: it is not a program"),
                            (["--hub", str(self.folder / "none")], f"cannot connect to the hub {self.folder}/none: No such file or directory")):
            with self.subTest(words):
                done = self.run_tool(command.command, *words)
                self.assertEqual((done.returncode, done.stderr, command.runs), (1, f"restart: nothing was restarted: {said}\n", 0))
        self.fake.stop()
        done = self.run_tool(command.command)
        self.assertEqual((done.returncode, command.runs), (1, 0))
        self.assertIn("nothing was restarted: cannot connect to the console", done.stderr)

    def test_locked_records(self) -> None:
        """The controller is writing a term: that is waited for."""
        with locked(self.records) as writer:
            assert writer.stdin
            threading.Timer(0.5, writer.stdin.close).start()
            done = self.run_tool("true", "--dry-run")
        self.assertEqual((done.returncode, done.stderr), (0, ""))

    def test_now_without_records(self) -> None:
        self.records.unlink()
        done = self.run_tool(self.restarter(self.start_again).command, "--now")
        self.assertEqual((done.returncode, done.stderr), (0, ""))
        self.assertNotIn("not recorded", done.stdout)

    def test_failed(self) -> None:
        """A command that fails, is not there, or restarts nothing; a console that does not come back."""
        for command, words, said in (
                (self.restarter(status=7).command, (), "ended with status 7"),
                ("sh -c 'printf \"\\033[2Jnot allowed\\n\" >&2; exit 4'", (), "ended with status 4: \\x1b[2Jnot allowed"),
                (f"{self.folder}/none", (), f"cannot run {self.folder}/none: No such file or directory"),
                ("true", (), "a call goes on that was active before: true has not restarted this controller"),
                (self.restarter(lambda: self.fake.stop()).command, ("--back", "0.5"), "the console did not answer within 0.5 s: cannot connect to the console")):
            with self.subTest(command):
                done = self.run_tool(command, "--now", *words)
                self.assertEqual(done.returncode, 1, done.stdout)
                self.assertIn(said, done.stderr)
                self.assertNotIn("nothing was restarted", done.stderr)
                self.assertEqual(done.stderr.count("\n"), 1)

    def test_a_command_that_does_not_end(self) -> None:
        with mock.patch.object(restart, "COMMAND_SECONDS", 0.2):
            done = self.run_tool("sleep 30", "--now")
        self.assertEqual((done.returncode, done.stderr), (1, "restart: sleep 30 did not end within 0.2 s\n"))

    def test_a_slow_return(self) -> None:
        """The console refuses for a while, and then a carrier is down for a while."""
        def later() -> None:
            self.fake.stop()
            port = self.fake.port

            def back() -> None:
                self.fake = FakeConsole(port)
                self.fake.replies |= {**QUIET, "slots": ONE_DOWN}
                threading.Timer(0.5, lambda: self.fake.replies.update(QUIET)).start()

            threading.Timer(0.5, back).start()

        done = self.run_tool(self.restarter(later).command, "--now")
        self.assertEqual((done.returncode, done.stderr), (0, ""))
        answered, last = (float(re.search(f"{it} (.*) s after the stop", done.stdout)[1]) for it in ("answered", "now:"))  # type: ignore[index]
        self.assertGreaterEqual(answered, 0.5)
        self.assertGreaterEqual(last, answered + 0.4)

    def test_words(self) -> None:
        for command, said in (("'", "argument --command: No closing quotation"), ("  ", "there is no word in it")):
            done = self.run_tool(command)
            self.assertEqual((done.returncode, done.stdout), (2, ""))
            self.assertIn(said, done.stderr)

    def test_all_that_a_stop_ends(self) -> None:
        """A command `move` and radios that were called are lost too."""
        picture = take_picture(Written(status=["status carriers 2 radios 4 asks 1 lines 1 calls 2 fill move 7"]))
        self.assertEqual(list(lost_lines(Seen(picture, frozenset(), 0.0))), [
            "lost: 2 calls, 1 request in the queue, 1 radio that was called and had not answered",
            "  call 0/1 group 91 from 1001", "  call 1/0 radio 1002 from 1003", "  request group 94 from 1004",
            "  the command `move 7`: repeat it, if radios are still to go there"])

    def test_many_are_named_shortly(self) -> None:
        self.assertEqual(named("not back", list(range(1, MOST_NAMED + 6))), f"; not back: {', '.join(map(str, range(1, MOST_NAMED + 1)))}, and 5 more")


class ThroughTheHub(HubCase):
    """The hub holds the console, and connects again after the restart."""

    async def test_it(self) -> None:
        await self.start()
        pathlib.Path(self.site).write_text(Site(TWO_CARRIERS).text().replace("console_port = 7100", f"console_port = {self.fake.port}"), encoding="utf-8")

        def start_again() -> None:
            self.fake.stop()
            self.fake = FakeConsole(self.fake.port)
            self.fake.replies |= QUIET

        command = Restarter(start_again)
        self.addCleanup(command.close)
        words = tool_words("restart", "--site", self.site, "--hub", self.socket, "--controller", FAKE, "--now", "--command", command.command)
        done = await asyncio.to_thread(subprocess.run, words, capture_output=True, text=True, check=False, timeout=PATIENCE)
        self.assertEqual((done.returncode, done.stderr), (0, ""))
        self.assertIn("radios: 40 registered before, 40 now\n", done.stdout)
