"""What tools do with what came from outside: characters that command a terminal, empty words, files that are none, consoles that say too much, and signals."""
import asyncio
import contextlib
import io
import os
import pty
import signal
import socket
import subprocess
import sys
import time
import unittest
import xml.etree.ElementTree
from collections.abc import Callable
from unittest import mock

from temzaar.cli import callbook, carriers, check, console, hub, restart, siteview, timeline
from temzaar.cli.command import print_note
from temzaar.frames import FROM_CARRIER, POLL, Cutter, hello
from temzaar.hub import notes
from temzaar.hub.newrecords import NewRecords, count_calls
from temzaar.picture import MOST_WAITING, ask_picture
from temzaar.printable import printable
from temzaar.records import BadRow, RecordsFault, opened_records
from tests.fake_console import FakeConsole
from tests.hub_support import HubCase, wait_until
from tests.made_records import change, locked, make_records
from tests import support
from tests.support import TWO_CARRIERS, FolderCase, call_tool, tool_words

# What sets the title of a terminal, and clears it.
HOSTILE = "\x1b]0;owned\x07\x1b[2J"
SHOWN = "\\x1b]0;owned\\x07\\x1b[2J"
STATUS = "status carriers 2 radios 0 asks 0 lines {} calls 0 fill aloha {}"


class Shown(FolderCase):
    """Texts of others on a terminal, and in files."""

    def serve(self) -> FakeConsole:
        """A console that is not to be trusted."""
        fake = FakeConsole()
        self.addCleanup(fake.stop)
        fake.octets["status"] = STATUS.format(0, HOSTILE).encode() + b"\xff\n"
        return fake

    def hostile_records(self) -> str:
        """A file of records with a cause that commands a terminal."""
        path = make_records(self.folder / "site.db")
        change(path, "UPDATE calls SET cause = ?", [f"{HOSTILE}\u00e9"])
        return str(path)

    def test_a_text(self) -> None:
        self.assertEqual(printable(HOSTILE + "\u00e9 a\u2028\udcff"), SHOWN + "\u00e9 a\\x2028\\xdcff")

    def test_messages(self) -> None:
        with contextlib.redirect_stderr(io.StringIO()) as stream:
            print_note("tool", HOSTILE)
        self.assertEqual(stream.getvalue(), f"tool: {SHOWN}\n")

    def test_the_picture_of_a_site(self) -> None:
        done = call_tool(siteview.main, "--console", f"127.0.0.1:{self.serve().port}", "--once")
        self.assertEqual((done.returncode, done.stdout.count("\x1b"), SHOWN in done.stdout), (0, 0, True))

    def test_a_message_about_a_console(self) -> None:
        fake = self.serve()
        fake.octets["status"] = f"{HOSTILE}\n".encode()
        done = call_tool(siteview.main, "--console", f"127.0.0.1:{fake.port}", "--once")
        self.assertEqual((done.returncode, done.stderr.count("\x1b"), SHOWN in done.stderr), (1, 0, True))

    def test_replies_on_a_terminal_and_in_a_pipe(self) -> None:
        words = tool_words("console", "--tcp", f"127.0.0.1:{self.serve().port}", "status")
        done = subprocess.run(words, capture_output=True, check=False, timeout=60)
        self.assertEqual(done.stdout, STATUS.format(0, HOSTILE).encode() + b"\xff\n")
        master, slave = pty.openpty()
        subprocess.run(words, stdin=slave, stdout=slave, check=False, timeout=60)
        os.close(slave)
        self.assertEqual(os.read(master, 4096).replace(b"\r", b""), STATUS.format(0, SHOWN).encode() + b"\\xff\n")
        os.close(master)

    def test_lists_and_pictures_of_records(self) -> None:
        path = self.hostile_records()
        for form in ("table", "csv"):
            done = call_tool(callbook.main, "--records", path, "--format", form)
            self.assertEqual((done.returncode, done.stdout.count("\x1b"), SHOWN in done.stdout), (0, 0, True))
        done = call_tool(timeline.main, "--records", path)
        self.assertEqual(done.returncode, 0)
        xml.etree.ElementTree.fromstring(done.stdout)

    def test_an_encoding_without_a_letter(self) -> None:
        environment = {**os.environ, "PYTHONIOENCODING": "ascii"}
        done = subprocess.run(tool_words("callbook", "--records", self.hostile_records()), capture_output=True, check=False, timeout=60, env=environment)
        self.assertEqual((done.returncode, done.stderr), (0, b""))
        self.assertIn(b"[2J\\xe9", done.stdout)


class Words(unittest.TestCase):
    """Empty words."""

    def test_an_empty_word_is_not_taken_for_no_option(self) -> None:
        none = "/nowhere"
        cases: tuple[tuple[Callable[[list[str]], int], tuple[str, ...]], ...] = (
            (carriers.main, ("--site", none, "--program", "")), (console.main, ("--socket", "", "status")),
            (timeline.main, ("--site", none, "--script", none, "--program", "")), (timeline.main, ("--records", "")), (callbook.main, ("--records", "")),
            (siteview.main, ("--hub", "", "--once")), (hub.main, ("--records", "")), (hub.main, ("--config=",)), (check.main, ("--controller", "", TWO_CARRIERS)),
            (restart.main, ("--command", "")))
        for main, words in cases:
            with self.subTest(words):
                done = call_tool(main, *words)
                self.assertEqual(done.returncode, 2)
                self.assertRegex(done.stderr, r"error: argument --[a-z]+: the word is empty\n$")


class Files(FolderCase):
    """Files of records that are none."""

    def setUp(self) -> None:
        super().setUp()
        self.path = self.folder / "site.db"

    def assert_refused(self, about: str) -> None:
        """The file is refused."""
        with self.assertRaisesRegex(RecordsFault, about), opened_records(str(self.path)):
            pass

    def test_a_pipe(self) -> None:
        os.mkfifo(self.path)
        self.assert_refused("site.db: not a file$")

    def test_a_device_without_an_end(self) -> None:
        self.path.symlink_to("/dev/zero")
        self.assert_refused("site.db: not a file$")

    def test_a_huge_file(self) -> None:
        with self.path.open("wb") as it:
            it.truncate((1 << 28) + 1)
        self.assert_refused("site.db: more than 268435456 octets$")

    def test_a_log_that_is_a_pipe(self) -> None:
        make_records(self.path)
        os.mkfifo(f"{self.path}-wal")
        self.assert_refused("site.db-wal: not a file$")

    def test_a_signal_leaves_no_copy(self) -> None:
        """Of callbook and timeline, while they wait for the lock of the file."""
        make_records(self.path)
        temporary = self.folder / "tmp"
        temporary.mkdir()
        with locked(self.path):
            for tool in ("callbook", "timeline"):
                with subprocess.Popen(tool_words(tool, "--records", str(self.path)), env={**os.environ, "TMPDIR": str(temporary)}, stderr=subprocess.DEVNULL) as running:
                    support.wait_until(lambda: list(temporary.glob("dmr_records_*")))
                    # it has made the folder, and waits in it
                    time.sleep(0.3)
                    running.terminate()
                    self.assertEqual(running.wait(20), -signal.SIGTERM)
                self.assertEqual(list(temporary.iterdir()), [])

    def test_a_call_that_is_only_counted(self) -> None:
        """The oldest rows are counted, and not kept. One without a cause is refused too."""
        for row in ((7, 1, None, 5), (7, 1, "hang_time", None), (7, 1, b"x", 5)):
            with self.assertRaisesRegex(BadRow, "^calls, row 7: a cause or a time is missing$"):
                count_calls([row], NewRecords())  # type: ignore[list-item]


class Much(unittest.TestCase):
    """More than there can be."""

    def test_frames_take_time_by_their_number(self) -> None:
        cutter, began = Cutter(FROM_CARRIER), time.thread_time()
        self.assertEqual(len(cutter.feed(hello(1, 2) + POLL * 200_000)), 200_001)
        # with the rest of the octets copied at each frame it is half a minute
        self.assertLess(time.thread_time() - began, 4)

    def test_requests_that_wait(self) -> None:
        questions, asked = ask_picture(), []
        line = next(questions)
        with self.assertRaises(StopIteration) as done:
            while len(asked) < 100:
                asked.append(line)
                first = int(line.split()[1]) if " " in line else 0
                line = questions.send([STATUS.format(99999999, "")] if line == "status" else [] if line == "slots" else
                                      [f"line {number} group 91 from {number}" for number in range(first, first + 16)])
        self.assertEqual((asked, len(done.exception.value.lines)), (["status", "slots", "lines 1", "lines 17"], MOST_WAITING))


class Service(HubCase):
    """The hub as systemd sees it."""

    async def test_the_watchdog(self) -> None:
        path = os.path.join(self.folder, "notify")
        with socket.socket(socket.AF_UNIX, socket.SOCK_DGRAM) as stream:
            stream.bind(path)
            stream.settimeout(20)
            with mock.patch.dict(os.environ, {"NOTIFY_SOCKET": path, "WATCHDOG_USEC": "150000", "WATCHDOG_PID": str(os.getpid())}):
                await self.start()
                came = [await asyncio.to_thread(stream.recv, 100) for _ in range(4)]
        self.assertEqual(came, [b"READY=1", *[b"WATCHDOG=1"] * 3])

    def test_whose_watchdog(self) -> None:
        for variables, seconds in (({}, None), ({"WATCHDOG_USEC": "30000000"}, 30), ({"WATCHDOG_USEC": "30000000", "WATCHDOG_PID": "1"}, None), ({"WATCHDOG_USEC": "soon"}, None)):
            with mock.patch.dict(os.environ, variables, clear=True):
                self.assertEqual(notes.watchdog_seconds(), seconds)

    async def test_a_site_file_that_is_a_pipe(self) -> None:
        hub_of_pipe = await self.start()
        os.unlink(self.site)
        os.mkfifo(self.site)
        self.fake.cut()
        await wait_until(lambda: hub_of_pipe.link.state.reason == f"site file {self.site}: not a file")

    async def test_a_hanging_thread_does_not_keep_the_process(self) -> None:
        """A file of records that hangs keeps the hub neither from its work nor from its end."""
        program = ("import asyncio, threading\nfrom temzaar.hub.worker import Late, Worker\n"
                   "async def run():\n    try:\n        await Worker('x', 0.05).do(threading.Event().wait)\n    except Late:\n        print('late')\nasyncio.run(run())\n")
        done = await asyncio.to_thread(subprocess.run, [sys.executable, "-c", program], capture_output=True, timeout=20, check=False)
        self.assertEqual((done.returncode, done.stdout), (0, b"late\n"), done.stderr)
