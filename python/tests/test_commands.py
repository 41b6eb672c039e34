"""How each command ends if something is wrong: a line and a status, the signal of a closed pipe or of Ctrl-C, and never a traceback. `--help` runs nothing."""
import contextlib
import os
import pathlib
import signal
import socket
import subprocess
import threading
import unittest
from collections.abc import Callable, Iterator, Sequence
from typing import NamedTuple

from temzaar.cli import archive, callbook, carriers, check, conform, console, hub, report, restart, siteview, timeline
from temzaar.ports import free_ports
from temzaar.process import connect
from tests.served_kit import free_site
from tests.support import EXAMPLES, TOP, TWO_CARRIERS, FolderCase, call_tool, take_signals, tool_words

MAINS: dict[str, Callable[[list[str]], int]] = {"siteview": siteview.main, "timeline": timeline.main, "callbook": callbook.main, "report": report.main, "archive": archive.main, "carriers": carriers.main,
                                                 "conform": conform.main, "check": check.main, "restart": restart.main, "hub": hub.main, "console": console.main}
# The words for `--help` that would do harm, or fail, without it.
HELP_WORDS = {"check": "{none}", "hub": "--config {none}", "console": "--socket {none} status", "callbook": "--records {none}", "report": "--records {none}", "archive": "--records {none} --folder {none}", "restart": "--site {none} --command {none}"}
# Those that do something without words.
WITHOUT_WORDS = ("hub", "console", "callbook", "report", "archive", "restart")
FAKE = str(TOP / "python" / "tests" / "fake_controller.py")
SCRIPT, PRINTED = EXAMPLES / "scripts" / "operator.txt", EXAMPLES / "expected" / "operator.txt"
# What siteview asks of a site of one carrier, in this order, and the replies.
REPLIES = b"status carriers 1 radios 0 asks 0 lines 0 calls 0 fill aloha\nslot 0 0 control\nslot 0 1 free\nend\n"


class Case(NamedTuple):
    """Words of a command, the status, and what its line of standard error has.

    In the words {site} is a site file, {script} and {printed} are a script and its output, and {program} is a stand-in for the controller. {none} is not
    there, {folder} is a folder, {text} a file of something else, and {octets} is not text. {wrong} is a site file with wrong types, {nobody} one whose
    ports nobody serves: its console at {free}, carrier 0 at {free_carrier}. {out} can be written. {deep} has arrays in arrays, and {zeros} a user whose
    name no system has.
    """
    tool: str
    words: str
    status: int
    said: str


# the decoder prints a journal without an entry
DRAW = "--site {site} --script {script} --printed {printed} --decoder /bin/true"
CASES = (
    # no controller
    Case("siteview", "--console {free} --once", 1, "cannot connect to the console {free}: Connection refused"),
    Case("siteview", "--site {nobody} --once", 1, "cannot connect to the console"),
    Case("carriers", "--site {nobody} --seconds 1", 1, "carrier 0: cannot connect to {free_carrier}: Connection refused"),
    Case("carriers", "--site {site} --program {none}", 1, "cannot run {none}: No such file or directory"),
    Case("conform", "--site {nobody} --program {none} -- {none}", 1, "cannot run {none}: No such file or directory"),
    Case("conform", "--site {nobody} --program {program} -- {none}", 1, "cannot run {none}: No such file or directory"),
    Case("timeline", "--site {site} --script {script} --program {none}", 1, "cannot run {none}: No such file or directory"),
    Case("timeline", "--site {site} --script {script} --program {folder}", 1, "cannot run {folder}: Permission denied"),
    Case("check", "--controller {none} {site}", 2, "cannot run {none}: it is not a program"),
    Case("check", "--controller {folder} {site}", 2, "cannot run {folder}: it is not a program"),
    Case("siteview", "--hub {none} --once", 1, "cannot connect to the hub {none}: No such file or directory"),
    Case("console", "--socket {none} status", 1, "cannot connect to the hub {none}: No such file or directory"),
    Case("console", "--socket {text} status", 1, "cannot connect to the hub {text}: Connection refused"),
    Case("console", "--tcp {free} status", 1, "cannot connect to the console {free}: Connection refused"),
    # no file, a folder for a file, a file of something else
    *(Case("archive", f"--folder {{folder}} --records {{{file}}}", 1, f"{{{file}}}: {said}") for file, said in (("none", "No such file or directory"), ("text", "not an SQLite database"))),
    *(Case("archive", f"--folder {{{file}}}", 1, f"{{{file}}}: {said}") for file, said in (("none", "No such file or directory"), ("text", "Not a directory"))),
    *(Case(tool, f"--records {{{file}}}", 1, f"{{{file}}}: {said}") for tool in ("callbook", "report", "timeline")
      for file, said in (("none", "No such file or directory"), ("folder", "Is a directory"), ("text", "not an SQLite database"), ("octets", "not an SQLite database"))),
    *(Case("check", f"{{{file}}}", 2, f"cannot read {{{file}}}: {said}") for file, said in (("none", "No such file or directory"), ("folder", "Is a directory"))),
    *(Case("hub", f"{more} --config {{{file}}}", 1, f"config file: {said}") for more in ("", "--check") for file, said in (
        ("none", "cannot read {none}: No such file or directory"), ("folder", "cannot read {folder}: Is a directory"), ("text", "not TOML"),
        ("octets", "cannot read {octets}: octet 0 is not UTF-8"), ("deep", "not TOML"), ("site", "system: unknown section"), ("zeros", "roles.full_users"))),
    *(Case(tool, f"--site {{{file}}} {more}", 1, f"site file {{{file}}}: {said}")
      for tool, more in (("siteview", "--once"), ("carriers", "--seconds 1"), ("conform", "--program {program} -- {none}"), ("timeline", "--script {script} --printed {printed}"))
      for file, said in (("none", "No such file or directory"), ("folder", "Is a directory"), ("text", "not TOML"), ("octets", "octet 0 is not UTF-8"), ("wrong", "wrong type console_port"))),
    *(Case("report", f"--site {{{file}}}", 1, f"site file {{{file}}}: {said}") for file, said in (("none", "No such file or directory"), ("text", "not TOML"))),
    *(Case("timeline", words, 1, said) for words, said in (
        ("--site {site} --script {none} --printed {printed}", "{none}: No such file or directory"), ("--site {site} --script {folder} --printed {printed}", "{folder}: Is a directory"),
        ("--site {site} --script {text} --printed {printed}", "script line 1"), ("--site {site} --script {octets} --printed {printed}", "{octets}: octet 0 is not UTF-8"),
        ("--site {site} --script {script} --printed {none}", "{none}: No such file or directory"), ("--site {site} --script {script} --printed {folder}", "{folder}: Is a directory"),
        ("--site {site} --script {script} --printed {text}", "the output has no line for carrier 0"), ("--site {site} --script {script} --printed {octets}", "is not UTF-8"))),
    Case("timeline", "--site {site} --script {script} --printed {printed} --decoder {none}", 1, "cannot run {none}: No such file or directory"),
    # an output that cannot be written
    Case("timeline", DRAW + " --out {folder}", 1, "{folder}: Is a directory"),
    Case("timeline", DRAW + " --out {none}/a.svg", 1, "{none}/a.svg: No such file or directory"),
    Case("timeline", DRAW + " --page 1 --out {none}/a.svg", 1, "{none}/a-001.svg: No such file or directory"),
    Case("timeline", DRAW + " --out /dev/full", 1, "/dev/full: No space left on device"),
    # no names
    *(Case(tool, f"{words} --names {{{file}}}", 1, f"{{{file}}}: {said}") for tool, words in (("timeline", DRAW), ("callbook", "--records {none}"), ("report", "--records {none}"))
      for file, said in (("none", "No such file or directory"), ("folder", "Is a directory"), ("octets", "line 1: not kind,number,name, three fields with commas between them; no line of the file is right"))),
    *(Case("check", f"--names {{{file}}} {site}", 2, f"{{{file}}}: {said}") for site in ("", "{site}") for file, said in (("none", "No such file or directory"), ("folder", "Is a directory"))),
    # wrong types of words
    *(Case("siteview", words, 2, said) for words, said in (
        ("--console 7100", "is not ADDRESS:PORT"), ("--console :7100", "is not ADDRESS:PORT"), ("--console a:b", "is not ADDRESS:PORT"), ("--console a:70000", "is not ADDRESS:PORT"),
        ("--site {site} --every 0", "not a number above 0"), ("--site {site} --every soon", "not a number above 0"), ("--once", "one of the arguments --site --hub --console is required"))),
    *(Case("carriers", f"--site {{site}} {words}", 2, said) for words, said in (
        ("--seconds -1", "not a number above 0"), ("--seconds nan", "not a number above 0"), ("--radios 0", "not a whole number from 1"), ("--carriers 17", "not a whole number from 1 to 16"),
        ("--port 65530", "not a whole number from 1"), ("--polls x", "not a whole number from 0"), ("--link-version 3", "invalid choice"), ("--faults", "--faults needs --program"))),
    *(Case("timeline", f"{DRAW} {words}", 2, said) for words, said in (
        *((f"--page {it}", "not a number above 0") for it in ("x", "0", "nan")), ("--calls x", "invalid choice"), ("--page 1", "--page needs --out"),
        ("--page 1 --calls --out a", "--page draws, and --calls lists"))),
    *(Case("timeline", f"--records {{none}} {words}", 2, said) for words, said in (
        ("--calls", "--records has no script"), ("--script a", "--records has no script"), ("--start 10:00", "--records has no script"),
        ("--program a", "not allowed with"), ("--page 1", "--page needs --out"))),
    *(Case("timeline", words, 2, "the following arguments are required: --site, --script") for words in ("--program a", "--site a --printed b", "--script a --printed b")),
    *(Case("conform", f"--site {{site}} --program {{program}} {words}", 2, said) for words, said in (("--row x", "invalid choice"), ("--wait 0", "not a number above 0"))),
    *(Case("check", words, 2, said) for words, said in (
        ("--link-version 3 {site}", "invalid choice"), ("{site} {site}", "unrecognized arguments"), ("", "the following arguments are required: SITE_FILE"),
        ("--radios 3 site.toml", "--radios needs --plan"), ("--share 3 site.toml", "--share needs --plan"), ("--plan site.toml", "--plan takes no site file"),
        ("--plan --names names.csv", "--plan takes no site file and no names"), ("--plan --radios 3", "--plan needs --radios, --calls-an-hour and --seconds"),
        ("--plan --share 101", "at most 100"), ("--plan --radios 4097", "from 1 to 4096"))),
    *(Case("callbook", words, 2, said) for words, said in (
        ("--radio x", "not a whole number from 1"), ("--radio 0", "from 1 to 16777215"), ("--group 16777216", "from 1 to 16777215"), ("--carrier 16", "from 0 to 15"),
        ("--cause hang", "invalid choice"), ("--last 0", "not a whole number from 1"), ("--format xml", "invalid choice"), ("--from", "expected one argument"),
        ("--seconds 0", "not a number above 0"), ("--from -2x", "expected one argument"), ("site.db", "unrecognized arguments"))),
    *(Case("report", words, 2, said) for words, said in (
        *((f"--slots {it}", "not a whole number from 1 to 31") for it in (0, 32)), *((f"--limit {it}", "not a number above 0") for it in ("x", 0)),
        ("--slots 3 --site {site}", "not allowed with"), ("--out x --format csv", "not allowed with"), ("--format html", "invalid choice"))),
    *(Case("archive", words, 2, said) for words, said in (
        ("--keep-days 0", "not a whole number from 1"), ("--older-days x", "not a whole number from 0"), ("2026-11.db", "unrecognized arguments"),
        ("--older-days 7 --keep-days 7", "--keep-days has to be greater than --older-days"))),
    *(Case("restart", f"--site {{site}} {words}", 2, said) for words, said in (("--within 0", "not a number above 0"), ("--back x", "not a number above 0"), ("now", "unrecognized arguments"))),
    *(Case("hub", words, 2, said) for words, said in (("--config", "expected one argument"), ("status", "unrecognized arguments"))),
    *(Case("console", f"{words} status", 2, said) for words, said in (
        ("--tcp 7100", "is not ADDRESS:PORT"), ("--tcp a:70000", "is not ADDRESS:PORT"), ("--seconds 0", "not a number above 0"), ("--tcp a:1 --socket {none}", "not allowed with"))),
    Case("siteview", "--site {site}", 1, "no terminal: give --once"),
    Case("siteview", "--console " + 64 * "a" + ":7100 --once", 1, "cannot connect to the console"),
    Case("carriers", "--site {nobody} --pid 4194303", 1, "/proc/4194303/stat: No such file or directory"),
)


class Consoles:
    """A console for one connection after another, which answers with given octets and then waits. `place` is its address and port. `connected` is set once there was a connection."""

    def __init__(self, answer: bytes) -> None:
        self.answer, self.listener = answer, socket.create_server(("127.0.0.1", 0))
        self.place = f"127.0.0.1:{self.listener.getsockname()[1]}"
        self.connected = threading.Event()
        self.thread = threading.Thread(target=self.serve, daemon=True)
        self.thread.start()

    def serve(self) -> None:
        """Answers until it is closed."""
        with contextlib.suppress(OSError):
            while True:
                with self.listener.accept()[0] as stream:
                    self.connected.set()
                    stream.sendall(self.answer)
                    while stream.recv(4096):
                        pass

    def close(self) -> None:
        """Listens no more."""
        self.listener.shutdown(socket.SHUT_RDWR)
        self.listener.close()
        self.thread.join(5)


class Ended(FolderCase):
    """The table, and what only a process of its own can show."""

    def setUp(self) -> None:
        super().setUp()
        site, free = pathlib.Path(TWO_CARRIERS).read_text(encoding="utf-8"), free_site()
        self.names = {"site": TWO_CARRIERS, "script": str(SCRIPT), "printed": str(PRINTED), "program": FAKE, "out": str(self.folder / "out"), "none": str(self.folder / "none")}
        (self.folder / "folder").mkdir()
        for name, octets in (("text", b"This is\nsomething else.\n"), ("octets", b"\xff\xfe\0"), ("wrong", site.replace("console_port = 7100", 'console_port = "7100"').encode()),
                             ("nobody", free.text().encode()), ("deep", b"a = " + b"[" * 100000), ("zeros", b'[roles]\nfull_users = ["a\\u0000"]\n')):
            (self.folder / name).write_bytes(octets)
        self.names |= {"free": f"127.0.0.1:{free.console_port}", "free_carrier": f"127.0.0.1:{free.row(0)['port']}"}
        self.names |= {name: str(self.folder / name) for name in ("folder", "text", "octets", "wrong", "nobody", "deep", "zeros")}

    def test_the_table(self) -> None:
        for case in CASES:
            with self.subTest(case.tool, words=case.words):
                done = call_tool(MAINS[case.tool], *case.words.format(**self.names).split())
                self.assertEqual((done.returncode, done.stdout), (case.status, ""), done.stderr)
                last = done.stderr.splitlines()[-1]
                self.assertIn(case.said.format(**self.names), last)
                self.assertTrue(last.startswith(f"{'dmr_hub' if case.tool == 'hub' else case.tool}: ") or case.status == 2)
                if case.status == 1:
                    self.assertEqual(done.stderr.count("\n"), 1)

    def test_help_runs_nothing(self) -> None:
        """With words that would do harm, or fail, `--help` prints its text and ends."""
        for tool, main in MAINS.items():
            words = HELP_WORDS.get(tool, "--site {none}").format(**self.names).split()
            done = call_tool(main, *words, "--help")
            self.assertEqual((done.returncode, done.stderr), (0, ""), tool)
            self.assertRegex(done.stdout, r"(?s)^usage: .*(?:--site|SITE_FILE|--config|--socket|--records)")
            self.assertIn("\nStatus: 0 ", done.stdout)
        self.assertFalse(os.path.exists(self.names["out"]))

    def test_no_words(self) -> None:
        for tool, main in ((tool, main) for tool, main in MAINS.items() if tool not in WITHOUT_WORDS):
            done = call_tool(main)
            self.assertEqual((done.returncode, done.stdout), (2, ""), tool)
            self.assertIn("required", done.stderr)

    def printing(self) -> list[tuple[str, ...]]:
        """Words of commands that print something."""
        consoles = Consoles(REPLIES)
        self.addCleanup(consoles.close)
        return [("timeline", *DRAW.format(**self.names).split()), ("siteview", "--console", consoles.place, "--once"), ("console", "--tcp", consoles.place, "status"),
                ("check", "--no-controller", TWO_CARRIERS)]

    def test_outputs_that_end_or_are_full(self) -> None:
        for words in self.printing():
            fault = 2 if words[0] == "check" else 1
            for shell, status, said in (("> /dev/full", fault, f"{words[0]}: standard output: No space left on device\n"),
                                        (">&-", fault, f"{words[0]}: standard output is closed\n"), ("2>&- >/dev/null", 0, "")):
                with self.subTest(words[0], shell=shell):
                    line = ["bash", "-c", f'"$@" {shell}', "bash", *tool_words(*words)]
                    done = subprocess.run(line, capture_output=True, text=True, check=False, timeout=60)
                    self.assertEqual((done.returncode, done.stderr), (status, said))

    def test_a_closed_pipe(self) -> None:
        """The reader has gone before anything was written."""
        for words in self.printing():
            with self.subTest(words[0]):
                reader, writer = os.pipe()
                os.close(reader)
                done = subprocess.run(tool_words(*words), stdout=writer, stderr=subprocess.PIPE, text=True, check=False, timeout=60)
                os.close(writer)
                self.assertEqual((done.returncode, done.stderr), (-signal.SIGPIPE, ""))

    @contextlib.contextmanager
    def waiting(self, words: Sequence[str], more: Sequence[str]) -> Iterator[subprocess.Popen[str]]:
        """A command that waits for a console which does not answer, whose address and port are added to its words."""
        consoles = Consoles(b"")
        try:
            with subprocess.Popen(tool_words(*words, consoles.place, *more), stdout=subprocess.PIPE, stderr=subprocess.PIPE, text=True, preexec_fn=take_signals) as process:
                self.addCleanup(process.kill)
                self.assertTrue(consoles.connected.wait(60))
                yield process
        finally:
            consoles.close()

    def test_signals(self) -> None:
        for number in (signal.SIGINT, signal.SIGTERM):
            for words, more in ((("siteview", "--console"), ("--once",)), (("console", "--tcp"), ("status",))):
                with self.subTest(number, tool=words[0]), self.waiting(words, more) as process:
                    process.send_signal(number)
                    self.assertEqual((process.communicate(timeout=60), process.returncode), (("", ""), -number))

    def test_signals_end_the_controller_too(self) -> None:
        played = free_ports(3)
        for number in (signal.SIGINT, signal.SIGTERM, signal.SIGHUP):
            words = tool_words("carriers", "--site", TWO_CARRIERS, "--program", FAKE, "--port", str(played), "--seconds", "60")
            with self.subTest(number), subprocess.Popen(words, stdout=subprocess.PIPE, stderr=subprocess.PIPE, text=True, preexec_fn=take_signals) as process:
                self.addCleanup(process.kill)
                connect("127.0.0.1", played, 30).close()
                process.send_signal(number)
                self.assertEqual((process.communicate(timeout=60), process.returncode), (("", ""), -number))
                self.assertRaises(ConnectionRefusedError, socket.create_connection, ("127.0.0.1", played), 1)


class Answers(unittest.TestCase):
    """Consoles that answer what no console does."""

    def test_each(self) -> None:
        for answer, said in ((b"HTTP/1.1 400 Bad Request\r\n", "not a status"), (b"end\n", "not a status: end"), (b"status carriers x radios 0 asks 0 lines 0 calls 0 fill aloha\n", "not a status"),
                             (b"x" * 100000, "sends more than a console does"), (REPLIES.split(b"\n")[0] + b"\n" + b"slot 0 0 free\n" * 2000, "sends a list without an end"),
                             (REPLIES.split(b"\n")[0] + b"\nslot a b free\nend\n", "not a list of slots"),
                             (REPLIES.split(b"\n")[0] + b"\nslot 0 1 call\nend\ncall 0\nend\n", "not a list of calls")):
            consoles = Consoles(answer)
            try:
                done = call_tool(siteview.main, "--console", consoles.place, "--once")
            finally:
                consoles.close()
            self.assertEqual((done.returncode, done.stdout), (1, ""), done.stderr)
            self.assertIn(said, done.stderr)
