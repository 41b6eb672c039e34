"""The command conform: what it says of clients that are right, of clients that are wrong in one point each, of the kit's example and of the client of docs/LINK.md."""
import concurrent.futures
import json
import os
import re
import select
import shutil
import signal
import socket
import subprocess
import sys
import tempfile
import time
import unittest
from collections.abc import Sequence

from temzaar.conformance import NO_SOURCE, OWN, ROWS, USUAL, TestSource
from temzaar.sitefile import Site
from tests.served_kit import free_site
from tests.station_kit import FAST, ask, built, compilers, first_difference
from tests.support import TOP, program, read_document, table_rows, take_signals, tool_words
from tests.wrong_client import POINTS, word_of

LINK = read_document("LINK.md")
# the client that is right, or wrong in the point of the row that follows
CLIENT = [sys.executable, str(TOP / "python" / "tests" / "wrong_client.py"), "{port}", "{carrier}", "{lpcn}", "{version}", "{bursts}"]
# Rows that are judged one after another, and how many tools run at a time. The rows of the usual trial are judged together.
GROUPS = (tuple(USUAL), ("refused", "hello"), ("died", "return", "at-once"), ("beside", "pieces"), ("done", "numbers", "fallback", "transmits"))
AT_A_TIME, PATIENCE = 16, 300
LONGEST = ("pace", "bits", "frames", "refused")
Findings = dict[str, tuple[str, str]]
Parts = list["concurrent.futures.Future[Findings]"]


def write_site(folder: str) -> Site:
    """Writes a site on free ports to `site.toml` in a folder."""
    site = free_site()
    with open(os.path.join(folder, "site.toml"), "w", encoding="utf-8") as it:
        it.write(site.text())
    return site


def conform_words(folder: str, rows: Sequence[str], *words: str) -> list[str]:
    """The words of a command that judges rows, over the site in a folder."""
    return tool_words("conform", "--site", os.path.join(folder, "site.toml"), "--program", program("dmr_trunk"), *[f"--row={row}" for row in rows], *words)


def run_json(words: Sequence[str], note: str = "") -> Findings:
    """The findings that a command prints as JSON. AssertionError: its status is not theirs, or it prints another note."""
    done = subprocess.run([*words], capture_output=True, text=True, check=False, timeout=PATIENCE)
    if done.returncode not in (0, 3) or not re.fullmatch(note, done.stderr):
        raise AssertionError(f"{words}: {done.returncode} {done.stderr}")
    said = json.loads(done.stdout)
    verdicts = [it["verdict"] for it in said["rows"]]
    if any(said[it] != verdicts.count(it) for it in ("passed", "failed", "not tried")) or (done.returncode == 3) != ("failed" in verdicts):
        raise AssertionError(f"{done.returncode} {said}")
    return {it["row"]: (it["verdict"], it["seen"]) for it in said["rows"]}


def judge(client: Sequence[str], rows: Sequence[str], *words: str) -> Findings:
    """The findings of rows of a client."""
    with tempfile.TemporaryDirectory() as folder:
        write_site(folder)
        return run_json(conform_words(folder, rows, "--json", *words, "--", *client))


def joined(parts: Parts) -> Findings:
    """The findings of all parts."""
    return {row: finding for part in parts for row, finding in part.result().items()}


class Clients(unittest.TestCase):
    """Clients that the tool starts. All are begun before the first is looked at, so that they run side by side."""

    @classmethod
    def setUpClass(cls) -> None:
        program("dmr_trunk")
        submit = cls.enterClassContext(concurrent.futures.ThreadPoolExecutor(AT_A_TIME)).submit
        # of each wrong client the row in whose point it is wrong
        rows = sorted(POINTS, key=lambda row: row not in LONGEST)
        cls.wrong = {row: submit(judge, [*CLIENT, row], [row]) for row in rows}
        cls.right = [submit(judge, CLIENT, rows) for rows in GROUPS]
        # the rows in which the versions differ
        cls.in_version_1 = [submit(judge, CLIENT, rows, "--link-version", "1") for rows in (GROUPS[0], ("pieces", "numbers", "fallback"))]
        if shutil.which("cc"):
            words = [built("example", FAST), "-p", "{port}", "-c", "{carrier}", "-l", "{lpcn}", "-v", "{version}", "-f", "{bursts}"]
            cls.example = [submit(judge, words, rows) for rows in GROUPS]

    def assert_passed(self, said: Findings, rows: Sequence[str], but: set[str]) -> None:
        """These rows passed but some, which were not tried."""
        self.assertEqual(set(said), set(rows))
        for row in rows:
            with self.subTest(row):
                self.assertEqual(said[row][0], "not tried" if row in but else "passed", said[row])

    def test_each_wrong_client_is_found(self) -> None:
        """Each row that the tool judges has a client that is wrong in its point, and fails it."""
        self.assertEqual(set(POINTS), {*USUAL, *OWN})
        for row, future in self.wrong.items():
            with self.subTest(row, point=POINTS[row]):
                self.assertEqual(future.result()[row][0], "failed", future.result())

    def test_the_right_client_passes(self) -> None:
        self.assert_passed(joined(self.right), ROWS, {"transmits"})

    def test_the_right_client_passes_in_version_1(self) -> None:
        self.assert_passed(joined(self.in_version_1), [*USUAL, "pieces", "numbers", "fallback"], {"next", "again", "numbers", "fallback"})

    def test_the_kits_example_passes(self) -> None:
        """It retransmits nothing. What docs/LINK.md shows is what was seen, but for counts and times."""
        compilers()
        said = joined(self.example)
        self.assert_passed(said, ROWS, {"transmits", "again"})
        shown = [line.strip() for line in LINK[LINK.index("$ tools/conform"):LINK.index("The tool fills in")].splitlines()[1:] if line.strip() not in ("", "..")]
        lines = [f"{row:9}  {said[row][0]:9}  {said[row][1]}" for row in ROWS if row in {line.split()[0] for line in shown[:-1]}]
        masked = [[re.sub(r"\d+(\.\d+)?", "N", line) for line in some] for some in (shown[:-1], lines)]
        self.assertEqual(masked[0], masked[1])
        self.assertGreaterEqual(len(lines), 5)
        self.assertEqual(shown[-1], f"{len(ROWS) - 2} passed, 0 failed, 2 not tried")


def open_at_once(path: str, flags: int) -> int:
    """Opens a pipe for reading, whether somebody writes to it or not."""
    return os.open(path, flags | os.O_NONBLOCK)


class OtherClients(unittest.TestCase):
    """The client of docs/LINK.md, and clients that the tool does not start, or that do not come."""

    def setUp(self) -> None:
        program("dmr_trunk")
        self.folder = self.enterContext(tempfile.TemporaryDirectory())
        self.port = write_site(self.folder).row(0)["port"]

    def test_the_client_of_the_document(self) -> None:
        """It leaves after four POLLs. What it claims is right, in both versions."""
        text = (TOP / "station" / "link_client.py").read_text(encoding="utf-8")
        path = os.path.join(self.folder, "link_client.py")
        with open(path, "w", encoding="utf-8") as it:
            it.write(text.replace("7101", str(self.port)))
        for version, passed in ((2, {"hello", "frames", "bits", "pieces", "numbers", "at-once"}), (1, {"hello", "frames", "bits", "pieces", "at-once"})):
            said = run_json(conform_words(self.folder, (), "--json", "--link-version", str(version), "--", sys.executable, path, "{version}"))
            self.assertEqual({row for row, (verdict, _) in said.items() if verdict == "passed"}, passed, said)
            self.assertEqual({row for row, (verdict, _) in said.items() if verdict == "failed"}, set())
            self.assertEqual((said["reach"][1], said["done"][1]), (NO_SOURCE, "it leaves by itself after 4 POLLs"))

    def test_a_client_that_connects_by_itself(self) -> None:
        """It goes on from trial to trial."""
        words = [sys.executable, CLIENT[1], str(self.port), "0", "1", "2", os.devnull]
        rows = ("hello", "return", "beside")
        with subprocess.Popen(words) as client:
            try:
                said = run_json(conform_words(self.folder, rows, "--json"), "conform: let the client connect to the ports of .*/site.toml, and connect again\n")
            finally:
                client.kill()
        self.assertEqual([said[row][0] for row in rows], ["passed", "passed", "not tried"], said)

    def test_a_client_that_does_not_come(self) -> None:
        """It fails rows that are about its coming, and the others are not tried. The tool waits for it once."""
        began = time.monotonic()
        done = subprocess.run(conform_words(self.folder, ("hello", "at-once", "done", "bits"), "--wait", "1"), capture_output=True, text=True, check=False, timeout=PATIENCE)
        self.assertLess(time.monotonic() - began, 30)
        self.assertEqual((done.returncode, done.stdout.splitlines()), (3, [
            "hello      failed     no connection came", "bits       not tried  the client does not come: no connection came",
            "done       not tried  no connection came", "at-once    failed     no connection came", "0 passed, 2 failed, 2 not tried"]))

    def test_a_client_that_ends(self) -> None:
        said = run_json(conform_words(self.folder, ("pace",), "--json", "--", "sh", "-c", "echo no; exit 7"))
        self.assertEqual(said["pace"], ("not tried", "the client does not come: its program ended with status 7 and said: no"))

    def test_a_signal_ends_all(self) -> None:
        """The tool, the controller, and the client, which holds a pipe as long as it runs."""
        path = os.path.join(self.folder, "pipe")
        os.mkfifo(path)
        words = conform_words(self.folder, ("hello",), "--", "sh", "-c", f"exec 9>{path}; echo here >&9; exec sleep 1000")
        with subprocess.Popen(words, stdout=subprocess.PIPE, stderr=subprocess.PIPE, text=True, preexec_fn=take_signals) as tool, open(path, "rb", opener=open_at_once) as pipe:
            self.assertTrue(select.select([pipe], [], [], 60)[0])
            tool.send_signal(signal.SIGTERM)
            self.assertEqual((tool.communicate(timeout=60), tool.returncode), (("", ""), -signal.SIGTERM))
            self.assertEqual(pipe.read(), b"here\n")
        self.assertRaises(ConnectionRefusedError, socket.create_connection, ("127.0.0.1", self.port), 1)


class Document(unittest.TestCase):
    """The table, and the test source."""

    def test_the_table_has_the_rows(self) -> None:
        self.assertEqual([row[0] for row in table_rows(LINK, "| row | your client passes if")], list(ROWS))

    def test_bursts(self) -> None:
        """No two are the same, and the file has them, with the voice."""
        source = TestSource()
        self.assertEqual(len({it.word for it in source.bursts} | {it.sent for it in source.bursts if it.kind in ("weak", "edge")}), len(source.bursts) + 195)
        lines = source.text.splitlines()
        found = [(int(line[0]), word_of(int(line[2:], 16)).to_bytes(25, "big")) for line in lines if line and not line.endswith("voice")]
        self.assertIsNone(first_difference(found, [(it.slot, it.word) for it in source.bursts]))
        self.assertEqual(lines.count("1 voice"), 16)

    def test_the_kit_takes_each_burst(self) -> None:
        """With colour code 1, as a CSBK, and without a wrong bit in the slot type."""
        compilers()
        source = TestSource()
        bursts = [line[2:] for line in source.text.splitlines() if line and not line.endswith("voice")]
        self.assertIsNone(first_difference(ask(f"take {it}" for it in bursts), [f"0 0 1 3 {it.word.hex().upper()}" for it in source.bursts]))
