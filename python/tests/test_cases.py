"""The cases in cases/, over the reader of their texts, over the package's reader of sessions, and over the controller."""
import pathlib
import re
import resource
import subprocess
import tempfile
import unittest

from temzaar import code, pdus
from temzaar.entries import read_entries
from temzaar.frames import DONE, POLL, FrameType, burst_frame, hello, rx, welcome
from temzaar.script import Input, Replay, read_printed, read_script
from tests.cases import SCRIPT_FILE, SITE_FILE, Case, CaseFault, Changes, octets_of, plain, read_case, read_cases
from tests.support import FolderCase, program

CASES = list(read_cases())


class Reading(unittest.TestCase):
    """The meaning of a text."""

    def test_notes_go_and_lines_are_continued(self) -> None:
        text = "# a\n\nopen 0  # b\ncarrier 0\n  81 01  # c\n  82\ncarrier 1 -\nsay  a \r\n b"
        self.assertEqual(plain(text), "# a\n\nopen 0\ncarrier 0 810182\ncarrier 1 -\nsay  a \r\n b")

    def test_lines_spell_octets(self) -> None:
        self.assertEqual(octets_of("open 0\n\n% open\\090\\0D\\0A\n%repeat 3\ntick\n% \\FF\n%end\n% cut 0\n"), b"open 0\n\nopen\t0\r\n" + 3 * b"tick\n\xFF" + b"cut 0")
        self.assertEqual(octets_of(""), b"")

    def test_a_case(self) -> None:
        case = read_case("file", "a name\n# why\nwithout leave_bit\nwith hang = 7\nin every cutting\n-- script\ntick  # one\n-- printed\n-- fault\nno\n-- status 3\n\n")
        self.assertEqual((case.full_name, case.site_name, case.is_cut), ("file: a name", "two_carriers, without leave_bit, with hang = 7", True))
        self.assertEqual((case.script, case.printed, case.answer()), ("tick\n", "", "no\nstatus 3\n"))
        self.assertIn("hang = 7\n", case.site or "")
        self.assertNotIn("leave_bit", case.site or "")

    def test_files_that_cannot_be_read(self) -> None:
        case = read_case("file", "a name\nno site file\n-- printed\n")
        self.assertEqual((case.site, case.script), (None, None))

    def test_lines_of_no_case(self) -> None:
        for text in ("a name\nwithin\n-- script\n", "a name\n-- scripts\n"):
            with self.subTest(text), self.assertRaises(CaseFault):
                read_case("file", text)


class Sessions(unittest.TestCase):
    """The output answers the script: the package reads both as one session."""

    def test_each_is_a_session(self) -> None:
        taken = [case for case in CASES if case.status == 0]
        self.assertGreaterEqual(len(taken), 130)
        for case in taken:
            with self.subTest(case.full_name):
                carriers, told = read_printed(case.printed)
                script = octets_of(case.script or "").decode()
                events = Replay(read_script(script), carriers).events
                self.assertEqual(bool(told), any(it.what == "said" and "\n" in it.text for it in events))
                self.assertTrue(all(pdus.read(it.octets).name != pdus.OTHER for it in events if it.what == "sent"))


class OverLinks(FolderCase):
    """The links that carriers are served by, on a wire in memory, come to the same. `dmr_decode` has them, and prints the journal of their events."""

    def setUp(self) -> None:
        super().setUp()
        self.decoder = program("dmr_decode")

    def bursts(self, case: Case) -> list[tuple[int, int, str]]:
        """Carrier, slot and PDU of each burst that is sent, in the order of the journal."""
        site = self.folder / SITE_FILE
        site.write_bytes(octets_of(case.site or ""))
        done = subprocess.run([self.decoder, "journal", "--fields", "--site", site],
                              input=octets_of(case.script or ""), capture_output=True, check=True)
        entries = read_entries(done.stdout.decode().splitlines())
        return [it for entry in entries for it in entry.bursts()]

    def test_each_sends_the_same(self) -> None:
        for case in (it for it in CASES if it.status == 0):
            with self.subTest(case.full_name):
                events = Replay(read_script(octets_of(case.script or "").decode()), read_printed(case.printed)[0]).events
                wanted = [(it.carrier, it.slot, pdus.read(it.octets).in_words(it.octets)) for it in events if it.what == "sent"]
                self.assertEqual(self.bursts(case), wanted)


class Controlled(FolderCase):
    """The controller prints what each case says. The gate's run of test_program shows the same of the library that both use, in every cutting too."""

    def setUp(self) -> None:
        super().setUp()
        self.program = program("dmr_trunk")

    def answer(self, site: bytes | None, script: bytes | None) -> str:
        """The output of a replay, its fault and its status, in the form of a case. None is a file that is not there."""
        with tempfile.TemporaryDirectory() as folder:
            for name, octets in ((SITE_FILE, site), (SCRIPT_FILE, script)):
                if octets is not None:
                    pathlib.Path(folder, name).write_bytes(octets)
            done = subprocess.run([self.program, "--site", SITE_FILE, "--script", SCRIPT_FILE], cwd=folder, capture_output=True, check=False)
        return Case("", "", "", None, printed=done.stdout.decode(), fault=done.stderr.decode(), status=done.returncode).answer()

    def test_each_replays(self) -> None:
        for case in CASES:
            with self.subTest(case.full_name):
                site, script = (None if text is None else octets_of(text) for text in (case.site, case.script))
                self.assertEqual(self.answer(site, script), case.answer())

    def test_output_that_memory_does_not_hold(self) -> None:
        """A million polls are answered with 30 million octets. If the process may have 16 MiB, nothing is printed, and the status is that of no memory."""
        limit = 16 << 20
        polls = f"bytes 0 {POLL.hex() * 1000}\n"
        site = self.write(SITE_FILE, Changes().text())
        for lines, most, status, fault in ((1, limit, 0, b""), (1000, resource.RLIM_INFINITY, 0, b""), (1000, limit, 4, b"dmr_trunk: out of memory\n")):
            with self.subTest(lines=lines, most=most):
                comes_up = f"open 0\nbytes 0 {hello(0, 1).hex()}\n"
                script = self.write(SCRIPT_FILE, f"{comes_up}{polls * lines}")
                done = subprocess.run(
                    [self.program, "--site", site, "--script", script], capture_output=True, check=False,
                    preexec_fn=lambda: resource.setrlimit(resource.RLIMIT_AS, (most, most)))
                self.assertEqual((done.returncode, done.stderr, bool(done.stdout)), (status, fault, status == 0))

    def test_a_registry_that_is_full(self) -> None:
        """4,096 radios are registered, and the next is refused. Each is answered at its poll."""
        regi = 0xFFFEC6
        lines, sent = [Input("open", 0), Input("bytes", 0, hello(0, 1))], welcome(1)
        for radio in range(1, 4098):
            request = pdus.random_access(pdus.REGISTRATION, regi, radio, 1)
            reason = pdus.REG_ACCEPTED if radio <= 4096 else pdus.REG_REFUSED
            answer = pdus.write("C_ACKD", reason=reason, target=radio, additional=regi)
            lines += [Input("bytes", 0, rx(0, code.burst_of(request))), Input("bytes", 0, POLL)]
            sent += burst_frame(FrameType.TX, 0, code.burst_of(answer)) + DONE
        site = Changes(lines=["with radios = [[1, 5000]]"]).text()
        script = "".join(f"{line.line()}\n" for line in lines)
        self.assertEqual(self.answer(site.encode(), script.encode()), f"carrier 0 {sent.hex().upper()}\ncarrier 1 -\n")
