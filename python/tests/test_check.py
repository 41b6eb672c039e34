"""`ci/check`: which parts run, what is printed of a check, and what was skipped."""
import contextlib
import io
import re
import sys
import types
import unittest
import unittest.mock

from tests.support import load_command

check = load_command("ci/check")

# reasons as the tests give them, with the line that is printed at the end
REASONS = (
    ("there is no promtool: the package prometheus has it", "skipped: 1 test without promtool (package prometheus)"),
    ("NO BROWSER, SO THE PAGE WAS NOT LOOKED AT: `apt-get install chromium` installs one", "skipped: 1 test without chromium (package chromium)"),
    ("there is no tshark: `apt-get install tshark` installs it", "skipped: 1 test without tshark (package tshark)"),
    ("there is no man: the packages man-db and groff have it", "skipped: 1 test without man (package man-db)"),
    ("there is no groff: the packages man-db and groff have it", "skipped: 1 test without groff (package groff)"),
    ("they are built with cc, which is not there", "skipped: 1 test without cc (package gcc)"),
    ("there is no sqlite3", "skipped: 1 test without sqlite3 (package sqlite3)"),
    ("there is no /dev/full", "skipped: 1 test: there is no /dev/full"),
    ("they ask dmr_trunk: `make check-programs` runs them", "skipped: 1 test: they ask dmr_trunk: `make check-programs` runs them"),
)


def sh(name: str, script: str) -> object:
    """A check that a shell's script makes."""
    return check.Check(name, ["sh", "-c", script], 1)


def tests(name: str, *reasons: str) -> object:
    """A check that looks like a run of tests of which some were skipped for these reasons."""
    lines = "".join(f"test_a (tests.a)\nWhat it does. ... skipped {reason!r}\n" for reason in reasons)
    return check.Check(name, [sys.executable, "-c", f"print({lines!r}); print('Ran 7 tests in 0.1s')"], 1)


class Skipped(unittest.TestCase):
    """What is said of tests that were skipped."""

    def test_each_reason(self) -> None:
        for reason, line in REASONS:
            with self.subTest(reason):
                self.assertEqual(check.skipped_lines([reason]), [line])

    def test_several(self) -> None:
        """Tools come together on one line, each once; other reasons each have a line."""
        (promtool, _), (chromium, _), *_, (full, _), _ = REASONS
        self.assertEqual(check.skipped_lines([promtool, full, chromium, promtool]), [
            "skipped: 2 tests without promtool (package prometheus), 1 test without chromium (package chromium)",
            "skipped: 1 test: there is no /dev/full"])
        self.assertEqual(check.skipped_lines([]), [])

    def test_quotes(self) -> None:
        """The reasons as unittest prints them, in either quote."""
        self.assertEqual(check.skipped_tests("a ... skipped 'x'\nb ... ok\nc ... skipped \"it's y\"\n"), ["x", "it's y"])


class Parts(unittest.TestCase):
    """Which parts run, and what is printed."""

    def run_parts(self, fast: list[object], gate: tuple[int, int, int] = (0, 3, 0),
                  programs: list[object] | None = None) -> tuple[int, list[str]]:
        """Runs all parts with these checks, and a gate of this status and these counts of passed
        and failed. The status and the lines, with 0 s in the place of all times."""
        ran = types.SimpleNamespace(status=gate[0], passed=gate[1], failed=gate[2], minutes={}, total=0, wall=0)
        stub = types.SimpleNamespace(steps=[("a proof", 1)], spent=lambda name: None, run=lambda words, progress: ran)
        built, out = types.SimpleNamespace(is_current=lambda name: bool(programs)), io.StringIO()
        last = check.Part("the last ones", check.run_programs, programs or [])
        parts = {"all": (check.Part("the fast ones", check.run_fast, fast), check.ON_GATE, last)}
        changed = {"PARTS": parts, "Gate": lambda: stub, "FAST": fast, "OVER_PROGRAMS": programs or [], "built": built}
        with unittest.mock.patch.multiple(check, **changed), unittest.mock.patch.object(sys, "argv", ["ci/check", "all"]), \
                contextlib.redirect_stdout(out):
            status = check.main()
        return status, re.sub(r"\(\d+ s\)", "(0 s)", out.getvalue()).splitlines()

    def test_all_passed(self) -> None:
        """Each part runs, what the last run of tests skipped is named before the closing line,
        and that counts all."""
        fast = [sh("toolchain", "echo kit"), tests("tests", "there is no sqlite3", "they ask x")]
        status, lines = self.run_parts(fast, programs=[tests("again", "there is no sqlite3")])
        self.assertEqual((status, lines[-2:]), (0, ["skipped: 1 test without sqlite3 (package sqlite3)", "6 passed, 0 failed"]))
        self.assertRegex(lines[0], r"^\d\d:\d\d:\d\d passed  toolchain \(0 s\): kit; 3 steps left, about \d+ s$")
        self.assertIn("passed  tests (0 s): 7 tests;", lines[1])
        self.assertIn("passed  the prover's gate: 3 passed, 0 failed", lines)

    def test_a_check_failed(self) -> None:
        """Its output is printed, the others run, and the status is 1."""
        fast = [sh("toolchain", "echo kit"), sh("maps", "echo why; echo last >&2; exit 3")]
        status, lines = self.run_parts(fast, programs=[sh("soak", "true")])
        self.assertEqual((status, lines[-1]), (1, "5 passed, 1 failed"))
        self.assertIn("FAILED  maps (0 s): last;", lines[1])
        self.assertEqual(lines[2:4], ["why", "last"])

    def test_another_toolchain(self) -> None:
        """The gate does not run, nor what comes after it."""
        status, lines = self.run_parts([sh("toolchain", "echo another; exit 1"), sh("maps", "true")])
        self.assertEqual((status, lines[-3:]), (1, ["not run the prover's gate", "not run the last ones", "1 passed, 1 failed"]))

    def test_gate_failed(self) -> None:
        """Neither a gate that counts a failure nor one that ends with another status has passed."""
        for gate, closing in (((1, 2, 1), "3 passed, 1 failed"), ((2, 0, 0), "1 passed, 1 failed")):
            with self.subTest(gate):
                status, lines = self.run_parts([sh("toolchain", "true")], gate, [sh("soak", "true")])
                self.assertEqual((status, lines[-2:]), (1, ["not run the last ones", closing]))

    def test_no_programs(self) -> None:
        status, lines = self.run_parts([sh("toolchain", "true")])
        self.assertEqual((status, lines[-1]), (1, "4 passed, 1 failed"))
        self.assertIn("dmr_trunk, dmr_decode", lines[-2])

    def test_command_that_is_not_there(self) -> None:
        _, lines = self.run_parts([check.Check("toolchain", ["ci/no-such-command"], 1)])
        self.assertIn("FAILED  toolchain (0 s): ci/no-such-command: No such file or directory;", lines[0])
