"""The reference in C (reference/): it compiles without a warning, answers each worked case as the controller does, and the soak that plays it finds what is wrong."""
import contextlib
import io
import pathlib
import re
import shutil
import subprocess
import sys
import tempfile
import unittest
import unittest.mock

from tests.cases import Case, octets_of, read_cases
from tests.support import TOP, FolderCase, load_command, program

REFERENCE = TOP / "reference"
sys.path.insert(0, str(REFERENCE))
from plans import plan_of  # noqa: E402  (the path comes first)

soak, wrong_rules = load_command("reference/soak"), load_command("reference/wrong-rules")
CC = ["cc", "-std=c99", "-pedantic", "-Wall", "-Wextra", "-Werror"]
FAST, SANITIZERS = ["-O1"], ["-O0", "-g", "-fsanitize=address,undefined", "-fno-sanitize-recover=all"]
# The tables of rules in docs/SITE_MACHINE.md, in the order of site_machine.h: the heading, or the line, that each comes after.
TABLES = ("### A request (C_RAND)", "**Close(r)**", "### A talkgroup request", "### An individual request", "### The called radio's answer")


def rows_of(text: str, heading: str) -> list[str]:
    """The first cells of the table after a heading, without its head."""
    table = text[text.index(heading):].partition("\n\n|")[2].partition("\n\n")[0]
    return [it.split("|")[1].strip() for it in f"|{table}".splitlines()[2:]]


def single_octets(script: str) -> str:
    """The script with each octet as an input of its own."""
    return re.sub(r"^((?:bytes \d+|text) )(\w+)$", lambda it: "\n".join(it[1] + octet for octet in re.findall("..", it[2])), script, flags=re.M)


@unittest.skipUnless(shutil.which("cc"), "it is built with cc, which is not there")
class InC(unittest.TestCase):
    """The site in C, by itself."""

    @classmethod
    def setUpClass(cls) -> None:
        cls.folder = pathlib.Path(cls.enterClassContext(tempfile.TemporaryDirectory()))
        for name, flags in (("replay", FAST), ("soak", SANITIZERS)):
            subprocess.run([*CC, *flags, "-o", str(cls.folder / name), str(REFERENCE / f"{name}.c")], check=True, timeout=100)

    def replay(self, case: Case, script: str) -> str:
        """What the site prints of a script."""
        (self.folder / "plan").write_text(plan_of(octets_of(case.site or "").decode()), encoding="ascii")
        (self.folder / "script").write_bytes(octets_of(script))
        return subprocess.run([self.folder / "replay", self.folder / "plan", self.folder / "script"], capture_output=True, text=True, check=True, timeout=100).stdout

    def test_each_case_that_is_replayed(self) -> None:
        taken = [it for it in read_cases() if not it.status]
        self.assertGreaterEqual(len(taken), 130)
        for case in taken:
            with self.subTest(case.full_name):
                self.assertEqual(self.replay(case, case.script or ""), case.printed)
                self.assertEqual(self.replay(case, single_octets(case.script or "")), case.printed)

    def test_random_scripts_with_sanitizers(self) -> None:
        for scene in soak.SCENES:
            for version in soak.VERSIONS:
                with self.subTest(scene=scene, version=version):
                    words = soak.Run(scene, version, 5000, 1).words()
                    printed = subprocess.run([self.folder / "soak", *words, self.folder], capture_output=True, text=True, check=True, timeout=100).stdout
                    self.assertEqual(len(printed.splitlines()), len(self.rows()))

    def rows(self) -> list[str]:
        """The rows that a soak counts."""
        return subprocess.run([self.folder / "soak", "--rows"], capture_output=True, text=True, check=True, timeout=100).stdout.splitlines()

    def test_rows_are_those_of_the_document(self) -> None:
        text = (TOP / "docs" / "SITE_MACHINE.md").read_text(encoding="utf-8")
        wanted = [row for heading in TABLES for row in rows_of(text, heading)]
        self.assertEqual(self.rows()[:len(wanted)], wanted)


class WrongRules(FolderCase):
    """The rules that are wrong."""

    def test_each_fits(self) -> None:
        rules = list(wrong_rules.read_rules((REFERENCE / "wrong-rules.txt").read_text(encoding="utf-8")))
        self.assertGreaterEqual(len(rules), 30)
        for rule in rules:
            with self.subTest(rule.name):
                shutil.copytree(REFERENCE, self.folder, dirs_exist_ok=True)
                wrong_rules.plant(rule, self.folder)
                for file in {file for file, _, _ in rule.changes}:
                    self.assertNotEqual((self.folder / file).read_text(encoding="utf-8"), (REFERENCE / file).read_text(encoding="utf-8"))


class Comparing(unittest.TestCase):
    """How outputs are compared."""

    def test_parties(self) -> None:
        self.assertEqual(soak.parties_of(b"carrier 2 8101\ncarrier 9 -\nok\nend\n"), {2: b"8101", 9: b"", 16: b"ok\nend\n"})

    def test_first_difference(self) -> None:
        for mine, other, digits, at in ((b"8101", b"8101", 2, None), (b"8101", b"8102", 2, 1), (b"8101", b"810183", 2, 2), (b"ok\n", b"error\n", 1, 0)):
            with self.subTest(mine):
                self.assertEqual(soak.first_difference(mine, other, digits), at)

    def test_a_row_that_is_not_reached(self) -> None:
        for counts, inputs, good in (([[(1, "a"), (0, "b")], [(0, "a"), (2, "b")]], 100_000, True), ([[(1, "a"), (0, "b")]], 100_000, False), ([[(1, "a"), (0, "b")]], 99_999, True)):
            with self.subTest(counts=counts, inputs=inputs), contextlib.redirect_stdout(io.StringIO()):
                self.assertEqual(soak.report(counts, inputs, False), good)


@unittest.skipUnless(shutil.which("cc"), "it is built with cc, which is not there")
class OverTheProgram(FolderCase):
    """A soak over the proved program, through a program that changes what it prints."""

    def setUp(self) -> None:
        super().setUp()
        self.program, self.built = program("dmr_trunk"), soak.build(self.folder)

    def soak(self, change: str) -> tuple[int, str, str]:
        """A short soak of the program whose output a command of sed changes: the status, and what it prints."""
        out, fault = io.StringIO(), io.StringIO()
        wrong = self.write("wrong", f"#!/bin/sh\n'{self.program}' \"$@\" | sed '{change}'\n")
        wrong.chmod(0o755)
        with unittest.mock.patch.object(soak, "build", lambda _: self.built), \
                contextlib.redirect_stdout(out), contextlib.redirect_stderr(fault):
            status = soak.main(["--inputs", "4000", "--program", str(wrong)])
        return status, out.getvalue(), fault.getvalue()

    def test_each_way(self) -> None:
        """A program that is right; one whose second octet for carrier 9 is another, in the WELCOME that answers the first HELLO; and one with another reply."""
        status, printed, fault = self.soak("")
        self.assertEqual((status, printed.count(": 1,000 inputs, "), fault), (0, 4, ""))
        status, _, fault = self.soak("s/^carrier 9 8101/carrier 9 8102/")
        self.assertEqual(status, 1)
        self.assertRegex(fault, r"^soak: two carriers, link_version 1: input \d+: octet 1 for carrier 9 is not that of the reference \(seed 42\)\n$")
        self.assertRegex(self.soak("s/^ok$/OK/")[2], r": input \d+: octet \d+ for operators is not that of the reference")
