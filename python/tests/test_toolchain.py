"""The Rattle kit: what `ci/check-toolchain` says of a build, and what documents have to say."""
import importlib
import sys
import unittest

from tests.standin_kit import Kits
from tests.support import TOP

sys.path.insert(0, str(TOP / "ci"))
toolchain = importlib.import_module("toolchain")
kits = importlib.import_module("documents.kits")

NAMED = toolchain.Named("c0ffee1", ["rattle-kit-1", "rattle-kit-2"])
LOGIC = "The kit's logic `c0ffee1` is required.\n"
PASSED = "The gate passed with `rattle-kit-1` and\n`rattle-kit-2`.\n"


class Toolchain(Kits):
    """What is said of a kit."""

    def check(self, status: int, said: str) -> None:
        """`ci/check-toolchain` ends with a status, and a line that has these words."""
        ran = self.run_command("ci/check-toolchain")
        self.assertEqual((ran.returncode, ran.stdout.count("\n")), (status, 1), ran.stderr)
        self.assertIn(said, ran.stdout)

    def test_kits(self) -> None:
        """A build with which the gate passed, another build, another logic, and another command
        of the same name."""
        for version, status, said in (
            ("kit-1 logic c0ffee", 0, "kit-1 logic c0ffee: the gate passed with this build"),
            ("kit-3 logic c0ffee", 0, "a note: the gate passed with kit-1 and kit-2"),
            ("kit-1 logic bad", 1, "kit-1 logic bad: the logic c0ffee is required"),
            ("a tool of the same name", 1, "a tool of the same name"),
        ):
            with self.subTest(version):
                self.put_kit(True, version)
                self.check(status, said)

    def test_no_kit(self) -> None:
        self.check(1, "the Rattle kit is missing")

    def test_file(self) -> None:
        """A file that lacks a line, or has one twice, or one that is not known, is refused."""
        self.put_kit(True)
        for text in ("", "logic c0ffee\n", "logic c0ffee\nkits\n", "logic c0ffee 1\nkits a\n", "logic a\nlogic b\nkits a\n",
                     "logic a\nkits a\nkit b\n"):
            with self.subTest(text):
                (self.checkout / "toolchain").write_text(text, encoding="utf-8")
                self.check(1, "it has to have a line `logic ID` and a line `kits NAME ..`")

    def test_file_of_this_repository(self) -> None:
        self.assertTrue(toolchain.Named.read().kits)


class Documents(unittest.TestCase):
    """What the documents say of the kit."""

    def count(self, name: str, text: str) -> int:
        """The number of faults of a document."""
        return len(list(kits.kit_faults(name, text, NAMED)))

    def test_as_the_file_says(self) -> None:
        for name in kits.NAME_THEM:
            self.assertEqual(self.count(name, LOGIC + PASSED), 0)

    def test_otherwise(self) -> None:
        """No logic or another, no builds, one too few or too many, another one: each is a fault."""
        for text in (
            PASSED, LOGIC, LOGIC.replace("c0ffee1", "c0ffee2") + PASSED,
            LOGIC + PASSED + "rattle-kit-1 logic abcdef0\n", LOGIC + PASSED + "rattle-kit-3",
            LOGIC + "The gate passed with `rattle-kit-1`, not with rattle-kit-2.",
            LOGIC + PASSED.replace("`.", "`, `rattle-kit-3`."),
        ):
            with self.subTest(text):
                self.assertEqual(self.count("README.md", text), 1)

    def test_other_documents(self) -> None:
        """They name no logic and no build, but for the list of changes."""
        for name, text, faults in (("docs/GATE.md", LOGIC, 1), ("docs/GATE.md", "rattle-kit-1", 1),
                                   ("docs/GATE.md", "The kit's logic changes.", 0), ("CHANGELOG.md", LOGIC + PASSED, 0)):
            with self.subTest(text):
                self.assertEqual(self.count(name, text), faults)
