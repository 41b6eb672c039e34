"""`ci/built.py`: a program counts as built from the present sources only if no file of them has
changed since; and `make run` over such a program."""
import subprocess
import sys
import unittest
from unittest import mock

from tests.support import TOP, FolderCase, program

sys.path.insert(0, str(TOP / "ci"))
import built  # noqa: E402  (the path comes first)


class Built(FolderCase):
    """A program `app` over the crates `low` and `lower`. It does not use the crate `other`."""

    def setUp(self) -> None:
        super().setUp()
        to = self.folder / "build"
        self.enterContext(mock.patch.multiple(built, TOP=self.folder, BUILD=to, RECORD=to / "SOURCES",
                                              kit=lambda: "a kit\n"))
        self.write("crates.txt", "# crates\nlower:\nlow: lower std\nother: lower\napp: low\n")
        self.write("HANDLES", "Handles allowed: none.\n")
        for crate in ("lower", "low", "other", "app"):
            self.write(f"crates/{crate}/src/lib.rt", crate)
            self.write(f"crates/{crate}/specs/A.antt", crate)
        self.write("crates/app/out/app", "a program")

    def build(self) -> None:
        """Records the program as built from the present sources."""
        self.assertTrue(built.record("app", built.sources_sum("app")))
        self.assertTrue(built.is_current("app"))

    def test_a_change_of_any_source_counts(self) -> None:
        """Another text, a new file, and a file that is renamed, in the crate and in those below it."""
        for path in ("crates.txt", "HANDLES", "crates/app/src/lib.rt", "crates/low/specs/A.antt",
                     "crates/lower/src/lib.rt", "crates/lower/proofs/New.antt", "crates/low/c/a.c"):
            with self.subTest(path):
                self.build()
                file = self.folder / path
                before = file.read_text(encoding="utf-8") if file.exists() else ""
                self.write(path, before + "\n# more\n")
                self.assertFalse(built.is_current("app"))
        self.build()
        (self.folder / "crates/lower/src/lib.rt").rename(self.folder / "crates/lower/src/other.rt")
        self.assertFalse(built.is_current("app"))

    def test_another_kit_counts(self) -> None:
        self.build()
        with mock.patch.object(built, "kit", lambda: "another kit\n"):
            self.assertFalse(built.is_current("app"))

    def test_what_no_program_is_made_from(self) -> None:
        self.build()
        for path in ("crates/other/src/lib.rt", "crates/low/out/rlib", "crates/lower/must-fail/a.edit",
                     "crates/app/wrong-bodies/a.edit"):
            self.write(path, "changed")
        self.assertTrue(built.is_current("app"))

    def test_another_program(self) -> None:
        """A program that replaced the recorded one, and a program that is gone."""
        self.build()
        self.write("build/app", "another program")
        self.assertFalse(built.is_current("app"))
        (self.folder / "build/app").unlink()
        self.assertFalse(built.is_current("app"))

    def test_sources_that_changed_while_it_was_built(self) -> None:
        before = built.sources_sum("app")
        self.write("crates/low/src/lib.rt", "changed")
        self.assertFalse(built.record("app", before))
        self.assertFalse((self.folder / "build").exists())


class Run(unittest.TestCase):
    """`make run` over the proved program."""

    def test_it_serves_and_ends(self) -> None:
        program("dmr_trunk")
        if not built.is_current("dmr_trunk"):
            raise unittest.SkipTest("build/dmr_trunk is not of these sources: `make build` builds it")
        done = subprocess.run([TOP / "ci" / "run-site"], capture_output=True, text=True, check=False,
                              timeout=120)
        self.assertEqual((done.returncode, done.stderr), (0, ""), done.stdout)
        self.assertRegex(done.stdout, r"(?m)^carriers 2 of 2 up   radios 10   .*   calls [123] ")
        self.assertRegex(done.stdout, r"(?m)^\d+ polls of 2 carriers answered in \d+ s: ")
        self.assertRegex(done.stdout, r"(?m)^controller: term ended: 3000 entries, ")
