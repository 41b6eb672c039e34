"""`trials/restart` over the proved program: it passes, and fails if something changes the file of
records before each start."""
import re
import shutil
import subprocess
import sys

from tests.support import TOP, FolderCase, program

TRIAL = str(TOP / "trials" / "restart")
# A program that changes the file of records, if there is one, and then is the controller.
CHANGING = """#!/bin/sh
"{python}" -c '
import os, sqlite3
path = os.environ["STATE_DIRECTORY"] + "/site.db"
if os.path.exists(path):
    sqlite3.connect(path).executescript("{statements}")
'
exec "{program}" "$@"
"""
TWICE = ("CREATE TEMP TABLE twice AS SELECT * FROM calls;"
         " UPDATE twice SET number = number + (SELECT max(number) FROM calls);"
         " INSERT INTO calls SELECT * FROM twice")


class Trial(FolderCase):
    """What the trial says."""

    def run_trial(self, *words: str, changes: str = "") -> subprocess.CompletedProcess[str]:
        """The trial over the controller, whose file is changed if there are statements. The folder
        that a failed trial keeps is removed."""
        built = program("dmr_trunk")
        changing = self.write("changing", CHANGING.format(
            python=sys.executable, statements=changes, program=built))
        changing.chmod(0o755)
        tried = str(changing) if changes else built
        line = [sys.executable, TRIAL, tried, *words, "--latest", "30"]
        done = subprocess.run(line, capture_output=True, text=True, check=False, timeout=200)
        for folder in re.findall(r"the folder is (\S+)\)", done.stdout):
            shutil.rmtree(folder)
        return done

    def test_a_controller_that_keeps_its_records(self) -> None:
        done = self.run_trial("rounds", "--rounds", "3", "--seed", "44")
        self.assertEqual((done.returncode, done.stderr), (0, ""), done.stdout)
        self.assertRegex(done.stdout, r"^kills at random moments: 3 kills, \d+ terms and \d+ calls recorded; .*\nall came out as they should\n$")

    def test_a_reader_that_stays_connected(self) -> None:
        done = self.run_trial("reader")
        self.assertEqual((done.returncode, done.stderr), (0, ""), done.stdout)
        self.assertRegex(done.stdout, r"^another program stays connected to the file: \d+ terms arrived later, and \d+ calls are recorded; ")

    def test_controllers_that_do_not(self) -> None:
        rows = r"term \d+: \d+ calls ended, and there are \d+ rows"
        radios = r"the site has the radios of the file: \[\], and the file has"
        for changes, said in (("DELETE FROM registrations", radios), (TWICE, rows),
                              ("DELETE FROM calls WHERE number > 1", rows)):
            with self.subTest(changes):
                done = self.run_trial("rounds", "--rounds", "5", "--seed", "44", changes=changes)
                self.assertEqual((done.returncode, done.stderr), (1, ""), done.stdout)
                self.assertRegex(done.stdout, rf"^kills at random moments: FAILED: round \d+ of seed 44: .*{said}")

    def test_no_program(self) -> None:
        done = subprocess.run([sys.executable, TRIAL, "/nowhere"], capture_output=True, text=True, check=False)
        self.assertEqual((done.returncode, done.stdout, done.stderr), (2, "", "no /nowhere: run 'make build' first\n"))
