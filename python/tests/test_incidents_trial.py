"""`trials/incidents`: its words, and that the alarms and metrics that it names are there."""
import re
import subprocess
import sys
import unittest

from tests.support import TOP, read_document

TRIAL = TOP / "trials" / "incidents"


class Trial(unittest.TestCase):
    """What needs no controller."""

    def test_words(self) -> None:
        for words, status, said in (
            (["/nowhere"], 2, "no /nowhere: run 'make build' first\n"),
            (["--help"], 2, ""),
            ([str(TRIAL), "Z"], 2, ""),
        ):
            done = subprocess.run(
                [sys.executable, str(TRIAL), *words],
                capture_output=True,
                text=True,
                check=False,
                timeout=60,
            )
            self.assertEqual((done.returncode, done.stderr), (status, said))
            self.assertEqual("Plays the incidents of a site" in done.stdout, not said)

    def test_names(self) -> None:
        text = TRIAL.read_text(encoding="utf-8")
        alarms, metrics = set(re.findall(r'alarm="(\w+)"', text)), set(
            re.findall(r"\bdmr_(?:site|hub)_[a-z_]+[a-z]\b(?=[ {])", text)
        )
        self.assertGreater(min(len(alarms), len(metrics)), 5)
        for alarm in alarms:
            self.assertIn(f"`{alarm}`", read_document("ALARMS.md"))
        for metric in metrics:
            self.assertIn(f"`{metric}`", read_document("HUB.md"))
