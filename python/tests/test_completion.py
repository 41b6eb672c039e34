"""The completion for bash: words that it offers."""
import functools
import shutil
import subprocess
import sys
import unittest

from tests.support import TOP


@functools.cache
def completion() -> str:
    """The completion, as `make install` writes it."""
    return subprocess.run([sys.executable, "ci/write-manual", "--completion"], cwd=TOP, capture_output=True, text=True, check=True).stdout


def completed(words: list[str]) -> list[str]:
    """What bash offers for the last of these words."""
    before = words[-2] if len(words) > 1 else ""
    script = f'{completion()} compopt() {{ :; }}; COMP_WORDS=("$@"); COMP_CWORD=$(($# - 1)); COMPREPLY=(); _dmr "$1" "${{!#}}" "{before}"; printf "%s\\n" "${{COMPREPLY[@]}}"'
    return subprocess.run(["bash", "-c", script, "bash", *words], cwd=TOP, capture_output=True, text=True, check=True).stdout.split()


@unittest.skipUnless(shutil.which("bash"), "there is no bash")
class Completion(unittest.TestCase):
    """Words that bash offers. The options of most commands come from their help."""

    def test_words(self) -> None:
        """Tasks of the decoder, commands of the console, and values of options."""
        for words, offered in (
            (["dmr_decode", "w"], ["word", "write"]),
            (["dmr_decode", "word", "w"], []),
            (["dmr_console", "s"], ["status", "slots", "stay"]),
            (["dmr_console", "n"], ["names"]),
            (["dmr_console", "ev"], ["events"]),
            (["dmr_console", "ac"], ["acknowledge"]),
            (["dmr_carriers", "--link-version", ""], ["1", "2"]),
            (["dmr_conform", "--row", "d"], ["done", "died"]),
            (["dmr_timeline", "--calls", "c"], ["csv"]),
            (["dmr_callbook", "--format", "c"], ["csv"]),
            (["dmr_callbook", "--cause", "ma"], ["maximum"]),
            (["dmr_callbook", "--last", ""], []),
            (["dmr_report", "--format", "j"], ["json"]),
            (["dmr_report", "--sl"], ["--slots"]),
            (["dmr_restart", "--wi"], ["--within"]),
            (["dmr_archive", "--folder", "dep"], ["deploy"]),
            (["/usr/bin/dmr_hub", "--ch"], ["--check"]),
            (["dmr_trunk", "--terms", ""], []),
            (["dmr_trunk", "--s"], ["--site", "--serve", "--script"]),
            (["dmr_decode", "--f"], ["--fields"]),
        ):
            with self.subTest(words):
                self.assertEqual(completed(words), offered)

    def test_files(self) -> None:
        """A site file is completed after `--site`, and as the word that dmr_check takes."""
        for words in (["dmr_trunk", "--site", "sites/two"], ["dmr_check", "sites/two"]):
            with self.subTest(words):
                self.assertEqual(completed(words), ["sites/two_carriers.toml"])
        self.assertEqual(completed(["dmr_callbook", "--names", "sites/"]), ["sites/names.csv"])
