"""The words of the controller's command line: those that it takes, and what it says of those that it refuses."""
import subprocess

from tests.support import TWO_CARRIERS, FolderCase, program

# Words that are taken, with the file of which the controller then says that it cannot read it: there is none of that name.
TAKEN = {
    "--site a --script=b": "a",
    # If nothing is served, --terms is ignored.
    "--terms 5 --script b --site a": "a",
    f"--site {TWO_CARRIERS} --script b": "b",
    "--site a --serve": "a",
    "--serve --terms=1 --site a": "a",
    "--site a --serve --terms 1000000": "a",
}
# What is said if neither a script nor --serve is given, or both are.
EITHER = "dmr_trunk: give either --script or --serve\n"
# What is said if no site file is given. The word reader says it before the program looks for a script or --serve.
NO_SITE = "error: the following required arguments were not provided:\n  --site <FILE>\n"
# Words that are refused, with the beginning of what is said.
REFUSED = {
    "--site a": EITHER,
    "--site a --terms 1": EITHER,
    "--site a --script b --serve": EITHER,
    "": NO_SITE,
    "--script b --serve": NO_SITE,
    "--site a --serve --terms 1000001": "error: invalid value '1000001' for '--terms <N>': 1000001 is not in 0..=1000000",
    "--site a --serve --terms one": "error: invalid value 'one' for '--terms <N>': ",
    "--serves": "error: unexpected argument '--serves' found",
    "--site a --help": "The site controller of a DMR Tier III trunked radio site",
    "--version": "dmr_trunk ",
}


class Words(FolderCase):
    """The words of the command line."""

    def answer_to(self, words: str) -> tuple[int, str]:
        """The status, and what is written to standard error. Nothing is printed."""
        done = subprocess.run([program("dmr_trunk"), *words.split()], cwd=self.folder, capture_output=True, text=True, check=False)
        self.assertEqual(done.stdout, "")
        return done.returncode, done.stderr

    def test_words_that_are_taken(self) -> None:
        for words, name in TAKEN.items():
            with self.subTest(words):
                self.assertEqual(self.answer_to(words), (1, f"dmr_trunk: cannot read {name}\n"))

    def test_words_that_are_refused(self) -> None:
        for words, begins in REFUSED.items():
            with self.subTest(words):
                status, said = self.answer_to(words)
                self.assertEqual((status, said[:len(begins)]), (2, begins))
