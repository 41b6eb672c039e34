"""`ci/wrong-bodies`: which refusals say little of a contract, what is printed of a crate's, and
what it does with each kind of build of the kit."""
import contextlib
import io
import pathlib
import shutil
import subprocess
import unittest

from tests.standin_kit import Kits
from tests.support import load_command

wrong_bodies = load_command("ci/wrong-bodies")

REFUSED = "must-fail dmr_link/a.edit: refused, as it must be"
# what `rt` prints after "refused, as it must be", and how the edit was refused, if that says little
REASONS = (
    (": note: src/a.rt:42:5: it is not proved that what the function ensures holds when it returns (`returns`); `search` gave up at one of its li", None),
    (": ./proofs/a/Answers.antt:17:35: error: `returns`: computed as far as they go, the two types differ only wher", None),
    (": ./proofs/a/Answers.antt:9:5: error: `returns`: expected type `goal.returns g c`, but this has", None),
    (" (only because a proof file names what the edit took away, so this says little of the contract): ./proofs/a/Answers.antt:6:71: error", "for a name"),
    (": ./proofs/a/Answers.antt:11:77: error: `loop-preserved`: record `Rattle.dmr_link.proofs.a.Lts.Own-At-lo", "for a name"),
    (": ./proofs/a/Answers.antt:19:34: error: `returns-moves`: `goal.returns-moves`: module `Rattle.dmr_link.", "for a name"),
    (" (only by a limit of the prover, which gave no verdict, so this says less of the contract): antt ran out of stack", "at a limit"),
    (": ./proofs/a/Answers.antt:28:6: note: large solution: the implicit argument {b} of `◌∙◌` was filled in with a large term (1983 st", "without a reason"),
    ("", "without a reason"),
)


def printed(said: list[str], earlier: int = 0) -> tuple[tuple[int, int, int], list[str]]:
    """What a report of a crate's wrong bodies counts, and the lines it prints."""
    out = io.StringIO()
    with contextlib.redirect_stdout(out):
        counts = wrong_bodies.report("dmr_link", [wrong_bodies.Tried(said, 90, earlier)])
    return tuple(counts), out.getvalue().splitlines()


class Refusals(unittest.TestCase):
    """How a wrong body was refused."""

    def test_reasons(self) -> None:
        for reason, how in REASONS:
            with self.subTest(reason=reason):
                self.assertEqual(wrong_bodies.says_little(REFUSED + reason), how)

    def test_report(self) -> None:
        missed = "must-fail dmr_link/b.edit: NOT REFUSED: the crate is still proved with this edit"
        lines = ["rt: " + REFUSED + REASONS[0][0], "rt: " + REFUSED, missed]
        self.assertEqual(printed(lines, earlier=2), ((3, 2, 1), [
            f"says little, without a reason: {REFUSED}", missed, "dmr_link: 2 of 3 refused, 1 without a reason, 2 in an earlier run, 1.5 minutes"]))

    def test_nothing_to_look_at(self) -> None:
        self.assertEqual(printed([REFUSED + REASONS[1][0]]), ((1, 1, 0), ["dmr_link: 1 of 1 refused, 1.5 minutes"]))


class Parts(unittest.TestCase):
    """How the edits are shared among copies."""

    def test_long_list(self) -> None:
        """Each edit is in one part, no part has more than a copy is worth, and the highest crate
        comes first."""
        wanted = {"dmr_bits": ["a"], "dmr_calls": [str(it) for it in range(wrong_bodies.PART + 1)]}
        parts = wrong_bodies.parts_of(wanted)
        self.assertEqual([it.step for it in parts], ["edits of dmr_calls, part 1 of 2", "edits of dmr_calls, part 2 of 2", "edits of dmr_bits"])
        self.assertEqual(sorted(parts[0].edits + parts[1].edits), sorted(wanted["dmr_calls"]))
        self.assertLessEqual(max(len(it.edits) for it in parts), wrong_bodies.PART)

    def test_libraries(self) -> None:
        """Each library that crates need comes once, after those that it needs, and no crate of
        the kit does."""
        found = wrong_bodies.libraries_of(["dmr_calls", "dmr_pool"])
        listed = wrong_bodies.crates.read_crates()
        self.assertEqual(len(found), len(set(found)))
        for at, name in enumerate(found):
            self.assertLessEqual({it for it in listed[name] if it in listed}, set(found[:at]))


class Commands(Kits):
    """The command, with a stand-in for each kind of build."""

    def setUp(self) -> None:
        super().setUp()
        for path, text in (("dmr_calls/src/a.rt", "a\n"), ("dmr_bits/a.rt", "a\n"),
                           ("dmr_calls/wrong-bodies/wrong.edit", "file: src/a.rt\nold: a\nnew: b\n")):
            self.write(f"checkout/crates/{path}", text)

    def put_git(self) -> None:
        """Makes the checkout one of git's, which lists its files."""
        git = shutil.which("git")
        if not git:
            self.skipTest("there is no git: it lists the files that are copied")
        (self.commands / "git").symlink_to(pathlib.Path(git).resolve())
        subprocess.run([git, "init", "-q", str(self.checkout)], check=True)

    def test_both_kinds(self) -> None:
        """With either, a library and a proof come before the edit, and the closing line counts it."""
        self.put_git()
        for takes_words in (True, False):
            with self.subTest(takes_words=takes_words):
                self.put_kit(takes_words)
                ran = self.run_command("ci/wrong-bodies", "dmr_calls")
                self.assertEqual(ran.returncode, 0, ran.stderr)
                steps = [line[9:].partition(" took")[0] for line in ran.stdout.splitlines() if " took " in line]
                self.assertEqual(steps, ["library dmr_bits", "proof of dmr_calls", "edits of dmr_calls"])
                self.assertRegex(ran.stdout, r"\ndmr_calls: 1 of 1 refused, 0\.\d minutes\n"
                                             r"1 wrong bodies refused, 0 of them in a way that says little, 0 not refused: ")

    def test_build_without_edits(self) -> None:
        """A build that has no command for edits is refused by its name. So is a machine without
        the kit."""
        self.put_kit(False, "kit-0 logic c0ffee", edits=False)
        ran = self.run_command("ci/wrong-bodies", "dmr_calls")
        self.assertEqual((ran.returncode, ran.stdout), (1, ""))
        self.assertEqual(ran.stderr, "wrong-bodies: kit-0 has no command `rt must-fail`: take a build of the kit that has it\n")
        (self.commands / "rt").unlink()
        self.assertIn("the Rattle kit is missing", self.run_command("ci/wrong-bodies", "dmr_calls").stderr)
