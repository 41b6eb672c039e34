"""`ci/gate`, with a stand-in for each kind of build of the kit, and the steps that the gate's
processes and lines show."""
import importlib
import io
import pathlib
import sys
import tempfile
import types
import unittest
import unittest.mock

from tests.standin_kit import Kits
from tests.support import TOP

sys.path.insert(0, str(TOP / "ci"))
progress = importlib.import_module("progress")
costs = importlib.import_module("gating.costs")
meter = importlib.import_module("gating.meter")
run = importlib.import_module("gating.run")

PROOF, TESTS, EDITS = (meter.Check("dmr_calls", kind) for kind in meter.KINDS)


class Words(Kits):
    """What `ci/gate` asks of each kind of build."""

    def check_words(self, asked: list[str], wanted: str) -> None:
        """`rt` is run with these words, and its last line and status are the gate's."""
        ran = self.run_command("ci/gate", *asked)
        self.assertEqual(ran.returncode, 0, ran.stderr)
        self.assertIn(f"rt: words {wanted}\n", ran.stdout)
        self.assertEqual(ran.stdout.splitlines()[-1], "2 passed, 0 failed")

    def test_build_that_takes_words(self) -> None:
        self.put_kit(True)
        for asked, wanted in ("", "ci"), ("--anew", "ci --anew"), ("dmr_calls", "ci dmr_calls"), ("dmr_calls --anew", "ci --anew dmr_calls"):
            with self.subTest(asked):
                self.check_words(asked.split(), wanted)

    def test_build_that_takes_none(self) -> None:
        """The build does all by itself. It cannot try some crates alone."""
        self.put_kit(False, "kit-1 logic c0ffee")
        for asked in [], ["--anew"]:
            with self.subTest(asked):
                self.check_words(asked, "ci")
        ran = self.run_command("ci/gate", "dmr_calls")
        self.assertEqual((ran.returncode, ran.stdout), (2, ""))
        self.assertIn("kit-1 takes no names of crates: `make check CRATE=dmr_calls` proves one", ran.stderr)

    def test_words_that_are_not_known(self) -> None:
        """An unknown crate and an unknown option are refused before anything runs, with a line
        of the command's own."""
        for takes_words in (True, False):
            self.put_kit(takes_words)
            for words, said in (
                ("dmr_nothing", "crates.txt lists no crate dmr_nothing"), ("--other", "unrecognized arguments: --other"),
                ("--write-costs dmr_calls", "--write-costs is of all crates, so it takes no names"),
            ):
                with self.subTest(words, takes_words=takes_words):
                    ran = self.run_command("ci/gate", *words.split())
                    self.assertEqual((ran.returncode, ran.stdout), (2, ""))
                    self.assertIn(f"ci/gate: error: {said}\n", ran.stderr)

    def test_no_kit(self) -> None:
        ran = self.run_command("ci/gate")
        self.assertEqual((ran.returncode, ran.stderr.count("\n")), (2, 1))
        self.assertIn("the Rattle kit is missing", ran.stderr)


class Ends(Kits):
    """What `ci/gate` prints, and its status."""

    def test_gate_that_fails(self) -> None:
        for takes_words in (True, False):
            self.put_kit(takes_words, said="rt: FAILED: dmr_calls\n1 passed, 1 failed", status=1)
            ran = self.run_command("ci/gate")
            self.assertEqual((ran.returncode, ran.stdout.splitlines()[-1]), (1, "1 passed, 1 failed"))

    def test_program(self) -> None:
        """The program that a gate built is in build/, if the whole gate passed."""
        made, taken = self.checkout / "crates/dmr_trunk/out/dmr_trunk", self.checkout / "build/dmr_trunk"
        made.parent.mkdir(parents=True)
        made.write_text("a program", encoding="utf-8")
        self.put_kit(True, status=1)
        self.run_command("ci/gate")
        self.put_kit(True)
        self.run_command("ci/gate", "dmr_trunk")
        self.assertFalse(taken.exists())
        self.run_command("ci/gate")
        self.assertEqual(taken.read_text(encoding="utf-8"), "a program")

    def test_costs(self) -> None:
        """The proofs that ran are in the table, and with --write-costs in the file, if the gate
        passed: the reference costs one unit, the other proof about as much. Each proof also
        prints its line with the time of day."""
        before = (self.checkout / "ci/costs").read_text(encoding="utf-8")
        self.put_kit(False, status=1, burns=("dmr_calls",))
        self.run_command("ci/gate", "--write-costs")
        self.assertEqual((self.checkout / "ci/costs").read_text(encoding="utf-8"), before)
        self.put_kit(False, burns=("dmr_bits", "dmr_calls"))
        ran = self.run_command("ci/gate", "--write-costs")
        self.assertEqual(ran.returncode, 0, ran.stderr)
        self.assertRegex(ran.stdout, r"(?m)^\d\d:\d\d:\d\d proof of dmr_bits took [12] s; \d+ steps left, about ")
        self.assertRegex(ran.stdout, r"(?m)^dmr_calls +0\.0 +0\.0 +0\.0 +0\.0 +1\.0$")
        read = costs.Costs.read(self.checkout / "ci/costs")
        self.assertEqual((read.checks[PROOF], read.checks[TESTS], read.checks[EDITS]), (1, 0, 0))
        self.assertTrue(0.3 < read.checks[meter.Check("dmr_bits", meter.PROOF)] < 3)
        self.assertTrue(0.5 < read.unit < 3)


class File(unittest.TestCase):
    """The file ci/costs."""

    def test_what_is_written_is_read(self) -> None:
        minutes = {PROOF: 1.5, EDITS: 3.0, meter.Check("dmr_bits", meter.TESTS): 0.75}
        with tempfile.TemporaryDirectory() as folder:
            path = pathlib.Path(folder) / "costs"
            path.write_text(costs.costs_text(minutes, 6.0, "a run"), encoding="utf-8")
            read = costs.Costs.read(path)
        self.assertEqual((read.unit, read.rest), (90, 0.5))
        units = {check: units for check, units in read.checks.items() if units}
        self.assertEqual(units, {PROOF: 1, EDITS: 2, meter.Check("dmr_bits", meter.TESTS): 0.5})
        self.assertEqual([read.seconds(it) for it in (PROOF, EDITS, TESTS)], [90, 180, 0])
        self.assertEqual([read.seconds(meter.Check("dmr_new", kind)) for kind in meter.KINDS], [90, 0, 90])

    def test_other_forms(self) -> None:
        for text in ("", "unit 1\ndmr_calls 1 2\n", "unit 1\ndmr_calls 1 2 x\n", "unit one\n"):
            with self.subTest(text), tempfile.TemporaryDirectory() as folder, self.assertRaises(ValueError):
                path = pathlib.Path(folder) / "costs"
                path.write_text(text, encoding="utf-8")
                costs.Costs.read(path)

    def test_file_of_this_repository(self) -> None:
        """It has the reference, and no crate that crates.txt does not list."""
        read = costs.Costs.read()
        self.assertEqual(read.checks[costs.REFERENCE], 1)
        self.assertLessEqual({it.crate for it in read.checks}, set(run.read_crates()))


class Meters(unittest.TestCase):
    """Which check a process belongs to, and what each check costs."""

    def test_processes(self) -> None:
        """A check's time is that of its outermost process and all below it. Processes that are
        not below the gate do not count."""
        rattle = ["rattle", "check", "--crate-name", "dmr_calls"]
        now = {
            1: meter.Process("1", 0, 50, ["init"], "/"),
            2: meter.Process("1", 1, 1, ["rt", "ci"], "/"),
            3: meter.Process("1", 2, 10, ["guard", *rattle], "/crate"),
            4: meter.Process("1", 3, 20, rattle, "/crate"),
            5: meter.Process("1", 2, 5, [*rattle, "--test"], "/crate"),
            6: meter.Process("1", 2, 3, rattle, "/tmp/rt-edit-7-a"),
            7: meter.Process("1", 1, 70, rattle, "/crate"),
            8: meter.Process("1", 2, 2, ["cc"], "/"),
        }
        read = meter.Meter(2)
        read.stop()
        read.read(now)
        self.assertEqual((read.spent, read.alive), ({PROOF: 30, TESTS: 5, EDITS: 3}, {PROOF, TESTS, EDITS}))
        # the inner process of the proof has ended, and its time is now with the one that waited for it
        del now[4]
        read.read({**now, 3: now[3]._replace(seconds=30)})
        self.assertEqual(read.spent[PROOF], 30)
        # the proof has ended; another edit runs, in another folder, under a number that was used
        # before
        read.read({1: now[1], 2: now[2], 6: meter.Process("2", 2, 4, rattle, "/tmp/rt-edit-7-b")})
        self.assertEqual((read.spent, read.alive), ({PROOF: 30, TESTS: 5, EDITS: 7}, {EDITS}))
        self.assertEqual(read.rooms[EDITS], {"/tmp/rt-edit-7-a", "/tmp/rt-edit-7-b"})


class Steps(unittest.TestCase):
    """The steps that begin and end as the gate runs: of a crate with two edits."""

    def setUp(self) -> None:
        self.clock = types.SimpleNamespace(monotonic=lambda: self.now)
        self.now = 0.0
        changes = unittest.mock.patch.multiple(
            run, time=self.clock, edits_of=lambda name, folder: ["a", "b"], read_crates=lambda: {"dmr_calls": []})
        changes.start()
        self.addCleanup(changes.stop)
        self.gate = run.Gate(costs.Costs(90, {PROOF: 1, TESTS: 2, EDITS: 3}, 0.1))
        out, clock = io.StringIO(), self.clock.monotonic
        self.gate.progress = self.progress = progress.Progress(self.gate.steps, out, clock, self.gate.spent)

    def see(self, *alive: object, rooms: int = 0, seconds: float = 1) -> list[str]:
        """The steps that run after the meter saw these checks, and edits in as many folders as
        `rooms` says, some seconds later."""
        self.now += seconds
        self.gate.follow(types.SimpleNamespace(alive=set(alive), rooms={EDITS: set(range(rooms))}))
        return sorted(self.progress.running)

    def left(self) -> list[str]:
        """The names of the steps that are left."""
        return [it.name for it in self.progress.steps_left()]

    def test_proof(self) -> None:
        """A proof ends when it has no process for some seconds."""
        self.assertEqual(self.see(PROOF), ["proof of dmr_calls"])
        self.assertEqual(self.see(), ["proof of dmr_calls"])
        self.assertEqual(self.see(PROOF), ["proof of dmr_calls"])
        self.assertEqual(self.see(seconds=run.GAP_SECONDS + 1), [])
        self.assertEqual(self.left(), ["tests of dmr_calls", "edits of dmr_calls", run.REST])

    def test_edits(self) -> None:
        """The edits end when each was tried, between two checks of the crate as it is."""
        self.assertEqual(self.see(EDITS, rooms=1), ["edits of dmr_calls"])
        self.assertEqual(self.see(rooms=3, seconds=100), ["edits of dmr_calls"])
        self.assertEqual(self.see(EDITS, rooms=4), ["edits of dmr_calls"])
        self.assertEqual(self.see(rooms=4, seconds=100), [])

    def test_some_edits_were_kept(self) -> None:
        """Only those that the gate says it tries are waited for."""
        self.gate.hear("rt: dmr_calls: trying its must-fail edits (1)\n")
        self.see(EDITS, rooms=2)
        self.assertEqual(self.see(rooms=2, seconds=100), ["edits of dmr_calls"])
        self.assertEqual(self.see(rooms=3, seconds=100), [])

    def test_kept(self) -> None:
        """Nothing of a crate that was kept is left, until it is seen after all."""
        self.gate.hear("rt: dmr_calls is kept: an earlier run on this machine proved the same files\n")
        self.assertEqual(self.left(), [run.REST])
        self.see(EDITS)
        self.assertEqual(self.left(), ["edits of dmr_calls", run.REST])

    def test_checks_have_ended(self) -> None:
        """The first line on an edit, a run or a test ends all checks, and what has not begun is
        not left."""
        for line in (
            "rt: must-fail dmr_calls/a.edit: refused, as it must be\n",
            "rt: dmr_calls ran, and wrote what its file stdout has\n",
            "rt: dmr_calls: its tests passed\n",
        ):
            with self.subTest(line):
                self.setUp()
                self.see(PROOF)
                self.gate.hear("rt: dmr_calls proved\n")
                self.assertEqual(sorted(self.progress.running), ["proof of dmr_calls"])
                self.gate.hear(line)
                self.gate.hear(line)
                self.assertEqual((list(self.progress.running), self.left()), ([run.REST], [run.REST]))
                self.assertEqual(self.see(EDITS), [run.REST])
                self.gate.end_steps()
                self.assertEqual(self.left(), [])

    def test_gate_that_ends_early(self) -> None:
        """Nothing is left of a gate that ends before anything ran."""
        self.see(PROOF)
        self.gate.end_steps()
        self.assertEqual((self.progress.running, self.left()), ({}, []))

    def test_expected(self) -> None:
        """Expected are six units in as many lanes as there are, and a tenth of a unit after them."""
        lanes = run.side_by_side()
        self.assertEqual(self.progress.seconds_left(), max(6 * 90 / lanes + 9, 180))
