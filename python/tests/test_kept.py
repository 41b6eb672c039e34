"""The records that a served controller keeps, and the radios that are registered again after a restart. All of it is skipped if the program was not built."""
import re
import resource
import signal
import subprocess

from temzaar.console import Console, Status
from temzaar.faults import ToolFault
from temzaar.records import RecordedTerm, opened_records
from tests.made_records import opened
from tests.served_kit import ACKNOWLEDGED, PATIENCE, ServedCase, free_site, register_radio
from tests.support import TOP, wait_until

# the radio that register_radio registers
RADIO = 1001
# A term has so few entries that one ends each half of a second, if nothing but ticks comes.
ENTRIES, TICK_MS = 50, 10


class Kept(ServedCase):
    """A site of two carriers that is served with a folder for its state."""

    def setUp(self) -> None:
        super().setUp()
        self.site = free_site(tick_ms=TICK_MS, term_entries=ENTRIES)

    def radios(self) -> int:
        """How many radios are registered, as the console says."""
        with Console(self.site.address, self.site.console_port) as console:
            return Status(console.ask("status")).counts["radios"]

    def recorded(self) -> tuple[list[int], list[RecordedTerm]]:
        """The registered radios and the terms of the file. Nothing if it cannot be read now."""
        try:
            with opened_records(str(self.folder / "site.db")) as records:
                return records.registrations(), records.terms()
        except ToolFault:
            return [], []

    def wait_for_radios(self, wanted: list[int]) -> None:
        """Waits until the file has these radios."""
        wait_until(lambda: self.recorded()[0] == wanted)

    def test_a_radio_is_registered_again_after_a_kill(self) -> None:
        """A radio that had registered is so again. One that the site file no longer lists is not."""
        with self.serve(self.site) as controller:
            self.assertEqual(register_radio(self.site), ACKNOWLEDGED)
            self.wait_for_radios([RADIO])
            controller.process.kill()
        with self.serve(self.site) as controller:
            self.assertTrue(controller.wait_for("records: 1 radio registered again"), controller.notes)
            self.assertEqual(self.radios(), 1)
            controller.process.kill()
        self.site.plan["radios"] = [[RADIO + 1, 1999]]
        with self.serve(self.site):
            self.assertEqual(self.radios(), 0)

    def test_a_symbolic_link(self) -> None:
        """A link to nothing is a fault, and no file is made there. A link to a file is followed."""
        place, moved = self.folder / "site.db", self.folder / "moved.db"
        place.symlink_to(moved)
        controller = self.run_terms(self.site, 2)
        self.assertTrue(controller.wait_for("records: not kept, trying again with each term: cannot open the file"), controller.notes)
        self.assertFalse(moved.exists())
        place.unlink()
        for _ in range(2):
            self.run_terms(self.site, 2)
            if not moved.exists():
                place.rename(moved)
                place.symlink_to(moved)
        self.assertTrue(place.is_symlink())
        self.assertEqual([it.number for it in self.recorded()[1]], [1, 2, 3, 4])

    def test_a_second_controller_with_the_same_folder(self) -> None:
        """It is refused before it listens, though its ports are free. After a kill of the first the folder is free."""
        with self.serve(self.site) as controller:
            done = self.expect_refusal(free_site(), self.variables,
                                       "another controller uses the folder of STATE_DIRECTORY")
            self.assertEqual(done.stderr.count("\n"), 1)
            self.assertTrue(controller.runs())
            controller.process.kill()
        with self.serve(self.site) as controller:
            self.assertFalse(any("locked" in it for it in controller.notes), controller.notes)

    def test_a_limit_of_file_size(self) -> None:
        """As the unit starts it, the controller serves on, and notes that nothing is kept. Otherwise the signal ends it, as the document says."""
        unit = (TOP / "deploy" / "dmr_trunk.service").read_text(encoding="utf-8")
        before = re.findall(r"^ExecStart=(.*)@PREFIX@/bin/dmr_trunk ", unit, re.M)[0].split()
        path = self.write("site.toml", self.site.text())

        def limit() -> None:
            signal.signal(signal.SIGXFSZ, signal.SIG_DFL)
            resource.setrlimit(resource.RLIMIT_FSIZE, (1, 1))

        for words, wanted in ((before, 0), ([], -signal.SIGXFSZ)):
            command = [*words, self.built, "--site", str(path), "--serve", "--terms", "2"]
            done = subprocess.run(command, env=self.variables, capture_output=True, text=True, timeout=PATIENCE, check=False, preexec_fn=limit)
            self.assertEqual(done.returncode, wanted, done.stderr)
            self.assertEqual("records: not kept" in done.stderr, wanted == 0)

    def test_more_radios_than_a_site_has(self) -> None:
        """The first 4,096 by their places are registered again, and a note says that there are more."""
        self.run_terms(self.site, 1)
        self.site.plan["radios"] = [[1000, 9999]]
        for count, wanted in ((4096, 4096), (5000, 4096)):
            with opened(self.folder / "site.db") as conn:
                conn.execute("DELETE FROM registrations")
                conn.executemany("INSERT INTO registrations VALUES (?, ?)", ((place, 9000 - place) for place in range(1, count + 1)))
            with self.serve(self.site) as controller:
                self.assertEqual(self.radios(), wanted)
                with Console(self.site.address, self.site.console_port) as console:
                    self.assertEqual(console.ask("radios 0")[0], f"radio {9000 - wanted}")
                found = controller.find_in_notes("records: (.*registered again.*)")
                self.assertEqual(found, ["4096 radios registered again" + ", the file has more" * (count > 4096)])
                controller.process.kill()

    def test_the_file_that_is_locked(self) -> None:
        """It has the version. If it cannot be locked, a note says why, and the records are kept."""
        lock = self.folder / "site.lock"
        self.run_terms(self.site, 1)
        version = subprocess.run([self.built, "--version"], capture_output=True, text=True, timeout=60, check=False)
        self.assertEqual(lock.read_text(encoding="utf-8"), version.stdout + version.stderr)
        lock.unlink()
        elsewhere = self.write("elsewhere", "mine")
        lock.symlink_to(elsewhere)
        controller = self.run_terms(self.site, 1)
        self.assertTrue(controller.wait_for(r"WARN .* records: the folder is not locked: "), controller.notes)
        self.assertEqual(elsewhere.read_text(encoding="utf-8"), "mine")
        self.assertEqual(len(self.recorded()[1]), 2)

    def test_the_last_term_is_written_before_the_end(self) -> None:
        """`--terms` ends the program once all terms are written. Their numbers and ticks go on from the first to the last."""
        self.run_terms(self.site, 3)
        terms = self.recorded()[1]
        self.assertEqual([it.number for it in terms], [1, 2, 3])
        self.assertEqual([it.counts["entries"] for it in terms], [ENTRIES] * 3)
        self.assertEqual([it.last_tick for it in terms], [ENTRIES, 2 * ENTRIES, 3 * ENTRIES])

    def test_a_file_that_cannot_be_opened(self) -> None:
        """The site is served all the same. One note each says why the folder is not locked, nothing is registered again, and nothing is kept."""
        self.variables = {"STATE_DIRECTORY": str(self.folder / "none")}
        with self.serve(self.site) as controller:
            self.assertEqual(register_radio(self.site), ACKNOWLEDGED)
            self.assertTrue(controller.wait_for("term ended.*1 registrations"), controller.notes)
            self.assertTrue(controller.wait_for("records: not kept"), controller.notes)
            ended = len(controller.notes)
            self.assertTrue(controller.wait_for("term ended", since=ended), controller.notes)
            said = controller.find_in_notes("records: (.*)")
        self.assertEqual(said, ["the folder is not locked: No such file or directory (os error 2)",
                                "no radio is registered again: cannot open the file", "not kept, trying again with each term: cannot open the file"])

    def test_without_a_folder_nothing_is_kept(self) -> None:
        """An empty name of a folder is none."""
        self.variables = {"STATE_DIRECTORY": ""}
        with self.serve(self.site) as controller:
            self.assertTrue(controller.wait_for("term ended"), controller.notes)
            self.assertFalse([it for it in controller.notes if "records" in it])
        self.assertEqual(list(self.folder.iterdir()), [])

    def test_a_name_that_is_not_text(self) -> None:
        """The program ends before it listens. The name is that of the folder, or of a recording."""
        for name in ("STATE_DIRECTORY", "DMR_TRUNK_RECORD"):
            self.expect_refusal(self.site, {name.encode(): b"\xff"}, f"{name} is not UTF-8")
