"""The exact recording of a served site, and its replay. All of it is skipped if the program was not built."""
from tests.served_kit import ACKNOWLEDGED, PATIENCE, ServedCase, free_site, register_radio
from tests.support import wait_until

# A term has so few entries that one ends each half of a second, if nothing but ticks comes.
ENTRIES, TICK_MS = 50, 10


class Recorded(ServedCase):
    """A site of two carriers that is served with the name of a file for its recording."""

    def setUp(self) -> None:
        super().setUp()
        self.record("site.txt")
        self.site = free_site(tick_ms=TICK_MS, term_entries=ENTRIES)

    def record(self, name: str) -> None:
        """Names the file of the folder that the controller is to record."""
        self.path = self.folder / name
        self.variables = {"DMR_TRUNK_RECORD": str(self.path)}

    def replayed(self) -> list[str]:
        """The lines that a replay of the recording prints."""
        done = self.run_program(self.site, "--script", str(self.path))
        self.assertEqual((done.returncode, done.stderr), (0, ""))
        return done.stdout.splitlines()

    def test_a_replay_has_what_the_carrier_received(self) -> None:
        """Each octet that the carrier received is that of the replay, and nothing follows."""
        with self.serve(self.site, "--terms", "3") as controller:
            received = register_radio(self.site)
            self.assertEqual(controller.process.wait(PATIENCE), 0, controller.notes)
        self.assertEqual(received, ACKNOWLEDGED)
        self.assertEqual(self.replayed(), [f"carrier 0 {ACKNOWLEDGED.hex().upper()}", "carrier 1 -"])
        ticks = sum(int(line.split()[1]) for line in self.path.read_text(encoding="utf-8").splitlines() if line.startswith("tick "))
        self.assertGreater(ticks, ENTRIES)

    def test_radios_of_the_start_register_first(self) -> None:
        """After a restart the recording begins with a session in which the radio registers."""
        self.variables["STATE_DIRECTORY"] = str(self.folder)
        with self.serve(self.site, "--terms", "3") as controller:
            register_radio(self.site)
            self.assertEqual(controller.process.wait(PATIENCE), 0, controller.notes)
        self.path.unlink()
        self.run_terms(self.site, 1)
        lines = self.path.read_text(encoding="utf-8").splitlines()
        self.assertEqual([line.split()[0] for line in lines[:6]], ["open", "bytes", "bytes", "bytes", "cut", "tick"])
        self.assertEqual(self.replayed(), [f"carrier 0 {ACKNOWLEDGED.hex().upper()}", "carrier 1 -"])

    def test_without_radios_nothing_stands_in_front(self) -> None:
        """A site on which no radio is registered has no such session."""
        self.run_terms(self.site, 1)
        self.assertEqual(self.path.read_text(encoding="utf-8"), f"tick {ENTRIES}\n")

    def test_a_file_that_exists_stays_as_it_is(self) -> None:
        """The site is served all the same. One note says why nothing is recorded."""
        self.path.write_text("mine", encoding="utf-8")
        with self.serve(self.site, "--terms", "2") as controller:
            self.assertEqual(register_radio(self.site), ACKNOWLEDGED)
            self.assertEqual(controller.process.wait(PATIENCE), 0, controller.notes)
        self.assertEqual(controller.find_in_notes("recording: (.*)"), ["ended: there is such a file already"])
        self.assertEqual(self.path.read_text(encoding="utf-8"), "mine")

    def test_a_file_that_cannot_be_made(self) -> None:
        """As before, with another reason."""
        self.record("none/site.txt")
        controller = self.run_terms(self.site, 1)
        self.assertTrue(controller.wait_for("recording: ended: cannot make the file"), controller.notes)

    def test_a_file_that_is_removed(self) -> None:
        """It is noted with the next term, once. The site is served all the same."""
        with self.serve(self.site, "--terms", "6") as controller:
            wait_until(self.path.exists)
            self.path.unlink()
            self.assertTrue(controller.wait_for("recording: ended: the file was removed", PATIENCE), controller.notes)
            self.assertEqual(controller.process.wait(PATIENCE), 0, controller.notes)
        self.assertEqual(len(controller.find_in_notes("(recording: )")), 1, controller.notes)
        self.assertFalse(self.path.exists())
