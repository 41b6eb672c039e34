"""The page's alarms in a headless Chromium, over a hub that asks a stand-in for the console: what the site cannot do is said, and nothing that is not so."""
import os

from tests.fake_console import OFF_AIR, WAITING
from tests.made_records import add_term
from tests.page_standin import UP, StandInPage


class Alarms(StandInPage):
    """One session, in its order."""

    def test_a_session(self) -> None:
        self.browser.open(self.base)
        self.wait_for_text("#freshness", "^✓ controller answers, live$")
        self.assertEqual((self.browser.text("#alarms"), self.browser.text("h1"), self.browser.evaluate("document.title")), ("", "Depot North", "Depot North"))
        self.assertEqual(self.browser.text("#figure-control"), "Control channel on air carrier 0")
        self.wait_for_text("#calls-note", r"^The hub has seen 1 since \S+\. Earlier calls are the controller's records\.$")
        self.check_no_control_channel()
        self.check_a_burst_that_waits()
        self.check_gaps()
        self.check_records_that_cannot_be_read()
        self.assert_harmless()

    def check_no_control_channel(self) -> None:
        """The control carrier is down: its control slot does not seem to be on the air, and no slot is free."""
        self.fake.replies["slots"] = OFF_AIR
        self.wait_for_text("#alarms", r"^✕ ALARM No control channel since \S+: carrier 0 is down, and the site is off the air$")
        self.assertRegex(self.browser.text("#carriers-rows tr.down"), r"^0 ✕ DOWN since \S+ ✕ control DOWN ✕ down$")
        self.assertEqual((self.browser.text("#figure-control"), self.browser.text("#figure-slots")), ("Control channel DOWN carrier 0", "Slots in use 0 of 0"))
        self.assertRegex(self.browser.evaluate("document.title"), r"^✕ No control channel since .* – Depot North$")

    def check_a_burst_that_waits(self) -> None:
        """Carriers are up, and one does not poll: within seconds of a burst that waits for it."""
        self.fake.replies["slots"] = WAITING
        self.wait_for_text("#alarms", r"^✕ ALARM A burst for slot 0 of carrier 1 waits since \S+: carrier 1, or the control carrier 0, does not poll$")
        self.fake.replies["slots"] = UP
        self.wait_for_text("#alarms", "^$")

    def check_gaps(self) -> None:
        """The charts of the records are grey for times without records. The made records are of another year: all is grey."""
        self.wait_for_text("#chart-calls_ended .summary", "^0 calls; up to")
        self.browser.evaluate("document.querySelector('#chart-noise .plot').focus()")
        self.browser.press("End")
        self.assertRegex(self.browser.evaluate("document.activeElement.getAttribute('aria-valuetext')"), ": not recorded$")

    def check_records_that_cannot_be_read(self) -> None:
        """The hub reports why, and no alarm is left once it can read them."""
        os.rename(self.records, self.folder / "away.db")
        self.wait_for_text("#alarms", r"^✕ ALARM The hub cannot read the records: .*No such file or directory$")
        os.rename(self.folder / "away.db", self.records)
        add_term(self.records, 3)
        self.wait_for_text("#alarms", "^$")
