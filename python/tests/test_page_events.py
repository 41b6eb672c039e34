"""The events on the operators' page, in a headless Chromium over a hub that asks a stand-in for the console: what is over and was not acknowledged stays."""
from temzaar.hubconsole import HubConsole
from tests.fake_console import OFF_AIR
from tests.page_standin import UP, StandInPage

HTML = "<img src=x onerror=alert(1)>"


class Events(StandInPage):
    """One session, in its order."""
    names = f"carrier,0,{HTML}\nradio,1002,Bus 12\n"

    def rows(self) -> list[str]:
        """The rows of the table, without their times."""
        texts = self.browser.evaluate("[...document.querySelectorAll('#events-rows tr')].map((row) => [...row.cells].slice(1).map((cell) => cell.innerText.trim()).join(' | '))")
        return [str(it) for it in texts]

    def ask(self, line: str) -> None:
        """Sends a line to the hub."""
        with HubConsole(f"{self.folder}/console.sock") as console:
            console.ask(line)

    def test_a_session(self) -> None:
        self.browser.open(self.base)
        self.wait_for_text("#events-waiting", r"^No event waits for an acknowledgement\.$")
        self.assertEqual(self.browser.text("#figure-events"), "To acknowledge 0")
        self.check_an_alarm_that_is_over()
        self.check_an_acknowledgement()
        self.check_looks()
        self.check_the_switch()
        self.assert_harmless()

    def check_an_alarm_that_is_over(self) -> None:
        """The control channel is lost, and is back: no alarm is left, and the event waits, by mark and words."""
        self.fake.replies["slots"] = OFF_AIR
        self.wait_for_text("#alarms", "No control channel since")
        self.fake.replies["slots"] = UP
        self.wait_for_text("#alarms", "^$")
        self.wait_for_text("#events-rows tr.waits", r"^\d\d:\d\d:\d\d no control channel: carrier 0 \[<img src=x onerror=alert\(1\)>\] was lost, and the site was off the air\. Over \d\d:\d\d:\d\d ▲ waits: acknowledge \d+$")
        self.assertRegex(self.rows()[0], r"\| ▲ waits: acknowledge \d+$")
        self.assertEqual(self.rows()[1:], [f"the control channel is back: carrier 0 [{HTML}] came up | ", "the hub was started | "])
        self.wait_for_text("#events-waiting", r"^▲ 1 event waits for an acknowledgement\.$")
        self.assertEqual(self.browser.text("#figure-events"), "To acknowledge 1 see events")
        self.assertRegex(self.browser.text("#events-note"), r"^Events from \S+ \d+ \d\d:\d\d:\d\d on\. A user with the role full acknowledges with dmr_console: acknowledge, and the number, or all\.$")
        self.assert_roles(("region", "Events"), ("heading", "Events"), ("columnheader", "Acknowledgement"), ("group", "Which events"), ("button", "All"))
        self.assertIn("status", {it["role"]["value"] for it in self.browser.call("Accessibility.getFullAXTree")["nodes"] if not it["ignored"]})

    def check_an_acknowledgement(self) -> None:
        """It is shown with the user, and nothing waits. The row keeps its place in time."""
        self.ask("acknowledge all")
        self.wait_for_text("#events-waiting", "^No event waits")
        self.assertRegex(self.rows()[1], r"was off the air\. Over \S+ \| ✓ \w+, \d\d:\d\d:\d\d$")
        self.assertEqual(self.browser.text("#figure-events"), "To acknowledge 0")

    def check_looks(self) -> None:
        """Light and dark, on a desk and on a phone: no faint text, and nothing outside the window, while events wait."""
        self.fake.replies["slots"] = OFF_AIR
        self.wait_for_text("#events-waiting", "^▲ 1 event waits")
        for width, dark in ((1280, False), (1500, True), (390, True), (320, False)):
            self.browser.open(self.base, width, dark=dark)
            self.wait_for_text("#events-waiting", "^▲ 1 event waits")
            self.assert_clear()

    def check_the_switch(self) -> None:
        """Without refused requests the hub is asked for another list."""
        self.browser.evaluate("document.querySelector('button[data-refusals=no]').click()")
        self.browser.wait_until(lambda: any(it.endswith("/v1/events.json?last=12&refusals=no") for it in self.browser.requested()), "the list is asked for")
        self.assertEqual(self.browser.evaluate("[...document.querySelectorAll('button[data-refusals]')].map((it) => it.getAttribute('aria-pressed'))"), ["false", "true"])
        # the switch of the charts is another one
        self.assertEqual(self.browser.evaluate("document.querySelector('button[data-span=hour]').getAttribute('aria-pressed')"), "true")
