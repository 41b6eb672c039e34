"""The operators' page in a headless Chromium, over a site that the proved program serves.

A carrier is down and comes up, radios register, and a call begins and ends. Its history is opened by the keyboard. The page is light and dark, and as narrow as
a phone. Then the controller goes away, and the hub. No request goes to another host."""
from tests.page_standin import ScenePage

# A term of so few entries ends each six seconds.
ENTRIES = 300

class InBrowser(ScenePage):
    """One session, in its order."""
    words = {"term_entries": ENTRIES}

    def open_board(self, width: int, dark: bool) -> None:
        """Opens the page again, and waits until it shows what the hub knows."""
        self.browser.open(self.base, width, 800, dark)
        self.wait_for_text("#carriers-rows", "^0 up")
        self.wait_for_text("#calls-rows", "group 91")
        self.wait_for_text("#radios-note", "registered")
        self.browser.wait_for("document.querySelectorAll('#charts-grid .plot svg .mean').length === 5")

    def test_a_session(self) -> None:
        player = self.scene.player
        player.join_carrier(0)
        self.browser.open(self.base)
        self.check_a_carrier_that_is_down()
        player.join_carrier(1)
        self.wait_for_text("#freshness", "^✓ controller answers, live$")
        self.assertEqual((self.browser.text("#alarms"), self.browser.text("#figure-carriers")), ("", "Carriers up 2 of 2"))
        for radio in (1001, 1002):
            player.register(radio)
        self.wait_for_text("#radios", r"1001 1002 2 registered\.$")
        self.check_a_call()
        self.check_the_history_by_keyboard()
        self.check_the_charts()
        self.check_looks()
        self.check_roles()
        self.assert_harmless()
        self.check_the_controller_away()
        self.check_the_hub_away()
        self.check_requests()

    def check_a_carrier_that_is_down(self) -> None:
        """Carrier 1 has not connected: an alarm, in red and in words."""
        self.wait_for_text("#alarms", r"^✕ ALARM Carrier 1 is down since \d\d:\d\d:\d\d$")
        self.assertRegex(self.browser.text("#carriers-rows tr.down"), r"^1 ✕ DOWN since \d\d:\d\d:\d\d ✕ down ✕ down$")
        self.wait_for_text("#freshness", "^✕ 1 alarm, live$")
        self.assertRegex(self.browser.evaluate("document.title"), r"^✕ Carrier 1 is down since \S+ – Depot North$")

    def check_a_call(self) -> None:
        """A call begins, is shown with its parties and its age, and ends."""
        self.scene.player.talking = {(0, 1), (1, 0), (1, 1)}
        self.scene.player.call_group(91, 1001)
        self.wait_for_text("#carriers-rows", r"call group 91 from 1001 ?0:0[1-9]")
        self.assertEqual(self.browser.text("#figure-slots"), "Slots in use 1 of 3")
        self.wait_for_text("#calls-rows", r"^\d\d:\d\d:\d\d group 91 1001 carrier \d ?, slot ?/ ?\d ▶ active$")
        self.scene.player.talking = set()
        self.wait_for_text("#figure-slots", "^Slots in use 0 of 3$")
        self.wait_for_text("#calls-rows", r"^\d\d:\d\d:\d\d group 91 1001 carrier \d ?, slot ?/ ?\d 0:\d\d$")
        self.assertNotIn("group 91", self.browser.text("#carriers-rows"))
        # once the term has ended, the call is that of the records, with its cause
        self.browser.wait_for("document.querySelector('#calls-rows span[title=\"ended: hang time\"]')")
        self.wait_for_text("#chart-calls_ended .summary", r"^1 call: 1 hang time; up to \d\d:\d\d:\d\d$")
        self.assertEqual(self.browser.text("#chart-refused .summary")[:10], "0 requests")
        self.wait_for_text("#limits", r"^Calls that ended before .*\d are the controller's records\. Later calls are what dmr_hub saw from one look")

    def check_the_history_by_keyboard(self) -> None:
        """Enter on a party opens its history, Escape closes it, and the focus returns."""
        self.browser.evaluate("document.querySelector('#calls-rows button').focus()")
        self.browser.press("Enter")
        self.wait_for_text("#history", r"^Calls of group 91 Close 1 call; 1 ended, after \d+ s in all Began To From Carrier/slot Lasted .*group 91 1001")
        self.browser.press("Tab")
        self.assertEqual(self.browser.evaluate("document.activeElement.id"), "history-close")
        self.browser.press("Escape")
        self.browser.wait_for("!document.getElementById('history').open")
        self.assertEqual(self.browser.evaluate("document.activeElement.innerText"), "group 91")
        self.browser.evaluate("const it = document.getElementById('radio-filter'); it.focus(); it.value = '1002'; it.dispatchEvent(new Event('input'))")
        self.wait_for_text("#radios-note", r"^2 registered, 1 begin with 1002\.$")
        self.browser.press("Enter")
        self.wait_for_text("#history", r"^Calls of radio 1002 Close The hub has seen no such call\.$")
        self.browser.press("Escape")

    def check_the_charts(self) -> None:
        """The charts have drawn what was; the keyboard reads a sample; the day is another question."""
        self.wait_for_text("#chart-registered_radios", r"^Registered radios now 2; least 0, mean [\d.]+, greatest 2")
        self.assertEqual(self.browser.evaluate("document.querySelectorAll('#charts-grid .plot svg .mean').length"), 5)
        self.browser.evaluate("document.querySelector('#chart-carriers_up .plot').focus()")
        self.browser.press("End")
        self.assertRegex(self.browser.evaluate("document.activeElement.getAttribute('aria-valuetext')"), r"^\d\d:\d\d:\d\d: (no picture|mean|[012])")
        self.browser.press("ArrowLeft")
        self.browser.evaluate("document.querySelector('button[data-span=day]').click()")
        self.browser.wait_until(lambda: any(it.endswith("/v1/history.json?span=day") for it in self.browser.requested()), "the day is asked for")

    def check_looks(self) -> None:
        """Light, dark and a phone: no faint text, and nothing outside the window."""
        for width, dark in ((1280, False), (1280, True), (390, False), (320, True)):
            self.open_board(width, dark)
            self.assert_clear()
        before = self.browser.evaluate("getComputedStyle(document.body).backgroundColor")
        self.browser.evaluate("document.querySelector('button[data-colours=light]').click()")
        self.assertNotEqual(self.browser.evaluate("getComputedStyle(document.body).backgroundColor"), before)
        self.open_board(1280, dark=True)
        self.assertEqual(self.browser.evaluate("document.documentElement.dataset.theme"), "light")

    def check_roles(self) -> None:
        """Landmarks, headings, tables with headers, a live region and the charts have roles and names."""
        self.assert_roles(("banner", ""), ("main", ""), ("contentinfo", ""), ("alert", "Alarms"), ("heading", "Depot North"), ("region", "Carriers and slots"), ("region", "Queue"),
                          ("region", "Last calls"), ("region", "Registered radios"), ("region", "Charts"), ("columnheader", "Slot 0"), ("columnheader", "Lasted"), ("rowheader", "0 up"),
                          ("slider", "Slots in use: time of a sample"), ("group", "Colours"), ("button", "group 91"), ("button", "radio 1001"))

    def check_the_controller_away(self) -> None:
        """The controller ends: an alarm with the reason, and the picture is called the last one."""
        self.scene.player.stop()
        self.scene.controller.process.terminate()
        self.wait_for_text("#alarms", r"^✕ ALARM Controller away since \d\d:\d\d:\d\d: \w.*$")
        self.wait_for_text("#freshness", r"^✕ controller away, the picture is 0:\d\d old$")
        self.assertIn("The last picture, not the present one.", self.browser.text("#carriers"))
        self.assert_clear()

    def check_the_hub_away(self) -> None:
        """The hub ends: the page says so by itself."""
        self.scene.stop_hub()
        self.wait_for_text("#alarms", r"^✕ ALARM The hub does not answer\. What is shown is not the present state\.$")

    def check_requests(self) -> None:
        """Everything that the page asked for is a path of the hub, and was answered."""
        self.assert_own_requests()
        paths = {it.removeprefix(self.base).partition("?")[0] for it in self.browser.requested()}
        self.assertLessEqual({"", "page/board.js", "page/board.css", "v1/state.json", "v1/calls.json", "v1/radios.json", "v1/history.json"}, paths)
        answered = [it["params"]["response"] for it in self.browser.events if it["method"] == "Network.responseReceived"]
        self.assertEqual({it["status"] for it in answered}, {200, 304})
        self.assertEqual({it["status"] for it in answered if "/v1/calls.json?last" in it["url"]}, {200, 304})
