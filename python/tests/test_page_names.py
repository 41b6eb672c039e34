"""Names on the operators' page, in a headless Chromium over a site that the proved program serves. They are next to numbers, are found by a text, and change while the
page is open. There are a hundred thousand of them, and the page asks for those that it shows."""
import json
import re

from tests.page_standin import ScenePage

HTML = "<img src=x onerror=alert(1)>"
FEW = f"radio,1001,Bus 12\nradio,1002,{HTML}\nradio,1500,Bus 99\ntalkgroup,91,Drivers\ncarrier,0,Mast North\ncarrier,1,{'W' * 40}\n"
MANY = FEW + "".join(f"radio,{number},Unit {number}\n" for number in range(100_001, 200_001 - FEW.count("\n")))


class Names(ScenePage):
    """One session, in its order."""
    names = MANY

    def type_filter(self, text: str) -> None:
        """Types a text into the filter of radios and names."""
        self.browser.evaluate(f"((it) => {{ it.focus(); it.value = {json.dumps(text)}; it.dispatchEvent(new Event('input')); }})(document.getElementById('radio-filter'))")

    def test_a_session(self) -> None:
        player = self.scene.player
        player.join_carrier(0)
        self.browser.open(self.scene.base)
        self.wait_for_text("#alarms", rf"^✕ ALARM Carrier 1 \[{'W' * 40}\] is down since \d\d:\d\d:\d\d$")
        self.wait_for_text("#carriers-rows", r"^0 \[Mast North\] up")
        self.assertEqual(self.browser.text("#figure-control"), "Control channel on air carrier 0 [Mast North]")
        for radio in (1001, 1002):
            player.register(radio)
        self.wait_for_text("#radios-list", rf"^1001 \[Bus 12\] 1002 \[{re.escape(HTML)}\]$")
        self.check_a_call()
        self.check_the_search()
        self.check_the_looks()
        self.check_a_change()
        self.assert_harmless()
        asked = {it.removeprefix(self.scene.base) for it in self.browser.requested() if "/v1/" in it}
        self.assertEqual({it for it in asked if "radios" in it or "names" in it} - {"v1/radios.json?most=200", "v1/radios.json?most=200&begins=1002"},
                         {f"v1/names.json?most=50&find={text}" for text in ("bus", "img%20src", "1002", "Unit%201")})

    def check_a_call(self) -> None:
        """The parties of a call on its slot, in the last calls, and in the dialog."""
        player = self.scene.player
        player.talking = {(0, 1)}
        player.call_group(91, 1001)
        self.wait_for_text("#carriers-rows", r"call group 91 \[Drivers\] from 1001 \[Bus 12\] ?0:0\d")
        player.talking = set()
        self.wait_for_text("#calls-rows", r"^\d\d:\d\d:\d\d group 91 \[Drivers\] 1001 \[Bus 12\] carrier 0 ?, slot ?/ ?1 \[Mast North\] 0:\d\d$")
        self.browser.evaluate("document.querySelector('#calls-rows button').click()")
        self.wait_for_text("#history", r"^Calls of group 91 \[Drivers\] Close 1 call; .*group 91 \[Drivers\] 1001 \[Bus 12\]")
        self.assertEqual(self.browser.evaluate("document.querySelector('#history-rows button').getAttribute('aria-label')"), "group 91 [Drivers]")
        self.browser.press("Escape")

    def check_the_search(self) -> None:
        """By a part of a name, also of radios that are not registered; by the first digits of a number; and what is found leads to its calls."""
        self.type_filter("bus")
        self.wait_for_text("#names-list", r"^radio 1001 \[Bus 12\] radio 1500 \[Bus 99\] not registered$")
        self.assertEqual((self.browser.text("#names-note"), self.browser.text("#radios-list")), ("2 names have “bus” in them.", ""))
        self.browser.evaluate("document.querySelector('#names-list li:last-child button').click()")
        self.wait_for_text("#history", r"^Calls of radio 1500 \[Bus 99\] Close The hub has seen no such call\.$")
        self.browser.press("Escape")
        self.type_filter("img src")
        self.wait_for_text("#names-list", rf"^radio 1002 \[{re.escape(HTML)}\]$")
        self.type_filter("Unit 1")
        self.wait_for_text("#names-note", "^More than 50 names, of which these are the first, have “Unit 1” in them\\.$")
        self.assertEqual(self.browser.evaluate("document.querySelectorAll('#names-list li').length"), 50)
        self.type_filter("1002")
        self.wait_for_text("#radios-note", r"^2 registered, 1 begin with 1002\.$")
        self.wait_for_text("#names-note", r"^More than 50 names|^\d+ names? ha(s|ve) “1002” in")
        self.browser.press("Enter")
        self.wait_for_text("#history", rf"^Calls of radio 1002 \[{re.escape(HTML)}\] Close")
        self.browser.press("Escape")
        self.type_filter("")
        self.wait_for_text("#radios-note", r"^2 registered\.$")
        self.assertEqual((self.browser.text("#names-list"), self.browser.text("#names-note")), ("", ""))

    def check_the_looks(self) -> None:
        """No faint text, and nothing outside the window, however long a name is."""
        for width in (1280, 320):
            self.browser.resize(width, 800)
            self.assert_clear()

    def check_a_change(self) -> None:
        """A new name is shown in rows that were there before; of a bad file an alarm says so, and the names stay."""
        self.scene.write_names(FEW.replace("Bus 12", "Bus 14"))
        for selector in ("#radios-list", "#calls-rows"):
            self.wait_for_text(selector, r"1001 \[Bus 14\]")
        self.scene.write_names("nothing\n")
        self.wait_for_text("#alarms", r"ALARM The hub cannot read the names: .*names\.csv: line 1: not kind,number,name, three fields with commas between them; no line of the file is right")
        self.assertIn("1001 [Bus 14]", self.browser.text("#radios-list"))
