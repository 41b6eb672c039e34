"""Tests of the hub's page in a headless Chromium. The proved program serves the site, or a test makes it up with a stand-in for the console."""
import pathlib
import re
import tempfile
import unittest

from temzaar.sitefile import FREE_PORTS, Site
from tests.browser import Chromium, find_chromium
from tests.fake_console import FakeConsole, slots
from tests.made_records import make_records
from tests.page_scene import Scene, start_hub
from tests.support import TWO_CARRIERS, program

UP = slots("control", "free", "call", "free")
# Everything that is shown in text of a colour too near to that of its background: less than 4.5 to 1 (WCAG 2.2, 1.4.3).
FAINT_TEXTS = """(() => {
  const parse = (colour) => { const found = colour.match(/[\\d.]+/g).map(Number); return found.length > 3 ? found : [...found, 1]; };
  const over = (top, below) => [0, 1, 2].map((n) => top[n] * top[3] + below[n] * (1 - top[3]));
  const light = (colour) => { const [r, g, b] = colour.slice(0, 3).map((it) => { const part = it / 255; return part <= 0.03928 ? part / 12.92 : ((part + 0.055) / 1.055) ** 2.4; });
    return 0.2126 * r + 0.7152 * g + 0.0722 * b; };
  const backOf = (element) => { let back = null; const stack = []; for (let it = element; it; it = it.parentElement) { stack.push(parse(getComputedStyle(it).backgroundColor)); }
    back = [255, 255, 255]; for (const colour of stack.reverse()) { back = over(colour, back); } return back; };
  const faint = [];
  for (const element of document.querySelectorAll("body *")) {
    const own = [...element.childNodes].some((it) => it.nodeType === 3 && it.textContent.trim());
    if (!own || !element.checkVisibility() || element.closest("svg, .unseen, dialog:not([open]), noscript") || element.disabled) { continue; }
    const back = backOf(element); const text = over(parse(getComputedStyle(element).color), back);
    const [high, low] = [light(text), light(back)].sort((a, b) => b - a); const ratio = (high + 0.05) / (low + 0.05);
    if (ratio < 4.5) { faint.push(`${element.tagName} ${element.className} ${element.textContent.trim().slice(0, 30)}: ${ratio.toFixed(2)}`); }
  }
  return faint;
})()"""
# How far the page is wider than the window.
EXCESS_WIDTH = "document.documentElement.scrollWidth - document.documentElement.clientWidth"


class PageCase(unittest.TestCase):
    """A test with a browser. `base` is the address of the page."""
    base: str

    def open_browser(self) -> None:
        """Opens a browser."""
        self.browser = Chromium(find_chromium())
        self.addCleanup(self.browser.close)

    def wait_for_text(self, selector: str, pattern: str) -> None:
        """Waits until an element shows a text."""
        self.browser.wait_until(lambda: bool(re.search(pattern, self.browser.text(selector))), f"{selector}: {pattern}")

    def assert_clear(self) -> None:
        """No text is faint, and nothing is outside the window."""
        self.assertEqual((self.browser.evaluate(FAINT_TEXTS), self.browser.evaluate(EXCESS_WIDTH)), ([], 0))

    def assert_roles(self, *wanted: tuple[str, str]) -> None:
        """A screen reader is given these roles and names."""
        nodes = self.browser.call("Accessibility.getFullAXTree")["nodes"]
        roles = {(it["role"]["value"], it.get("name", {}).get("value", "")) for it in nodes if not it["ignored"]}
        self.assertEqual([it for it in wanted if it not in roles], [])

    def assert_harmless(self) -> None:
        """The browser reported no error, no text has become an element, and all requests are the page's own."""
        self.assertEqual((self.browser.complaints(), self.browser.evaluate("document.querySelectorAll('img').length")), ([], 0))
        self.assert_own_requests()

    def assert_own_requests(self) -> None:
        """Everything that the page asked for is the hub's, with a GET."""
        self.assertEqual([it for it in self.browser.requested() if not it.startswith(self.base) and it != "about:blank"], [])
        self.assertEqual({it["params"]["request"]["method"] for it in self.browser.events if it["method"] == "Network.requestWillBeSent"}, {"GET"})


class ScenePage(PageCase):
    """A site that the proved program serves, and a browser. `names` is the text of the file of names, if the hub is to have one, and `words` has keys of the site file."""
    names, words = "", dict[str, int]()

    def setUp(self) -> None:
        built, _ = program("dmr_trunk"), find_chromium()
        self.scene = Scene(built, Site(TWO_CARRIERS, first_port=FREE_PORTS, hang=8, **self.words), names=self.names)
        self.addCleanup(self.scene.close)
        self.base = self.scene.base
        self.open_browser()


class StandInPage(PageCase):
    """A hub of the site `Depot North`, and a browser. `names` is the text of the file of names, if the hub is to have one."""
    names = ""

    def setUp(self) -> None:
        find_chromium()
        self.folder = pathlib.Path(self.enterContext(tempfile.TemporaryDirectory()))
        self.fake = FakeConsole()
        self.addCleanup(self.fake.stop)
        self.fake.replies["slots"] = UP
        self.records = make_records(self.folder / "site.db", terms=2)
        hub, self.base = start_hub(self.folder, f"console_port = {self.fake.port}\nsilence = 600\n", 0.1, self.names)
        self.addCleanup(hub.wait, 20)
        self.addCleanup(hub.terminate)
        self.open_browser()
