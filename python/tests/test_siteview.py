"""The picture of siteview, of replies that are written down here; no terminal and no network is needed."""
import unittest

from temzaar.cli.siteview import Prompt, paint_rows, picture_rows, plain_text
from temzaar.names import parse_names
from temzaar.picture import Ages, take_picture

REPLIES = {
    "status": ["status carriers 1 radios 4 asks 0 lines 1 calls 2 fill move 7"],
    "slots": ["slot 0 0 control", "slot 0 1 call", "slot 1 0 call", "slot 1 1 free"],
    "calls 0": ["call 0 1 group 91 from 1001"],
    "calls 1": ["call 1 0 radio 1002 from 1003"],
    "lines 1": ["line 1 group 94 from 1004"],
}
SHOWN = """\
carriers 1 of 2 up   radios 4   asks 0   lines 1   calls 2   fill move 7

carrier  slot 0                                  slot 1
   0     control (C_MOVE to 7)                   group 91 from 1001
   1     radio 1002 from 1003                    free

waiting for a slot
   1     group 94 from 1004
"""


NAMED = """\
carriers 1 of 2 up   radios 4   asks 0   lines 1   calls 2   fill move 7

carrier            slot 0                                                     slot 1
   0 [Mast North]  control (C_MOVE to 7)                                      group 91 [Drivers] from 1001 [Bus 12]
   1 [1]           radio 1002 [東京駅前広..] from 1003 [Linienbus..]          free

waiting for a slot
   1     group 94 from 1004
"""


class Written:
    """A console whose replies are written down."""

    def __init__(self, **changes: list[str]) -> None:
        self.replies, self.lines = {**REPLIES, **changes}, []  # type: dict[str, list[str]], list[str]

    def ask(self, line: str) -> list[str]:
        """The reply that is written down."""
        self.lines.append(line)
        return self.replies[line]


class Shown(unittest.TestCase):
    """Pictures."""

    def test_plain(self) -> None:
        text = plain_text(picture_rows(take_picture(Written()), "here", Ages(), 0))
        self.assertTrue(text.startswith("site here   "))
        self.assertEqual(text.partition("\n")[2], SHOWN)

    def test_names(self) -> None:
        """Next to numbers, cut to twelve columns; the columns of the table are as wide as they need. Without names nothing changes."""
        names = parse_names("radio,1001,Bus 12\nradio,1002,東京駅前広場行き\nradio,1003,Linienbus Nordring\ntalkgroup,91,Drivers\ncarrier,0,Mast North\ncarrier,1,1\n".encode(), "").names
        text = plain_text(picture_rows(take_picture(Written()), "here", Ages(), 0, names))
        self.assertEqual(text.partition("\n")[2], NAMED)

    def test_ages(self) -> None:
        ages, console = Ages(), Written()
        ages.look(take_picture(console), 10.0)
        console.replies["calls 0"] = ["call 0 1 group 92 from 1001"]
        picture = take_picture(console)
        ages.look(picture, 20.0)
        text = plain_text(picture_rows(picture, "here", ages, 85.0))
        self.assertRegex(text, r"group 92 from 1001 +1:05\n")
        self.assertRegex(text, r"radio 1002 from 1003 +>1:15")
        self.assertRegex(text, r"group 94 from 1004 +>1:15")

    def test_no_control_channel(self) -> None:
        """The console says `control` of a slot whose carrier is down: radios have no control channel then, whatever would be sent."""
        rows = list(picture_rows(take_picture(Written(slots=["slot 0 0 control", "slot 0 1 down", "slot 1 0 free", "slot 1 1 free"])), "here", Ages(), 0))
        text = plain_text(rows)
        self.assertIn("\n   0     control DOWN: the site is off the air   down\n", text)
        self.assertIn("   calls 2   no control channel\n", text)
        self.assertEqual([state for row in rows for part, state in row if "control" in part], ["down", "down"])

    def test_a_queue_that_empties_between_two_answers(self) -> None:
        picture = take_picture(Written(**{"lines 1": []}))
        self.assertEqual(picture.lines, [])

    def test_painted_rows_fit_the_terminal(self) -> None:
        self.assertIn("\x1b[H東京駅前a\x1b[K", paint_rows([[("東京駅前広場", ""), ("abc", "")]], 9, 4))
        painted = paint_rows(picture_rows(take_picture(Written()), "here", Ages(), 0), 20, 4)
        self.assertEqual(painted.count("\r\n"), 4)
        self.assertIn("carriers 1 of 2 up  \x1b[K", painted)


class Typed(unittest.TestCase):
    """The line below the picture."""

    def test_a_line_is_asked_at_enter(self) -> None:
        console = Written()
        prompt = Prompt(console)
        self.assertFalse(prompt.take_keys("slotx\x7fs\n\n"))
        self.assertEqual((console.lines, prompt.typed, prompt.answer), (["slots"], "", []))
        self.assertFalse(prompt.take_keys("status\n"))
        self.assertEqual(prompt.answer, REPLIES["status"])

    def test_it_is_left(self) -> None:
        self.assertTrue(Prompt(Written()).take_keys("sta\x04"))
