"""`ci/progress.py`: the time left, the line that a terminal shows, and the lines of other output."""
import importlib
import io
import sys
import time
import unittest
import unittest.mock

from tests.support import TOP

sys.path.insert(0, str(TOP / "ci"))
progress = importlib.import_module("progress")


class Clock:
    """A clock that a test sets."""

    def __init__(self) -> None:
        self.now = 1000.0

    def __call__(self) -> float:
        return self.now


class Terminal(io.StringIO):
    """A terminal of 60 columns, by the environment, and what its line shows."""

    def isatty(self) -> bool:
        return True

    def screen(self) -> list[str]:
        """The lines as they look after all that was written, each without the spaces at its end."""
        lines = [""]
        for line in self.getvalue().split("\n"):
            for part in line.split("\r"):
                lines[-1] = part + lines[-1][len(part):]
            lines.append("")
        return [it.rstrip() for it in lines[:-1]]


class Shown(unittest.TestCase):
    """What is shown, by a clock that only the test moves."""

    def setUp(self) -> None:
        self.clock, self.out, self.screen = Clock(), io.StringIO(), Terminal()
        self.enterContext(unittest.mock.patch.dict("os.environ", {"COLUMNS": "60", "TERM": "vt100"}))
        self.enterContext(unittest.mock.patch.object(time, "strftime", lambda _: "12:00:00"))

    def lines(self) -> list[str]:
        """The lines of the output that is not a terminal."""
        return self.out.getvalue().splitlines()

    def test_plain_lines(self) -> None:
        """A line at the end of each step, and at the beginning of a long one. A machine that is
        twice as slow takes twice as long for the rest."""
        shown = progress.Progress([("build", 30), ("prove", 300), ("serve", 10)], self.out, self.clock)
        with shown.step("build"):
            self.clock.now += 60
        with shown.step("prove"):
            self.clock.now += 600
        with shown.step("serve"):
            pass
        self.assertEqual(self.lines(), [
            "12:00:00 build took 60 s; 2 steps left, about 10 min",
            "12:00:00 prove begins, about 10 min; 2 steps left, about 10 min",
            "12:00:00 prove took 10 min; 1 step left, about 20 s",
            "12:00:00 serve took 1 s; no step left"])

    def test_step_that_fails(self) -> None:
        """The exception goes on, the step is counted as ended, and its time does not change the
        time left."""
        shown = progress.Progress([("first", 30), ("second", 30)], self.out, self.clock)
        with self.assertRaises(ValueError), shown.step("first"):
            self.clock.now += 1
            raise ValueError
        self.assertEqual(self.lines(), ["12:00:00 first failed after 1 s; 1 step left, about 30 s"])

    def test_side_by_side(self) -> None:
        """Four steps of 100 seconds, two at a time: each two take 100 seconds, and what is left
        is shared among two."""
        shown = progress.Progress([progress.Step(it, 100, 2) for it in "abcd"], self.out, self.clock)
        for name in "ab":
            shown.begin(name)
        self.assertEqual(shown.seconds_left(), 200)
        self.clock.now += 50
        self.assertEqual(shown.seconds_left(), 150)
        self.clock.now += 50
        for name in "ab":
            shown.end(name)
        self.assertEqual(shown.seconds_left(), 100)
        shown.begin("c")
        self.clock.now += 50
        self.assertEqual([it.name for it in shown.steps_left()], ["c", "d"])
        # one alone runs now, and neither of two can be over before the longer one
        self.assertEqual(shown.seconds_left(), 100)

    def test_fewer_side_by_side_than_planned(self) -> None:
        """Of ten steps that were to run two at a time one runs at a time, so what is left comes
        to take twice as long."""
        shown = progress.Progress([progress.Step(str(it), 1000, 2) for it in range(10)], self.out, self.clock)
        self.assertEqual(shown.seconds_left(), 5000)
        for name in "01234":
            with shown.step(name):
                self.clock.now += 1000
        self.assertTrue(4900 < shown.seconds_left() <= 5000)

    def test_measured_time(self) -> None:
        """Times that are measured count in place of the clock's: a step of 100 processor seconds
        that two processors do is half done after 25 seconds."""
        spent = {"a": 0.0}
        shown = progress.Progress([progress.Step("a", 100, 2, 2), ("b", 30)], self.out, self.clock, spent.get)
        shown.begin("a")
        self.assertEqual(shown.seconds_left(), 80)
        self.clock.now, spent["a"] = self.clock.now + 25, 50.0
        self.assertEqual(shown.seconds_left(), 55)
        spent["a"] = 200.0
        shown.end("a")
        self.assertEqual(self.lines()[-1], "12:00:00 a took 3 min; 1 step left, about 60 s")

    def test_late_step(self) -> None:
        """A step that takes longer than expected makes the others longer, before it ends."""
        shown = progress.Progress([("first", 10), ("second", 10)], self.out, self.clock)
        shown.begin("first")
        self.assertEqual(shown.seconds_left(), 20)
        self.clock.now += 40
        self.assertEqual(shown.seconds_left(), 40)

    def test_groups(self) -> None:
        """A step says nothing of the speed of those of another group."""
        steps = [("first", 10), ("second", 10), progress.Step("other", 10, group="others")]
        shown = progress.Progress(steps, self.out, self.clock)
        with shown.step("first"):
            self.clock.now += 20
        self.assertEqual(shown.seconds_left(), 30)

    def test_short_step(self) -> None:
        """A step of less than some seconds says nothing of the speed of this machine."""
        shown = progress.Progress([("first", 0.1), ("second", 100)], self.out, self.clock)
        with shown.step("first"):
            self.clock.now += 1
        self.assertEqual(shown.seconds_left(), 100)

    def test_dropped_step_that_runs(self) -> None:
        """A step that was dropped and begins after all is one of those that a terminal counts."""
        shown = progress.Progress([("first", 10)], self.screen, self.clock)
        shown.drop("first")
        shown.begin("first")
        self.assertEqual(self.screen.screen(), ["0 of 1 steps done, 1 step left, about 10 s: first"])

    def test_dropped_and_added(self) -> None:
        """A step that is not needed is not left any more, unless it begins. One that nobody
        listed counts, with no time. No time is shown if none is expected."""
        shown = progress.Progress([("first", 10), ("second", 10)], self.out, self.clock)
        shown.drop("first")
        shown.drop("second")
        self.assertEqual(shown.left_text(), "no step left")
        shown.begin("first")
        shown.drop("first")
        shown.begin("other")
        self.assertEqual(shown.left_text(), "2 steps left, about 10 s")
        shown.end("first")
        self.assertEqual(shown.left_text(), "1 step left")

    def test_step_that_runs_again(self) -> None:
        """A step that ended and begins again is left until it ends again, and its times are added."""
        shown = progress.Progress([("first", 10)], self.out, self.clock)
        for _ in range(2):
            shown.begin("first")
            self.assertEqual(shown.left_text(), "1 step left, about 10 s" if not shown.took else "1 step left, about 1 s")
            self.clock.now += 20
            shown.end("first")
        self.assertEqual((shown.left_text(), shown.took), ("no step left", {"first": 40}))

    def test_terminal(self) -> None:
        """One line is redrawn and cut to the width. Other lines come above it, and it is gone at
        the end."""
        shown = progress.Progress([("build", 600), ("a step with a name that is long", 60)], self.screen, self.clock)
        shown.begin("build")
        self.assertEqual(self.screen.screen(), ["0 of 2 steps done, 2 steps left, about 11 min: build"])
        shown.say("a line")
        self.assertEqual(self.screen.screen(), ["a line", "0 of 2 steps done, 2 steps left, about 11 min: build"])
        self.clock.now += 600
        shown.end("build")
        self.assertEqual(self.screen.screen(), ["a line", ""])
        shown.begin("a step with a name that is long")
        self.assertEqual(self.screen.screen(), ["a line", "1 of 2 steps done, 1 step left, about 60 s: a step with a n"])
        shown.close()
        shown.say("the end")
        self.assertEqual(self.screen.screen(), ["a line", "the end", ""])

    def test_each_second(self) -> None:
        """On a terminal the line follows the clock while a step runs, until the work ends."""
        with progress.Progress([("build", 600)], self.screen, self.clock) as shown, shown.step("build"):
            self.clock.now += 300
            for _ in range(100):
                if "about 5 min" in self.screen.getvalue():
                    break
                time.sleep(0.1)
            self.assertEqual(self.screen.screen(), ["0 of 1 steps done, 1 step left, about 5 min: build"])
        self.assertEqual(self.screen.screen(), [""])


class Durations(unittest.TestCase):
    """Times for people."""

    def test_texts(self) -> None:
        for seconds, text in ((0, "1 s"), (7.4, "7 s"), (12, "10 s"), (94, "90 s"), (100, "2 min"),
                              (59 * 60, "59 min"), (60 * 60, "1 h"), (107 * 60, "1 h 50 min")):
            with self.subTest(seconds):
                self.assertEqual(progress.duration(seconds), text)
