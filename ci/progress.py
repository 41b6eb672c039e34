"""Shows how far long work is: what runs, what is done, how many steps are left, and about how long
they take.

A step has a name and the seconds that it took on the machine that measured it. The time left
follows from the speed of this machine so far: the time that the finished steps took here, by the
time expected of them. It also follows from how many steps ran side by side so far.

On a terminal one line is redrawn, and it is gone when the work ends. Elsewhere each step prints a
line with the clock's time when it ends, and one when it begins if more than a minute is expected of
it.
"""
import contextlib
import os
import shutil
import sys
import threading
import time
from collections.abc import Callable, Iterable, Iterator, Sequence
from types import TracebackType
from typing import NamedTuple, Self, TextIO

# a step that is expected to take longer has a line when it begins
LONG_SECONDS = 60.0
# steps of which fewer seconds are expected say nothing of this machine's speed
FEW_SECONDS = 5.0
# for so long, the steps are taken to run as planned, whatever was seen so far
FIRST_SECONDS = 60.0


class Step(NamedTuple):
    """A step of the work."""
    name: str
    # the seconds that it took when it was measured: processor seconds if steps run side by side
    seconds: float
    # the number of such steps that run side by side
    beside: int = 1
    # the number of processors that this step can use alone
    parts: int = 1
    # the speed of this machine is counted for each group of steps by itself
    group: str = ""


def duration(seconds: float) -> str:
    """A time for people, to about two digits: `40 s`, `12 min`, `1 h 50 min`."""
    if seconds < 95:
        return f"{max(1, round(seconds)) if seconds < 10 else 10 * round(seconds / 10)} s"
    minutes = round(seconds / 60)
    if minutes < 60:
        return f"{minutes} min"
    minutes = 10 * round(minutes / 10)
    return f"{minutes // 60} h" + (f" {minutes % 60} min" if minutes % 60 else "")


def width_of(out: TextIO) -> int:
    """The number of columns of a terminal."""
    try:
        return os.get_terminal_size(out.fileno()).columns or 80
    except (OSError, ValueError):
        return shutil.get_terminal_size().columns


def ratio(times: Sequence[tuple[float, float]]) -> float:
    """The seconds taken for each second expected; 1 if too few seconds were expected to say
    anything."""
    known = [(took, expected) for took, expected in times if expected > 0]
    expected = sum(it for _, it in known)
    return sum(it for it, _ in known) / expected if expected >= FEW_SECONDS else 1.0


class Progress:
    """How far a list of steps is. Several threads may use it.

    As a context it also redraws the line each second, so that the time left is seen to pass, and
    clears it at the end:

        with Progress([("build", 30), ("serve", 10)]) as progress:
            with progress.step("build"):
                build()
            progress.say("the site is served on port 7100")
            with progress.step("serve"):
                serve()

    `spent` returns the seconds that a step has taken so far, or None if the clock is to say it.
    """

    def __init__(self, steps: Sequence[tuple[str, float] | Step], out: TextIO | None = None,
                 clock: Callable[[], float] = time.monotonic,
                 spent: Callable[[str], float | None] = lambda name: None) -> None:
        self.steps = {it[0]: Step(*it) for it in steps}
        self.out, self.clock, self.measured = out or sys.stdout, clock, spent
        self.terminal = self.out.isatty() and os.environ.get("TERM") != "dumb"
        # when each running step began, and the seconds of each step until it last ended
        self.running: dict[str, float] = {}
        self.took: dict[str, float] = {}
        self.failed: set[str] = set()
        self.dropped: set[str] = set()
        self.began, self.shown = clock(), 0
        self.lock, self.closed = threading.RLock(), threading.Event()

    def __enter__(self) -> Self:
        if self.terminal:
            threading.Thread(target=self.redraw_each_second, daemon=True).start()
        return self

    def __exit__(self, kind: type[BaseException] | None, fault: BaseException | None,
                 trace: TracebackType | None) -> None:
        self.close()

    def redraw_each_second(self) -> None:
        """Redraws the line until the work is closed."""
        while not self.closed.wait(1):
            self.draw()

    @contextlib.contextmanager
    def step(self, name: str) -> Iterator[None]:
        """Runs a step. It counts as failed if it ends by an exception."""
        self.begin(name)
        try:
            yield
        except BaseException:
            self.end(name, failed=True)
            raise
        self.end(name)

    def begin(self, name: str) -> None:
        """Begins a step. Steps that have begun and not ended run side by side. A step that was
        dropped is needed again. A name that is not listed is added, with no time expected of it."""
        with self.lock:
            if not self.running and not self.took:
                self.began = self.clock()
            step = self.steps.setdefault(name, Step(name, 0))
            self.dropped.discard(name)
            self.running[name] = self.clock()
            seconds = step.seconds * self.slowness(step.group) - self.spent(name)
            if not self.terminal and seconds > LONG_SECONDS:
                self.print_line(f"{name} begins, about {duration(seconds)}; {self.left_text()}")
            self.draw()

    def end(self, name: str, failed: bool = False, said: str = "") -> None:
        """Ends a step that has begun. The time of one that failed says nothing of this machine's
        speed. `said` is a line on how it ended, which is printed on a terminal too."""
        with self.lock:
            self.took[name] = self.took.get(name, 0.0) + self.clock() - self.running.pop(name)
            if failed:
                self.failed.add(name)
            if not self.terminal:
                took = f"{name} {'failed after' if failed else 'took'} {duration(self.spent(name))}"
                self.print_line(f"{said or took}; {self.left_text()}")
            elif said:
                self.say(said)
            self.draw()

    def drop(self, name: str) -> None:
        """Takes a step from the list that is not needed, unless it has begun."""
        with self.lock:
            if name not in self.running and name not in self.took:
                self.dropped.add(name)
            self.draw()

    def say(self, text: str) -> None:
        """Prints a line, above the one that is redrawn."""
        with self.lock:
            self.clear()
            self.out.write(f"{text}\n")
            self.out.flush()
            self.draw()

    def close(self) -> None:
        """Ends the redrawn line. What is said afterwards is still printed."""
        with self.lock:
            self.closed.set()
            self.clear()

    def spent(self, name: str) -> float:
        """The seconds that a step has taken so far."""
        measured = self.measured(name)
        if measured is not None:
            return measured
        now = self.clock()
        return self.took.get(name, 0.0) + now - self.running.get(name, now)

    def slowness(self, group: str) -> float:
        """How many seconds a step of a group takes here for each second expected of it. A
        running step counts once it is later than that."""
        ended = self.times(self.took.keys() - self.running.keys() - self.failed, group)
        so_far = ratio(ended)
        return ratio(ended + [it for it in self.times(self.running, group) if it[0] > it[1] * so_far])

    def times(self, names: Iterable[str], group: str) -> list[tuple[float, float]]:
        """Those of these steps that are of a group: the seconds that each has taken so far, and
        the seconds expected of it."""
        steps = [self.steps[it] for it in names]
        return [(self.spent(it.name), it.seconds) for it in steps if it.group == group]

    def steps_left(self) -> list[Step]:
        """The steps that have not ended, those that run among them."""
        ended = (self.took.keys() | self.dropped) - self.running.keys()
        return [it for it in self.steps.values() if it.name not in ended]

    def seconds_left(self) -> float:
        """About how long the steps left take, side by side as so far, but no less than the
        longest of them."""
        slowness = {it: self.slowness(it) for it in {step.group for step in self.steps.values()}}
        left = {it: max(0.0, it.seconds * slowness[it.group] - self.spent(it.name)) for it in self.steps_left()}
        done = sum(self.spent(it.name) / it.beside for it in self.steps.values())
        # how much of the work that was planned to go on side by side did so
        share = (done + FIRST_SECONDS) / (self.clock() - self.began + FIRST_SECONDS)
        together = sum(seconds / it.beside for it, seconds in left.items()) / share
        return max([together, *(seconds / it.parts for it, seconds in left.items())])

    def left_text(self) -> str:
        """How many steps are left, and about how long they take."""
        left = self.steps_left()
        if not left:
            return "no step left"
        about = f", about {duration(self.seconds_left())}" if any(it.seconds for it in left) else ""
        return f"{len(left)} {'steps' if len(left) > 1 else 'step'} left{about}"

    def draw(self) -> None:
        """Redraws the line of a terminal. There is none if nothing runs."""
        with self.lock:
            if not self.terminal or self.closed.is_set():
                return
            if not self.running:
                self.clear()
                return
            done, count = len(self.took.keys() - self.running.keys()), len(self.steps) - len(self.dropped)
            text = f"{done} of {count} steps done, {self.left_text()}: {', '.join(self.running)}"
            text = text[:max(1, width_of(self.out) - 1)]
            self.out.write(f"\r{text:<{self.shown}}")
            self.shown = len(text)
            self.out.flush()

    def clear(self) -> None:
        """Removes the redrawn line."""
        if self.shown:
            self.out.write(f"\r{'':<{self.shown}}\r")
            self.shown = 0
            self.out.flush()

    def print_line(self, text: str) -> None:
        """Prints a line with the time of day, for output that is not a terminal."""
        self.out.write(f"{time.strftime('%H:%M:%S')} {text}\n")
        self.out.flush()
