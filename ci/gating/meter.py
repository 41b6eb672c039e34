"""What each check of the gate costs: the processor time of its processes, read while the gate
runs."""
import os
import threading
from collections.abc import Callable
from typing import NamedTuple

TICKS = os.sysconf("SC_CLK_TCK")
PROOF, TESTS, EDITS = KINDS = ("proof", "tests", "edits")


class Check(NamedTuple):
    """A check of the gate: its crate, and whether it is the proof, the proof with its tests, or
    all of its must-fail edits."""
    crate: str
    kind: str

    def __str__(self) -> str:
        return f"{self.kind} of {self.crate}"


class Process(NamedTuple):
    """A process: when it started, its parent, its processor seconds with those of the children
    that it waited for, its command line, its folder."""
    start: str
    parent: int
    seconds: float
    words: list[str]
    folder: str


def processes() -> dict[int, Process]:
    """The processes of this machine, by their numbers."""
    found = {}
    for entry in os.listdir("/proc"):
        if entry.isdigit():
            try:
                with open(f"/proc/{entry}/stat", encoding="utf-8", errors="replace") as it:
                    stat = it.read().rpartition(")")[2].split()
                with open(f"/proc/{entry}/cmdline", "rb") as it:
                    words = it.read().decode(errors="replace").split("\0")
                folder = os.readlink(f"/proc/{entry}/cwd")
            except OSError:
                continue
            seconds = sum(map(int, stat[11:15])) / TICKS
            found[int(entry)] = Process(stat[19], int(stat[1]), seconds, words, folder)
    return found


def check_of(process: Process) -> Check | None:
    """The check that a process belongs to, if it is one of rattle's."""
    words = process.words
    if "--crate-name" not in words:
        return None
    name = words[words.index("--crate-name") + 1]
    if os.path.basename(process.folder).startswith("rt-edit-"):
        return Check(name, EDITS)
    return Check(name, TESTS if "--test" in words else PROOF)


class Meter:
    """The processor seconds of each check that the gate has run, `spent`, and which checks run
    now. It reads them twice a second, so each is right to within some seconds. After each
    reading it calls `follow`."""

    def __init__(self, gate: int, follow: Callable[["Meter"], None] = lambda meter: None) -> None:
        self.gate, self.follow, self.ended = gate, follow, threading.Event()
        self.seen: dict[tuple[Check, int, str], float] = {}
        self.spent: dict[Check, float] = {}
        # the checks with a process now, and the folders in which edits were tried
        self.alive: set[Check] = set()
        self.rooms: dict[Check, set[str]] = {}
        self.thread = threading.Thread(target=self.watch, daemon=True)
        self.thread.start()

    def watch(self) -> None:
        """Reads until the meter is stopped."""
        while not self.ended.wait(0.5):
            self.read(processes())
            self.follow(self)

    def read(self, now: dict[int, Process]) -> None:
        """Counts the processes below the gate's."""
        totals: dict[tuple[Check, int], float] = {}
        for number, process in now.items():
            above = [number]
            while above[-1] in now and above[-1] != self.gate:
                above.append(now[above[-1]].parent)
            if above.pop() != self.gate:
                continue
            # the time of a check's processes counts with the outermost of them, which waits for the
            # others
            checks = [(check, it) for it in above if (check := check_of(now[it]))]
            if checks:
                totals[checks[-1]] = totals.get(checks[-1], 0) + process.seconds
        for (check, number), seconds in totals.items():
            key = check, number, now[number].start
            self.seen[key] = max(seconds, self.seen.get(key, 0))
            self.rooms.setdefault(check, set()).add(now[number].folder)
        spent: dict[Check, float] = {}
        for (check, _, _), seconds in self.seen.items():
            spent[check] = spent.get(check, 0) + seconds
        self.spent, self.alive = spent, {check for check, _ in totals}

    def stop(self) -> None:
        """Ends the readings."""
        self.ended.set()
        self.thread.join()
