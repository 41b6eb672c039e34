"""Runs `rt ci`, follows which of its checks run and have ended, counts what it cost, and records
the programs that it built."""
import os
import re
import subprocess
import time
from collections.abc import Sequence
from resource import RUSAGE_CHILDREN, getrusage
from typing import NamedTuple

import built
from crates import TOP, edits_of, read_crates
from gating.costs import Costs
from gating.meter import EDITS, KINDS, TESTS, Check, Meter
from progress import Progress, Step

# what the largest check takes, with room to spare
MEMORY_OF_A_CHECK = 5 << 30
# a check without a process for so long has ended: between two parts of one it is shorter
GAP_SECONDS = 3.0
REST = "runs of tests and programs"
CLOSING = re.compile(r"(\d+) passed, (\d+) failed(?: \(.*\))?\n?")
KEPT = re.compile(r"rt: (\w+) is kept: ")
TO_TRY = re.compile(r"rt: (\w+): trying its must-fail edits \((\d+)\)")
# the lines that come once no check is left
CHECKS_ENDED = re.compile(r"rt: (must-fail \w+/|\w+ ran\b|\w+: its tests (passed|FAILED))")


def processors() -> int:
    """How many processors there are to use: those that the process may run on, or fewer by the
    quota of its control group."""
    found = len(os.sched_getaffinity(0))
    try:
        with open("/sys/fs/cgroup/cpu.max", encoding="ascii") as it:
            quota, period = it.read().split()
        found = min(found, max(1, int(quota) // int(period)))
    except (OSError, ValueError):
        pass
    return found


def side_by_side() -> int:
    """How many checks run side by side: RT_JOBS, or one for each processor, but no more than
    there is free memory for."""
    asked = os.environ.get("RT_JOBS", "")
    if asked.isdigit() and int(asked):
        return int(asked)
    with open("/proc/meminfo", encoding="ascii") as it:
        free = next(1024 * int(line.split()[1]) for line in it if line.startswith("MemAvailable:"))
    return max(1, min(processors(), round(free / MEMORY_OF_A_CHECK)))


class Ran(NamedTuple):
    """What a run of the gate came to: its status, its counts and its closing line, the processor
    minutes of each check and of all, and its minutes."""
    status: int
    passed: int
    failed: int
    closing: str
    minutes: dict[Check, float]
    total: float
    wall: float


class Gate:
    """The prover's gate, as steps of a Progress. The Progress needs `steps` and `spent`, and is
    handed to `run`."""

    def __init__(self, costs: Costs | None = None) -> None:
        costs, lanes = costs or Costs.read(), side_by_side()
        self.edits = {name: len(edits_of(name, "must-fail")) for name in read_crates()}
        # (fewer than all, if an earlier run tried some and that was kept)
        self.to_try = dict(self.edits)
        self.checks: dict[str, Check] = {}
        self.steps: list[Step] = []
        for check in (Check(name, kind) for kind in KINDS for name in self.edits):
            seconds, parts = costs.seconds(check), self.edits[check.crate] if check.kind == EDITS else 1
            # (a crate has no tests of its own if these cost nothing)
            if parts and (seconds or check.kind != TESTS):
                self.checks[str(check)] = check
                self.steps.append(Step(str(check), seconds, lanes, parts))
        self.steps.append(Step(REST, costs.rest * costs.unit))
        self.meter: Meter | None = None
        self.progress: Progress | None = None
        self.last_seen: dict[Check, float] = {}
        self.checks_ended = False

    def spent(self, name: str) -> float | None:
        """The processor seconds of a step of the gate so far; None for another step."""
        check = self.checks.get(name)
        if check is None:
            return None
        return self.meter.spent.get(check, 0.0) if self.meter else 0.0

    def run(self, words: Sequence[str], progress: Progress) -> Ran:
        """Runs `rt ci` with these words, and prints its lines as they come, but for the closing
        line. If all crates passed, the programs are in build/."""
        sources = {it: built.sources_sum(it) for it in built.PROGRAMS if it in self.edits}
        began, before = time.monotonic(), getrusage(RUSAGE_CHILDREN)
        environment = {**os.environ, "RT_JOBS": str(side_by_side())}
        gate = subprocess.Popen(["rt", "ci", *words], cwd=TOP, env=environment, stdin=subprocess.DEVNULL,
                                stdout=subprocess.PIPE, stderr=subprocess.STDOUT, text=True, errors="replace")
        assert gate.stdout
        self.progress, self.meter = progress, Meter(gate.pid)
        self.meter.follow = self.follow
        closing = ""
        for line in gate.stdout:
            # the closing line is held back: more is printed before it
            if closing:
                progress.say(closing)
                closing = ""
            if CLOSING.fullmatch(line):
                closing = line.rstrip("\n")
            else:
                progress.say(line.rstrip("\n"))
                self.hear(line)
        status = gate.wait()
        self.meter.stop()
        self.end_steps()
        if not status and set(words) <= {"--anew"}:
            for name, before_gate in sources.items():
                built.record(name, before_gate)
        used = getrusage(RUSAGE_CHILDREN)
        total = (used.ru_utime + used.ru_stime - before.ru_utime - before.ru_stime) / 60
        wall = (time.monotonic() - began) / 60
        minutes = {it: seconds / 60 for it, seconds in self.meter.spent.items()}
        said = CLOSING.fullmatch(closing)
        counts = (int(said[1]), int(said[2])) if said else (0, 1)
        return Ran(status if status >= 0 else 128 - status, *counts, closing, minutes, total, wall)

    def hear(self, line: str) -> None:
        """Takes from a line of the gate what its processes do not show."""
        assert self.progress
        if kept := KEPT.match(line):
            for kind in KINDS:
                self.progress.drop(str(Check(kept[1], kind)))
        elif to_try := TO_TRY.match(line):
            self.to_try[to_try[1]] = int(to_try[2])
        elif CHECKS_ENDED.match(line) and not self.checks_ended:
            self.end_checks()
            self.progress.begin(REST)

    def follow(self, meter: Meter) -> None:
        """Begins the step of each check that has a process, and ends that of each that has none
        any more."""
        assert self.progress
        with self.progress.lock:
            if self.checks_ended:
                return
            now = time.monotonic()
            for check in meter.alive:
                self.last_seen[check] = now
                if str(check) in self.checks and str(check) not in self.progress.running:
                    self.progress.begin(str(check))
            for check in [self.checks[it] for it in self.progress.running if it in self.checks]:
                gone = now - self.last_seen[check] > GAP_SECONDS
                if gone and (check.kind != EDITS or self.all_tried(check, meter)):
                    self.progress.end(str(check))

    def all_tried(self, check: Check, meter: Meter) -> bool:
        """Whether all edits of a crate were tried, each in a folder. If there are several, the
        crate is checked in a folder before them, and in another after them."""
        others = 2 if self.edits[check.crate] > 1 else 0
        return len(meter.rooms[check]) >= self.to_try[check.crate] + others

    def end_checks(self) -> None:
        """Ends the steps of all checks. Those that have not begun were not needed."""
        assert self.progress
        with self.progress.lock:
            self.checks_ended = True
            for name in self.checks:
                self.end_step(name)

    def end_steps(self) -> None:
        """Ends all steps of the gate."""
        self.end_checks()
        self.end_step(REST)

    def end_step(self, name: str) -> None:
        """Ends a step that runs, and drops one that has not begun."""
        assert self.progress
        if name in self.progress.running:
            self.progress.end(name)
        self.progress.drop(name)
