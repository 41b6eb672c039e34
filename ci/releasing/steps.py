"""The steps of a release: the commands that check a clone, in their order, and what each of them printed."""
import os
import pathlib
import subprocess
import time
from collections.abc import Iterator, Sequence
from concurrent.futures import ThreadPoolExecutor
from typing import NamedTuple

from progress import Progress

SOAK_INPUTS, LONG_SOAK_INPUTS = 1_000_000, 10_000_000
SITE = "sites/sixteen_carriers.toml"
# for how many seconds a site is served in trouble, and in a long run
SERVED, LONG_SERVED = 600, 3600
# the number of steps that try the wrong bodies outside the gate, of some twenty minutes each
WRONG_BODY_PARTS = 8


class Step(NamedTuple):
    """A step: its name, its command in the clone, and the seconds that it took on four processors when it was last measured."""
    name: str
    words: Sequence[str]
    seconds: float
    needs_root: bool = False
    # whether it runs side by side with the step before it
    side_by_side: bool = False


class Outcome(NamedTuple):
    """What a step did. `status` is None if it was left out; then `last` says why. `run` is the number of the run that did it, from 1."""
    step: Step
    status: int | None
    seconds: float
    last: str
    run: int = 1

    def passed(self) -> bool:
        """Whether the step was done, and ended with status 0."""
        return self.status == 0

    def word(self) -> str:
        """The outcome in a word."""
        if self.status is None:
            return "left out"
        return "passed" if self.status == 0 else f"FAILED, status {self.status}"


def carriers(*words: str) -> list[str]:
    """The command that plays carriers against the proved program."""
    return ["tools/carriers", "--site", SITE, "--program", "build/dmr_trunk", *words]


def soak(inputs: int) -> Step:
    """The step that plays random inputs."""
    return Step(f"a soak of {inputs:,} inputs", ["reference/soak", "--inputs", str(inputs), "--counts"], 3 + inputs / 500_000)


def served_in_trouble(seconds: int, side_by_side: bool = False) -> Step:
    """The step that serves a site in trouble."""
    return Step(f"served in trouble for {seconds} s", carriers("--faults", "--seconds", str(seconds)), seconds + 2, side_by_side=side_by_side)


def all_steps(short: bool) -> list[Step]:
    """The steps that make a release, in order. A short run has the same steps; the long ones take a minute, and what the gate did before is not done again."""
    return [
        Step("checks without a proof", ["ci/check", "fast"], 110),
        Step("the prover's gate, from nothing", ["ci/gate", *([] if short else ["--anew"])], 2750),
        Step("the programs that the gate built", ["make", "build", "build-tests"], 5),
        Step("the same compiled in two folders", ["ci/same-elsewhere"], 200),
        Step("checks over the programs", ["ci/check", "programs"], 255),
        soak(SOAK_INPUTS // 10 if short else SOAK_INPUTS),
        Step("wrong rules found", ["reference/wrong-rules", *(["late"] if short else [])], 120),
        served_in_trouble(60 if short else SERVED),
        Step("each allocation refused", ["trials/refuse-memory"], 102),
        Step("served to peers that behave badly", ["trials/serve-hostile", "build/dmr_trunk"], 161),
        Step("killed while it serves, and a file of records in trouble", ["trials/restart", "build/dmr_trunk"], 300),
        Step("a hub under attack", ["trials/hub-hostile", "build/dmr_trunk"], 90),
        Step("times beside C", ["make", "bench"], 300),
        Step("instructions beside C", ["make", "bench-instructions"], 120),
        Step("the package", ["make", "package"], 20),
        Step("the package in a clean root", ["make", "package-check"], 90, needs_root=True),
        Step("its units and drop-ins, with systemd in a container", ["make", "unit-recipes"], 300, needs_root=True),
    ]


def wrong_bodies(part: int, short: bool) -> Step:
    """The step that tries a part of the wrong bodies outside the gate. A short run tries one in a hundred of each part."""
    asked = f"{part * 100}/{WRONG_BODY_PARTS * 100}" if short else f"{part}/{WRONG_BODY_PARTS}"
    return Step(f"wrong bodies outside the gate, part {part} of {WRONG_BODY_PARTS}", ["ci/wrong-bodies", "--outside", "--part", asked], 1200)


def long_steps(short: bool) -> list[Step]:
    """The steps for which no release waits, in order: they take hours."""
    seconds = 90 if short else LONG_SERVED
    return [
        Step(f"served for {seconds} s", carriers("--seconds", str(seconds)), seconds + 2),
        served_in_trouble(seconds, side_by_side=True),
        soak(LONG_SOAK_INPUTS // 50 if short else LONG_SOAK_INPUTS),
        *(wrong_bodies(part, short) for part in range(1, WRONG_BODY_PARTS + 1)),
    ]


def log_name(step: Step) -> str:
    """The name of the file with what a step printed."""
    return "".join(it if it.isalnum() else "-" for it in step.name.lower()).strip("-") + ".txt"


def run_step(step: Step, clone: pathlib.Path, log: pathlib.Path, run: int = 1) -> Outcome:
    """Runs a step in the clone. What it prints goes to the log."""
    began = time.monotonic()
    if step.needs_root and os.geteuid():
        return Outcome(step, None, 0, "it needs root", run)
    with log.open("w", encoding="utf-8") as out:
        try:
            status = subprocess.run(step.words, cwd=clone, stdin=subprocess.DEVNULL, stdout=out, stderr=subprocess.STDOUT, check=False).returncode
        except OSError as fault:
            out.write(f"{step.words[0]}: {fault.strerror}\n")
            status = 127
    lines = log.read_text(encoding="utf-8", errors="replace").strip().splitlines()
    return Outcome(step, status, time.monotonic() - began, lines[-1] if lines else "", run)


def groups_of(steps: Sequence[Step]) -> list[list[Step]]:
    """The steps in order, in groups of those that run side by side."""
    groups: list[list[Step]] = []
    for it in steps:
        if it.side_by_side and groups:
            groups[-1].append(it)
        else:
            groups.append([it])
    return groups


def run_all(steps: Sequence[Step], clone: pathlib.Path, logs: pathlib.Path, progress: Progress, run: int, most_seconds: float) -> Iterator[Outcome]:
    """Runs the steps, those of a group side by side and one group after another, and yields the outcome of each. A step that fails does not end the run.

    No step begins if it would end after `most_seconds` by the time that it took last; those that are left yield nothing. `progress` shows which step runs, how
    many are left, and how long they took last.
    """
    began = time.monotonic()

    def work(step: Step) -> Outcome:
        """Runs one step, and prints its line."""
        progress.begin(step.name)
        outcome = run_step(step, clone, logs / log_name(step), run)
        progress.end(step.name, not outcome.passed(), f"{outcome.word()}  {step.name} ({outcome.seconds:.0f} s): {outcome.last[:120]}")
        return outcome

    for group in groups_of(steps):
        if time.monotonic() - began + max(it.seconds for it in group) >= most_seconds:
            continue
        with ThreadPoolExecutor(len(group)) as pool:
            yield from pool.map(work, group)
