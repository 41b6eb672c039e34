"""The record of a release: what was built from which sources, with what, what was proved, and what each step printed at its end."""
import hashlib
import os
import pathlib
import platform
import re
import subprocess
from collections.abc import Mapping, Sequence
from typing import NamedTuple

from releasing.promises import Promise
from releasing.reached import Run
from releasing.steps import Outcome, Step, log_name


class Source(NamedTuple):
    """The sources of a release."""
    version: str
    commit: str
    date: str
    # the SHA-256 of SOURCES.sha256, which has the SHA-256 of each file
    digest: str
    # the number of files
    count: int


class Made(NamedTuple):
    """What was made of the sources. `toolchain` has the lines of its identity, and `digests` the SHA-256 of each program and package. `outcomes` has what was done, by
    the names of the steps: of those that make a release, and of those that are longer, for which no release waits."""
    source: Source
    short: bool
    toolchain: Sequence[str]
    runs: Sequence[Run]
    digests: Mapping[str, str]
    steps: Sequence[Step]
    longer: Sequence[Step]
    outcomes: Mapping[str, Outcome]

    def done(self) -> list[Outcome]:
        """What the steps did that make a release, in their order."""
        return [self.outcomes[it.name] for it in self.steps if it.name in self.outcomes]

    def failed(self) -> list[Outcome]:
        """The steps that failed."""
        return [it for it in self.done() if it.status]

    def left_out(self) -> list[Outcome]:
        """The steps that were left out."""
        return [it for it in self.done() if it.status is None]

    def to_do(self) -> list[Step]:
        """The steps that no run has done yet."""
        return [it for it in self.steps if it.name not in self.outcomes]

    def is_release(self) -> bool:
        """Whether it is a release: no step failed, and none is left. A short run is none, but may have gone well too."""
        return not self.failed() and not self.to_do()


def digest_of(path: pathlib.Path) -> str:
    """The SHA-256 of a file."""
    with path.open("rb") as it:
        return hashlib.file_digest(it, "sha256").hexdigest()


def sums_of(folder: pathlib.Path, names: Sequence[str]) -> str:
    """A line for each file, as `sha256sum -c` reads them."""
    return "".join(f"{digest_of(folder / name)}  {name}\n" for name in names)


def git(clone: pathlib.Path, *words: str) -> str:
    """What a command of git prints in the clone."""
    return subprocess.run(["git", "-C", str(clone), *words], capture_output=True, text=True, check=True).stdout


def read_source(clone: pathlib.Path, to: pathlib.Path) -> Source:
    """Writes SOURCES.sha256, and returns what the sources are."""
    names = [it for it in git(clone, "ls-files", "-z").split("\0") if it and (clone / it).is_file()]
    (to / "SOURCES.sha256").write_text(sums_of(clone, names), encoding="utf-8")
    version = subprocess.run([str(clone / "ci/version")], capture_output=True, text=True, check=True).stdout.strip()
    commit, date = git(clone, "log", "-1", "--format=%H %cs").split()
    return Source(version, commit, date, digest_of(to / "SOURCES.sha256"), len(names))


def describe_machine() -> list[str]:
    """What the machine is: processor, memory, system, C library. It has no name of a host."""
    with open("/proc/cpuinfo", encoding="utf-8") as it:
        models = re.findall(r"^model name\s*: (.*)$", it.read(), re.M)
    with open("/proc/meminfo", encoding="ascii") as it:
        memory = int(it.readline().split()[1]) // (1 << 20)
    libc = " ".join(platform.libc_ver())
    system = platform.freedesktop_os_release().get("PRETTY_NAME", "Linux")
    return [f"{len(os.sched_getaffinity(0))} processors: {models[0] if models else platform.machine()}", f"{memory} GiB of memory", f"{system}, Linux {platform.release()}, {libc}"]


def minutes(seconds: float) -> str:
    """A time for people."""
    return f"{seconds:.0f} s" if seconds < 120 else f"{seconds / 60:.0f} min"


def table_of(steps: Sequence[Step], outcomes: Mapping[str, Outcome]) -> list[str]:
    """The table of these steps."""
    rows = ["| step | outcome | time | run | its last line | log |", "|---|---|---|---|---|---|"]
    for step in steps:
        if it := outcomes.get(step.name):
            log = "" if it.status is None else f"`logs/{log_name(step)}`"
            rows.append(f"| {step.name} | {it.word()} | {minutes(it.seconds)} | {it.run} | {it.last[:160].replace('|', '/')} | {log} |")
        else:
            rows.append(f"| {step.name} | to do | | | | |")
    return rows


def longer_of(made: Made) -> list[str]:
    """The table of the longer steps, if one of them was done."""
    if not any(it.name in made.outcomes for it in made.longer):
        return []
    return ["", "## What was run longer", "", "No release waits for these steps (`make release-long`).", "", *table_of(made.longer, made.outcomes)]


def runs_of(made: Made) -> list[str]:
    """The rows that say when, and on which machine, each run worked on the release."""
    return [f"| run {number}, {it.day} | {'; '.join(it.machine)} |" for number, it in enumerate(made.runs, 1)]


def theorems_of(promises: Sequence[Promise]) -> list[str]:
    """The theorems, each with its text."""
    lines = []
    for it in promises:
        lines += [f"### `{it.function}`", "", f"{it.says}.", "", "```rust", it.contract.strip("\n"), "```", ""]
    return lines


def why_not(made: Made) -> list[str]:
    """Why it is not a release, if it is none."""
    lines = []
    if made.short:
        lines += ["**This was a short run, and is not a release.** Steps that take hours took a minute, and the proof may have been kept from an earlier run.", ""]
    if made.failed():
        lines += [f"**This is not a release: {len(made.failed())} steps failed.**", ""]
    if made.to_do():
        lines += [f"**This is not a release yet: {len(made.to_do())} steps are to do.** `ci/release --go-on` does them.", ""]
    return lines


def record_of(made: Made, promises: Sequence[Promise]) -> str:
    """The text of RECORD.md."""
    source, passed = made.source, sum(it.passed() for it in made.done())
    lines = [
        f"# dmr_trunk {source.version}: the record of its making", "",
        *why_not(made),
        "| | |", "|---|---|",
        f"| commit | `{source.commit}`, {source.date} |",
        f"| sources | {source.count} files; the SHA-256 of `SOURCES.sha256`, which has that of each, is `{source.digest}` |",
        *(f"| toolchain | {it} |" for it in made.toolchain),
        *runs_of(made),
        *(f"| `{name}` | SHA-256 `{digest}` |" for name, digest in made.digests.items()),
        f"| steps | {passed} passed, {len(made.failed())} failed, {len(made.left_out())} left out, {len(made.to_do())} to do |",
        "",
        "`SHA256SUMS` has the digests of the programs, the package and these files. `docs/RELEASING.md` in the sources says how a third party checks a release.",
        "", "## The steps", "",
        *table_of(made.steps, made.outcomes), *longer_of(made),
        "", "## What was proved", "",
        "The gate proved each crate: each function meets its contract, for every input. These are the contracts of the functions that carry the promises. `TRUSTED.txt`"
        " has the definitions that they depend on, and `CLAUSES.txt` each promise of `docs/GUARANTEES.md` with its clauses and their comments. That page begins with the"
        " promises that are asked for first, says which of them are proved, and which rest on reading or on tests.", "",
        *theorems_of(promises),
    ]
    return "\n".join(lines).rstrip("\n") + "\n"
