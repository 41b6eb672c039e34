"""Whether a program in build/ was proved and built from the present sources.

build/SOURCES has a line for each program that was. It has the program's name, the sum of the
sources that it was made from, and the sum of the program itself. The sources are crates.txt,
HANDLES, the kit, and all files of the crate and of the crates below it. What rt makes is left out,
and so are wrong bodies, from which no program is made.
"""
import hashlib
import os
import pathlib
import shutil
import subprocess
from collections.abc import Iterator

from crates import read_crates

TOP = pathlib.Path(__file__).resolve().parent.parent
BUILD = TOP / "build"
RECORD = BUILD / "SOURCES"
# The two programs that users run, and then those that only tests and trials need.
PROGRAMS = ("dmr_trunk", "dmr_decode", "test_program")
# The folders of a crate that no program is made from.
NO_SOURCES = ("out", "must-fail", "wrong-bodies")


def crates_of(program: str) -> list[str]:
    """The crates that a program is made from, the lowest first, its own last."""
    uses, found = read_crates(TOP), []

    def add(name: str) -> None:
        """Adds the crates below a crate, and then the crate."""
        for it in uses[name]:
            if it in uses:
                add(it)
        if name not in found:
            found.append(name)

    add(program)
    return found


def sources_of(program: str) -> Iterator[pathlib.Path]:
    """The files that a program is made from, in an order that does not change."""
    yield from (TOP / "crates.txt", TOP / "HANDLES")
    for crate in crates_of(program):
        for folder, folders, names in os.walk(TOP / "crates" / crate):
            folders[:] = sorted(it for it in folders if it not in NO_SOURCES)
            yield from (pathlib.Path(folder, it) for it in sorted(names))


def kit() -> str:
    """The kit, as `rt version` prints it; empty if there is none."""
    try:
        return subprocess.run(["rt", "version"], stdin=subprocess.DEVNULL, stdout=subprocess.PIPE,
                              text=True, check=False).stdout
    except OSError:
        return ""


def file_sum(path: pathlib.Path) -> str:
    """The SHA-256 of a file."""
    return hashlib.sha256(path.read_bytes()).hexdigest()


def sources_sum(program: str) -> str:
    """The sum of a program's sources: another one if a file of them, its name or the kit changes."""
    listed = [(str(it.relative_to(TOP)), file_sum(it)) for it in sources_of(program)]
    return hashlib.sha256(repr((kit(), listed)).encode()).hexdigest()


def read_record() -> dict[str, list[str]]:
    """The sums of each program that was recorded: of its sources, and of itself."""
    if not RECORD.is_file():
        return {}
    lines = [it.split() for it in RECORD.read_text(encoding="utf-8").splitlines()]
    return {words[0]: words[1:] for words in lines if len(words) == 3}


def record(program: str, sources: str) -> bool:
    """Copies a program that rt has just proved and built to build/, and records it. `sources` is
    the sum of its sources before that began. Whether it was done: not if there is no program, or if
    its sources have changed since."""
    made = TOP / "crates" / program / "out" / program
    if not made.is_file() or sources_sum(program) != sources:
        return False
    BUILD.mkdir(exist_ok=True)
    # a program that runs can be replaced, and not written to
    shutil.copy2(made, BUILD / f"{program}.new")
    os.replace(BUILD / f"{program}.new", BUILD / program)
    lines = {**read_record(), program: [sources, file_sum(BUILD / program)]}
    text = "".join(f"{name} {' '.join(sums)}\n" for name, sums in sorted(lines.items()))
    (BUILD / "SOURCES.new").write_text(text, encoding="utf-8")
    os.replace(BUILD / "SOURCES.new", RECORD)
    return True


def is_current(program: str) -> bool:
    """Whether build/ has the program as it was proved and built from the present sources."""
    made = BUILD / program
    return made.is_file() and read_record().get(program) == [sources_sum(program), file_sum(made)]
