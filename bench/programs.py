"""The programs that are compared: ours, which `rt` proved and built, and those in C, which are built here by each compiler that is found."""
import os
import pathlib
import resource
import shutil
import subprocess
import sys
from collections.abc import Sequence
from typing import NamedTuple

BENCH = pathlib.Path(__file__).resolve().parent
TOP = BENCH.parent
REFERENCE = TOP / "reference"
# The processor that rt builds for. Programs in C are built for it too, and one for the processor at hand.
RT_PROCESSOR, THIS_PROCESSOR = "x86-64-v2", "native"
# The compilers of the C; the best of their programs counts. `rt` compiles with a clang of its own.
COMPILERS = ("cc", "clang")
FLAGS = ("-std=c11", "-O3", "-Wall", "-Wextra")


class Missing(Exception):
    """A program that is not there, with what builds it."""


class Differs(Exception):
    """Programs that should give the same octets, counts or sums and do not."""


class Load(NamedTuple):
    """A load of a site: its name, and what a frame of it has."""
    name: str
    words: str

    def events(self, carriers: int) -> int:
        """The events of a frame."""
        return {"polls": carriers, "calls": 3, "busy": 3 * carriers + 1}.get(self.name, 2)


LOADS = (Load("polls", "idle polls"), Load("registrations", "registrations"), Load("joins", "joins and leaves"), Load("calls", "calls set up and ended"),
         Load("busy", "busy hour"))


def proved(name: str) -> str:
    """The path of a proved program: in the folder that TEMZAAR_PROGRAMS names, else in the folder in which rt leaves it, or in build/. Missing: there is none."""
    named = os.environ.get("TEMZAAR_PROGRAMS")
    for folder in [pathlib.Path(named)] if named else [TOP / "crates" / name / "out", TOP / "build"]:
        if (folder / name).is_file():
            return str((folder / name).resolve())
    raise Missing(f"there is no program {name}: run 'make build build-tests'")


def build(source: str, processor: str, folder: str, sources: pathlib.Path = BENCH) -> list[str]:
    """Builds a program in C with each compiler that is there. The paths. Missing: there is no compiler."""
    compilers = [it for it in COMPILERS if shutil.which(it)]
    if not compilers:
        raise Missing("there is no compiler of C: neither cc nor clang")
    paths = [f"{folder}/{pathlib.Path(source).stem}-{processor}-{it}" for it in compilers]
    for compiler, path in zip(compilers, paths):
        subprocess.run([compiler, *FLAGS, f"-march={processor}", "-o", path, str(sources / source)], check=True)
    return paths


def output_of(words: Sequence[str]) -> str:
    """The output of a program. CalledProcessError: it ended with a status other than 0."""
    return subprocess.run(words, check=True, stdout=subprocess.PIPE, text=True).stdout


def timed_output(words: Sequence[str]) -> tuple[str, float]:
    """The output of a program, and the seconds of processor time that it took."""
    before = resource.getrusage(resource.RUSAGE_CHILDREN)
    printed = output_of(words)
    after = resource.getrusage(resource.RUSAGE_CHILDREN)
    return printed, after.ru_utime + after.ru_stime - before.ru_utime - before.ru_stime


def compare(what: str, **answers: object) -> None:
    """Differs: the programs, by name, do not all answer the same."""
    first, *others = answers.items()
    for name, answer in others:
        if answer != first[1]:
            raise Differs(f"{what}: {first[0]} and {name} differ:\n  {str(first[1])[:200]}\n  {str(answer)[:200]}")


def report(fault: Exception) -> int:
    """Prints a fault. The status: 1 if programs differ or one failed, 2 if one is missing."""
    print(f"{pathlib.Path(sys.argv[0]).name}: {fault}", file=sys.stderr)
    return 2 if isinstance(fault, Missing) else 1
