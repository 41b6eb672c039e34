"""The base station's kit in C (station/), built for tests, and its headers asked through station/probe.c."""
import functools
import os
import shutil
import subprocess
import tempfile
import unittest
from collections.abc import Iterable, Sequence

from tests.support import TOP

STATION = TOP / "station"
HEADERS = ("dmr_link.h", "dmr_air.h", "dmr_mend.h")
STRICT = ("-std=c99", "-Wall", "-Wextra", "-Werror", "-pedantic")
SANITIZERS = ("-O1", "-g", "-fsanitize=address,undefined", "-fno-sanitize-recover=all")
FAST = ("-O2",)
# seconds that a build or a run may take
PATIENCE = 100


def compilers() -> list[str]:
    """The compilers of C that are there: cc, and clang if it is another. SkipTest: there is no cc."""
    if not shutil.which("cc"):
        raise unittest.SkipTest("they are built with cc, which is not there")
    return ["cc", *(["clang"] if shutil.which("clang") else [])]


@functools.cache
def folder_of_programs() -> tempfile.TemporaryDirectory[str]:
    """The folder of what is built. It is removed when the tests end."""
    return tempfile.TemporaryDirectory()


@functools.cache
def built(name: str, flags: Sequence[str] = SANITIZERS, compiler: str = "cc") -> str:
    """The path of a program of station/, built once. AssertionError: it does not compile, or with a
    warning."""
    path = f"{folder_of_programs().name}/{name}-{compiler}-{len(flags)}"
    words = [compiler, *STRICT, *flags, "-o", path, str(STATION / f"{name}.c"), "-lm"]
    done = subprocess.run(words, capture_output=True, text=True, check=False, timeout=PATIENCE)
    if done.returncode or done.stderr:
        raise AssertionError(f"{' '.join(words)}\n{done.stderr}")
    return path


def run_built(words: Sequence[str], text: str = "") -> str:
    """What a program prints. AssertionError: a sanitizer reports a fault, or the status is not 0."""
    environment = {**os.environ, "ASAN_OPTIONS": "detect_leaks=0"}
    done = subprocess.run(words, input=text, capture_output=True, text=True, check=False,
                          timeout=PATIENCE, env=environment)
    if done.returncode or done.stderr:
        raise AssertionError(f"{words} {done.returncode} {done.stdout[-500:]} {done.stderr[:2000]}")
    return done.stdout


def first_difference(found: Sequence[object], wanted: Sequence[object]) -> tuple[object, object] | None:
    """The first items of two lists that differ, or their lengths. `assertEqual` of long lists takes minutes to show how they differ."""
    pairs = ((a, b) for a, b in zip(found, wanted) if a != b)
    return next(pairs, None) or (None if len(found) == len(wanted) else (len(found), len(wanted)))


def ask(questions: Iterable[str], compiler: str = "cc") -> list[str]:
    """The answers of station/probe.c, without the spaces at their ends."""
    lines = list(questions)
    answers = run_built([built("probe", compiler=compiler)], "".join(f"{it}\n" for it in lines))
    found = [line.strip() for line in answers.split("\n")[:-1]]
    if len(found) != len(lines):
        raise AssertionError(f"{len(lines)} questions, {len(found)} answers")
    return found
