"""The parts that tests share: the repository's files, the controller's programs, and readers of the documents."""
import atexit
import contextlib
import functools
import importlib.machinery
import importlib.util
import io
import os
import pathlib
import re
import shutil
import signal
import subprocess
import sys
import tempfile
import time
import types
import unittest
from collections.abc import Callable

TOP = pathlib.Path(__file__).resolve().parents[2]
EXAMPLES, SITES = TOP / "examples", TOP / "sites"
TWO_CARRIERS = str(SITES / "two_carriers.toml")


class FolderCase(unittest.TestCase):
    """A test with a folder of its own."""

    def setUp(self) -> None:
        self.folder = pathlib.Path(self.enterContext(tempfile.TemporaryDirectory()))

    def write(self, path: str, text: str) -> pathlib.Path:
        """Writes a file of the folder. Its path."""
        file = self.folder / path
        file.parent.mkdir(parents=True, exist_ok=True)
        file.write_text(text, encoding="utf-8")
        return file


def wait_until(condition: Callable[[], object], seconds: float = 60.0) -> None:
    """Waits until a condition holds. AssertionError: it does not in time."""
    until = time.monotonic() + seconds
    while not condition():
        assert time.monotonic() < until, "it did not come in time"
        time.sleep(0.02)


def load_command(path: str) -> types.ModuleType:
    """A command of the repository, which is written in Python, as a module."""
    name = re.sub(r"\W", "_", path)
    loader = importlib.machinery.SourceFileLoader(name, str(TOP / path))
    spec = importlib.util.spec_from_loader(name, loader)
    assert spec
    sys.modules[name] = module = importlib.util.module_from_spec(spec)
    loader.exec_module(module)
    return module


def program(name: str) -> str:
    """The path of a proved program: in the folder that TEMZAAR_PROGRAMS names, else in build/. SkipTest, with the reason: it is not there, or the folder is
    called `none`."""
    if os.environ.get("TEMZAAR_PROGRAMS") == "none":
        raise unittest.SkipTest(f"they ask {name}: `make check-programs` runs them")
    path = pathlib.Path(os.environ.get("TEMZAAR_PROGRAMS") or TOP / "build") / name
    if not path.is_file():
        target = "build" if name in ("dmr_trunk", "dmr_decode") else "build-tests"
        raise unittest.SkipTest(f"there is no {path}: `make {target}` builds it, TEMZAAR_PROGRAMS names another folder")
    return str(path.resolve())


def run_tool(name: str, *words: str, **options: object) -> subprocess.CompletedProcess[str]:
    """Runs a command of tools/ to its end."""
    return subprocess.run(tool_words(name, *words), capture_output=True, text=True, check=False, timeout=120, **options)  # type: ignore[call-overload,no-any-return]


def call_tool(main: Callable[[list[str]], int], *words: str) -> subprocess.CompletedProcess[str]:
    """Runs the `main` of a command in this process, which is faster. What `run_tool` has of it."""
    out, fault = io.StringIO(), io.StringIO()
    handlers = {number: signal.getsignal(number) for number in (signal.SIGTERM, signal.SIGHUP)}
    with contextlib.redirect_stdout(out), contextlib.redirect_stderr(fault):
        try:
            status = main(list(words))
        except SystemExit as ended:
            status = int(ended.code or 0)
        finally:
            for number, handler in handlers.items():
                signal.signal(number, handler)
    return subprocess.CompletedProcess(words, status, out.getvalue(), fault.getvalue())


def take_signals() -> None:
    """In a process that was just forked: Ctrl-C and the end of the terminal have their effect, also if the tests were started without it."""
    for number in (signal.SIGINT, signal.SIGHUP):
        signal.signal(number, signal.SIG_DFL)


def tool_words(name: str, *words: str) -> list[str]:
    """The words that run a command of tools/."""
    return [sys.executable, str(TOP / "tools" / name), *words]


@functools.cache
def manual_pages() -> dict[str, pathlib.Path]:
    """The manual pages, by their names, as `make install` writes them; once for all tests of a process."""
    folder = tempfile.mkdtemp()
    atexit.register(shutil.rmtree, folder)
    subprocess.run([sys.executable, str(TOP / "ci" / "write-manual"), folder], check=True)
    return {it.name: it for it in sorted(pathlib.Path(folder).glob("man?/*"))}


def read_document(name: str) -> str:
    """The text of a document in docs/."""
    return (TOP / "docs" / name).read_text(encoding="utf-8")


def table_rows(text: str, heading: str) -> list[list[str]]:
    """The rows of the first table after a line that begins with `heading`."""
    lines = text[text.index(heading):].split("\n")
    begins = next(n for n, line in enumerate(lines) if line.startswith("|"))
    rows = []
    for line in lines[begins + 2:]:
        if not line.startswith("|"):
            break
        rows.append([re.sub(r"`", "", cell).strip() for cell in line.strip("|").split("|")])
    return rows


def queries_of(text: str) -> list[str]:
    """The queries of docs/RECORDS.md, in the order of their numbers, each with its comment: they are in one block, with an empty line between two."""
    block = re.search(r"^```sql\n(.*?)^```$", text, re.M | re.S)
    assert block
    queries = block[1].split("\n\n")
    assert [it.partition(". ")[0] for it in queries] == [f"-- {number}" for number in range(1, len(queries) + 1)]
    return queries


def metric_rows(text: str) -> list[tuple[str, str, set[str]]]:
    """The metrics of docs/HUB.md: the name, the type and the labels of each. A row may have several, each with its labels in brackets."""
    found = []
    for row in table_rows(text, "| metrics, with their labels"):
        for name, labels in re.findall(r"(\w+)(?: \(([\w, ]+)\))?(?:, |$)", row[0]):
            found.append((name, row[1], set(filter(None, labels.split(", ")))))
    return found
