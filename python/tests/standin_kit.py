"""A stand-in for the Rattle kit's `rt`, and a small checkout with the commands of ci/ that use it."""
import os
import shutil
import subprocess
import sys

from tests.support import TOP, FolderCase

# what the help of each kind of build says of `rt ci`
TAKES_WORDS = """  rt ci                   the merge gate, at the top of the repository
                          The line 'rt: ok' says how much was done in this run. --anew proves and tries all
  rt ci NAME..            the same for these crates and those below them
"""
TAKES_NONE = """  rt ci                   the merge gate, at the top of the repository: sets aside what earlier runs left, and
                          proves every crate and its tests from nothing
"""
TRIES_EDITS = """  rt must-fail [NAME..]   tries the edits; it begins with what rt check kept, and --anew tries all
"""
HELP = """rt: proves, builds and tests the crates of a Rattle repository with the toolchain of this kit.

{ci}{edits}  rt version              prints the kit's one-line identity

Beside src/ a program may have the files stdin and stdout.
"""
# each word of `burns` is a crate: its proof is a process that takes 1.2 processor seconds
SCRIPT = """#!{python}
import os, subprocess, sys
words, burns, said = sys.argv[1:], {burns!r}, {said!r}
if words == ["help"]:
    print({help!r}, file=sys.stderr)
elif words == ["version"]:
    print({version!r})
elif words[:1] == ["ci"] and len(words) > 1 and not {takes_words!r}:
    print("usage: rt ci")
    sys.exit(2)
elif words[:1] == ["ci"]:
    print("rt: words " + " ".join(words), flush=True)
    print("rt: jobs " + os.environ["RT_JOBS"], flush=True)
    for name in burns:
        subprocess.run([sys.executable, "-c", "import time\\nwhile time.process_time() < 1.2: pass", "--crate-name", name])
    print(said, flush=True)
    sys.exit({status!r})
elif words[:1] == ["must-fail"]:
    print("rt: must-fail dmr_calls/wrong.edit: refused, as it must be: note: src/a.rt:42:5: it is not proved")
"""


class Kits(FolderCase):
    """A test with a checkout of its own, and a folder on PATH in which `rt` can be put."""

    def setUp(self) -> None:
        super().setUp()
        self.checkout, self.commands = self.folder / "checkout", self.folder / "commands"
        self.commands.mkdir()
        (self.checkout / "ci").mkdir(parents=True)
        for name in ("gate", "wrong-bodies", "check-toolchain", "toolchain.py", "crates.py", "built.py", "progress.py",
                     "costs"):
            shutil.copy2(TOP / "ci" / name, self.checkout / "ci")
        shutil.copytree(TOP / "ci/gating", self.checkout / "ci/gating", ignore=shutil.ignore_patterns("__pycache__"))
        for name, text in (
            ("toolchain", "logic c0ffee  # required\nkits kit-1 kit-2\n"),
            ("crates.txt", "dmr_bits:\ndmr_calls: dmr_bits\ndmr_trunk: dmr_calls\n"),
            ("HANDLES", "Handles allowed: none.\n"),
        ):
            self.write(f"checkout/{name}", text)

    def put_kit(self, takes_words: bool, version: str = "kit-2 logic c0ffee", said: str = "2 passed, 0 failed", status: int = 0,
                burns: tuple[str, ...] = (), edits: bool = True) -> None:
        """Puts an `rt` on PATH that behaves as one of the two kinds. Its gate proves the crates
        of `burns`, prints `said`, and ends with the status. `edits` says whether there is `rt
        must-fail`."""
        text = HELP.format(ci=TAKES_WORDS if takes_words else TAKES_NONE, edits=TRIES_EDITS if edits else "")
        script = SCRIPT.format(python=sys.executable, burns=burns, said=said, help=text, version=version,
                               takes_words=takes_words, status=status)
        self.write("commands/rt", script).chmod(0o755)

    def run_command(self, *words: str) -> subprocess.CompletedProcess[str]:
        """Runs a command of the checkout to its end. PATH has the stand-in alone."""
        # (a machine with a kit has its rt in another folder of PATH)
        environment = {**{name: it for name, it in os.environ.items() if name != "RT_JOBS"}, "PATH": str(self.commands)}
        return subprocess.run([sys.executable, *words], cwd=self.checkout, env=environment, capture_output=True, text=True,
                              check=False, timeout=60)
