"""The Rattle kit of this machine, and the builds that the file `toolchain` names: the only file
that names them."""
import pathlib
import re
import subprocess
from typing import NamedTuple, Self

TOP = pathlib.Path(__file__).resolve().parent.parent
FILE = TOP / "toolchain"
NO_KIT = 'there is no command rt: the Rattle kit is missing (README.md, "Set up")'


class Fault(Exception):
    """Says why no work with the kit can begin."""


class Named(NamedTuple):
    """What the file `toolchain` names: the logic that is required, and the builds with which the
    gate passed."""
    logic: str
    kits: list[str]

    @classmethod
    def read(cls, path: pathlib.Path = FILE) -> Self:
        """Reads the file. Raises Fault if a line is missing, there twice, or unknown."""
        lines = [it.partition("#")[0].split() for it in path.read_text(encoding="utf-8").splitlines()]
        match sorted(it for it in lines if it):
            case [["kits", kit, *kits], ["logic", logic]]:
                return cls(logic, [kit, *kits])
        raise Fault(f"{path.name}: it has to have a line `logic ID` and a line `kits NAME ..`, and no other")


class Kit(NamedTuple):
    """A build of the kit, as `rt version` prints it: its name, and the id of its logic."""
    name: str
    logic: str

    def __str__(self) -> str:
        return f"{self.name} logic {self.logic}"


def ask_rt(*words: str) -> str:
    """What a command of rt that proves nothing prints. Raises Fault if there is no rt."""
    try:
        ran = subprocess.run(["rt", *words], stdin=subprocess.DEVNULL, capture_output=True, text=True,
                             errors="replace", check=False)
    except FileNotFoundError as fault:
        raise Fault(NO_KIT) from fault
    except OSError as fault:
        raise Fault(f"rt: {fault.strerror}") from fault
    return ran.stdout + ran.stderr


def read_kit() -> Kit:
    """The kit of this machine. Raises Fault if there is none."""
    said = ask_rt("version").strip()
    found = re.fullmatch(r"(\S+) logic (\S+)", said)
    if not found:
        raise Fault(f"`rt version` prints no name and logic of a kit: {said[:80]}")
    return Kit(found[1], found[2])


def describe(kit: Kit, named: Named) -> str:
    """What to say of a kit, on one line. Raises Fault if its logic is not the one that is
    required."""
    if kit.logic != named.logic:
        raise Fault(f"{kit}: the logic {named.logic} is required (file toolchain)")
    if kit.name not in named.kits:
        passed = " and ".join(named.kits)
        return f"{kit}: the logic that is required; a note: the gate passed with {passed}, not yet with this build"
    return f"{kit}: the gate passed with this build"


def help_of(verb: str, text: str) -> str:
    """The parts of rt's help that are on a verb: from its line to that of another verb."""
    parts = re.split(r"^(?= *rt [a-z])", text, flags=re.M)
    return "".join(it for it in parts if it.split()[:2] == ["rt", verb])


def takes_words(text: str) -> bool:
    """Whether `rt ci` takes `--anew` and names of crates, by rt's help. A build that takes no
    words keeps nothing: each run begins from nothing."""
    return "--anew" in help_of("ci", text)


def tries_edits(text: str) -> bool:
    """Whether there is `rt must-fail`, by rt's help."""
    return bool(help_of("must-fail", text))
