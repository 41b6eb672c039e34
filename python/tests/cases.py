"""The worked cases in cases/: what is replayed over which site, and what the replay prints. cases/README.md says how their texts are read."""
import itertools
import pathlib
import re
import tomllib
from collections.abc import Iterator
from dataclasses import dataclass, field

from temzaar import code, pdus
from temzaar.frames import DONE, POLL, FrameType, burst_frame, hello, rx, welcome
from temzaar.sitefile import Site
from temzaar.sitekeys import SITE_KEYS
from tests.support import SITES, TOP

FOLDER = TOP / "cases"
# The cases of links over ports that fail, and the module of test_trials that has their rows.
PORTS_FILE, PORTS_MODULE = FOLDER / "links" / "failing_ports.txt", TOP / "crates" / "test_trials" / "src" / "faults" / "rows.rt"
USUAL_SITE = "two_carriers"
# The names of the two files in a fault.
SITE_FILE, SCRIPT_FILE = "the.toml", "the.txt"
# The site of the stored run of dmr_trunk, and tests that cannot read a file: their `SITE` is the text of one.
TRUNK_SITE = TOP / "crates" / "dmr_trunk" / "data" / "site.toml"
SITES_IN_CRATES = [TOP / "crates" / it for it in ("test_program/src/refusals/calls.rt", "test_stories/src/site_file.rt", "test_trials/src/site.rt")]
# What test_program prints after the cases: each call that takes memory succeeds, and words with at most three flips are read.
PRINTED_AFTER = """\
Plan::read: done
Site::new: done
Registry::try_clone: done
Access::try_clone: done
Pool::try_clone: done
Calls::try_clone: done
Site::try_clone: done
Engine::new: done
Engine::run: done
MemoryPort::new: done
Book::new: done
SharedDesk::open: done
a full Registry: done
a full outbox of Pool: done
full lists of Calls: done
a full BoundedList: done
Access::fill: done
clean: 1000 of 1000 decoded
three flips: 1000 of 1000 decoded
random: 0 of 1000 decoded
all patterns of three flips: 1235780 of 1235780 are read as the registration
"""


class CaseFault(Exception):
    """A text of cases that cannot be read. The text says which case, and why."""


def without_note(line: str) -> str:
    """A line without its note, which begins with two spaces and a `#`."""
    return line.partition("  # ")[0]


def plain(text: str) -> str:
    """A text without the notes and breaks that are for readers.

    A line that begins with two spaces continues the line before it: the first such line is set off by one space, and the words of all are joined. A note
    after a line is left out. All else stays as it is.
    """
    lines: list[str] = []
    continued = False
    for line in text.split("\n"):
        if line.startswith("  ") and lines:
            words = without_note(line.removeprefix("  ")).replace(" ", "")
            lines[-1] += words if continued else f" {words}"
            continued = True
        else:
            lines.append(without_note(line))
            continued = False
    return "\n".join(lines)


def repeated(text: str) -> str:
    """A text in which the lines between `%repeat N` and `%end` are there N times."""
    return re.sub(r"^%repeat (\d+)\n(.*?)^%end\n", lambda it: it[2] * int(it[1]), text, flags=re.M | re.S)


def unescape(text: str) -> bytes:
    """The octets of a text in which `\\HH` is an octet in two hexadecimal digits."""
    first, *others = text.split("\\")
    return first.encode() + b"".join(bytes.fromhex(piece[:2]) + piece[2:].encode() for piece in others)


def octets_of(text: str) -> bytes:
    """The octets that the lines of a site file or of a script spell: a line spells its own and an LF, but for `% TEXT` and `%repeat N` .. `%end`."""
    octets, begun, times = bytearray(), 0, 0
    for line in text.split("\n")[:-1]:
        if line.startswith("% "):
            octets += unescape(line.removeprefix("% "))
        elif line.startswith("%repeat "):
            begun, times = len(octets), int(line.removeprefix("%repeat "))
        elif line == "%end":
            octets += octets[begun:] * (times - 1)
        else:
            octets += line.encode() + b"\n"
    return bytes(octets)


@dataclass
class Case:
    """A case: its file and name, the site file and the script as lines, and what the replay prints.

    `site` is called `site_name`. `site` or `script` is None if that file cannot be read. `fault` is what goes to standard error. With `is_cut` the script is
    replayed in every cutting. The carriers in `up` connect first, and then the radios in `registered` register; `add_beginning` adds that to the script and to what is
    printed.
    """
    file: str
    name: str
    site_name: str
    site: str | None
    script: str | None = None
    printed: str = ""
    fault: str = ""
    status: int = 0
    is_cut: bool = False
    up: list[int] = field(default_factory=list)
    registered: list[int] = field(default_factory=list)

    @property
    def full_name(self) -> str:
        """The file and the name."""
        return f"{self.file}: {self.name}"

    def answer(self) -> str:
        """The standard output of the replay; if it is refused, standard error and the status as lines after that."""
        return self.printed + (f"{self.fault}status {self.status}\n" if self.status else "")


def beginning_of(case: Case) -> tuple[list[str], dict[int, str]]:
    """The lines with which the script of a case begins, and the octets that answer them, by carrier."""
    plan = tomllib.loads(octets_of(case.site or "").decode())
    lpcns = {it["number"]: it["lpcn"] for it in plan["carrier"]}
    lines = [line for it in case.up for line in (f"open {it}", f"bytes {it} {hello(it, lpcns[it]).hex()}")]
    answers, control = dict.fromkeys(case.up, welcome(1)), plan["control"]
    for radio in case.registered:
        request = pdus.random_access(pdus.REGISTRATION, plan["regi"], radio, options=1 << plan.get("leave_bit", 0))
        answer = pdus.write("C_ACKD", reason=pdus.REG_ACCEPTED, target=radio, additional=plan["regi"])
        lines += [f"bytes {control} {rx(0, code.burst_of(request)).hex()}", f"bytes {control} {POLL.hex()}"]
        answers[control] += burst_frame(FrameType.TX, 0, code.burst_of(answer)) + DONE
    return lines, {number: octets.hex().upper() for number, octets in answers.items()}


def add_beginning(case: Case) -> None:
    """Adds what the carriers and radios of a case do first to its script, and its answers to what is printed."""
    lines, answers = beginning_of(case)
    case.script = "".join(f"{it}\n" for it in lines) + (case.script or "")
    for number, octets in answers.items():
        case.printed = re.sub(rf"^carrier {number} (-$)?", f"carrier {number} {octets}", case.printed, count=1, flags=re.M)


@dataclass
class Changes:
    """The changes that a case makes to a file of sites/."""
    name: str = USUAL_SITE
    lines: list[str] = field(default_factory=list)

    def site_name(self) -> str:
        """The name of the changed site."""
        return ", ".join([self.name, *self.lines])

    def text(self) -> str:
        """The changed site file."""
        site, others = Site(str(SITES / f"{self.name}.toml")), ""
        for line in self.lines:
            how, _, said = line.partition(" ")
            if how == "without":
                del site.plan[said]
            elif (values := tomllib.loads(said)).keys() <= SITE_KEYS.keys():
                site.plan.update(values)
            else:
                others += f"{said}\n"
        return others + site.text()


def numbers_of(words: list[str]) -> list[int]:
    """The numbers that words have: each a number, or the first and the last of a row with `..` between."""
    ends = [[int(it) for it in word.split("..")] for word in words]
    return [number for first, *last in ends for number in range(first, (last or [first])[0] + 1)]


def read_head(file: str, lines: list[str]) -> Case:
    """A case from its lines before the first section. CaseFault: a line is not one that a case has."""
    name, *others = lines
    changes, case = Changes(), Case(file, name, "", None)
    for line in others:
        if line.startswith("site "):
            changes.name = line.removeprefix("site ")
        elif line.startswith(("with ", "without ")):
            changes.lines.append(line)
        elif line.startswith("up "):
            case.up = [int(it) for it in line.split()[1:]]
        elif line.startswith("registered "):
            case.registered = numbers_of(line.split()[1:])
        elif line == "in every cutting":
            case.is_cut = True
        elif line == "no site file":
            case.site_name = "none"
        elif line and not line.startswith("#"):
            raise CaseFault(f"{case.full_name}: {line}")
    if not case.site_name:
        case.site_name, case.site = changes.site_name(), changes.text()
    return case


def read_section(case: Case, heading: str, text: str) -> None:
    """Adds a section to a case. CaseFault: there is no such section."""
    word, _, rest = heading.partition(" ")
    if word == "site":
        case.site_name, case.site = f"that of {case.full_name}", text
    elif word == "script":
        case.script = plain(text)
    elif word == "printed":
        case.printed = plain(repeated(text))
    elif word == "fault":
        case.fault = text
    elif word == "status":
        case.status = int(rest)
    else:
        raise CaseFault(f"{case.full_name}: -- {heading}")


def read_case(file: str, text: str) -> Case:
    """The case of a text, which begins with its name."""
    head, *sections = re.split(r"^-- ", text.rstrip("\n") + "\n", flags=re.M)
    case = read_head(file, head.rstrip("\n").split("\n"))
    for section in sections:
        heading, _, lines = section.partition("\n")
        read_section(case, heading, lines)
    if case.up:
        add_beginning(case)
    return case


def read_cases() -> Iterator[Case]:
    """The cases of all files, by file. CaseFault: a text cannot be read, or two cases of a file have the same name."""
    for path in sorted(FOLDER.glob("*.txt")):
        names = set()
        for text in re.split(r"^== ", path.read_text(encoding="utf-8"), flags=re.M)[1:]:
            case = read_case(path.stem, text)
            if case.name in names:
                raise CaseFault(f"{case.full_name}: twice")
            names.add(case.name)
            yield case


def word_of(case: Case) -> str:
    """The word of a case's section in the stored run."""
    if case.script is None:
        return "no-script"
    return "cuttings" if case.is_cut else "case"


def stored_run() -> tuple[str, str]:
    """The standard input of test_program, in which each site is followed by its cases, and what the program prints for it and after it."""
    taken: list[str] = []
    printed: list[str] = []
    cases = sorted(read_cases(), key=lambda case: case.site_name)
    for name, group in itertools.groupby(cases, key=lambda case: case.site_name):
        for number, case in enumerate(group):
            if number == 0:
                taken.append(f"%% no-site {name}\n" if case.site is None else f"%% site {name}\n{case.site}")
            taken.append(f"%% {word_of(case)} {case.full_name}\n{case.script or ''}")
            printed.append(f"== {case.full_name}\n{case.answer()}")
    return "".join(taken), "".join(printed) + PRINTED_AFTER


def ports_module() -> str:
    """The source of the module that has the rows of the cases of links over ports that fail."""
    _, begin, rest = PORTS_FILE.read_text(encoding="utf-8").partition("== ")
    lines = [line for line in (begin + rest).splitlines() if line]
    rows = "".join(f"{line}\n" for line in lines)
    return ("//! The rows of `cases/links/failing_ports.txt`. `ci/stored-cases` writes this file.\n\n"
            f'/// The rows, after a line with the peer and a name.\npub static ROWS: &str = "\\\n{rows}";\n')


def with_site(source: str) -> str:
    """A source of a test with the usual site as its `SITE`: without comments, and with another `silence`, which nothing there waits for."""
    site = re.sub(r"^(#.*)?\n", "", (SITES / f"{USUAL_SITE}.toml").read_text(encoding="utf-8"), flags=re.M)
    before, begin, rest = source.partition('const SITE: &str = "\\\n')
    return before + begin + re.sub(r"^silence = .*", "silence = 100", site, flags=re.M) + rest[rest.index('";\n'):]


def stored_files() -> dict[pathlib.Path, str]:
    """What is stored of the cases and of the usual site, by file."""
    taken, printed = stored_run()
    program = TOP / "crates" / "test_program"
    return {program / "stdin": taken, program / "stdout": printed, PORTS_MODULE: ports_module(),
            TRUNK_SITE: (SITES / f"{USUAL_SITE}.toml").read_text(encoding="utf-8"),
            **{path: with_site(path.read_text(encoding="utf-8")) for path in SITES_IN_CRATES}}
