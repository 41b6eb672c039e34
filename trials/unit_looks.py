"""What a machine of `trials/unit-recipes` has and says: the texts of its package, its units, their notes, and the metrics of its hubs."""
import re
from collections.abc import Sequence
from typing import NamedTuple

from unit_lab import Done, Failed, Machine, wait_until

DOC = "/usr/share/doc/dmr_trunk"
# Seconds in which a term ends and the hub has read it, also if carriers do not poll and the machine is busy; and for a unit to come up.
TERM, UP = 60.0, 30.0
# Prints what is at a URL. A hub that has just started may not listen yet.
GET = """import sys, time, urllib.error, urllib.request
for left in reversed(range(50)):
    try:
        print(urllib.request.urlopen(sys.argv[1], timeout=10).read().decode())
        break
    except urllib.error.HTTPError:
        raise
    except urllib.error.URLError:
        if not left:
            raise
        time.sleep(0.2)
"""


# ---- texts of the package


def changed(text: str, changes: dict[str, str]) -> str:
    """A text with changes. Failed: what is to be changed is not there."""
    for old, new in changes.items():
        if old not in text:
            raise Failed(f"the text has no `{old}`")
        text = text.replace(old, new)
    return text


def with_key(text: str, section: str, key: str, value: str) -> str:
    """A config file with another value for a key of a section. Failed: it has no such key."""
    found = re.subn(rf"(?ms)(^\[{section}\]\n(?:(?!\[).*?\n)*?{key} = )[^\n]*", lambda it: it[1] + value, text, count=1)
    if found[1] != 1:
        raise Failed(f"the config file has no `{key}` below [{section}]")
    return found[0]


class DropIn(NamedTuple):
    """A drop-in of the package: its text, and what its first lines say: the commands that load it, and that show that it works."""
    name: str
    text: str

    def commands(self, heading: str) -> list[str]:
        """The commands below a heading of the first lines, without the remarks after them. Failed: there is none."""
        part = self.text.partition(f"# {heading}\n")[2].partition("\n# How ")[0]
        found = [re.split(r" {3,}", it)[0] for it in re.findall(r"^# {3}(\S.*)$", part, re.M)]
        if not found:
            raise Failed(f"{self.name} has no command below `{heading}`")
        return found

    def comment(self) -> str:
        """The first lines as one line."""
        return " ".join(it[1:].strip() for it in self.text.splitlines() if it.startswith("#"))


def drop_in(machine: Machine, name: str) -> DropIn:
    """A drop-in of the package."""
    return DropIn(name, machine.read(f"{DOC}/examples/systemd/{name}"))


def load(machine: Machine, it: DropIn, changes: dict[str, str] | None = None) -> None:
    """Loads a drop-in with the commands of its first lines, perhaps with changes to them. Failed: one of them fails."""
    machine.path("/root/drop-in").mkdir(exist_ok=True)
    machine.write(f"/root/drop-in/{it.name}", it.text)
    commands = "\n".join(it.commands("How to load it"))
    fresh(machine)
    shell(machine, changed(commands, changes or {}), "/root/drop-in")


def shell(machine: Machine, commands: str, folder: str = "/") -> str:
    """Runs lines of a shell in the machine, as root. What they printed; Failed, with the last lines of our units in the journal: one of them fails."""
    done = machine.run("sh", "-ec", f"cd {folder}\n{commands}")
    if done.status:
        said = "; ".join(done.text.splitlines()[-2:])
        raise Failed(f"`{'; '.join(commands.splitlines())}` ended with status {done.status}: {said}; the journal: {last_lines(machine, 'dmr_*')}")
    return done.text


# ---- what the machine says


def fresh(machine: Machine) -> None:
    """Has systemd forget earlier starts, so that those of this trial are not too many."""
    machine.do("systemctl", "reset-failed")


def show(machine: Machine, unit: str, *names: str) -> dict[str, str]:
    """Properties of a unit."""
    text = machine.do("systemctl", "show", unit, *(f"--property={it}" for it in names))
    return dict(line.split("=", 1) for line in text.splitlines())


def place(machine: Machine) -> str:
    """The place at which the journal ends now."""
    return machine.do("journalctl", "-n", "0", "--show-cursor").rpartition("-- cursor: ")[2]


def notes(machine: Machine, unit: str, since: str = "") -> list[str]:
    """The lines of a unit in the journal: those of its last start, or with `since` those after a place, with those of systemd about it."""
    machine.do("journalctl", "--sync")
    which = ["--unit", unit, "--after-cursor", since] if since else [f"_SYSTEMD_INVOCATION_ID={show(machine, unit, 'InvocationID')['InvocationID']}"]
    return machine.run("journalctl", "-q", "-o", "cat", *which).text.splitlines()


def last_lines(machine: Machine, unit: str) -> str:
    """The last lines of a unit in the journal, with those of systemd about it."""
    return "; ".join(machine.run("journalctl", "-q", "-o", "cat", "-n", "4", "--unit", unit).text.splitlines())


def has_note(machine: Machine, unit: str, pattern: str, seconds: float) -> str:
    """The first note of a unit's last start that fits a pattern, waited for. Failed: there is none in time."""
    found: list[str] = []

    def look() -> bool:
        found.extend(it for it in notes(machine, unit) if re.search(pattern, it))
        return bool(found)

    if not wait_until(look, seconds):
        raise Failed(f"{unit} does not note `{pattern}`: {last_lines(machine, unit)}")
    return found[0]


def is_active(machine: Machine, unit: str) -> bool:
    """Whether a unit is active."""
    return machine.run("systemctl", "is-active", unit).text == "active"


def start(machine: Machine, verb: str, *units: str, words: Sequence[str] = ()) -> None:
    """Starts or restarts units. Failed: one is not active then, with the last lines of its journal."""
    fresh(machine)
    done = machine.run("systemctl", *words, verb, *units)
    for it in units:
        if done.status or not wait_until(lambda unit=it: is_active(machine, unit), UP):  # type: ignore[misc]
            raise Failed(f"`systemctl {verb} {' '.join(units)}`: {it} is not active: {last_lines(machine, it)}")


def numbers(machine: Machine, unit: str) -> dict[str, list[int]]:
    """The numbers of user, group and further groups that a unit's process has."""
    process = show(machine, unit, "MainPID")["MainPID"]
    text = machine.do("cat", f"/proc/{process}/status")
    return {name: [int(it) for it in re.findall(rf"^{name}:(.*)$", text, re.M)[0].split()] for name in ("Uid", "Gid", "Groups")}


def within(machine: Machine, unit: str, *words: str, user: int, group: int) -> Done:
    """Runs a command with the files that a unit's process sees, as a user and a group."""
    process = show(machine, unit, "MainPID")["MainPID"]
    return machine.run("nsenter", "--target", process, "--mount", "setpriv", "--reuid", str(user), "--regid", str(group), "--clear-groups", *words)


def samples(machine: Machine, port: int) -> dict[str, float]:
    """The metrics of a hub by name, those with labels added up."""
    counts: dict[str, float] = {}
    for line in machine.do("python3", "-c", GET, f"http://127.0.0.1:{port}/metrics").splitlines():
        if line and not line.startswith("#"):
            name, _, value = line.rpartition(" ")
            counts[name.partition("{")[0]] = counts.get(name.partition("{")[0], 0) + float(value)
    return counts


def reach(machine: Machine, port: int, wanted: dict[str, float]) -> dict[str, float]:
    """The metrics of a hub once they have at least these counts. Failed: they do not get there in time."""
    found: dict[str, float] = {}

    def look() -> bool:
        found.update(samples(machine, port))
        return all(found.get(name, -1) >= count for name, count in wanted.items())

    if not wait_until(look, TERM):
        raise Failed(f"the hub's metrics: {', '.join(f'{name} {found.get(name)}, wanted {count:g}' for name, count in wanted.items())}")
    return found


def said_of(seen: dict[str, float]) -> str:
    """The counts of the records among a hub's metrics."""
    return ", ".join(f"{name} {seen.get(name, 0):g}" for name in ("dmr_site_terms_total", "dmr_site_calls_total", "dmr_site_registrations_total", "dmr_hub_records_faults_total"))
