"""Reads the files of `valgrind --tool=callgrind`: how many instructions each function took by itself, and how often it was called.

It reads the one cost of callgrind's usual output, instructions ("events: Ir"), in files with line numbers. Costs of different files and objects add up by the
function's name.
"""
import re
from dataclasses import dataclass, field

# A cost line: a position, absolute, relative or `*` for the same again, and a cost. A function's name: its number, and at its first use the name.
_COST = re.compile(r"(?:\+\d+|-\d+|\*|\d+) (\d+)")
_NAME = re.compile(r"(c?fn)=\((\d+)\)(?: (.*))?")


class BadProfile(ValueError):
    """A text that is not such a file."""


@dataclass
class Profile:
    """The instructions of a run: all of them, those of each function without its callees, and of each function its calls and what they took with callees."""
    total: int = 0
    own: dict[str, int] = field(default_factory=dict)
    calls: dict[str, int] = field(default_factory=dict)
    inclusive: dict[str, int] = field(default_factory=dict)

    def less(self, other: "Profile") -> "Profile":
        """The instructions and calls of this run less those of another."""
        def subtract(some: dict[str, int], others: dict[str, int]) -> dict[str, int]:
            return {name: some.get(name, 0) - others.get(name, 0) for name in {**some, **others}}
        return Profile(self.total - other.total, subtract(self.own, other.own), subtract(self.calls, other.calls), subtract(self.inclusive, other.inclusive))


def _add(counts: dict[str, int], name: str, count: int) -> None:
    counts[name] = counts.get(name, 0) + count


def read_profile(text: str) -> Profile:
    """Reads a file of callgrind. BadProfile: it counts something other than instructions, or its sums do not agree."""
    if not re.search(r"^events: Ir$", text, re.M):
        raise BadProfile("not a callgrind file that counts instructions alone")
    profile, names = Profile(), {}  # type: Profile, dict[str, str]
    function = callee = ""
    is_call = False
    for line in text.splitlines():
        if named := _NAME.fullmatch(line):
            name = names.setdefault(named[2], named[3]) if named[3] else names[named[2]]
            if named[1] == "fn":
                function = name
            else:
                callee = name
        elif line.startswith("calls="):
            _add(profile.calls, callee, int(line[6:].split()[0]))
            is_call = True
        elif cost := _COST.fullmatch(line):
            _add(profile.inclusive if is_call else profile.own, callee if is_call else function, int(cost[1]))
            is_call = False
    profile.total = sum(profile.own.values())
    summed = re.search(r"^(?:totals|summary): (\d+)$", text, re.M)
    if not summed or int(summed[1]) != profile.total:
        raise BadProfile(f"the functions have {profile.total} instructions together, the file says {summed[1] if summed else 'nothing'}")
    return profile
