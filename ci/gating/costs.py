"""What the gate's checks cost: the file `ci/costs`, and the table that `ci/gate` prints.

The costs are in units. A unit is the proof of REFERENCE, measured in the same run, so they do not
depend on how fast the machine is.
"""
import pathlib
import time
from collections.abc import Mapping, Sequence
from typing import NamedTuple, Self

from gating.meter import EDITS, KINDS, PROOF, TESTS, Check

FILE = pathlib.Path(__file__).resolve().parent.parent / "costs"
REFERENCE = Check("dmr_calls", PROOF)
HEAD = """\
# What the gate cost when all of it was last done and passed. `ci/gate --write-costs` writes this
# file, and `ci/gate` estimates the time left by it. The run was
#
#     {run}
#
# Each crate has the costs of its proof, of its tests with the proof that they need, and of all its
# must-fail edits, in units. A unit is the proof of {reference} in the same run: `unit` has its
# processor seconds. `rest` has the units of all that is not a check.
"""


class Costs(NamedTuple):
    """The costs of the gate: a unit in processor seconds, the units of each check, and those of
    all else."""
    unit: float
    checks: Mapping[Check, float]
    rest: float

    @classmethod
    def read(cls, path: pathlib.Path = FILE) -> Self:
        """Reads the file. Raises ValueError, with the line, if it has another form."""
        values, checks = {"unit": 0.0, "rest": 0.0}, {}
        for line in path.read_text(encoding="utf-8").splitlines():
            words = line.partition("#")[0].split()
            try:
                if len(words) == 2 and words[0] in values:
                    values[words[0]] = float(words[1])
                elif words:
                    name, *units = words
                    for kind, it in zip(KINDS, units, strict=True):
                        checks[Check(name, kind)] = float(it)
            except ValueError as fault:
                raise ValueError(f"{path.name}: this line has another form: {line}") from fault
        if not values["unit"]:
            raise ValueError(f"{path.name}: there is no line `unit`")
        return cls(values["unit"], checks, values["rest"])

    def seconds(self, check: Check) -> float:
        """The processor seconds that are expected of a check. A crate that the file does not
        have is taken to cost as much as the reference, and to have no tests."""
        known = Check(check.crate, PROOF) in self.checks
        return self.unit * (self.checks[check] if known else check.kind != TESTS)

    def edit_seconds(self, crate: str, tried: int) -> float:
        """About how many processor seconds an edit of a crate takes, by the `tried` edits that
        the gate tries. They cost the crate's proof and then a load of the crate for each. A load
        is taken to cost an eighth of the proof if the gate tries no edit of the crate."""
        proof, edits = self.seconds(Check(crate, PROOF)), self.seconds(Check(crate, EDITS))
        return (edits - proof) / tried if tried and edits > proof else proof / 8


def costs_text(minutes: Mapping[Check, float], total: float, run: str) -> str:
    """The text of the file, by the processor minutes of each check and of the whole."""
    unit = minutes[REFERENCE]
    rest = max(0.0, total - sum(minutes.values()))
    lines = [f"{'unit':<18}{unit * 60:8.0f}", f"{'rest':<18}{rest / unit:8.2f}", row_text("# crate", KINDS)]
    for name in crates_of(minutes):
        row = [minutes.get(Check(name, kind), 0.0) for kind in KINDS]
        lines.append(row_text(name, [f"{it / unit:.2f}" for it in row]))
    sums = [sum(spent for it, spent in minutes.items() if it.kind == kind) for kind in KINDS]
    lines.append(row_text("# all", [f"{it / unit:.2f}" for it in sums]))
    return HEAD.format(reference=REFERENCE.crate, run=run) + "\n".join(lines) + "\n"


def row_text(name: str, cells: Sequence[str]) -> str:
    """A row of a table."""
    return f"{name:<18}" + "".join(f"{it:>8}" for it in cells)


def crates_of(minutes: Mapping[Check, float]) -> list[str]:
    """The crates of which a check was seen."""
    return sorted({it.crate for it in minutes})


def table_of(minutes: Mapping[Check, float]) -> list[str]:
    """The lines of the table by crate, in processor minutes. The last column, if the reference
    proof was done in this run, has units."""
    unit = minutes.get(REFERENCE, 0.0)
    lines = [row_text("processor minutes", (*KINDS, "all", *(["units"] if unit else [])))]
    for name in [*crates_of(minutes), "sum"]:
        own = {it: spent for it, spent in minutes.items() if name in (it.crate, "sum")}
        row = [sum(spent for it, spent in own.items() if it.kind == kind) for kind in KINDS]
        units = [sum(row) / unit] if unit else []
        lines.append(row_text(name, [f"{it:.1f}" for it in (*row, sum(row), *units)]))
    return lines


def totals_of(minutes: Mapping[Check, float], total: float, wall: float, processors: int) -> list[str]:
    """The lines on the whole run."""
    lines = [f"gate: {total:.0f} processor minutes, {wall:.0f} minutes on {processors} processors"]
    if unit := minutes.get(REFERENCE, 0.0):
        here = f"{unit:.1f} processor minutes"
        lines.append(f"gate: {total / unit:.0f} units; a unit is the {REFERENCE}, here {here}")
    return lines


def run_text(total: float, wall: float, processors: int, closing: str) -> str:
    """A run in a line: its day, its cost, and its closing line."""
    day, cost = time.strftime("%Y-%m-%d"), f"{total:.0f} processor minutes"
    return f"{day}: {closing}; {cost}, {wall:.0f} minutes on {processors} processors"
