"""What is risky in a file of names: lines that are not used, and names for what a site does not have."""
from collections.abc import Iterator
from dataclasses import dataclass

from temzaar.names import Kind, NamesFile
from temzaar.sitefigures import Figures

# How many warnings are listed; of the others, their number.
MOST_RISKS = 1000


@dataclass(frozen=True)
class NameRisk:
    """A warning: its name, the line that it is about, and the reason."""
    name: str
    line: int
    reason: str


@dataclass(frozen=True)
class NamesCheck:
    """A check of a file of names: how many names it has, the first warnings in the order of their lines, and how many more there are."""
    path: str
    count: int
    risks: list[NameRisk]
    more: int


def check_names(found: NamesFile, figures: Figures | None) -> NamesCheck:
    """A check of a file of names, over the values of a site file if there is one without faults."""
    bad = [NameRisk("unused-line", it.number, it.reason) for it in found.bad]
    strange = [] if figures is None else list(strange_names(found, figures))
    risks = sorted([*bad, *strange], key=lambda it: it.line)
    return NamesCheck(found.path, len(found.names), risks[:MOST_RISKS], len(strange) + found.bad_count - min(len(risks), MOST_RISKS))


def strange_names(found: NamesFile, figures: Figures) -> Iterator[NameRisk]:
    """The names for what the site does not have."""
    ranges = [among for _, among in figures.ranges()]
    groups = {group for _, group in figures.groups()}
    carriers = {table.get("number") for _, table in figures.rows()}
    for kind, number, line in ((kind, *it) for kind, lines in found.lines.items() for it in lines.items()):
        if kind is Kind.RADIO and not any(number in it for it in ranges):
            yield NameRisk("unknown-radio", line, f"radio {number} is in no range of `radios`: it cannot register")
        elif kind is Kind.TALKGROUP and number not in groups:
            yield NameRisk("unknown-talkgroup", line, f"talkgroup {number} is not in `groups`: nobody can call it")
        elif kind is Kind.CARRIER and number not in carriers:
            yield NameRisk("unknown-carrier", line, f"no `[[carrier]]` has the number {number}")
