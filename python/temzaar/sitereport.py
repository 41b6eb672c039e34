"""What a check of a site file prints: for people, and for machines."""
import dataclasses
import enum
import json
from collections.abc import Iterator
from dataclasses import dataclass, field
from typing import Any

from temzaar.namerisks import NamesCheck
from temzaar.printable import text_table
from temzaar.sitefigures import Line
from temzaar.sitekeys import CARRIER_KEYS, SITE_KEYS
from temzaar.siterisks import MOST_RISKS, Risk
from temzaar.sitetext import SiteText

# The most characters of a line of the file that are shown, and what shows that there are more.
SHOWN, CUT = 100, " .."


class Status(enum.IntEnum):
    """The exit statuses."""
    RIGHT = 0
    FAULTS = 1
    NOT_CHECKED = 2
    WARNINGS = 3


class Style(enum.Enum):
    """How a word is shown on a terminal: the number of its SGR sequence."""
    FAULT = "1;31"
    WARNING = "1;33"
    RIGHT = "1;32"
    PLACE = "1"


REFUSAL = "dmr_trunk: site file: "


@dataclass(frozen=True)
class Verdict:
    """What the controller said of a site file: its own text, or none if it accepts it."""
    program: str
    fault: str | None

    @property
    def words(self) -> str:
        """What it said, in words."""
        return f"{self.program} refuses it: {REFUSAL}{self.fault}" if self.fault else f"{self.program} accepts it"


@dataclass
class Report:
    """A check: the file's name, its text, what the controller said, and what is risky. `is_strict`: warnings count."""
    name: str
    site: SiteText
    risks: list[Risk]
    is_strict: bool = False
    lines: list[Line] = field(default_factory=list)
    verdict: Verdict | None = None
    # why the controller gave no verdict, if it was asked
    silence: str = ""
    names: NamesCheck | None = None

    @property
    def fault(self) -> str | None:
        """The controller's text of the fault."""
        return self.verdict.fault if self.verdict else None

    def fault_detail(self) -> str:
        """What is known of the fault in addition to the controller's text: why it is not TOML, or what the key is."""
        name = (self.fault or "").rpartition(" ")[2]
        key = SITE_KEYS.get(name) or CARRIER_KEYS.get(name)
        if key is None:
            return self.site.fault
        return f"`{name}` is {key.what}" + (f": {key.range}" if key.most else "")

    def status(self) -> Status:
        """The exit status."""
        if self.silence:
            return Status.NOT_CHECKED
        if self.fault:
            return Status.FAULTS
        return status_of_warnings(self.is_strict, bool(self.risks) or self.names is not None and bool(self.names.risks))


def status_of_warnings(is_strict: bool, are_there: bool) -> Status:
    """The exit status if there is no fault."""
    return Status.WARNINGS if is_strict and are_there else Status.RIGHT


def printable(text: str) -> str:
    """A text without characters that do something to a terminal, each replaced by one that does not."""
    return "".join(it if it.isprintable() else " " if it == "\t" else "\N{REPLACEMENT CHARACTER}" for it in text)


def counted(count: int, noun: str, most: int | None = MOST_RISKS) -> str:
    """A count and its noun. If it is `most`, it was not counted on."""
    more = " or more" if count == most else ""
    return f"{count}{more} {noun}{'' if count == 1 else 's'}"


def styled(text: str, style: Style, has_colours: bool) -> str:
    """A text in its style."""
    return f"\033[{style.value}m{text}\033[0m" if has_colours else text


def name_lines(names: NamesCheck, has_colours: bool) -> Iterator[str]:
    """The lines of a check of names: a line for each warning, and how many there are."""
    path = printable(names.path)
    for risk in names.risks:
        place = styled(f"{path}:{risk.line}:", Style.PLACE, has_colours)
        yield f"{place} {styled('warning:', Style.WARNING, has_colours)} {risk.name}: {printable(risk.reason)}"
    if names.more:
        yield f"{path}: {names.more} more warnings are not listed"
    yield f"{path}: {counted(names.count, 'name', None)}, {counted(len(names.risks) + names.more, 'warning', None)}"


class TextReport:
    """The report for people."""

    def __init__(self, report: Report, has_colours: bool) -> None:
        self.report, self.has_colours = report, has_colours

    def styled(self, text: str, style: Style) -> str:
        """A text in its style."""
        return styled(text, style, self.has_colours)

    def lines(self) -> Iterator[str]:
        """All lines."""
        if self.report.fault:
            yield from self.fault_lines(self.report.fault)
        for risk in self.report.risks:
            yield from self.risk_lines(risk)
        if self.report.lines:
            rows = [(it.key, f"{it.value}{' (default)' if it.is_default else ''}", it.amounts, it.what)
                    for it in self.report.lines]
            head = "key", "value", "that is", "what it is"
            yield from text_table([head, *rows], [False] * len(head)).splitlines()
        if self.report.names:
            yield from name_lines(self.report.names, self.has_colours)
        yield self.summary()
        if self.report.verdict:
            yield printable(self.report.verdict.words)

    def head(self, line: int | None, what: str, style: Style, text: str) -> str:
        """The first line of a fault or a warning."""
        where = f"{printable(self.report.name)}:" + (f"{line}:" if line else "")
        return f"{self.styled(where, Style.PLACE)} {self.styled(f'{what}:', style)} {printable(text)}"

    def fault_lines(self, text: str) -> Iterator[str]:
        """The lines of the fault."""
        line, detail = self.report.site.line_of_fault(text), self.report.fault_detail()
        yield self.head(line, "fault", Style.FAULT, f"{text}: {detail}" if detail else text)
        yield from self.source_lines(line)

    def risk_lines(self, risk: Risk) -> Iterator[str]:
        """The lines of a warning."""
        within = f"{risk.row}: " if risk.row else ""
        yield self.head(risk.line, "warning", Style.WARNING, f"{risk.name}: {within}{risk.reason}")
        yield from self.source_lines(risk.line)
        yield f"    do: {printable(risk.remedy)}"

    def source_lines(self, line: int | None) -> Iterator[str]:
        """The line of the file, as far as it fits."""
        if line:
            text = self.report.site.line(line)
            yield f"    {printable(text[:SHOWN])}{CUT if len(text) > SHOWN else ''}".rstrip()

    def summary(self) -> str:
        """The verdict, and how many warnings there are."""
        words = {True: self.styled("refused", Style.FAULT), False: self.styled("right", Style.RIGHT)}
        said = words[self.report.fault is not None] if self.report.verdict else "not judged"
        return f"{printable(self.report.name)}: {said}, {counted(len(self.report.risks), 'warning')}"


def names_as_json(names: NamesCheck) -> dict[str, Any]:
    """A check of names for machines."""
    return {"file": names.path, "names": names.count, "warnings": [dataclasses.asdict(it) for it in names.risks], "more_warnings": names.more}


def report_as_json(report: Report) -> str:
    """The report for machines: one object, on one line."""
    fault = {"text": report.fault, "detail": report.fault_detail() or None, "line": report.site.line_of_fault(report.fault)} if report.fault else None
    warnings = [{"name": it.name, "key": it.key or None, "reason": it.reason, "do": it.remedy, "line": it.line, "table": it.row.table if it.row else None,
                 "carrier": it.row.number if it.row else None} for it in report.risks]
    whole: dict[str, Any] = {
        "file": report.name, "status": int(report.status()), "fault": fault, "warnings": warnings,
        "controller": report.verdict.program if report.verdict else None, "no_verdict": report.silence or None,
    }
    if report.names:
        whole["names"] = names_as_json(report.names)
    if report.lines:
        whole["values"] = [dataclasses.asdict(it) for it in report.lines]
    return json.dumps(whole) + "\n"


def report_as_text(report: Report, has_colours: bool) -> str:
    """The report for people."""
    return "".join(f"{line}\n" for line in TextReport(report, has_colours).lines())
