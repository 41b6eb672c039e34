"""The names of radios, talkgroups and carriers: a CSV file that people write, and how a name is shown next to its number.

Names are for people. Numbers are what is typed, and what machines get. A name is text from outside: it has no character that does something to a terminal, and
none of the brackets that it is shown in.
"""
import csv
import re
from collections.abc import Iterable, Iterator, Mapping
from dataclasses import dataclass, field
from enum import StrEnum
from types import MappingProxyType

from temzaar.faults import ToolFault, file_state, read_octets
from temzaar.printable import cut_text, printable

# What a file of names may have at most: octets, lines, and characters of a name.
MOST_OCTETS, MOST_LINES, MOST_CHARACTERS = 1 << 24, 100_000, 40
# How wide a name is at most, of wide characters alone; and in a column of a table, which cuts a wider one.
MOST_COLUMNS, NAME_COLUMNS = 2 * MOST_CHARACTERS, 16
# How many bad lines are described; of the others, their number. How many a tool prints.
MOST_BAD, MOST_PRINTED = 1000, 5
BYTE_ORDER_MARK = b"\xef\xbb\xbf"
COLUMNS = ["kind", "number", "name"]
# What surrounds a name next to its number: no name has one of them, so no name looks like two.
BRACKETS = frozenset("[]")


class Kind(StrEnum):
    """What has a number and a name."""
    RADIO = "radio"
    TALKGROUP = "talkgroup"
    CARRIER = "carrier"


KINDS = {it.value: it for it in Kind}
# The least and the greatest number of each kind.
NUMBERS = {Kind.RADIO: (1, 16777215), Kind.TALKGROUP: (1, 16777215), Kind.CARRIER: (0, 15)}
# The words of the console, and of texts in its form, after which the number of a kind follows.
WORDS = {"radio": Kind.RADIO, "from": Kind.RADIO, "drop": Kind.RADIO, "group": Kind.TALKGROUP,
         "slot": Kind.CARRIER, "call": Kind.CARRIER, "end": Kind.CARRIER, "carrier": Kind.CARRIER}
IN_TEXT = re.compile(rf"\b({'|'.join(WORDS)}) (\d{{1,8}})\b", re.ASCII)

# What a name belongs to.
Bearer = tuple[Kind, int]
# What lists of calls have of names, after their other columns.
CALL_FIELDS = ("source_name", "target_name", "carrier_name")


class NamesFault(ToolFault):
    """A file of names of which nothing can be used. The text names it, and says why."""


@dataclass(frozen=True)
class BadLine:
    """A line that is not used, by its number from 1 on, and why."""
    number: int
    reason: str

    def in_words(self, path: str) -> str:
        """The line for people. It has nothing of the line's own text."""
        return f"{path}: line {self.number}: {self.reason}"


def named(number: int | str, name: str | None, columns: int = MOST_COLUMNS) -> str:
    """A number, or a text in its place, with its name next to it if it has one: `1001 [Bus 12]`. A name that is wider than `columns` is cut."""
    return f"{number} [{cut_text(name, columns)}]" if name else str(number)


@dataclass(frozen=True)
class Names:
    """The names that are known, by kind and number."""
    by_kind: Mapping[Kind, Mapping[int, str]] = field(default_factory=lambda: MappingProxyType({}))

    def __len__(self) -> int:
        return sum(map(len, self.by_kind.values()))

    def name_of(self, kind: Kind, number: int) -> str | None:
        """The name of a number; None if it has none."""
        return self.by_kind.get(kind, {}).get(number)

    def label(self, kind: Kind, number: int, columns: int = MOST_COLUMNS) -> str:
        """A number with its name next to it, if it has one."""
        return named(number, self.name_of(kind, number), columns)

    def in_text(self, text: str, columns: int = MOST_COLUMNS) -> str:
        """A text in the form of the console's replies, such as `group 91 from 1001`, with names next to its numbers."""
        if not self.by_kind:
            return text
        return IN_TEXT.sub(lambda found: f"{found[1]} {self.label(WORDS[found[1]], int(found[2]), columns)}", text)

    def call_cells(self, carrier: int, slot: int, is_group: bool, target: int,
                   source: int) -> list[str]:
        """The cells of a call in a table: its slot, its kind, its source and its target, with their
        names."""
        slot_cell = named(f"{carrier}/{slot}", self.name_of(Kind.CARRIER, carrier), NAME_COLUMNS)
        called = self.label(called_kind(is_group), target, NAME_COLUMNS)
        caller = self.label(Kind.RADIO, source, NAME_COLUMNS)
        return [slot_cell, kind_of_call(is_group), caller, called]

    def of_call(self, called: Kind, source: int | None, target: int, carrier: int) -> dict[str, str | None]:
        """The names of a call's parties and carrier, by CALL_FIELDS."""
        source_name = None if source is None else self.name_of(Kind.RADIO, source)
        return dict(zip(CALL_FIELDS, (source_name, self.name_of(called, target), self.name_of(Kind.CARRIER, carrier)), strict=True))

    def of_address(self, number: int | None) -> str | None:
        """The name of an address of which it is not known whether a radio or a talkgroup has it; None if both kinds have a name for it."""
        found = [self.name_of(kind, number) for kind in (Kind.RADIO, Kind.TALKGROUP)] if number is not None else []
        known = [it for it in found if it]
        return known[0] if len(known) == 1 else None


NO_NAMES = Names()


def called_kind(is_group: bool) -> Kind:
    """What the number of a call's target belongs to."""
    return Kind.TALKGROUP if is_group else Kind.RADIO


def kind_of_call(is_group: bool) -> str:
    """What lists call a call."""
    return "talkgroup" if is_group else "individual"


def bearers_in(texts: Iterable[str]) -> Iterator[Bearer]:
    """What the numbers in texts of the console belong to."""
    for text in texts:
        for word, number in IN_TEXT.findall(text):
            yield WORDS[word], int(number)


def frozen_names(by_kind: Mapping[Kind, Mapping[int, str]]) -> Names:
    """Names that nobody changes from now on."""
    return Names(MappingProxyType({kind: MappingProxyType(names) for kind, names in by_kind.items()}))


def names_of(rows: Iterable[tuple[Bearer, str]]) -> Names:
    """Names of rows."""
    by_kind: dict[Kind, dict[int, str]] = {kind: {} for kind in Kind}
    for (kind, number), name in rows:
        by_kind[kind][number] = name
    return frozen_names(by_kind)


@dataclass(frozen=True)
class NamesFile:
    """What a file of names has: the names, the line of each, the first of the bad lines, and how many bad lines there are."""
    path: str
    names: Names
    lines: Mapping[Kind, Mapping[int, int]]
    bad: tuple[BadLine, ...]
    bad_count: int

    def fault(self) -> str:
        """Why nothing of the file can be used: it has lines, and none of them is right, as that of something else. Empty if it can be used."""
        return f"{printable(self.bad[0].in_words(self.path))}; no line of the file is right" if self.bad and not self.names else ""

    def notes(self) -> Iterator[str]:
        """What a tool prints of the bad lines: the first few, and the number of the others."""
        yield from (it.in_words(self.path) for it in self.bad[:MOST_PRINTED])
        if self.bad_count > MOST_PRINTED:
            yield f"{self.path}: {self.bad_count - MOST_PRINTED} more lines are not used; `dmr_check --names {self.path}` lists them"


def read_name(text: str) -> str:
    """A name. ValueError: it is none; the text says why."""
    name = text.strip()
    if not name:
        raise ValueError("the name is empty")
    if not name.isprintable():
        is_octet = any("\udc80" <= it <= "\udcff" for it in name)
        raise ValueError("the name is not UTF-8" if is_octet else "the name has a character that is not printable")
    if not BRACKETS.isdisjoint(name):
        raise ValueError("the name has a bracket, [ or ]: names are shown between them")
    if len(name) > MOST_CHARACTERS:
        raise ValueError(f"the name has more than {MOST_CHARACTERS} characters")
    return name


def read_line(line: str) -> tuple[Kind, int, str]:
    """The kind, the number and the name of a line. ValueError: it is not right; the text says why."""
    if "\r" in line:
        raise ValueError("there is a CR within the line: lines end with LF, or CR LF")
    try:
        # each line by itself: a quotation mark that is not closed does not swallow the lines after it
        fields = next(csv.reader([line], strict=True))
    except csv.Error as fault:
        raise ValueError(f"not CSV: {fault}") from fault
    if len(fields) != len(COLUMNS):
        raise ValueError(f"not {','.join(COLUMNS)}, three fields with commas between them")
    kind, number = fields[0].strip(), fields[1].strip()
    if kind not in KINDS:
        raise ValueError(f"the kind is not {', '.join(KINDS)}")
    least, most = NUMBERS[KINDS[kind]]
    if not (number.isascii() and number.isdigit() and len(number) <= 8 and least <= int(number) <= most):
        raise ValueError(f"the number of a {kind} is from {least} to {most}")
    return KINDS[kind], int(number), read_name(fields[2])


def numbered_lines(octets: bytes) -> Iterator[tuple[int, str]]:
    """The lines that are to be read, each with its number; without empty ones, and without the line of the columns' names."""
    text = octets.removeprefix(BYTE_ORDER_MARK).decode("utf-8", "surrogateescape")
    for number, line in enumerate(text.split("\n"), 1):
        line = line.removesuffix("\r")
        if line and not (number == 1 and [it.strip(' "') for it in line.split(",")] == COLUMNS):
            yield number, line


def parse_names(octets: bytes, path: str) -> NamesFile:
    """The names of a file's octets, and its bad lines."""
    found: dict[Kind, dict[int, str]] = {kind: {} for kind in Kind}
    lines: dict[Kind, dict[int, int]] = {kind: {} for kind in Kind}
    bad: list[BadLine] = []
    bad_count = 0
    for number, line in numbered_lines(octets):
        try:
            if number > MOST_LINES:
                raise ValueError(f"more than {MOST_LINES} lines: this one and those after it are not used")
            kind, bearer, name = read_line(line)
            if bearer in found[kind]:
                raise ValueError(f"{kind} {bearer} has a name already, by line {lines[kind][bearer]}: the first one counts")
            found[kind][bearer], lines[kind][bearer] = name, number
        except ValueError as fault:
            bad_count += 1
            if len(bad) < MOST_BAD:
                bad.append(BadLine(number, str(fault)))
            if number > MOST_LINES:
                break
    return NamesFile(path, frozen_names(found), lines, tuple(bad), bad_count)


def scan_names(path: str) -> NamesFile:
    """The names of a file, and its bad lines. NamesFault: it cannot be read, or is too large."""
    try:
        return parse_names(read_octets(path, MOST_OCTETS), path)
    except ToolFault as fault:
        raise NamesFault(str(fault)) from fault


def read_names(path: str) -> NamesFile:
    """The same, to be used. NamesFault: also if there are lines, and none of them is right: it is a file of something else."""
    found = scan_names(path)
    if fault := found.fault():
        raise NamesFault(fault)
    return found


class FileNames:
    """The names of a file that is read again when it has changed. Of a file that cannot be used nothing is taken."""

    def __init__(self, path: str) -> None:
        """NamesFault: the file cannot be used."""
        self.path, self.state, self.file, self.fault = path, file_state(path), read_names(path), ""

    def find(self, _: Iterable[str]) -> Names:
        """The names that are next to the numbers of some texts: all of them."""
        state = file_state(self.path)
        if state != self.state:
            self.state, self.fault = state, ""
            try:
                self.file = read_names(self.path)
            except NamesFault as fault:
                self.fault = f"names: {fault}"
        return self.file.names
