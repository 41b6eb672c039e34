"""The promises of docs/GUARANTEES.md, the clauses that they name, and the definitions that documents show."""
import collections
import functools
import itertools
import pathlib
import re
from collections.abc import Iterator
from typing import NamedTuple

from documents.blocks import TOP
from documents.names import table_of

PROMISES = TOP / "docs/GUARANTEES.md"
# An item that states a promise: its name, and its words up to the next item, heading or paragraph.
PROMISE = re.compile(r"^- \*\*(.+?)\.\*\* (.*?)(?=^\S|^$|\Z)", re.M | re.S)
# A table of promises, with a column of crates or without, and its rows.
TABLE = re.compile(r"^\| (crate \| )?promise \| by \|.*\n\|[-|]+\n((?:\|.*\n)+)", re.M)
# The headers of the table of those that it begins with, and of how many of these have each status.
FIRST, STATUSES = "no\\. \\| promise \\| by", "status \\| promises"
# How many promises it begins with, and what one of these says that has no clause.
FIRST_PROMISES, NO_CLAUSE = 15, "no clause"
# A fenced block that is a definition: its name, its file and its text.
DEFINITION = re.compile(r"^<!-- check: definition ([\w-]+) of (crates/\S+) -->\n```\w*\n(.*?)^```$", re.M | re.S)
# What begins at a line of code or of definitions, with its name; and what ends a function's contract, and a clause.
OWNER = re.compile(r"(?:pub )?(?:impl|trait)\b")
FUNCTION = re.compile(r" *(?:pub(?:\(\w+\))? )?fn (\w+)")
TYPE = re.compile(r"(?:pub(?:\(\w+\))? )?(?:struct|enum|trait|const) (\w+)")
DEFINED = re.compile(r"(?!use |mod |module )(?:(?:abbrev|unfoldable|opaque) )*(?:pub )?(?:(?:record|data) )?([^\W\d][\w'-]*)")
CONTRACT_ENDS, CLAUSE_ENDS = re.compile(r" *(?:\{\}?$|\}|///|$)"), re.compile(r" *(?:\{\}?$|\}|//|$|ensures |requires )")


@functools.cache
def lines_at(path: pathlib.Path) -> list[str]:
    """The lines of a file; none if there is no such file."""
    return path.read_text(encoding="utf-8").splitlines() if path.is_file() else []


def indent(line: str) -> int:
    """How far in a line begins."""
    return len(line) - len(line.lstrip())


class Item(NamedTuple):
    """A function, a type, a trait or a definition: its file, its line counted from 0, and the type or the trait that a function is in."""
    path: pathlib.Path
    line: int
    owner: str = ""

    def is_meant(self, before: list[str]) -> bool:
        """Whether a name with these words before it is this item's. A method's type is one of them; the crate and the file may be others."""
        return set(before) <= {self.owner, self.path.relative_to(TOP).parts[1], self.path.stem} and (not self.owner or self.owner in before)

    def lines_of(self, part: str) -> list[int]:
        """The lines of a clause of the function, or of a field of the definition. Of no part, the line of the item."""
        if not part:
            return [self.line]
        lines, code = lines_at(self.path), self.path.suffix == ".rt"
        inner = indent(lines[self.line])
        ends = (n for n in range(self.line + 1, len(lines)) if (FUNCTION.match(lines[n]) if code else lines[n] and indent(lines[n]) <= inner))
        own = range(self.line + 1, next(ends, len(lines)))
        patterns = (rf" *ensures {part} \{{", rf" *requires {part} \{{") if code else (rf" +(?:pub )?{part} :",)
        return next(filter(None, ([n for n in own if re.match(it, lines[n])] for it in patterns)), [])

    def comment(self) -> list[str]:
        """The doc comment above this item of code, without attributes, or the comment above this definition."""
        above = itertools.takewhile(lambda it: re.match(r" *(?:///|#\[|--)", it), reversed(lines_at(self.path)[:self.line]))
        return [it for it in reversed([*above]) if not it.lstrip().startswith("#[")]

    def comment_of_part(self, line: int) -> list[str]:
        """The comment right above a clause of the function, or the one above a field of the definition and those that follow it."""
        lines, number = lines_at(self.path), line
        while self.path.suffix == ".antt" and number > self.line + 1 and not lines[number - 1].lstrip().startswith("--"):
            number -= 1
        return [*reversed([*itertools.takewhile(lambda it: re.match(r" *(?:--|//)", it), reversed(lines[self.line + 1:number]))])]

    def text_from(self, line: int) -> str:
        """What begins at a line: this item, a function without its body, or a part of it."""
        first, *rest = lines_at(self.path)[line:]
        whole, inner = line == self.line, indent(first)
        if self.path.suffix == ".antt":
            own = itertools.takewhile(lambda it: it and (indent(it) > inner or whole and not it.lstrip().startswith("--")), rest)
        elif whole and not FUNCTION.match(first):
            own = iter(rest[:0 if first.endswith(";") else next((n for n, it in enumerate(rest, 1) if it == "}"), 0)])
        else:
            own = itertools.takewhile(lambda it: not (CONTRACT_ENDS if whole else CLAUSE_ENDS).match(it), rest)
        return "\n".join([first, *own])


def owner_of(line: str) -> str:
    """The type of an `impl`, or the name of a trait, without what is generic."""
    while (plain := re.sub(r"<[^<>]*>", "", line)) != line:
        line = plain
    return re.findall(r"[^\W\d]\w*", line.rpartition(" for ")[2] if " for " in line else OWNER.sub("", line))[0]


def items_at(path: pathlib.Path) -> Iterator[tuple[str, Item]]:
    """The items of a file, each with its name."""
    owner, inner, seen = "", "", set()
    for number, line in enumerate(lines_at(path)):
        if path.suffix == ".antt":
            # the definitions of a module are further in
            if line and not line.startswith((" ", "--")):
                inner = "  " if line.startswith("module ") else ""
            found = DEFINED.match(line.removeprefix(inner)) if line.startswith(inner) else None
            if found and found[1] not in seen:
                seen.add(found[1])
                yield found[1], Item(path, number)
            continue
        if found := TYPE.match(line):
            yield found[1], Item(path, number)
        if OWNER.match(line):
            owner = owner_of(line)
        if found := FUNCTION.match(line):
            yield found[1], Item(path, number, owner if line.startswith(" ") else "")


@functools.cache
def all_items() -> dict[str, list[Item]]:
    """The items of all crates, by their names."""
    items: dict[str, list[Item]] = {}
    for path in sorted([*(TOP / "crates").glob("*/src/**/*.rt"), *(TOP / "crates").glob("*/specs/**/*.antt")]):
        for name, item in items_at(path):
            items.setdefault(name, []).append(item)
    return items


class Named(NamedTuple):
    """A name in a promise, as `function.clause`, and the places that have it: the item, and the line in its file."""
    name: str
    places: list[tuple[Item, int]]


def find(name: str) -> Named:
    """The places that a name is of: `Type::function.clause`, `Definition.field`, or one of them without a part. `crate::` and `file::` may be before it."""
    owner, _, part = name.partition(".")
    *before, last = owner.split("::")
    items = [it for it in all_items().get(last, []) if it.is_meant(before)]
    return Named(name, [(it, line) for it in items for line in it.lines_of(part)])


class Promise(NamedTuple):
    """A promise: its name, its words, and the names that carry it."""
    name: str
    words: str
    carried: list[Named]


def names_in(text: str, crate: str = "") -> Iterator[Named]:
    """The names in a text, of a crate if one is given. A span of code has one or more. One that begins with a point is a part of the item before it, and
    one with two colons a method of the same type."""
    owner = ""
    for it in " ".join(re.findall(r"`([^`]+)`", text)).split():
        full = owner + it if it.startswith(".") else owner.rpartition("::")[0] + it if it.startswith("::") else crate + it
        owner = full.partition(".")[0]
        yield find(full)


def read_promises(text: str) -> Iterator[Promise]:
    """The promises of a text: items, with the names after "By", and then rows of tables. If a table has crates, the names of a row are those of its crates;
    a row without a crate is of those of the row above it."""
    for name, words in PROMISE.findall(text):
        words = re.sub(r"\s+", " ", words).strip()
        yield Promise(name, words, [*names_in(words.partition("*By*")[2].partition("*Not said*")[0])])
    for has_crates, rows in TABLE.findall(text):
        crates: list[str] = []
        for row in rows.splitlines():
            *owners, name, by, alone, unsaid = (it.strip() for it in row.strip("|").split("|"))
            crates = re.findall(r"`(\w+)`", "".join(owners)) or crates
            words = [f"({', '.join(f'`{it}`' for it in crates)})" if crates else "", f"{alone}." if alone else "", f"*By* {by}.", f"*Not said*: {unsaid}." if unsaid else ""]
            prefixes = [it + "::" for it in crates] if has_crates else [""]
            yield Promise(name, " ".join(filter(None, words)), [it for prefix in prefixes for it in names_in(by, prefix)])


def named_faults(promise: str, carried: list[Named]) -> Iterator[str]:
    """The names that are not those of one clause, one definition or the like."""
    for name, places in (it for it in carried if len(it.places) != 1):
        where = ", ".join(f"{item.path.relative_to(TOP)}:{line + 1}" for item, line in places)
        yield f"{promise}: {name} is ambiguous: {where}; write its type, crate or file before it" if places else f"{promise}: there is no {name}"


def promise_faults(text: str) -> Iterator[str]:
    """What is wrong with the names in promises; promises without any, and two of one name."""
    said = set()
    for promise in read_promises(text):
        if promise.name in said:
            yield f"two promises are called {promise.name}"
        if not promise.carried:
            yield f"{promise.name}: it names no clause"
        yield from named_faults(promise.name, promise.carried)
        said.add(promise.name)


def first_faults(text: str) -> Iterator[str]:
    """What is wrong with the promises that the page begins with: their number, the names that they have, and the counts of their statuses."""
    rows, said = table_of(text, FIRST), {status: count for status, count, *_ in table_of(text, STATUSES)}
    if [it[0] for it in rows] != [str(number + 1) for number in range(FIRST_PROMISES)]:
        yield f"it does not begin with promises 1 to {FIRST_PROMISES}"
    for number, _, by, definition, *_ in rows:
        carried = [*names_in(by)]
        if not carried and NO_CLAUSE not in by:
            yield f"promise {number} names no clause, and does not say so"
        yield from named_faults(f"promise {number}", [*carried, *names_in(definition)])
    counts = collections.Counter(row[4] for row in rows)
    for status in sorted({*counts, *said}):
        if said.get(status) != str(counts[status]):
            yield f'{counts[status]} of its first promises have the status "{status}", and the table of statuses says {said.get(status, "nothing")}'


def clause_faults(document: pathlib.Path) -> Iterator[str]:
    """What a document says of clauses, and shows of definitions, and is not so."""
    text, name = document.read_text(encoding="utf-8"), document.relative_to(TOP)
    for fault in (*promise_faults(text), *first_faults(text)) if document == PROMISES else ():
        yield f"{name}: {fault}"
    for said, path, shown in DEFINITION.findall(text):
        if shown not in [item.text_from(item.line) + "\n" for it, item in items_at(TOP / path) if it == said]:
            yield f"{name}: the definition {said} of {path} is not the one shown: show it, and read again what is said of its lines"
