"""The text of a site file for people: its values, and the lines of its keys. The controller alone judges it.

The controller reads TOML 1.1, and `tomllib` TOML 1.0, without a byte order mark. So there are files that the controller accepts, and the other tools do not read.
"""
import re
import tomllib
from collections.abc import Iterator, Mapping
from dataclasses import dataclass
from typing import Any, TypeGuard

from temzaar.sitekeys import CARRIER_KEYS, SITE_KEYS

# A key within tables: names, and indices of arrays from 0 on.
Steps = tuple[str | int, ...]
HEADER, NAME = re.compile(r"\[+\s*([^\]]+?)\s*\]+"), re.compile(r"\s*([\w-]+)\s*=")
PARSER_LINE = re.compile(r" \(at (?:line (\d+), column \d+|end of document)\)$")


def is_number(value: object) -> TypeGuard[int]:
    """Whether a value is a whole number. Python takes truth values for some."""
    return isinstance(value, int) and not isinstance(value, bool)


def is_pair(value: Any) -> bool:
    """Whether a value is an array of two whole numbers."""
    return isinstance(value, list) and len(value) == 2 and all(map(is_number, value))


@dataclass(frozen=True)
class SiteText:
    """A text, its values, and why `tomllib` does not read it; then it has no values. `fault_line` is the line of that, if it is known."""
    text: str
    values: Mapping[str, Any]
    fault: str = ""
    fault_line: int | None = None

    @classmethod
    def of(cls, octets: bytes) -> "SiteText":
        """The text of a file's octets."""
        text = octets.decode("utf-8", "replace")
        try:
            return cls(text, tomllib.loads(octets.decode("utf-8")))
        except UnicodeDecodeError as error:
            return cls(text, {}, f"the octet {octets[error.start]:02X} is not UTF-8", octets.count(b"\n", 0, error.start) + 1)
        except (ValueError, RecursionError) as error:
            found = PARSER_LINE.search(str(error))
            line = None if found is None else int(found[1]) if found[1] else text.rstrip("\n").count("\n") + 1
            return cls(text, {}, PARSER_LINE.sub("", str(error)) or type(error).__name__, line)

    def lines(self) -> Iterator[tuple[int, Steps]]:
        """The lines with a header or a key, by their numbers from 1 on, and what each is. It is a search for people: in a text of several lines it may be misled."""
        within: Steps = ()
        counts: dict[str, int] = {}
        for number, line in enumerate(self.text.split("\n"), 1):
            if found := HEADER.match(line.strip()):
                name = found[1]
                within = tuple(name.split("."))
                if line.strip().startswith("[["):
                    counts[name] = counts.get(name, -1) + 1
                    within = (*within, counts[name])
                elif len(within) > 1 and within[0] in counts:
                    within = (within[0], counts[str(within[0])], *within[1:])
                yield number, within
            elif found := NAME.match(line):
                yield number, (*within, found[1])

    def line_of(self, path: Steps) -> int | None:
        """The line of a key or a header, or else of the table or array that it is in. None: it was not found."""
        found = [*self.lines()]
        wanted = (path[:end] for end in range(len(path), 0, -1))
        return next((number for steps in wanted for number, line in found if line[:len(steps)] == steps), None)

    def row_paths(self) -> list[Steps]:
        """The paths of the tables of carriers."""
        rows = self.values.get("carrier")
        return [("carrier", index) for index, it in enumerate(rows) if isinstance(it, dict)] if isinstance(rows, list) else []

    def line_of_fault(self, text: str) -> int | None:
        """The line of what the controller refuses, by its text. Of carriers it is the first one to which the text may apply."""
        kind, _, name = text.rpartition(" ")
        if name in SITE_KEYS:
            return self.line_of((name,))
        if name not in CARRIER_KEYS:
            return self.fault_line
        key, seen = CARRIER_KEYS[name], {self.values.get("console_port")} if name == "port" else set[Any]()
        for path in self.row_paths():
            value = self.values["carrier"][path[1]].get(name)
            is_wrong = {"missing": value is None, "wrong type": not is_number(value), "repeated": value in seen}
            if is_wrong.get(kind, is_number(value) and not key.least <= value <= key.most):
                return self.line_of((*path, name))
            seen.add(value if is_number(value) else None)
        return None

    def line(self, number: int) -> str:
        """A line, by its number."""
        lines = self.text.split("\n")
        return lines[number - 1].rstrip("\r") if number <= len(lines) else ""
