"""Kinds of values in the hub's config file and in queries, and a strict reader of a section of that file.

A section is a frozen dataclass whose fields are made by `key`. A key without a value in the file has its default. Unknown keys, other types and values out of
range are faults, which name the key.
"""
import dataclasses
from collections.abc import Callable, Mapping
from datetime import datetime
from typing import Any, TypeVar
from urllib.parse import unquote

from temzaar.faults import ToolFault
from temzaar.moments import LAST_MS, milliseconds_of

Section = TypeVar("Section")
# How many characters the text of a time has at most, if each is written as it is.
MOST_OF_TIME = 40


class ConfigFault(ToolFault):
    """The config file cannot be used. The text says why, with the key."""


@dataclasses.dataclass(frozen=True)
class Kind:
    """A kind of value. `says` describes it for documents and faults. `find` returns the value of what a file or a query has; None, or ValueError with the
    reason: that is not of this kind. `is_text`: in a query a number is a text too."""
    says: str
    find: Callable[[Any], Any]
    is_text: bool = False

    def read(self, value: Any) -> Any:
        """The value of a key. ValueError: it is not of this kind; the text says what is."""
        found = self.find(value)
        if found is None:
            raise ValueError(f"not {self.says}")
        return found


def kind_of(says: str, is_one: Callable[[Any], bool]) -> Kind:
    """A kind whose values are used as they are."""
    return Kind(says, lambda value: value if is_one(value) else None)


def is_whole_number(value: Any) -> bool:
    """Whether a value is a whole number. Python counts true and false as numbers."""
    return isinstance(value, int) and not isinstance(value, bool)


def number(low: float, high: float) -> Kind:
    """A number in a range, whole or with decimals."""
    return in_range("number", low, high, lambda value: float(value) if isinstance(value, float) or is_whole_number(value) else None)


def whole_number(low: int, high: int) -> Kind:
    """A whole number in a range."""
    return in_range("whole number", low, high, lambda value: value if is_whole_number(value) else None)


def in_range(called: str, low: float, high: float, find: Callable[[Any], Any]) -> Kind:
    """The numbers in a range that `find` returns."""
    says = f"{low} to {high}"

    def find_in_range(value: Any) -> Any:
        """The number of a value. ValueError: it has none, or one out of the range."""
        found = find(value)
        if found is None:
            raise ValueError(f"not a {called}: {says}")
        if not low <= found <= high:
            raise ValueError(f"out of range: {says}")
        return found
    return Kind(says, find_in_range)


def file_path(or_none: bool = False) -> Kind:
    """An absolute path; it may be empty if `or_none` says so."""
    def is_path(value: Any) -> bool:
        """Whether a value is such a path."""
        return isinstance(value, str) and ((or_none and not value) or (value.startswith("/") and "\0" not in value))
    return kind_of("an absolute path, or empty" if or_none else "an absolute path", is_path)


def short_text(most: int) -> Kind:
    """A text of at most `most` printable characters. It may be empty."""
    return kind_of(f"a text of at most {most} characters", lambda value: isinstance(value, str) and len(value) <= most and value.isprintable())


def choice(*words: str) -> Kind:
    """One of some words."""
    return kind_of(" or ".join(f'"{word}"' for word in words), lambda value: isinstance(value, str) and value in words)


def name_list(numbers: bool = False) -> Kind:
    """A list of names, in which numbers count as names too if `numbers` says so."""
    def is_name(value: Any) -> bool:
        """Whether a value is a name."""
        return (isinstance(value, str) and value != "") or (numbers and is_whole_number(value))
    says = "a list of names or numbers" if numbers else "a list of names"
    return Kind(says, lambda value: tuple(value) if isinstance(value, list) and all(map(is_name, value)) else None)


def carrier_choice() -> Kind:
    """Carriers: all of the site, none, or those of a list."""
    says = '"all", "none" or a list of carriers'

    def find(value: Any) -> str | tuple[int, ...]:
        """The carriers of a value. ValueError: it names none."""
        if value in ("all", "none"):
            return str(value)
        if not isinstance(value, list) or not all(is_whole_number(it) and 0 <= it <= 15 for it in value):
            raise ValueError(f"not {says}, 0 to 15")
        return tuple(value)
    return Kind(says, find)


def sought_text(most: int) -> Kind:
    """A text to search for, as a query of HTTP has it: other characters than letters and digits may be written as `%HH`."""
    def find(value: str) -> str | None:
        """The text of a value; None if it has none."""
        # a character has four octets at most, and each is written with three characters
        text = unquoted(value, 12 * most)
        return text if text.isprintable() and 1 <= len(text) <= most else None
    return Kind(f"a text of 1 to {most} characters", find, is_text=True)


def instant() -> Kind:
    """A time, in milliseconds since 1970, as a query of HTTP has it: of ISO 8601, with a zone, or as that number. Other characters than letters and digits
    may be written as `%HH`."""
    def find(value: str) -> int | None:
        """The time of a value; None if it has none."""
        text = unquoted(value, 3 * MOST_OF_TIME)
        try:
            if text.isascii() and text.isdecimal():
                found = int(text)
            else:
                moment = datetime.fromisoformat(text)
                found = -1 if moment.tzinfo is None else milliseconds_of(moment)
        except (ValueError, OverflowError):
            return None
        return found if 0 <= found <= LAST_MS else None
    return Kind("a time with a zone, as 2026-11-27T08:00:00Z, or milliseconds since 1970", find, is_text=True)


def unquoted(text: str, most: int) -> str:
    """A text of a query without `%HH`; empty if it is longer than `most` characters, or not UTF-8."""
    try:
        return unquote(text, errors="strict") if len(text) <= most else ""
    except UnicodeDecodeError:
        return ""


def key(kind: Kind, default: Any, about: str) -> Any:
    """A field of a section: its kind, the value if the key is missing, and what it is."""
    return dataclasses.field(default=default, metadata={"kind": kind, "about": about})


def read_section(section: type[Section], name: str, table: Any) -> Section:
    """A section from its table of the file. ConfigFault: a key is unknown, or its value is not of its kind."""
    if not isinstance(table, Mapping):
        raise ConfigFault(f"{name}: not a table")
    fields = {field.name: field for field in dataclasses.fields(section)}  # type: ignore[arg-type]
    values: dict[str, Any] = {}
    for word, value in table.items():
        if word not in fields:
            raise ConfigFault(f"{name}.{word}: unknown key")
        try:
            values[word] = fields[word].metadata["kind"].read(value)
        except ValueError as fault:
            raise ConfigFault(f"{name}.{word}: {fault}") from fault
    return section(**values)
