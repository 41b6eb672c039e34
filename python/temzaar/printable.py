"""Text that came from outside, as a terminal or a spreadsheet may show it; how many columns of a terminal it takes, and tables of it."""
import csv
import io
import json
import unicodedata
from collections.abc import Iterable, Mapping, Sequence
from typing import Any

# What a cell of CSV begins with if a spreadsheet takes it for a formula.
FORMULA = ("=", "+", "-", "@", "\t", "\r", "\n")
# In the place of what does not fit.
CUT = ".."


def printable(text: str) -> str:
    """A text without characters that move the cursor of a terminal, or command it: they are escaped as `\\xHH`."""
    return text if text.isprintable() else "".join(it if it.isprintable() else f"\\x{ord(it):02x}" for it in text)


def safe_cell(value: str | int | float | None) -> str | int | float | None:
    """A cell of CSV that no terminal takes for a command, and no spreadsheet for a formula."""
    if not isinstance(value, str):
        return value
    return f"'{printable(value)}" if value.startswith(FORMULA) else printable(value)


def columns_of(text: str) -> int:
    """How many columns of a terminal a text takes: wide characters two each, combining ones none."""
    if text.isascii():
        return len(text)
    return sum(0 if unicodedata.combining(it) else 2 if unicodedata.east_asian_width(it) in "WF" else 1 for it in text)


def clipped(text: str, columns: int) -> str:
    """The beginning of a text that takes at most `columns`."""
    text = text[:max(0, columns)]
    while text and columns_of(text) > columns:
        text = text[:-1]
    return text


def cut_text(text: str, columns: int) -> str:
    """A text that takes at most `columns`; one that is wider ends with CUT."""
    return text if columns_of(text) <= columns else f"{clipped(text, columns - len(CUT)).rstrip()}{CUT}"


def padded(text: str, columns: int) -> str:
    """A text with blanks after it up to a number of columns."""
    return text + " " * max(0, columns - columns_of(text))


def text_table(rows: Sequence[Sequence[str]], is_right: Sequence[bool]) -> str:
    """Rows as a table, a line each, with columns that are as wide as their widest cell; some of them end at the same place, as numbers do."""
    widths = [max(columns_of(row[n]) for row in rows) for n in range(len(is_right))]

    def line(row: Sequence[str]) -> str:
        """A row."""
        cells = (" " * (width - columns_of(cell)) + cell if right else padded(cell, width) for cell, width, right in zip(row, widths, is_right, strict=True))
        return "  ".join(cells).rstrip()
    return "".join(f"{line(row)}\n" for row in rows)


def rows_text(rows: Sequence[Mapping[str, Any]], columns: Sequence[str], form: str) -> str:
    """Rows as `csv`, or else as `json`."""
    return csv_text(rows, columns) if form == "csv" else json.dumps(rows, indent=2) + "\n"


def csv_row(row: Mapping[str, Any]) -> dict[str, Any]:
    """The cells of a row in CSV. A list is a text with `; ` between its parts."""
    cells = {name: "; ".join("" if it is None else str(it) for it in value) if isinstance(value, list) else value for name, value in row.items()}
    return {name: safe_cell(value) for name, value in cells.items()}


def csv_text(rows: Iterable[Mapping[str, Any]], columns: Sequence[str]) -> str:
    """Rows as CSV, with a line of the names of the columns."""
    out = io.StringIO(newline="")
    writer = csv.DictWriter(out, columns, lineterminator="\n")
    writer.writeheader()
    writer.writerows(map(csv_row, rows))
    return out.getvalue()
