"""The report as a page: one file of HTML, with its colours and bars in it, which asks no host and
needs no script. It is for screens from a phone on, light and dark, and for paper."""
import math
import pathlib
import re
from collections.abc import Iterator
from datetime import datetime
from html import escape
from itertools import zip_longest

from temzaar.faults import read_text
from temzaar.moments import local_time, milliseconds_of, short_text
from temzaar.printable import printable
from temzaar.report import (
    HOURS, MOST_ROWS, Cell, Column, Hour, Report, Sheet, heat_of, heat_text,
)
from temzaar.version import read_version

# The colours are those of the operators' page.
COLOURS = pathlib.Path(__file__).resolve().parent / "hub" / "page" / "colours.css"
DARK = ':root[data-theme="dark"]'
# The shades of hours, from no traffic to the most; the last ones have light text on paper.
SHADES = 7
STYLE = """
:root {
  --heat-0: #ffffff; --heat-1: #e3eefa; --heat-2: #c3dbf4; --heat-3: #9cc3ec;
  --heat-4: #6aa3de; --heat-5: #2f6fb0; --heat-6: #123f6e; --heat-light: #ffffff;
}
@media screen and (prefers-color-scheme: dark) {
  :root {
    --heat-0: #161c24; --heat-1: #1b2a3d; --heat-2: #20395a; --heat-3: #2b5078;
    --heat-4: #34639a; --heat-5: #79b8ff; --heat-6: #b9dbff; --heat-light: #0d1117;
  }
}
* { box-sizing: border-box; }
html { font-size: 15px; }
body { margin: 0; background: var(--page); color: var(--text); font-variant-numeric: tabular-nums;
  font: 1rem/1.4 system-ui, -apple-system, "Segoe UI", Roboto, "Liberation Sans", Arial, sans-serif; }
h1, h2, p, dl, dd { margin: 0; }
h1 { font-size: 1.3rem; }
h2 { font-size: 1rem; margin-bottom: 0.4rem; }
header { padding: 0.8rem 1rem; }
dt, thead th, section p { color: var(--muted); font-size: 0.85rem; }
section p { margin-top: 0.4rem; }
dl { display: grid; grid-template-columns: repeat(auto-fit, minmax(9rem, 1fr)); gap: 0.6rem;
  padding: 0 1rem; }
dl div, section { background: var(--card); border: 1px solid var(--line); border-radius: 8px;
  padding: 0.5rem 0.8rem; min-width: 0; }
dd { font-size: 1.15rem; font-weight: 600; }
main { columns: 2; column-gap: 0.8rem; padding: 0.8rem 1rem; }
section { break-inside: avoid; margin-bottom: 0.8rem; }
.wide { column-span: all; }
table { border-collapse: collapse; width: 100%; }
th, td { text-align: left; font-weight: normal; vertical-align: baseline;
  border-top: 1px solid var(--line); padding: 0.2rem 0.6rem 0.2rem 0; }
thead th { border-top: 0; }
td.number { white-space: nowrap; }
.number { text-align: right; }
.bar { width: 22%; padding-right: 0; }
.bar svg { display: block; width: 100%; height: 0.7rem; }
.bar rect { fill: var(--accent); }
.heat { table-layout: fixed; }
.heat th, .heat td { padding: 0.25rem 0; text-align: center; font-size: 0.85rem; }
.heat tbody th { white-space: nowrap; text-align: left; }
.heat th:first-child { width: 7.2rem; text-align: left; }
.heat td { border: 1px solid var(--card); }
.heat .none { background: repeating-linear-gradient(45deg, var(--gap) 0 4px, var(--line) 4px 6px);
  color: var(--text); }
.heat-0 { background: var(--heat-0); } .heat-1 { background: var(--heat-1); }
.heat-2 { background: var(--heat-2); } .heat-3 { background: var(--heat-3); }
.heat-4 { background: var(--heat-4); }
.heat-5 { background: var(--heat-5); color: var(--heat-light); }
.heat-6 { background: var(--heat-6); color: var(--heat-light); }
.heat .busy { outline: 2px solid var(--text); outline-offset: -2px; font-weight: 700; }
@media screen and (max-width: 1000px) {
  main { columns: 1; }
}
@media screen and (max-width: 800px) {
  main { padding: 0.6rem; }
  dl { padding: 0 0.6rem; }
  /* if names are so wide that their table does not fit, it moves, and not the page */
  section { overflow-x: auto; }
  th, td { padding-right: 0.4rem; font-size: 0.9rem; }
  td.bar, th.bar, .heat td:empty { display: none; }
  .heat thead { display: none; }
  .heat tr { display: grid; grid-template-columns: repeat(6, minmax(0, 1fr)); }
  .heat tbody th { grid-column: 1 / -1; border: 0; padding-top: 0.6rem; }
  .heat td::before { content: attr(data-hour); display: block; font-size: 0.7rem; opacity: 0.8; }
}
@page { size: A4; margin: 12mm; }
@media print {
  :root { --heat-0: #ffffff; --heat-1: #eeeeee; --heat-2: #dddddd; --heat-3: #c6c6c6;
    --heat-4: #a8a8a8; --heat-5: #555555; --heat-6: #222222; --accent: #444444; --page: #ffffff;
    --text: #000000; --muted: #333333; --line: #aaaaaa; --gap: #ffffff; }
  html { font-size: 8pt; }
  body { print-color-adjust: exact; -webkit-print-color-adjust: exact; }
  header, dl, main { padding: 0 0 0.4rem; }
  dl { grid-template-columns: repeat(4, 1fr); }
  dl div { padding: 0.2rem 0.4rem; }
  dl div, section { border-radius: 0; }
  th, td { padding: 0.05rem 0.4rem 0.05rem 0; }
  .bar { width: 12%; }
  .heat th, .heat td { font-size: 7pt; }
}
"""


def colours() -> str:
    """The colours, with the dark ones on screens that ask for them. ToolFault: they cannot be
    read."""
    text = re.sub(r"/\*.*?\*/\s*", "", read_text(str(COLOURS)), flags=re.S)
    light, _, dark = text.partition(DARK)
    return f"{light}@media screen and (prefers-color-scheme: dark) {{\n:root{dark}}}\n"


def shade_of(hour: Hour, most: float) -> str:
    """The class of an hour's cell, if the busiest one has `most` Erlang."""
    if hour.erlang is None:
        return "none"
    part = hour.erlang / most if most else 0
    return f"heat-{min(SHADES - 1, math.ceil((SHADES - 1) * part))}"


def hour_cell(hour: Hour | None, clock: str, most: float, is_busy: bool) -> str:
    """A cell of the heat map."""
    if hour is None:
        return f'<td data-hour="{clock}"></td>'
    shade = shade_of(hour, most) + " busy" * is_busy
    return f'<td class="{shade}" data-hour="{clock}">{heat_text(hour)}</td>'


def heat_map(report: Report) -> Iterator[str]:
    """The hours as a table of days, darker with more traffic."""
    heat = heat_of(report.hours)
    most = max((it.erlang or 0 for it in report.hours), default=0)
    head = "".join(f'<th scope="col">{it}</th>' for it in heat.clock)
    yield f'<table class="heat"><thead><tr><th scope="col">Day</th>{head}</tr></thead><tbody>'
    for day, hours in heat.days:
        cells = "".join(hour_cell(hour, clock, most, hour is not None and hour is report.busy)
                        for clock, hour in zip(heat.clock, hours, strict=True))
        yield f'<tr><th scope="row">{day}</th>{cells}</tr>'
    yield "</tbody></table>"
    yield ("<p>An hour that is hatched is not recorded; of one with * a part is not. The busy hour "
           "has a frame.</p>")


def bar(part: Cell, most: float) -> str:
    """A bar for a part of the most."""
    width = 100 * part / most if isinstance(part, float) and most else 0
    return ('<svg viewBox="0 0 100 1" preserveAspectRatio="none" aria-hidden="true">'
            f'<rect width="{width:.1f}" height="1"/></svg>')


def sheet_table(sheet: Sheet) -> Iterator[str]:
    """A sheet as a table."""
    head = "".join(f'<th scope="col"{align(it)}>{escape(it.title)}</th>' for it in sheet.columns)
    bars = [*bars_of(sheet)]
    yield f"<table><thead><tr>{head}{'<th class=bar></th>' * bool(bars)}</tr></thead><tbody>"
    for texts, drawn in zip_longest(sheet.shown_rows(), bars, fillvalue=""):
        cells = "".join(f"<td{align(column)}>{breakable(text)}</td>"
                        for column, text in zip(sheet.columns, texts, strict=True))
        yield f"<tr>{cells}{drawn}</tr>"
    yield "</tbody></table>"


def breakable(text: str) -> str:
    """A text for a cell, which may be broken within a long word."""
    return "<wbr>".join(map(escape, re.split(r"(?<=\S{12})(?=\S)", text)))


def bars_of(sheet: Sheet) -> Iterator[str]:
    """The cells with bars, if the sheet has some: the longest is that of the greatest number, or of
    all of a slot's time."""
    at = next((n for n, it in enumerate(sheet.columns) if it.name == sheet.bar), None)
    if at is None:
        return
    parts = [row[at] for row in sheet.rows[:MOST_ROWS]]
    most = max((it for it in parts if isinstance(it, float)), default=0.0)
    for part in parts:
        yield f"<td class=bar>{bar(part, 100.0 if sheet.bar == 'occupancy' else most)}</td>"


def align(column: Column) -> str:
    """The class of a column's cells: numbers end at the same place."""
    return "" if column.digits is None else ' class="number"'


def section_of(sheet: Sheet, report: Report) -> Iterator[str]:
    """A sheet as a section of the page."""
    is_heat = sheet.key == HOURS
    yield f'<section id="{sheet.key}"{" class=wide" * is_heat}><h2>{escape(sheet.title)}</h2>'
    if sheet.rows:
        yield from heat_map(report) if is_heat else sheet_table(sheet)
    yield from (f"<p>{escape(it)}</p>" for it in (sheet.notes if is_heat else sheet.shown_notes()))
    yield "</section>"


def page_parts(report: Report, path: str, now: datetime) -> Iterator[str]:
    """The lines of the page."""
    title, made = escape(report.title), milliseconds_of(now)
    moment = local_time(made)
    zone = f"{moment:UTC%z}" if moment else ""
    yield '<!DOCTYPE html>\n<html lang="en">\n<head>\n<meta charset="utf-8">'
    yield '<meta name="viewport" content="width=device-width, initial-scale=1">'
    yield f"<title>{title}</title>\n<style>\n{colours()}{STYLE}</style>\n</head>\n<body>"
    yield f"<header><h1>{title}</h1></header>\n<dl>"
    for name, value in report.facts:
        yield f"<div><dt>{escape(name)}</dt><dd>{escape(value)}</dd></div>"
    yield "</dl>\n<main>"
    for sheet in report.sheets:
        yield from section_of(sheet, report)
    yield '<section id="notes" class="wide"><h2>What these figures are</h2>'
    yield from (f"<p>{escape(it)}</p>" for it in report.notes)
    yield (f"<p>Made {short_text(made)} ({zone}) by dmr_report {escape(read_version())} "
           f"of {escape(printable(path))}</p></section>\n</main>\n</body>\n</html>")


def write_page(report: Report, path: str, now: datetime) -> str:
    """The page of a report of the records of a file, as it is made at a time. ToolFault: the
    colours are not there."""
    return "\n".join(page_parts(report, path, now)) + "\n"
