"""A live picture of a served site, through its console port: carriers and slots, calls, the queue, counts, and what a quiet control slot sends.

    siteview --site site.toml                the console of the site file, through the hub if one holds it
    siteview --hub /run/dmr_hub/console.sock     this hub
    siteview --console 127.0.0.1:7100        this console, without a hub
    siteview --site site.toml --once         one picture, as plain text

The console is asked several times a second. Live, the keys type a line to the operator's console; Enter sends it, and the answer is shown below the picture.
Ctrl-C or Ctrl-D leaves. Without a hub one operator is served at a time: while the tool is connected, another console waits, so type here. An age is how long
the tool has seen a call or a request; `>` says that it was there before. The controller reports no ages, so --once shows none.

The names of radios, talkgroups and carriers are next to their numbers: those of the hub, or of the file that --names names, which is read again when it
changes. Numbers alone are typed.

Status: 0 the user left, or the picture was printed; 1 the site file, the console, the hub or the file of names was at fault. Standard error says which; 2 the
words.
"""
import argparse
import contextlib
import os
import select
import shutil
import sys
import termios
import textwrap
import time
import tty
from collections.abc import Iterable, Iterator, Sequence

from temzaar.cli.command import add_names_option, address_of_words, amount_above, clean_up_on_signals, parse_words, print_note, run_command
from temzaar.console import LONGEST_LINE, Console, ConsoleFault, SlotKey, Status
from temzaar.hubconsole import ControllerAway, HubConsole, HubNames, find_hub
from temzaar.names import NO_NAMES, FileNames, Kind, Names, named
from temzaar.picture import Ages, Asked, Picture, take_picture
from temzaar.printable import clipped, columns_of, padded, printable
from temzaar.sitefile import read_console_place

BOLD, PLAIN = "\x1b[1m", "\x1b[0m"
OFF_AIR = "control DOWN: the site is off the air"
COLOURS = {"call": "\x1b[1;32m", "control": "\x1b[36m", "down": "\x1b[1;31m", "waiting": "\x1b[33m", "free": "\x1b[2m"}
# The columns of a carrier, of the parties of a call, and of a slot; more if names need them. Names are cut to SHORT_COLUMNS.
FIRST, PARTIES, CELL, SHORT_COLUMNS = 9, 30, 40, 12
LEAVE = "\x04"
# More than a line may have: the controller says so itself.
MOST_TYPED = LONGEST_LINE + 20

# A part of a row: its text, and the state that colours it.
Part = tuple[str, str]
Row = list[Part]
# What finds names. Its `fault` is why they may be old ones.
NameSource = FileNames | HubNames


def texts_of(picture: Picture) -> list[str]:
    """What a picture shows that may have names."""
    return [*picture.calls.values(), *picture.lines, *(f"carrier {it}" for it in picture.carriers)]


def slot_cell(picture: Picture, slot: SlotKey, parties: str, age: str) -> Part:
    """The text of a slot, with the parties and the age of its call, and its state."""
    state = picture.slots.get(slot, "-")
    if state == "control" and not picture.is_on_air:
        return OFF_AIR, "down"
    if state == "control":
        fill = picture.status.fill
        return f"control ({'C_MOVE to ' + fill.split()[1] if fill.startswith('move ') else 'C_ALOHA'})", state
    if slot in picture.calls:
        return f"{parties}{age:>7}", "call"
    return state, state


def picture_rows(picture: Picture, name: str, ages: Ages, now: float, names: Names = NO_NAMES) -> Iterator[Row]:
    """The picture as rows, with names next to numbers."""
    shown = {it: names.in_text(it, SHORT_COLUMNS) for it in (*picture.calls.values(), *picture.lines)}
    room = max([PARTIES, *map(columns_of, shown.values())])
    cell = CELL - PARTIES + room
    carriers = {it: named(f"{it:>4}", names.name_of(Kind.CARRIER, it), SHORT_COLUMNS) for it in picture.carriers}
    first = max([FIRST, *(columns_of(it) + 2 for it in carriers.values())])
    counts = picture.status.counts
    up = f"carriers {counts['carriers']} of {len(picture.carriers)} up"
    rest = "   ".join(f"{name} {counts[name]}" for name in Status.NAMES[1:])
    yield [(f"site {name}   {time.strftime('%H:%M:%S')}", "title")]
    sent = (f"fill {picture.status.fill}", "") if picture.is_on_air else ("no control channel", "down")
    yield [(f"{up}   {rest}   ", ""), sent]
    yield []
    yield [(f"{'carrier':<{first}}{'slot 0':<{cell}}slot 1", "title")]
    for carrier in picture.carriers:
        row = [(padded(carriers[carrier], first), "")]
        for slot in (0, 1):
            key = carrier, slot
            parties = picture.calls.get(key, "")
            text, state = slot_cell(picture, key, padded(shown.get(parties, ""), room), ages.age(("call", key, parties), now))
            row.append((padded(text, cell), state))
        yield row
    if picture.lines:
        yield []
        yield [("waiting for a slot", "title")]
        for place, parties in enumerate(picture.lines, 1):
            yield [(f"{place:>4}     {padded(shown[parties], room)}{ages.age(('line', None, parties), now):>7}", "")]


def plain_text(rows: Iterable[Row]) -> str:
    """The rows without colours."""
    return "\n".join("".join(text for text, _ in row).rstrip() for row in rows) + "\n"


def paint_rows(rows: Iterable[Row], width: int, height: int) -> str:
    """The rows for a terminal, cut to its size."""
    out = []
    for row in list(rows)[:height]:
        line, left = "", width
        for text, state in row:
            text = clipped(text, left)
            left -= columns_of(text)
            colour = BOLD if state == "title" else COLOURS.get(state, "")
            line += f"{colour}{text}{PLAIN}" if colour else text
        out.append(line)
    return "\x1b[H" + "".join(f"{line}\x1b[K\r\n" for line in out) + "\x1b[J"


@contextlib.contextmanager
def screen() -> Iterator[None]:
    """The terminal while siteview runs. Keys arrive one by one; at the end the terminal's settings are restored."""
    before = termios.tcgetattr(sys.stdin)
    tty.setcbreak(sys.stdin)
    sys.stdout.write("\x1b[?1049h\x1b[2J")
    try:
        yield
    finally:
        sys.stdout.write("\x1b[?1049l")
        sys.stdout.flush()
        termios.tcsetattr(sys.stdin, termios.TCSADRAIN, before)


def show_rows(rows: Iterable[Row], typed: str, answer: list[str]) -> None:
    """Shows the rows, and below them the line that is typed and the last answer."""
    width, height = shutil.get_terminal_size()
    answers: list[Row] = [[(line, "")] for line in textwrap.wrap("  |  ".join(answer), width)]
    below: list[Row] = [[], [(f"> {typed}", "title")], *answers]
    room = max(0, height - 1 - len(below))
    sys.stdout.write(paint_rows(list(rows)[:room] + below, width, height - 1))
    sys.stdout.flush()


def typed_keys(seconds: float) -> str:
    """The keys that are typed within `seconds`; the end of input counts as Ctrl-D."""
    if select.select([sys.stdin], [], [], seconds)[0]:
        return os.read(sys.stdin.fileno(), 256).decode("utf-8", "replace") or LEAVE
    return ""


class Prompt:
    """The line that is being typed, and the answer to the last one."""

    def __init__(self, console: Asked, source: NameSource | None = None) -> None:
        self.console, self.source, self.typed = console, source, ""
        self.answer: list[str] = []

    def take_keys(self, keys: str) -> bool:
        """Takes what was typed. Whether it leaves."""
        for key in keys:
            if key == LEAVE:
                return True
            if key == "\n":
                self.answer, self.typed = self._ask(self.typed) if self.typed else [], ""
            elif key in ("\x7f", "\b"):
                self.typed = self.typed[:-1]
            elif key.isprintable() and len(self.typed) < MOST_TYPED:
                self.typed += key
        return False

    def _ask(self, line: str) -> list[str]:
        """The answer to a line, or that there is none."""
        try:
            answer = self.console.ask(line)
            names = self.source.find(answer) if self.source else NO_NAMES
            return [names.in_text(it) for it in answer]
        except ControllerAway as fault:
            return [str(fault)]


class View:
    """The site as it is shown. While the hub reports that the controller is away, only that is shown."""

    def __init__(self, console: Asked, name: str, source: NameSource | None = None) -> None:
        self.console, self.name, self.ages, self.away, self.source = console, name, Ages(), "", source
        self.picture: Picture | None = None
        self.names = NO_NAMES

    def look(self) -> None:
        """Takes a new picture. ConsoleFault: the console is at fault."""
        try:
            self.picture = take_picture(self.console)
            self.ages.look(self.picture, time.monotonic())
            self.names = self.source.find(texts_of(self.picture)) if self.source else NO_NAMES
        except ControllerAway as fault:
            self.picture, self.ages, self.away = None, Ages(), str(fault)

    def rows(self) -> Iterable[Row]:
        """The rows to show now."""
        if self.picture:
            old: list[Row] = [[(self.source.fault, "down")]] if self.source and self.source.fault else []
            return [*picture_rows(self.picture, self.name, self.ages, time.monotonic(), self.names), *old]
        return [[(f"site {self.name}   {time.strftime('%H:%M:%S')}", "title")], [(self.away, "down")]]


def watch(console: Console, name: str, seconds: float, source: NameSource | None) -> None:
    """Shows the site, a new picture every `seconds`, until the user leaves it."""
    view, prompt = View(console, name, source), Prompt(console, source)
    with screen():
        while True:
            until = time.monotonic() + seconds
            view.look()
            while (left := until - time.monotonic()) > 0:
                show_rows(view.rows(), prompt.typed, prompt.answer)
                if prompt.take_keys(typed_keys(left)):
                    return


def open_console(options: argparse.Namespace) -> tuple[Console, str]:
    """The console that the words name, and its place: through a hub if the words name one, or if one holds the console of the site file."""
    if options.hub is not None:
        return HubConsole(options.hub), options.hub
    if options.console:
        console = Console(*options.console)
        return console, console.name
    place = read_console_place(options.site)
    return find_hub(place.name) or Console(place.address, place.port), place.name


def title_of(options: argparse.Namespace, console: Console, place: str) -> str:
    """The site's name, if the words or the hub have one, and the place of its console."""
    name = options.name
    if name is None and isinstance(console, HubConsole):
        name = console.site_name()
    return f"{printable(name)}   {place}" if name else place


def name_source(options: argparse.Namespace, console: Console) -> NameSource | None:
    """The source of names: the file of the words, else the hub. NamesFault: nothing of the file can be used."""
    if options.names is None:
        return HubNames(console) if isinstance(console, HubConsole) else None
    source = FileNames(options.names)
    for line in source.file.notes():
        print_note("siteview", line)
    return source


def read_words(words: Sequence[str] | None) -> argparse.Namespace:
    """The words of the command line."""
    parser = argparse.ArgumentParser(description=__doc__, formatter_class=argparse.RawDescriptionHelpFormatter)
    which = parser.add_mutually_exclusive_group(required=True)
    which.add_argument("--site", help="the site file, which names the console's address and port; a hub that holds this console is asked instead")
    which.add_argument("--hub", help="the hub, by the path of its socket")
    which.add_argument("--console", type=address_of_words, help="the console, as ADDRESS:PORT, without a hub")
    parser.add_argument("--name", help="the site's name, for the first line (the one of the hub's config file)")
    add_names_option(parser)
    parser.add_argument("--once", action="store_true", help="print one picture as plain text, and end")
    parser.add_argument("--every", type=amount_above(0, 3600), default=0.25, help="seconds from one picture to the next (0.25)")
    return parse_words(parser, words)


def show_site(options: argparse.Namespace) -> int:
    """Shows the site. The status."""
    if not options.once and not (sys.stdin and sys.stdin.isatty() and sys.stdout.isatty()):
        raise ConsoleFault("no terminal: give --once")
    opened, place = open_console(options)
    with opened as console:
        name = title_of(options, console, place)
        source = name_source(options, console)
        if options.once:
            picture = take_picture(console)
            names = source.find(texts_of(picture)) if source else NO_NAMES
            sys.stdout.write(plain_text(picture_rows(picture, name, Ages(), 0, names)))
            return 0
        try:
            watch(console, name, max(0.05, options.every), source)
        except KeyboardInterrupt:
            # that is how it is left
            pass
    return 0


def main(words: Sequence[str] | None = None) -> int:
    """Runs the command. The status."""
    options = read_words(words)
    clean_up_on_signals()
    return run_command("siteview", lambda: show_site(options))
