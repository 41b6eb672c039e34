"""The console of a served site through the hub: on a terminal with editing, history and completion, in a pipe plain lines.

    console                      on a terminal: lines are typed; Tab completes, the arrows show earlier lines, Ctrl-D leaves
    console status               this one line
    console <lines.txt           these lines, one after another

`help` lists the commands. Tab completes them, and the numbers of radios, carriers and slots that the site has at the time. The arrows show earlier lines, also
those of earlier sessions. Ctrl-C drops the line that is being typed; Ctrl-D or `quit` leaves. If the hub has closed the connection because nothing was typed,
the next line opens it again. Words are one line. If standard input or output is not a terminal, each line of standard input is sent.

On a terminal the names of radios, talkgroups and carriers are next to their numbers, if the hub has them. In a pipe each reply is that of the hub, octet by
octet. Numbers alone are typed. The hub has to run, and its config file has to have a role for the user. DMR_HUB_SOCKET in the environment names another socket
than /run/dmr_hub/console.sock.

Status: 0 each line was answered, and with no error, or the user left the terminal; 1 the hub cannot be reached, or ended the connection. Standard error says
why; 2 the words; 3 a reply was an error.
"""
import argparse
import contextlib
import os
import sys
from collections.abc import Iterator, Sequence

from temzaar.cli.command import address_of_words, amount_above, clean_up_on_signals, parse_words, run_command
from temzaar.console import Console, ConsoleFault
from temzaar.faults import ToolFault
from temzaar.hub.lines import NAME, unescape_octets
from temzaar.hubconsole import Completions, HubConsole, HubPort, ask_names, default_socket, has_ended
from temzaar.names import bearers_in
from temzaar.printable import printable

HISTORY_LINES = 1000
PROMPT = "dmr> "
REFUSED = 3
QUIT = ("quit", "exit")


def read_words(words: Sequence[str] | None) -> argparse.Namespace:
    """The words of the command line."""
    parser = argparse.ArgumentParser(description=__doc__, formatter_class=argparse.RawDescriptionHelpFormatter)
    which = parser.add_mutually_exclusive_group()
    which.add_argument("--socket", metavar="PATH", help="the hub's unix socket (/run/dmr_hub/console.sock)")
    which.add_argument("--tcp", metavar="ADDRESS:PORT", type=address_of_words, help="the hub's TCP port, if it has one")
    parser.add_argument("--seconds", type=amount_above(0, 3600), default=5.0, help="how long an answer may take (5)")
    parser.add_argument("line", nargs="*", metavar="WORD", help="the words of a line to send")
    return parse_words(parser, words)


def connect(options: argparse.Namespace) -> Console:
    """A connection to the hub. ConsoleFault: there is none."""
    if not options.tcp:
        return HubConsole(options.socket or default_socket(), options.seconds)
    return HubPort(*options.tcp, options.seconds)


class Operator:
    """A connection, opened again if the hub ended it while nothing was asked; and the status so far."""

    def __init__(self, options: argparse.Namespace) -> None:
        self.options, self.status = options, 0
        self.console = connect(options)

    def ask(self, line: bytes) -> None:
        """Asks a line, and prints the reply. ConsoleFault: there is none."""
        if has_ended(self.console):
            self.console.close()
            self.console = connect(self.options)
        reply = self.console.exchange(line)
        if sys.stdout.isatty():
            sys.stdout.write("".join(f"{it}\n" for it in self.with_names([printable(it.decode("ascii", "backslashreplace")) for it in reply])))
            sys.stdout.flush()
        else:
            # a program gets the octets of the hub
            sys.stdout.buffer.write(b"".join(it + b"\n" for it in reply))
            sys.stdout.buffer.flush()
        if reply[0].startswith(b"error"):
            self.status = REFUSED

    def with_names(self, reply: list[str]) -> list[str]:
        """The lines of a reply, with the names that the hub has next to numbers."""
        if reply[0].startswith(NAME):
            return [printable(unescape_octets(it).decode("utf-8", "replace")) for it in reply]
        try:
            names = ask_names(self.console, bearers_in(reply))
        except ConsoleFault:
            return reply
        return [names.in_text(it) for it in reply]

    def completions(self, before: str, begun: str) -> list[str]:
        """What the last word of a line may be."""
        return [] if has_ended(self.console) else Completions(self.console).find(before, begun)


def history_path() -> str:
    """The file that keeps the lines of a terminal."""
    state = os.environ.get("XDG_STATE_HOME") or os.path.join(os.path.expanduser("~"), ".local", "state")
    return os.path.join(state, "dmr_console", "history")


@contextlib.contextmanager
def edited_lines(operator: Operator) -> Iterator[None]:
    """Editing, history and completion while lines are typed. Without readline lines are plain."""
    try:
        import readline
    except ImportError:
        yield
        return
    path, found = history_path(), list[str]()
    with contextlib.suppress(OSError):
        readline.read_history_file(path)

    def complete(begun: str, number: int) -> str | None:
        """The completion of a number, as readline asks for them, from 0 on."""
        if number == 0:
            found[:] = operator.completions(readline.get_line_buffer()[:readline.get_begidx()], begun)
        return found[number] + " " if number < len(found) else None

    readline.set_history_length(HISTORY_LINES)
    readline.set_completer(complete)
    readline.set_completer_delims(" ")
    readline.parse_and_bind("tab: complete")
    try:
        yield
    finally:
        with contextlib.suppress(OSError):
            os.makedirs(os.path.dirname(path), mode=0o700, exist_ok=True)
            readline.write_history_file(path)


def type_lines(operator: Operator) -> int:
    """Asks the lines that are typed, until the user leaves. The status: 0, since errors were seen. ConsoleFault: the hub is at fault."""
    with edited_lines(operator):
        while True:
            try:
                line = input(PROMPT)
            except KeyboardInterrupt:
                print()
                continue
            except EOFError:
                print()
                return 0
            if line.strip() in QUIT:
                return 0
            # a completion leaves a space after it
            if line := line.strip(" "):
                operator.ask(line.encode("utf-8", "surrogateescape"))


def pass_lines(operator: Operator) -> int:
    """Asks the lines of standard input. The status. ConsoleFault: the hub is at fault."""
    for line in sys.stdin.buffer:
        operator.ask(line.removesuffix(b"\n"))
    return operator.status


def serve_operator(options: argparse.Namespace) -> int:
    """Asks what the words, standard input or the terminal have. The status. ConsoleFault: the hub is at fault."""
    if not options.line and sys.stdin is None:
        raise ToolFault("standard input is closed")
    operator = Operator(options)
    if options.line:
        operator.ask(" ".join(options.line).encode("utf-8", "surrogateescape"))
        return operator.status
    return type_lines(operator) if sys.stdin.isatty() and sys.stdout.isatty() else pass_lines(operator)


def main(words: Sequence[str] | None = None) -> int:
    """Runs the command. The status."""
    options = read_words(words)
    clean_up_on_signals()
    return run_command("console", lambda: serve_operator(options))
