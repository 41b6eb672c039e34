"""How every command ends: a fault as one line and a status, a closed pipe and Ctrl-C by their signals, and never a traceback."""
import argparse
import io
import math
import os
import select
import signal
import sys
from collections.abc import Callable, Sequence
from typing import NoReturn

from temzaar.faults import ToolFault
from temzaar.names import Names, read_names
from temzaar.printable import printable
from temzaar.version import read_version

# Statuses that all commands share. argparse itself ends with WRONG_WORDS.
DONE, FAULT, WRONG_WORDS = 0, 1, 2
# Options that are times. An empty one is refused when it is read.
TIMES = ("first", "last", "last_time", "start")


class Terminated(BaseException):
    """SIGTERM or SIGHUP came. What was opened is closed on the way up, and then the process ends by that signal."""

    def __init__(self, number: int) -> None:
        super().__init__(number)
        self.number = number


def end_by_signal(number: int) -> NoReturn:
    """Ends the process by a signal, as if it had no handler for it, so that a shell sees how it ended."""
    signal.signal(number, signal.SIG_DFL)
    os.kill(os.getpid(), number)
    signal.pthread_sigmask(signal.SIG_UNBLOCK, [number])
    raise SystemExit(128 + number)


def clean_up_on_signals() -> None:
    """From now on SIGTERM and SIGHUP end the command by `Terminated`, so that its `finally` clauses run."""
    def terminate(number: int, _frame: object) -> None:
        """Raises it, once: a second signal does not disturb the cleaning up."""
        signal.signal(number, signal.SIG_IGN)
        raise Terminated(number)

    for number in (signal.SIGTERM, signal.SIGHUP):
        # `nohup` ignores the end of the terminal, and so does what it starts
        if signal.getsignal(number) is not signal.SIG_IGN:
            signal.signal(number, terminate)


def has_closed_pipe() -> bool:
    """Whether standard output is a pipe whose reader has gone."""
    poll = select.poll()
    poll.register(1, 0)
    return any(event & select.POLLERR for _, event in poll.poll(0))


def drop_standard_output() -> None:
    """Sends what is still to be written to standard output nowhere, so that the interpreter's end does not try again."""
    nowhere = os.open(os.devnull, os.O_WRONLY)
    os.dup2(nowhere, 1)
    os.close(nowhere)


def print_note(name: str, text: str) -> None:
    """Prints a line of a command to standard error. If nobody can read it, the command goes on all the same."""
    if sys.stderr is None:
        return
    try:
        print(f"{name}: {printable(text)}", file=sys.stderr, flush=True)
    except (OSError, ValueError):
        # what could not be written would be tried again at the interpreter's end
        sys.stderr = None


def report_fault(name: str, text: str) -> int:
    """Prints a fault of a command. Its status."""
    print_note(name, text)
    return FAULT


def run_command(name: str, action: Callable[[], int], fault_status: int = FAULT) -> int:
    """Does what a command does, and writes out its standard output. The status, which is `fault_status` after a fault."""
    try:
        if sys.stdout is None:
            raise ToolFault("standard output is closed")
        if isinstance(sys.stdout, io.TextIOWrapper):
            # what its encoding does not have is escaped
            sys.stdout.reconfigure(errors="backslashreplace")
        status = action()
        sys.stdout.flush()
        return status
    except ToolFault as fault:
        return finish_after_fault(name, str(fault), fault_status)
    except KeyboardInterrupt:
        end_by_signal(signal.SIGINT)
    except Terminated as ended:
        end_by_signal(ended.number)
    except BrokenPipeError as fault:
        if has_closed_pipe():
            end_by_signal(signal.SIGPIPE)
        return finish_after_fault(name, fault.strerror, fault_status)
    except OSError as fault:
        return finish_after_fault(name, f"{fault.filename or 'standard output'}: {fault.strerror or fault}", fault_status)
    except MemoryError:
        return finish_after_fault(name, "out of memory", fault_status)


def parse_words(parser: argparse.ArgumentParser, words: Sequence[str] | None) -> argparse.Namespace:
    """The options that the words give. As argparse does, it ends the command after a help text, and after words that it refuses. If nobody reads
    the help text, the command ends in the same way. An option with an empty word is refused: a variable of the shell that is not set does not count
    as no option. Each command has the option `--version`."""
    parser.add_argument("--version", action="version", version=f"dmr_{parser.prog.removeprefix('dmr_')} {read_version()}")
    try:
        options = parser.parse_args(words)
        # argparse has no public list of its options
        for action in parser._actions:
            if action.option_strings and action.dest not in TIMES and getattr(options, action.dest, None) == "":
                parser.error(str(argparse.ArgumentError(action, "the word is empty")))
        return options
    except (SystemExit, BrokenPipeError) as ended:
        try:
            if sys.stdout is not None:
                sys.stdout.flush()
        except OSError:
            drop_standard_output()
        if isinstance(ended, SystemExit):
            raise
        raise SystemExit(0) from None


def finish_after_fault(name: str, text: str, status: int) -> int:
    """Writes out what was printed before a fault, and then reports the fault. The status, as it was given."""
    if sys.stdout is not None:
        try:
            sys.stdout.flush()
        except OSError:
            drop_standard_output()
    print_note(name, text)
    return status


def new_parser(text: str | None) -> argparse.ArgumentParser:
    """A parser of a command's words. The help has the text of the command's module."""
    return argparse.ArgumentParser(description=text, formatter_class=argparse.RawDescriptionHelpFormatter)


def command_of(name: str, read_words: Callable[[Sequence[str] | None], argparse.Namespace],
               action: Callable[[argparse.Namespace], int],
               fault_status: int = FAULT) -> Callable[[Sequence[str] | None], int]:
    """The `main` of a command, which does what its words say, or those of the process. It returns
    the status, which is `fault_status` after a fault."""
    def main(words: Sequence[str] | None = None) -> int:
        """Runs the command. The status."""
        options = read_words(words)
        clean_up_on_signals()
        return run_command(name, lambda: action(options), fault_status)
    return main


def add_names_option(parser: argparse.ArgumentParser) -> None:
    """Adds the option that names the file of names."""
    parser.add_argument("--names", metavar="CSV", help="the file of names, to show next to numbers")


def names_of_words(name: str, options: argparse.Namespace) -> Names | None:
    """The names of the file that the words of a command name; None if they name none. Lines that are not used are noted. NamesFault: nothing of it can be used."""
    if options.names is None:
        return None
    found = read_names(options.names)
    for line in found.notes():
        print_note(name, line)
    return found.names


def count_of(least: int, most: int) -> Callable[[str], int]:
    """A reader of whole numbers in a range, for argparse."""
    def read(text: str) -> int:
        """The number. ArgumentTypeError: it is not one, or not in the range."""
        if not (text.isascii() and text.isdigit() and len(text) < 20 and least <= int(text) <= most):
            raise argparse.ArgumentTypeError(f"{text!r} is not a whole number from {least} to {most}")
        return int(text)
    return read


def amount_above(least: float, most: float = 1e9) -> Callable[[str], float]:
    """A reader of numbers above a bound, such as seconds, for argparse."""
    def read(text: str) -> float:
        """The number. ArgumentTypeError: it is not one, or not in the range."""
        try:
            value = float(text)
        except ValueError:
            value = math.nan
        if not least < value <= most:
            raise argparse.ArgumentTypeError(f"{text!r} is not a number above {least:g}, at most {most:g}")
        return value
    return read


def address_of_words(text: str) -> tuple[str, int]:
    """A reader of an address and a port, for argparse. ArgumentTypeError: they are not ADDRESS:PORT."""
    address, _, port = text.rpartition(":")
    fault = argparse.ArgumentTypeError(f"{text!r} is not ADDRESS:PORT")
    try:
        found = address.strip("[]"), count_of(1, 65535)(port)
    except argparse.ArgumentTypeError:
        raise fault from None
    if not found[0]:
        raise fault
    return found
