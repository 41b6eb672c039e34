"""The fault that every tool reports in one line, and files that are read with a limit."""
import contextlib
import os
import stat
import tempfile

# The most octets of a text file that a tool reads: a script of a day of sixteen busy carriers has fewer.
MOST_OCTETS = 1 << 28


class ToolFault(Exception):
    """Something that a tool cannot use: a file, a port, a controller or an answer. The text names it, and says why."""


def reason_of(fault: OSError | ValueError) -> str:
    """Why a call of the system failed. It is a ValueError if a name has a zero octet."""
    return (fault.strerror if isinstance(fault, OSError) else None) or str(fault)


def system_fault(what: str, fault: OSError) -> ToolFault:
    """The fault of a call of the system that concerns `what`, such as a path."""
    return ToolFault(f"{what}: {reason_of(fault)}")


# What changes if a file does; None if there is no file.
FileState = tuple[int, int, int] | None


def file_state(path: str) -> FileState:
    """The state of a file."""
    try:
        state = os.stat(path)
    except (OSError, ValueError):
        return None
    return state.st_ino, state.st_size, state.st_mtime_ns


def read_octets(path: str, most: int = MOST_OCTETS) -> bytes:
    """The octets of a file. ToolFault: it cannot be read, or has more than `most` octets."""
    try:
        with open(path, "rb") as it:
            octets = it.read(most + 1)
    except OSError as fault:
        raise system_fault(path, fault) from fault
    except ValueError as fault:
        # a zero octet in the name
        raise ToolFault(f"{path!r}: {fault}") from fault
    if len(octets) > most:
        raise ToolFault(f"{path}: more than {most} octets")
    return octets


def read_text(path: str, most: int = MOST_OCTETS) -> str:
    """The text of a file, as it is. ToolFault: it cannot be read, is too long, or is not UTF-8."""
    try:
        return read_octets(path, most).decode("utf-8")
    except UnicodeDecodeError as fault:
        raise ToolFault(f"{path}: octet {fault.start} is not UTF-8") from fault


def write_text(path: str, text: str) -> None:
    """Writes a text file in place of one that may exist. ToolFault: it cannot be written."""
    try:
        with open(path, "w", encoding="utf-8", newline="") as it:
            it.write(text)
    except OSError as fault:
        raise system_fault(path, fault) from fault


def replace_text(path: str, text: str, mode: int) -> None:
    """Writes a text file with this mode, in place of one that may exist: a reader has all of the one or of the other. ToolFault: it cannot be written, or there is
    something there that is not a file."""
    target = os.path.realpath(path)
    try:
        if os.path.exists(target) and not stat.S_ISREG(os.stat(target).st_mode):
            raise ToolFault(f"{path}: not a file")
        descriptor, made = tempfile.mkstemp(prefix=".dmr_", dir=os.path.dirname(target))
        try:
            with open(descriptor, "w", encoding="utf-8", newline="") as it:
                it.write(text)
                os.fchmod(descriptor, mode)
            os.replace(made, target)
        except BaseException:
            with contextlib.suppress(OSError):
                os.unlink(made)
            raise
    except OSError as fault:
        raise system_fault(path, fault) from fault
    except ValueError as fault:
        raise ToolFault(f"{path!r}: {fault}") from fault
