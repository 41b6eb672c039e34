"""The audit log: a line of JSON for each step of a command that changes the site. A line is on the disk before the step after it begins."""
import asyncio
import contextlib
import json
import os
import stat
from collections import deque
from collections.abc import Callable, Iterator, Mapping
from typing import Any, TypeVar

from temzaar.faults import ToolFault
from temzaar.hub.config import AuditKeys
from temzaar.hub.worker import Late, Worker

# How many commands `history` can show, and as many that were refused.
REMEMBERED = 100
MODE = 0o640
# Records that `history` does not show.
STEPS_BETWEEN = ("asked", "refusals", "acknowledged")
# How many octets at the end of a file are read at the hub's start.
TAIL_OCTETS = 1 << 19
# Seconds that the disk may take for a record. While it takes longer, further records fail at once.
WRITE_SECONDS = 10.0


Result = TypeVar("Result")


class AuditFault(ToolFault):
    """A record cannot be written. The text says why."""


class AuditLog:
    """The file. It is opened again if something else is at its path, as after `logrotate` has moved it. `on_record` is called after a record was written."""

    def __init__(self, keys: AuditKeys) -> None:
        self.path, self.max_octets, self.keep = keys.file, keys.max_octets, keys.keep
        self.file: int | None = None
        self.worker = Worker("audit log", WRITE_SECONDS)
        self.turn = asyncio.Lock()
        self.recent, self.refused = (deque[dict[str, Any]](maxlen=REMEMBERED) for _ in range(2))
        self.fault: str | None = None
        self.on_record: Callable[[Mapping[str, Any]], None] = lambda _: None

    async def record(self, record: Mapping[str, Any]) -> None:
        """Appends a record. AuditFault: it is not, or not surely, on the disk."""
        line = json.dumps(record, ensure_ascii=True, separators=(",", ":")).encode("ascii") + b"\n"
        async with self.turn:
            await self._do(lambda: self.append(line))
            if record.get("event") == "refused":
                self.refused.append(dict(record))
            elif record.get("event") not in STEPS_BETWEEN:
                self.recent.append(dict(record))
        self.on_record(record)

    def last(self, count: int) -> list[dict[str, Any]]:
        """The last commands, `count` of them, and as many that were refused, in the order of their times."""
        return sorted((*list(self.recent)[-count:], *list(self.refused)[-count:]), key=lambda it: str(it["time"]))

    async def begin(self) -> None:
        """Opens the file. AuditFault: it cannot be written."""
        async with self.turn:
            await self._do(self.open)

    async def read_last(self) -> list[dict[str, Any]]:
        """The last records, also those of the file before this one, if it is `FILE.1`; oldest first. AuditFault: they cannot be read in time."""
        async with self.turn:
            return await self._do(lambda: [*tail_records(f"{self.path}.1"), *tail_records(self.path)])

    async def _do(self, work: Callable[[], Result]) -> Result:
        """The result of work with the file in its thread. AuditFault: it failed, or has not ended in time."""
        try:
            result = await self.worker.do(work)
        except Late as fault:
            self.fault = f"cannot write {self.path}: {fault}"
            raise AuditFault(self.fault) from fault
        except OSError as fault:
            self.fault = f"cannot write {self.path}: {fault.strerror or fault}"
            self._close_file()
            raise AuditFault(self.fault) from fault
        self.fault = None
        return result

    def append(self, line: bytes) -> None:
        """Appends a line, and waits until it is on the disk. OSError: it is not."""
        file = self.open()
        size = os.fstat(file).st_size
        if self.max_octets and size and size + len(line) > self.max_octets:
            self._rotate()
            file = self.open()
        while line:
            line = line[os.write(file, line):]
        os.fsync(file)

    def open(self) -> int:
        """The file at the path, open. A line that was torn by a crash or a full disk is ended first, so that no record is joined to it."""
        if self.file is not None and self._is_current(self.file):
            return self.file
        self._close_file()
        is_new = not os.path.exists(self.path)
        self.file = os.open(self.path, os.O_RDWR | os.O_APPEND | os.O_CREAT | os.O_CLOEXEC | os.O_NOFOLLOW, MODE)
        size = os.fstat(self.file).st_size
        if size and os.pread(self.file, 1, size - 1) != b"\n":
            os.write(self.file, b"\n")
        if is_new:
            self._sync_folder()
        return self.file

    def _is_current(self, file: int) -> bool:
        """Whether an open file is still the one at the path."""
        try:
            return os.path.samestat(os.fstat(file), os.stat(self.path, follow_symlinks=False))
        except OSError:
            return False

    def _rotate(self) -> None:
        """Moves the file away: it becomes FILE.1, that FILE.2, and so on; the oldest is lost."""
        for number in range(self.keep - 1, 0, -1):
            if os.path.exists(f"{self.path}.{number}"):
                os.replace(f"{self.path}.{number}", f"{self.path}.{number + 1}")
        os.replace(self.path, f"{self.path}.1")
        self._sync_folder()

    def _sync_folder(self) -> None:
        """Waits until the names in the folder are on the disk."""
        folder = os.open(os.path.dirname(self.path), os.O_RDONLY | os.O_DIRECTORY)
        try:
            os.fsync(folder)
        finally:
            os.close(folder)

    def close(self) -> None:
        """Ends the log."""
        self.worker.close()
        self._close_file()

    def _close_file(self) -> None:
        """Closes the file."""
        if self.file is not None:
            os.close(self.file)
            self.file = None


def tail_records(path: str) -> Iterator[dict[str, Any]]:
    """The records in the last octets of a file; none if it cannot be read. Other lines are left out."""
    with contextlib.suppress(OSError), open(os.open(path, os.O_RDONLY | os.O_NONBLOCK | os.O_NOFOLLOW | os.O_CLOEXEC), "rb") as file:
        state = os.fstat(file.fileno())
        if not stat.S_ISREG(state.st_mode):
            return
        first = max(0, state.st_size - TAIL_OCTETS)
        file.seek(first)
        lines = file.read(TAIL_OCTETS).split(b"\n")
        for line in lines[1:] if first else lines:
            # RecursionError: a line of brackets alone
            with contextlib.suppress(ValueError, RecursionError):
                record = json.loads(line)
                if isinstance(record, dict):
                    yield record
