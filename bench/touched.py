"""Reads the trace of `valgrind --tool=lackey --trace-mem=yes --trace-syscalls=yes`: the lines of
the cache and the pages that a thread touches between two waits for octets.

The trace names each instruction and each access to memory, in their order, and no thread. Its lines
of system calls name the thread that makes one. So what lies between the end of a thread's wait and
the thread's next wait is the thread's, if no other thread has anything to do.
"""
import re
import statistics
from collections.abc import Iterable, Iterator
from typing import NamedTuple

from callgrind import BadProfile

# Bits of an address below a line of the cache, and below a page.
LINE_BITS, PAGE_BITS = 6, 12
WAIT = "epoll_wait"
_ACCESS = re.compile(r"(I | [LSM]) ([0-9a-f]+),(\d+)")
_CALL = re.compile(r"SYSCALL\[\d+,(\d+)\]\( *(\d+)\)(?: sys_(\w+))?")


class Touched(NamedTuple):
    """What was executed and touched: instructions, lines and pages of code and data, and octets
    that were written to memory."""
    instructions: float
    code_lines: float
    data_lines: float
    code_pages: float
    data_pages: float
    written: float


def count_accesses(accesses: Iterable[str]) -> Touched:
    """What the lines of a trace touch; lines of other kinds do not count."""
    code: set[int] = set()
    data: set[int] = set()
    instructions = written = 0
    for found in filter(None, map(_ACCESS.match, accesses)):
        is_code = found[1] == "I "
        first, octets = int(found[2], 16), int(found[3])
        last = first + octets - 1
        (code if is_code else data).update(range(first >> LINE_BITS, (last >> LINE_BITS) + 1))
        instructions += is_code
        written += octets if found[1] in (" S", " M") else 0
    pages = [{line >> PAGE_BITS - LINE_BITS for line in lines} for lines in (code, data)]
    return Touched(instructions, len(code), len(data), len(pages[0]), len(pages[1]), written)


def between_waits(trace: Iterable[str]) -> Iterator[tuple[int, list[str]]]:
    """The lines between the end of a thread's wait and its next wait, each with the thread."""
    open_since: dict[int, list[str]] = {}
    waits: dict[int, str] = {}
    for line in trace:
        call = _CALL.match(line)
        if not call:
            for lines in open_since.values():
                lines.append(line)
            continue
        thread = int(call[1])
        if call[3] == WAIT:
            waits[thread] = call[2]
            if thread in open_since:
                yield thread, open_since.pop(thread)
        if "Success" in line and waits.get(thread) == call[2]:
            open_since[thread] = []


def median_of(trace: Iterable[str]) -> Touched:
    """What the thread that waits most often touches between two waits: the median of each figure.
    BadProfile: no thread waits twice."""
    by_thread: dict[int, list[Touched]] = {}
    for thread, lines in between_waits(trace):
        by_thread.setdefault(thread, []).append(count_accesses(lines))
    if not by_thread:
        raise BadProfile("no thread waits twice")
    most = max(by_thread.values(), key=len)
    return Touched(*map(statistics.median, zip(*most, strict=True)))
