"""A controller that a tool starts, to serve a site or to replay a script; and other programs that it starts."""
import ctypes
import os
import re
import signal
import socket
import subprocess
import tempfile
import threading
import time
from collections.abc import Callable, Mapping, Sequence
from typing import Any, Self

from temzaar.faults import reason_of
from temzaar.printable import printable
from temzaar.script import SessionFault
from temzaar.sitefile import Site

# What deploy/dmr_trunk.service has the C library do: give large pieces of memory back at once, and keep the stacks of threads that have ended.
UNIT_VARIABLES = {"MALLOC_MMAP_THRESHOLD_": "262144", "GLIBC_TUNABLES": "glibc.pthread.stack_cache_size=268435456"}


class Process:
    """The system's figures of a process that runs."""

    def __init__(self, pid: int) -> None:
        self.pid = pid

    def seconds(self) -> float:
        """The processor seconds that it has used."""
        with open(f"/proc/{self.pid}/stat", encoding="utf-8") as it:
            stat = it.read().rpartition(")")[2].split()
        return (int(stat[11]) + int(stat[12])) / os.sysconf("SC_CLK_TCK")

    def memory(self) -> int:
        """The memory that it holds, in KiB."""
        with open(f"/proc/{self.pid}/status", encoding="utf-8") as it:
            return int(re.findall(r"VmRSS:\s+(\d+)", it.read())[0])

    def addresses(self) -> int:
        """The octets of its address space."""
        with open(f"/proc/{self.pid}/status", encoding="utf-8") as it:
            return int(re.findall(r"VmSize:\s+(\d+)", it.read())[0]) * 1024

    def descriptors(self) -> int:
        """How many file descriptors it has open."""
        return len(os.listdir(f"/proc/{self.pid}/fd"))


# The number of the call by which a process says which signal it gets when its parent ends (prctl(2)).
PR_SET_PDEATHSIG = 1


def ends_with_parent() -> Callable[[], None]:
    """A function for a process that was just forked: from then on it gets SIGTERM when its parent ends, in whatever way."""
    libc = ctypes.CDLL(None, use_errno=True)

    def ask_system() -> None:
        """Asks for the signal. It takes no memory and no lock."""
        libc.prctl(PR_SET_PDEATHSIG, signal.SIGTERM)

    return ask_system


class Started(Process):
    """A program that was started here. At the end of a `with` it is stopped."""
    process: subprocess.Popen[Any]

    def runs(self) -> bool:
        """Whether it still runs."""
        return self.process.poll() is None

    def stop(self) -> None:
        """Stops it, and waits for its end."""
        raise NotImplementedError

    def __enter__(self) -> Self:
        return self

    def __exit__(self, *_: object) -> None:
        self.stop()


class Controller(Started):
    """The controller, serving a site until it is stopped, or until this process ends. Ctrl-C in the terminal does not reach it by itself. `path` is its site file, and
    `notes` has the lines of its standard error, as they come."""

    def __init__(self, program: str, site: Site, words: Sequence[str] = (), variables: Mapping[str, str] | None = None, **options: Any) -> None:
        """Starts it, with further words of its command line and further variables of its environment; `options` go to `subprocess.Popen`.
        SessionFault: it cannot be run."""
        self.folder = tempfile.TemporaryDirectory()
        self.path = os.path.join(self.folder.name, "site.toml")
        with open(self.path, "w", encoding="utf-8") as it:
            it.write(site.text())
        self.notes: list[str] = []
        environment = {**os.environ, **UNIT_VARIABLES, **(variables or {})}
        command = [program, "--site", self.path, "--serve", *words]
        more: dict[str, Any] = {"stdin": subprocess.DEVNULL, "process_group": 0, "preexec_fn": ends_with_parent(), **options}
        try:
            self.process = subprocess.Popen(command, stderr=subprocess.PIPE, text=True, errors="replace", env=environment, **more)
        except (OSError, ValueError) as fault:
            self.folder.cleanup()
            raise SessionFault(f"cannot run {program}: {reason_of(fault)}") from fault
        self.reader = threading.Thread(target=self._read_notes, daemon=True)
        self.reader.start()
        super().__init__(self.process.pid)

    def _read_notes(self) -> None:
        assert self.process.stderr
        for line in self.process.stderr:
            self.notes.append(line.rstrip("\n"))

    def wait_for(self, pattern: str, seconds: float = 10, since: int = 0) -> bool:
        """Waits until a note, from number `since` on, has the pattern. Whether one did in time."""
        until = time.monotonic() + seconds
        while time.monotonic() < until:
            ended = not self.runs()
            if ended:
                self.reader.join(1)
            if any(re.search(pattern, note) for note in list(self.notes)[since:]):
                return True
            if ended:
                return False
            time.sleep(0.02)
        return False

    def find_in_notes(self, pattern: str) -> list[str]:
        """What the group of a pattern has in each note that has the pattern."""
        return [found[1] for note in list(self.notes) if (found := re.search(pattern, note))]

    def wait_until_served(self) -> None:
        """Waits until the console listens, the last of the ports. SessionFault: it ends, or does not within half a minute."""
        if not self.wait_for("console: listening", 30):
            raise SessionFault("the controller does not listen: " + "; ".join(self.notes))

    def stop(self) -> None:
        """Stops it, and waits for its end."""
        if self.runs():
            self.process.send_signal(signal.SIGTERM)
        try:
            self.process.wait(10)
        except subprocess.TimeoutExpired:
            self.process.kill()
            self.process.wait()
        self.reader.join(5)
        if self.process.stderr:
            self.process.stderr.close()
        self.folder.cleanup()


class Command(Started):
    """A program that runs until it ends or is stopped, or until this process ends, with all that it starts. What it prints is kept."""

    def __init__(self, words: Sequence[str]) -> None:
        """Starts it. SessionFault: it cannot be run."""
        self.output = tempfile.TemporaryFile()
        try:
            self.process = subprocess.Popen(words, stdin=subprocess.DEVNULL, stdout=self.output, stderr=self.output, process_group=0, preexec_fn=ends_with_parent())
        except (OSError, ValueError) as fault:
            self.output.close()
            raise SessionFault(f"cannot run {words[0]}: {reason_of(fault)}") from fault
        super().__init__(self.process.pid)

    def end_in_words(self) -> str:
        """The status with which it has ended, and the last line that it printed."""
        self.output.seek(0)
        last = self.output.read().decode("utf-8", "replace").strip().rpartition("\n")[2]
        return f"ended with status {self.process.returncode}" + (f" and said: {printable(last[-100:])}" if last else "")

    def stop(self) -> None:
        """Stops it, with all that it has started, and waits for its end."""
        for number in (signal.SIGTERM, signal.SIGKILL):
            try:
                os.killpg(self.pid, number)
                self.process.wait(5)
            except (ProcessLookupError, subprocess.TimeoutExpired):
                pass
        self.process.wait()
        self.output.close()


def connect(address: str, port: int, seconds: float = 10.0) -> socket.socket:
    """A connection; tried again until the port listens, or the time is up."""
    until = time.monotonic() + seconds
    while True:
        try:
            stream = socket.create_connection((address, port), timeout=seconds)
            stream.setsockopt(socket.IPPROTO_TCP, socket.TCP_NODELAY, 1)
            return stream
        except ConnectionRefusedError:
            if time.monotonic() > until:
                raise
            time.sleep(0.05)


def replay(program: str, site: str, script: str) -> str:
    """The output of the controller that replays the text of a script. SessionFault: it cannot be run, or refuses the script."""
    return ask_program(script, program, "--site", site, "--script", "/dev/stdin")


def journal_of(decoder: str, site: str, script: str) -> str:
    """The journal of a site that runs the text of a script, as fields. SessionFault: the decoder cannot be run, or refuses the script."""
    return ask_program(script, decoder, "journal", "--fields", "--site", site)


def ask_program(text: str, program: str, *words: str) -> str:
    """The output of a program that is given a text on its standard input. SessionFault: it cannot be run, or its status is not 0."""
    try:
        done = subprocess.run([program, *words], input=text.encode("utf-8"), capture_output=True, check=False, process_group=0)
    except (OSError, ValueError) as fault:
        raise SessionFault(f"cannot run {program}: {reason_of(fault)}") from fault
    if done.returncode:
        raise SessionFault(done.stderr.decode("utf-8", "replace").strip() or f"{program} ended with status {done.returncode}")
    return done.stdout.decode("utf-8", "replace")
