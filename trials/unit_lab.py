"""A machine for `trials/unit-recipes`: a Debian root in namespaces of its own, with systemd as process 1. It has no network but its own loopback."""
import contextlib
import ctypes
import os
import pathlib
import shutil
import signal
import subprocess
import tempfile
import time
from collections.abc import Callable, Iterator
from typing import NamedTuple

# What a root has in addition to Debian's smallest set of packages.
PACKAGES = ("systemd", "systemd-sysv", "dbus", "libnss-systemd", "python3")
COMMANDS = ("unshare", "nsenter", "setpriv", "mount", "pivot_root", "chroot", "ps")
PR_SET_PDEATHSIG = 1
# Seconds that a machine has to start, to stop, and that a command has.
STARTS, STOPS, PATIENCE = 90.0, 30.0, 120.0
# The signal that has systemd switch its machine off (systemd(1), "Signals").
SWITCH_OFF = signal.SIGRTMIN + 4
STATES = ("running", "degraded", "maintenance")

# Process 1 begins as a shell that enters the cgroup $2 and makes it the root of the cgroups that it sees. Another shell then mounts what the root $1 needs, and
# systemd takes its place.
ENTER_CGROUP = 'echo 0 >"$2/cgroup.procs" && exec unshare --cgroup sh -ec "$3" sh "$1"'
# The files of /proc that change the kernel are for reading alone, and the clock and the kernel's modules are out of reach: they are those of the real machine.
# The root is changed with pivot_root, since no user namespace (`PrivateUsers=yes`) can be made by a process in a chroot.
# The list of file systems is empty, since systemd would mount them, and set the options of the file system that has the root.
BOOT = """
mount --bind "$1" "$1"
cd "$1"
mount -t proc proc proc
for part in proc/sys proc/sysrq-trigger; do [ ! -e $part ] || { mount --bind $part $part && mount -o remount,bind,ro $part; }; done
mount -t sysfs -o ro sysfs sys
mount -t cgroup2 cgroup2 sys/fs/cgroup
mount -t tmpfs -o mode=755 tmpfs run
mount -t tmpfs -o mode=755 tmpfs dev
mkdir dev/pts dev/shm
mount -t devpts -o newinstance,ptmxmode=666,mode=620,gid=5 devpts dev/pts
mount -t tmpfs -o mode=1777 tmpfs dev/shm
for it in null:3 zero:5 full:7 random:8 urandom:9; do mknod -m 666 "dev/${it%:*}" c 1 "${it#*:}"; done
mknod -m 666 dev/tty c 5 0
ln -s pts/ptmx dev/ptmx
for it in fd:fd stdin:fd/0 stdout:fd/1 stderr:fd/2; do ln -s "/proc/self/${it#*:}" "dev/${it%%:*}"; done
[ ! -e etc/fstab ] || mount --bind dev/null etc/fstab
pivot_root . mnt
cd /
umount --lazy /mnt
exec env -i container=other PATH=/usr/sbin:/usr/bin setpriv --bounding-set=-sys_time,-sys_module,-sys_rawio /sbin/init
"""


class Failed(Exception):
    """A command failed, or a trial came out otherwise than it should."""


class Done(NamedTuple):
    """How a command ended, and what it printed, its errors included."""
    status: int
    text: str


def run(*words: str, seconds: float = PATIENCE, **options: object) -> Done:
    """Runs a command. Failed: it did not end in time."""
    try:
        done = subprocess.run(  # type: ignore[call-overload]
            words, stdin=subprocess.DEVNULL, stdout=subprocess.PIPE, stderr=subprocess.STDOUT, text=True, errors="replace", check=False, timeout=seconds, **options)
    except subprocess.TimeoutExpired as fault:
        raise Failed(f"`{' '.join(words)}` did not end within {seconds:.0f} s") from fault
    return Done(done.returncode, str(done.stdout).strip())


def wait_until(is_so: Callable[[], bool], seconds: float) -> bool:
    """Waits until something is so. Whether it was in time."""
    until = time.monotonic() + seconds
    while not is_so():
        if time.monotonic() > until:
            return False
        time.sleep(0.2)
    return True


def cgroup_folder() -> pathlib.Path | None:
    """The folder of this machine with cgroups of version 2; None if it has none."""
    for line in pathlib.Path("/proc/self/mounts").read_text(encoding="utf-8").splitlines():
        _, folder, kind, *_ = line.split()
        if kind == "cgroup2" and os.access(folder, os.W_OK):
            return pathlib.Path(folder)
    return None


def why_not(root_is_given: bool) -> str:
    """Why no machine can be started here; an empty text if it can."""
    if os.geteuid():
        return "it needs root"
    for it in COMMANDS if root_is_given else (*COMMANDS, "debootstrap"):
        if not shutil.which(it):
            return f"there is no command {it}"
    if cgroup_folder() is None:
        return "no folder has cgroups of version 2 that can be written"
    done = run("unshare", "--mount", "--uts", "--ipc", "--pid", "--net", "--cgroup", "--fork", "true")
    return f"unshare makes no namespaces: {done.text}" if done.status else ""


@contextlib.contextmanager
def made_root() -> Iterator[str]:
    """A root that debootstrap makes, of the suite of this machine. It is removed at the end."""
    folder = tempfile.mkdtemp(prefix="dmr-units-")
    try:
        release = dict(line.split("=", 1) for line in pathlib.Path("/etc/os-release").read_text(encoding="utf-8").splitlines() if "=" in line)
        suite = release.get("VERSION_CODENAME", "").strip('"')
        # The temporary folder is closed to other users, and a root must not be. Mounts are in a namespace of their own, so none is left if debootstrap fails.
        root = os.path.join(folder, "root")
        done = run("unshare", "--mount", "debootstrap", "--variant=minbase", f"--include={','.join(PACKAGES)}", suite, root, seconds=1800)
        if done.status:
            raise Failed(f"debootstrap ended with status {done.status}: {done.text[-400:]}")
        yield root
    finally:
        run("rm", "-rf", "--one-file-system", folder, seconds=600)


def ends_with_parent() -> None:
    """For a process that was just forked: it is killed when this one ends."""
    ctypes.CDLL(None).prctl(PR_SET_PDEATHSIG, int(signal.SIGKILL), 0, 0, 0)


class Machine:
    """A root with systemd as process 1, from `start` to `stop`. All of it but the root's files goes when it stops."""

    def __init__(self, root: str) -> None:
        folder = cgroup_folder()
        assert folder
        self.root = pathlib.Path(root)
        self.cgroup = folder / f"dmr-units-{os.getpid()}"
        self.outer: subprocess.Popen[bytes] | None = None
        self.first = 0

    def __enter__(self) -> "Machine":
        return self

    def __exit__(self, *_: object) -> None:
        self.stop()

    def start(self) -> str:
        """Starts systemd, and waits until it has started its units. The machine's state, as `systemctl is-system-running` has it. Failed: it does not come up."""
        self.cgroup.mkdir(exist_ok=True)
        words = ["unshare", "--mount", "--uts", "--ipc", "--pid", "--net", "--fork", "--kill-child", "sh", "-c", ENTER_CGROUP, "sh", str(self.root), str(self.cgroup), BOOT]
        with open(self.root / "var" / "log" / "boot.log", "wb") as log:
            self.outer = subprocess.Popen(words, stdin=subprocess.DEVNULL, stdout=log, stderr=log, preexec_fn=ends_with_parent, start_new_session=True)
        until = time.monotonic() + STARTS
        state = ""
        while state not in STATES:
            if time.monotonic() > until or self.outer.poll() is not None:
                jobs = self.run("systemctl", "list-jobs", "--no-legend").text.splitlines() if state else []
                said = (self.root / "var" / "log" / "boot.log").read_text(encoding="utf-8", errors="replace").strip()[-300:]
                raise Failed(f"the machine does not come up: {state or 'no answer'}; {'; '.join(jobs) or said}")
            time.sleep(0.3)
            self.first = self._first_process(self.outer.pid)
            if self.first and os.path.realpath(f"/proc/{self.first}/exe").endswith("/systemd"):
                state = self.run("systemctl", "is-system-running").text.rpartition("\n")[2]
        return state

    @staticmethod
    def _first_process(outer: int) -> int:
        """The number that process 1 of the machine has outside of it; 0 if there is none yet."""
        children = run("ps", "-o", "pid=", "--ppid", str(outer)).text.split()
        return int(children[0]) if children else 0

    def stop(self) -> None:
        """Switches the machine off."""
        if self.outer:
            if self.first:
                with contextlib.suppress(ProcessLookupError):
                    os.kill(self.first, SWITCH_OFF)
            try:
                self.outer.wait(STOPS if self.first else 1)
            except subprocess.TimeoutExpired:
                self.outer.kill()
                self.outer.wait(STOPS)
        self.outer, self.first = None, 0
        # the processes of a machine that was killed end a moment later
        wait_until(self._remove_cgroups, STOPS)

    def _remove_cgroups(self) -> bool:
        """Removes the machine's cgroups. Whether all have gone."""
        for folder, _, _ in os.walk(self.cgroup, topdown=False):
            with contextlib.suppress(OSError):
                os.rmdir(folder)
        return not self.cgroup.exists()

    def run(self, *words: str, user: str = "", seconds: float = PATIENCE) -> Done:
        """Runs a command in the machine, as root or as a user without further groups."""
        assert self.first
        become = ["setpriv", "--reuid", user, "--regid", user, "--clear-groups"] if user else []
        enter = ["nsenter", "--target", str(self.first), "--mount", "--uts", "--ipc", "--net", "--pid", "--cgroup", "--root", "--wd"]
        variables = {"PATH": "/usr/sbin:/usr/bin", "LC_ALL": "C.UTF-8", "HOME": "/root", "SYSTEMD_COLORS": "0", "SYSTEMD_PAGER": "cat"}
        return run(*enter, *become, *words, seconds=seconds, env=variables)

    def do(self, *words: str, seconds: float = PATIENCE) -> str:
        """Runs a command in the machine as root. What it printed; Failed: it ended with another status than 0."""
        done = self.run(*words, seconds=seconds)
        if done.status:
            raise Failed(f"`{' '.join(words)}` ended with status {done.status}: {done.text[-400:]}")
        return done.text

    def path(self, name: str) -> pathlib.Path:
        """The path of a file of the machine, outside of it. Only files of the root are there, not those of folders that systemd has mounted."""
        return self.root / name.lstrip("/")

    def read(self, name: str) -> str:
        """The text of a file of the root."""
        return self.path(name).read_text(encoding="utf-8")

    def write(self, name: str, text: str) -> None:
        """Writes a file of the root, readable for all."""
        self.path(name).write_text(text, encoding="utf-8")
        self.path(name).chmod(0o644)
