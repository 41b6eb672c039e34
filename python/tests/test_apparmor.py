"""The profiles of deploy/apparmor permit what the services do: each path that they open, by strace,
is judged by the rules of the profile."""
import os
import re
import shutil
import signal
import socket
import subprocess
import unittest
import urllib.request

from temzaar.ports import free_ports
from tests.apparmor import CALLS, INCLUDED, Need, Profile, needs_of_trace
from tests.fake_console import FakeConsole
from tests.made_records import make_records
from tests.served_kit import ACKNOWLEDGED, PATIENCE, free_site, register_radio
from tests.support import TOP, FolderCase, program, wait_until

PROFILES = TOP / "deploy" / "apparmor"
# Debian's interpreter, whose modules are in the folders that the profile names
PYTHON = "/usr/bin/python3"


def profile_text(name: str, old: str = "", new: str = "") -> str:
    """The text of a profile, with one piece of it changed."""
    text = (PROFILES / name).read_text(encoding="utf-8")
    if old and text.count(old) != 1:
        raise AssertionError(f"{name} has {old!r} {text.count(old)} times")
    return text.replace(old, new)


class Reader(unittest.TestCase):
    """The reader of profiles and of traces."""

    def test_rules(self) -> None:
        profile = Profile(
            "@{A}=/a/ /b/\nprofile p {\n  @{A}/{x,y}*.txt r,\n  owner /c/** rwk,\n"
            "  /d/[0-9]? w,\n  deny /c/no w,\n  /e/* m,\n}\n"
        )
        for path, modes, lacks in (
            ("/a/x1.txt", "r", ""), ("/b/y.txt", "r", ""), ("/a/x/1.txt", "r", "r"),
            ("/a/x.txt", "rw", "w"), ("/c/d/e", "rwk", ""), ("/c/", "r", "r"), ("/c/no", "rw", "w"),
            ("/d/1x", "w", ""), ("/d/xx", "w", "w"), ("/e/", "m", "m"), ("/e/1", "m", ""),
        ):
            self.assertEqual(profile.lacks(Need(path, modes)), lacks, (path, modes))

    def test_traces(self) -> None:
        lines = (
            'openat(AT_FDCWD</>, "/no/name", O_RDWR|O_CREAT|O_EXCL|O_CLOEXEC, 0600) = 3</no/name>',
            'openat(AT_FDCWD</>, "/no/such", O_RDONLY) = -1 ENOENT (No such file or directory)',
            'openat(4</no>, "that", O_WRONLY|O_CREAT, 0666) = 5</no/that>',
            'openat(AT_FDCWD</>, "/usr", O_RDONLY|O_DIRECTORY) = 3</usr>',
            'mmap(NULL, 8, PROT_READ|PROT_EXEC, MAP_PRIVATE, 3</no/lib.so>, 0) = 0x7f',
            "fcntl(3</no/name>, F_OFD_SETLK, {l_type=F_RDLCK}) = 0",
            "fcntl(3</no/name>, F_GETFL) = 2",
            'unlinkat(4</no>, "that", 0) = 0',
            'unlinkat(4</no>, "sub", AT_REMOVEDIR) = 0',
            'mkdir("/no/sub", 0700) = 0',
            'rename("/no/a", "/no/b") = 0',
            'chmod("/no/c", 0666) = 0',
            'connect(7<UNIX-STREAM:[1]>, {sa_family=AF_UNIX, sun_path="/no/socket"}, 110) = 0',
            'stat("/no/state", {st_mode=S_IFREG}) = 0',
            "+++ exited with 0 +++",
        )
        wanted = [("/no/name", "rw"), ("/no/that", "w"), ("/usr/", "r"), ("/no/lib.so", "m"),
                  ("/no/name", "k"), ("/no/that", "w"), ("/no/sub/", "w"), ("/no/sub/", "w"),
                  ("/no/a", "rw"), ("/no/b", "rw"), ("/no/c", "w"), ("/no/socket", "rw")]
        self.assertEqual(needs_of_trace(lines), wanted)


class Services(FolderCase):
    """A service at work, in a folder in place of the machine's `/etc`, `/run` and `/var`."""

    def setUp(self) -> None:
        if not shutil.which("strace"):
            raise unittest.SkipTest("there is no strace")
        if not INCLUDED.joinpath("abstractions", "base").is_file():
            raise unittest.SkipTest("there is no apparmor")
        super().setUp()
        self.folder = self.folder.resolve()
        for name in ("usr/bin", "etc/dmr_trunk", "run/dmr_hub", "run/dmr_records", "run/systemd",
                     "var/log/dmr_hub", "var/lib/dmr_trunk"):
            (self.folder / name).mkdir(parents=True)

    def path(self, name: str) -> str:
        """The path of a file of the machine within the folder."""
        return f"{self.folder}{name}"

    def start(self, words: list[str], variables: dict[str, str]) -> subprocess.Popen[bytes]:
        """Starts a service, watched by strace. Python does not write what it has compiled: the user
        of a service may not."""
        trace = [shutil.which("strace") or "", "-ff", "-y", "-s", "4096", "-e", f"trace={CALLS}", "-o",
                 self.path("/trace")]
        environment = {"PATH": "/usr/bin:/bin", "LANG": "C.UTF-8", "PYTHONDONTWRITEBYTECODE": "1",
                       **variables}
        started = subprocess.Popen([*trace, *words], stderr=subprocess.PIPE, env=environment, cwd="/",
                                   process_group=0)
        assert started.stderr
        self.addCleanup(started.stderr.close)
        self.addCleanup(started.wait)
        self.addCleanup(lambda: started.poll() is None and os.killpg(started.pid, signal.SIGKILL))
        return started

    def needs(self) -> list[Need]:
        """What the service needed, with the paths that it has on a machine."""
        needs = []
        for trace in self.folder.glob("trace.*"):
            lines = trace.read_text(encoding="utf-8", errors="replace").splitlines()
            # systemd starts the service, and the profile holds from then on
            begins = int(lines[:1] != [] and lines[0].startswith("execve("))
            needs.extend(needs_of_trace(lines[begins:]))
        return sorted({Need(it.path.removeprefix(str(self.folder)), it.modes) for it in needs})


class HubProfile(Services):
    """The hub."""

    def setUp(self) -> None:
        super().setUp()
        words = [PYTHON, "-c", "import sys; sys.exit(sys.version_info < (3, 11))"]
        if not os.path.exists(PYTHON) or subprocess.run(words, check=False).returncode:
            raise unittest.SkipTest(f"{PYTHON} is none of Python 3.11 or later")
        self.fake = FakeConsole()
        self.addCleanup(self.fake.stop)
        self.port = free_ports(1)
        records = make_records(self.folder / "run/dmr_records/site.db")
        self.write("etc/dmr_trunk/site.toml", f"console_port = {self.fake.port}\nsilence = 600\n")
        names = (TOP / "sites" / "names.csv").read_text(encoding="utf-8")
        self.write("etc/dmr_trunk/names.csv", names)
        text = (TOP / "deploy" / "hub.toml").read_text(encoding="utf-8")
        text = re.sub(r'"(/etc/|/run/|/var/)', lambda found: f'"{self.folder}{found[1]}', text)
        text = text.replace('full_users = ["root"]', f"full_users = [{os.getuid()}]")
        for path in (records, self.path("/etc/dmr_trunk/names.csv")):
            text = text.replace('\nfile = ""\n', f'\nfile = "{path}"\n', 1)
        text = text.replace("\nport = 0\n", f"\nport = {self.port}\n")
        self.config = str(self.write("etc/dmr_trunk/hub.toml", text))
        self.notified = self.enterContext(socket.socket(socket.AF_UNIX, socket.SOCK_DGRAM))
        self.notified.bind(self.path("/run/systemd/notify"))

    def installed(self) -> str:
        """Installs the hub in the folder, as `make install` does. The path of its command."""
        library = self.path("/usr/lib/python3/dist-packages")
        ignored = shutil.ignore_patterns("__pycache__")
        shutil.copytree(TOP / "python" / "temzaar", f"{library}/temzaar", ignore=ignored)
        self.write("usr/lib/python3/dist-packages/temzaar/VERSION", "1.2.3\n")
        text = (TOP / "python" / "launcher.in").read_text(encoding="utf-8")
        text = text.replace("@TOOL@", "hub").replace("@PYTHON_LIB@", library)
        return str(self.write("usr/bin/dmr_hub", text))

    def get(self, path: str) -> str:
        """What the hub answers to a request."""
        url = f"http://127.0.0.1:{self.port}{path}"
        with urllib.request.urlopen(url, timeout=PATIENCE) as answer:
            return str(answer.read().decode())

    def drop(self) -> bytes:
        """The reply to a command that the audit log has."""
        with socket.socket(socket.AF_UNIX) as stream:
            stream.settimeout(PATIENCE)
            stream.connect(self.path("/run/dmr_hub/console.sock"))
            stream.sendall(b"drop 1001\n")
            return stream.recv(100)

    def test_it_permits_what_the_hub_does(self) -> None:
        variables = {"NOTIFY_SOCKET": self.path("/run/systemd/notify"), "WATCHDOG_USEC": "1000000"}
        hub = self.start([PYTHON, self.installed(), "--config", self.config], variables)
        wait_until(lambda: os.path.exists(self.path("/run/dmr_hub/console.sock")))
        found = "/v1/names.json?find=south"
        wait_until(lambda: "dmr_hub_records_reads_total 0" not in self.get("/metrics")
                   and "Mast South" in self.get(found))
        self.assertIn("dmr_hub_records_reads_total 1", self.get("/metrics"))
        self.assertIn('"name": "Mast South"', self.get(found))
        self.assertIn("<title>", self.get("/"))
        self.assertEqual(self.drop(), b"ok\n")
        os.killpg(hub.pid, signal.SIGTERM)
        self.assertEqual(hub.wait(PATIENCE), 0, hub.stderr.read() if hub.stderr else b"")
        needs = self.needs()
        for path, modes in (
            ("/var/log/dmr_hub/audit.jsonl", "w"), ("/run/systemd/notify", "w"),
            ("/run/dmr_hub/console.sock", "w"), ("/run/dmr_records/site.db", "k"),
            ("/etc/dmr_trunk/names.csv", "r"),
        ):
            self.assertTrue(any(it.path == path and modes in it.modes for it in needs), (path, needs))
        self.assertEqual(Profile(profile_text("dmr_hub")).refused(needs), [])
        changed = profile_text("dmr_hub", "  owner /tmp/???????? rw,\n")
        self.assertNotEqual(Profile(changed).refused(needs), [])


class ControllerProfile(Services):
    """The controller, with records and a recording."""

    def test_it_permits_what_the_controller_does(self) -> None:
        built = shutil.copy(program("dmr_trunk"), self.path("/usr/bin/dmr_trunk"))
        site, state = free_site(tick_ms=10, term_entries=50), self.path("/var/lib/dmr_trunk")
        path = str(self.write("etc/dmr_trunk/site.toml", site.text()))
        controller = self.start([built, "--site", path, "--serve", "--terms", "4"],
                                {"STATE_DIRECTORY": state, "DMR_TRUNK_RECORD": f"{state}/site-1.txt"})
        self.assertEqual(register_radio(site), ACKNOWLEDGED)
        said = controller.stderr.read() if controller.wait(PATIENCE) and controller.stderr else b""
        self.assertEqual(controller.returncode, 0, said)
        needs = self.needs()
        for name, modes in (("site.db", "rw"), ("site.db-wal", "rw"), ("site-1.txt", "rw")):
            self.assertIn(Need(f"/var/lib/dmr_trunk/{name}", modes), needs)
        self.assertEqual(Profile(profile_text("dmr_trunk")).refused(needs), [])
        changed = Profile(profile_text("dmr_trunk", "/*.txt rw,", "/*.txt w,"))
        self.assertEqual(changed.refused(needs), [Need("/var/lib/dmr_trunk/site-1.txt", "r")])
