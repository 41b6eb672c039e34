"""The command dmr_check, run as its user runs it: statuses, reports, standard input, and a controller that accepts, refuses, or judges nothing."""
import json
import os
import pty
import signal
import subprocess
import unittest

from temzaar.cli.check import MOST_OCTETS
from tests.support import (
    SITES, TOP, TWO_CARRIERS, FolderCase, program, run_tool, take_signals, tool_words, wait_until,
)
from tests.test_check_risks import SITE

FAULTY = SITE.replace("lpcn = 2", "lpcn = 4095").replace("hang = 100", "hnag = 100")
SHOWN = """\
FILE: fault: missing hang: `hang` is how long a call lasts without voice: 1 to 65535 ticks
FILE:5: warning: unknown-key: the controller does not know `hnag`, and ignores it
    hnag = 100
    do: did you mean `hang`?
FILE: refused, 1 warning
dmr_trunk refuses it: dmr_trunk: site file: missing hang
"""
NAMES = "radio,1001,Bus 12\nradio,5,Bus 5\ntalkgroup,7,x\ncarrier,9,y\nz\ntalkgroup,91,Drivers\nradio,1002,\n"
ACCEPTS = 'printf "carrier 0 -\\ncarrier 1 -\\n"'
REFUSES = 'echo "dmr_trunk: site file: missing hang" >&2; exit 1'


class Command(FolderCase):
    """A folder with site files and with programs that play a controller."""

    def setUp(self) -> None:
        super().setUp()
        # a dmr_trunk that accepts all is on the PATH, unless a test puts another one there
        self.environment = {**os.environ, "PATH": str(self.folder / "bin")}
        self.controller(ACCEPTS)

    def site(self, text: str, name: str = "site.toml") -> str:
        """A site file. Its path."""
        return str(self.write(name, text))

    def controller(self, script: str, name: str = "bin/dmr_trunk") -> None:
        """Writes a program that plays a controller."""
        self.write(name, f"#!/bin/sh\nPATH=/usr/bin:/bin\n{script}\n").chmod(0o755)

    def check(self, *words: str, **options: object) -> subprocess.CompletedProcess[str]:
        """Runs the command."""
        return run_tool("check", *words, **{"env": self.environment, **options})

    def expect(self, words: list[str], status: int, output: str, errors: str = "", **options: object) -> None:
        """The command ends with a status; its output ends with a text, and standard error is another."""
        done = self.check(*words, **options)
        self.assertEqual((done.returncode, done.stderr), (status, errors), done.stdout)
        self.assertTrue(done.stdout.endswith(output), done.stdout)


class Reports(Command):
    """What is printed."""

    def test_right(self) -> None:
        done = self.check(TWO_CARRIERS)
        self.assertEqual((done.returncode, done.stdout, done.stderr), (0, f"{TWO_CARRIERS}: right, 0 warnings\ndmr_trunk accepts it\n", ""))

    def test_files_of_the_repository(self) -> None:
        for path in SITES.glob("*.toml"):
            self.assertEqual(self.check(str(path)).returncode, 0, path.name)

    def test_faults_and_warnings(self) -> None:
        self.controller(REFUSES)
        path = self.site(FAULTY)
        done = self.check(path)
        self.assertEqual((done.returncode, done.stderr), (1, ""))
        self.assertEqual(done.stdout, SHOWN.replace("FILE", path))

    def test_names(self) -> None:
        """Each line that is not used, and each name for what the site does not have, by its line; alone, and with a site file."""
        path = self.site(NAMES, "names.csv")
        unused = f"{path}:5: warning: unused-line: not kind,number,name, three fields with commas between them\n{path}:7: warning: unused-line: the name is empty\n"
        alone = f"{unused}{path}: 5 names, 2 warnings\n"
        for words, status in ((["--names", path], 0), (["--names", path, "--strict"], 3)):
            done = self.check(*words)
            self.assertEqual((done.returncode, done.stdout, done.stderr), (status, alone, ""))
        both = (f"{path}:2: warning: unknown-radio: radio 5 is in no range of `radios`: it cannot register\n{path}:3: warning: unknown-talkgroup: talkgroup 7 is not in `groups`: nobody can call it\n"
                f"{path}:4: warning: unknown-carrier: no `[[carrier]]` has the number 9\n{unused}{path}: 5 names, 5 warnings\n{TWO_CARRIERS}: right, 0 warnings\ndmr_trunk accepts it\n")
        for words, status in ((["--names", path, TWO_CARRIERS], 0), (["--names", path, "--strict", TWO_CARRIERS], 3)):
            done = self.check(*words)
            self.assertEqual((done.returncode, done.stdout, done.stderr), (status, both, ""))
        # what a site file that is refused has is not known
        self.expect(["--names", self.site("x\n", "other.csv"), TWO_CARRIERS], 0, f"other.csv: 0 names, 1 warning\n{TWO_CARRIERS}: right, 0 warnings\ndmr_trunk accepts it\n")
        self.controller(REFUSES)
        self.expect(["--names", path, self.site(FAULTY)], 1, "refused, 1 warning\ndmr_trunk refuses it: dmr_trunk: site file: missing hang\n")
        self.assertIn(f"{path}: 5 names, 2 warnings\n", self.check("--names", path, self.site(FAULTY)).stdout)
        self.expect(["--names", path + "x", TWO_CARRIERS], 2, "", f"check: {path}x: No such file or directory\n")
        self.assertEqual(self.check().stderr.splitlines()[-1], "check: error: the following arguments are required: SITE_FILE")

    def test_names_for_machines(self) -> None:
        path = self.site(NAMES, "names.csv")
        alone, both = (json.loads(self.check("--json", "--names", path, *words).stdout) for words in ([], [TWO_CARRIERS]))
        self.assertEqual((alone["status"], alone["names"]["file"], alone["names"]["names"], alone["names"]["more_warnings"]), (0, path, 5, 0))
        self.assertEqual(alone["names"]["warnings"][1], {"name": "unused-line", "line": 7, "reason": "the name is empty"})
        self.assertEqual([(it["name"], it["line"]) for it in both["names"]["warnings"]], [("unknown-radio", 2), ("unknown-talkgroup", 3), ("unknown-carrier", 4), ("unused-line", 5), ("unused-line", 7)])
        self.assertNotIn("names", json.loads(self.check("--json", TWO_CARRIERS).stdout))

    def test_many_names(self) -> None:
        """A thousand warnings are listed, and the others counted."""
        path = self.site("".join(f"radio,{it},a\n" for it in range(5000, 6000)) + "x\n" * 1500, "names.csv")
        lines = self.check("--names", path, TWO_CARRIERS).stdout.splitlines()
        self.assertEqual((len(lines), lines[-4], lines[-3]), (1004, f"{path}: 1500 more warnings are not listed", f"{path}: 1000 names, 2500 warnings"))

    def test_the_example_of_names(self) -> None:
        done = self.check("--names", str(SITES / "names.csv"), "--strict", TWO_CARRIERS)
        self.assertEqual((done.returncode, done.stdout.splitlines()[0]), (0, f"{SITES}/names.csv: 8 names, 0 warnings"))

    def test_not_toml(self) -> None:
        """The reason, and the line, are those of Python's parser. What it does not read and the controller accepts is a warning."""
        path = self.site("a = 1\nb =")
        self.expect([path], 0, f"{path}:2: warning: newer-toml: the other tools do not read the file: Invalid value\n    b =\n"
                               f"    do: write it as TOML 1.0 has it, and without a byte order mark\n{path}: right, 1 warning\ndmr_trunk accepts it\n")
        self.controller('echo "dmr_trunk: site file: not TOML" >&2; exit 1')
        self.expect([path], 1, f"{path}:2: fault: not TOML: Invalid value\n    b =\n{path}: refused, 0 warnings\ndmr_trunk refuses it: dmr_trunk: site file: not TOML\n")

    def test_the_line_of_a_fault(self) -> None:
        """The key's line; of carriers that of the first one to which the controller's text may apply, counted by hand; the header if the key is missing."""
        for old, new, fault, line in (("hang = 100", "hang = 0", "out of range hang", 5), ("tsi = 0xFFFECA", "tsi = 0xFFFEC6", "repeated tsi", 3), ("control = 0", "control = 2", "out of range control", 18),
                                      ("groups = [91, 92, 93, 94]", "groups = [\n91, 91]", "repeated groups", 17), ("lpcn = 2", "lpcn = 4095", "out of range lpcn", 25), ("lpcn = 2", "lpcn = 1", "repeated lpcn", 25),
                                      ("lpcn = 2\n", "", "missing lpcn", 23), ("port = 7102", "port = 'x'", "wrong type port", 26), ("port = 7101", "port = 7100", "repeated port", 22),
                                      ("port = 7102", "port = 7101", "repeated port", 26), ("number = 1", "number = 16", "out of range number", 24), ("control = 0", "carriers = 0", "missing control", None)):
            self.assertIn(old, SITE)
            self.controller(f'echo "dmr_trunk: site file: {fault}" >&2; exit 1')
            done = self.check("--json", self.site(SITE.replace(old, new, 1)))
            self.assertEqual((done.returncode, json.loads(done.stdout)["fault"]["text"], json.loads(done.stdout)["fault"]["line"]), (1, fault, line))

    def test_json(self) -> None:
        self.controller(REFUSES)
        done = self.check("--json", "--explain", self.site(FAULTY))
        found = json.loads(done.stdout)
        self.assertEqual((done.returncode, found["status"], found["fault"], found["controller"]),
                         (1, 1, {"text": "missing hang", "detail": "`hang` is how long a call lasts without voice: 1 to 65535 ticks", "line": None}, "dmr_trunk"))
        self.assertEqual([(it["name"], it["key"], it["line"], it["do"]) for it in found["warnings"]], [("unknown-key", "hnag", 5, "did you mean `hang`?")])
        self.assertEqual(next(it for it in found["values"] if it["key"] == "maximum")["amounts"], "3 min 0 s")
        self.assertNotIn("values", json.loads(self.check("--json", TWO_CARRIERS).stdout))

    def test_explain(self) -> None:
        done = self.check("--explain", self.site(SITE.replace("hang = 100", "hang = 90")))
        self.assertEqual(done.returncode, 0)
        self.assertRegex(done.stdout, r"(?m)^hang +90 +5\.4 s +how long a call lasts without voice$")
        self.assertRegex(done.stdout, r"(?m)^link_version +1 \(default\) +the greatest version")
        self.assertIn("right, 0 warnings\n", done.stdout)
        # a text without values has no table
        self.assertNotIn("what it is", self.check("--explain", self.site("a =")).stdout)

    def test_a_long_line(self) -> None:
        """A line that does not fit is cut."""
        groups = ", ".join(map(str, range(1001, 1041)))
        shown = self.check(self.site(SITE.replace("groups = [91, 92, 93, 94]", f"groups = [{groups}]"))).stdout.split("\n")[1]
        self.assertEqual(shown, "    " + f"groups = [{groups}]"[:100] + " ..")

    def test_strict(self) -> None:
        path = self.site(SITE.replace("hang = 100", "hang = 1"))
        for words, status in (([path], 0), (["--strict", path], 3), (["--strict", TWO_CARRIERS], 0)):
            self.assertEqual(self.check(*words).returncode, status)
        self.controller(REFUSES)
        self.assertEqual(self.check("--strict", path).returncode, 1)

    def test_link_version(self) -> None:
        self.assertIn("warning: old-link: ", self.check("--link-version", "2", TWO_CARRIERS).stdout)
        self.assertNotIn("old-link", self.check("--link-version", "1", TWO_CARRIERS).stdout)

    def test_standard_input(self) -> None:
        self.expect(["-"], 0, "<stdin>: right, 0 warnings\ndmr_trunk accepts it\n", input=SITE)
        self.expect(["-"], 0, "<stdin>: right, 1 warning\ndmr_trunk accepts it\n", input=FAULTY)

    def test_what_would_change_a_terminal_is_not_printed(self) -> None:
        path = self.site("\x1b[2J = 1\n", "\x1b[31m.toml")
        self.assertNotIn("\x1b", self.check(path).stdout)
        self.assertNotIn("\x1b", self.check(self.site('"\\u001b[2J" = 1\n' + SITE)).stdout)

    def test_colours_on_a_terminal_alone(self) -> None:
        self.controller(REFUSES)
        path = self.site(FAULTY)
        self.assertNotIn("\x1b", self.check(path).stdout)
        for environment, has_colours in (({"TERM": "xterm"}, True), ({"TERM": "xterm", "NO_COLOR": "1"}, False), ({"TERM": "dumb"}, False)):
            try:
                outer, inner = pty.openpty()
            except OSError as error:
                self.skipTest(f"there is no terminal to open: {error.strerror}")
            subprocess.run(tool_words("check", path), stdout=inner, env={**self.environment, "NO_COLOR": "", **environment}, check=False, timeout=60)
            os.close(inner)
            self.assertEqual(b"\x1b[1;31m" in os.read(outer, 65536), has_colours, environment)
            os.close(outer)


class Refused(Command):
    """What cannot be checked: a message and status 2, and no traceback."""

    def test_files(self) -> None:
        large = self.site("#" * (MOST_OCTETS + 1))
        for path, why in (("", "cannot read : No such file or directory"), (large, f"{large} is larger than 1 MiB: that is not a site file"),
                          ("/dev/zero", "/dev/zero is larger than 1 MiB: that is not a site file")):
            self.expect([path], 2, "", f"check: {why}\n")

    def test_no_standard_input(self) -> None:
        words = f"{' '.join(tool_words('check'))} - <&-"
        done = subprocess.run(["/bin/sh", "-c", words], capture_output=True, text=True, env=self.environment, check=False, timeout=60)
        self.assertEqual((done.returncode, done.stderr), (2, "check: cannot read standard input: it is closed\n"))

    def test_not_utf_8(self) -> None:
        path = self.folder / "site.toml"
        path.write_bytes(b"a = 1\n# \xff\n")
        self.expect(["--no-controller", str(path)], 0, ": not judged, 1 warning\n")
        self.assertIn(f"{path}:2: warning: newer-toml: the other tools do not read the file: the octet FF is not UTF-8\n", self.check(str(path)).stdout)


class Asked(Command):
    """The controller judges."""

    def test_it_is_not_asked(self) -> None:
        self.controller(REFUSES)
        self.expect(["--no-controller", TWO_CARRIERS], 0, "not judged, 0 warnings\n")

    def test_there_is_none(self) -> None:
        (self.folder / "bin" / "dmr_trunk").unlink()
        self.expect([TWO_CARRIERS], 2, "", "check: there is no dmr_trunk on the PATH that judges the site file: name one with --controller, or do without by --no-controller\n")

    def test_what_it_is_given(self) -> None:
        self.controller(f'test "$1" = --site && test "$3" = --script && test "$4" = /dev/null && cp "$2" {self.folder}/copy && cat {self.folder}/said')
        (self.folder / "said").write_text("carrier 0 -\ncarrier 1 -\n", encoding="utf-8")
        self.expect(["-"], 0, "dmr_trunk accepts it\n", input=SITE)
        self.assertEqual((self.folder / "copy").read_text(encoding="utf-8"), SITE)

    def test_by_a_name_alone(self) -> None:
        self.controller(ACCEPTS, "mine")
        self.expect(["--controller", "mine", TWO_CARRIERS], 0, "mine accepts it\n", cwd=self.folder)
        self.controller(ACCEPTS, "bin/other")
        self.expect(["--controller", "other", TWO_CARRIERS], 0, "other accepts it\n", cwd=self.folder)

    def test_it_is_no_program(self) -> None:
        self.expect(["--controller", TWO_CARRIERS, TWO_CARRIERS], 2, "", f"check: cannot run {TWO_CARRIERS}: it is not a program\n")

    def test_it_judges_nothing(self) -> None:
        for script, said in (("exit 4", "status 4: no message"), ("echo dmr_trunk: out of memory >&2; exit 4", "status 4: dmr_trunk: out of memory"),
                             ("echo other >&2; exit 1", "status 1: other"), ("kill -9 $$", "status -9: no message"), ("exit 0", "status 0: no message")):
            self.controller(script)
            self.expect([self.site(FAULTY)], 2, "not judged, 1 warning\n", f"check: dmr_trunk judged nothing, {said}\n")
        self.assertIn("judged nothing", json.loads(self.check("--json", TWO_CARRIERS).stdout)["no_verdict"])

    def test_a_broken_program(self) -> None:
        path = self.folder / "bin" / "dmr_trunk"
        path.write_bytes(b"\0")
        path.chmod(0o755)
        self.expect([TWO_CARRIERS], 2, "not judged, 0 warnings\n", "check: cannot run dmr_trunk: Exec format error\n")

    def test_signals(self) -> None:
        self.controller(f"touch {self.folder}/began; exec sleep 60")
        for number in (signal.SIGTERM, signal.SIGINT):
            temporary = self.folder / f"temporary{number}"
            temporary.mkdir()
            with subprocess.Popen(tool_words("check", TWO_CARRIERS), env={**self.environment, "TMPDIR": str(temporary)}, stdout=subprocess.PIPE, stderr=subprocess.PIPE, preexec_fn=take_signals) as process:
                wait_until((self.folder / "began").exists)
                process.send_signal(number)
                output, errors = process.communicate(timeout=60)
            (self.folder / "began").unlink()
            self.assertEqual((process.returncode, output, errors), (-number, b"", b""))
            self.assertEqual([*temporary.iterdir()], [])

    def test_the_real_one(self) -> None:
        built = program("dmr_trunk")
        self.expect(["--controller", built, TWO_CARRIERS], 0, f"{built} accepts it\n")
        self.expect(["--controller", built, self.site(FAULTY)], 1, f"{built} refuses it: dmr_trunk: site file: missing hang\n")


class Unit(unittest.TestCase):
    """The systemd unit runs the command before the controller, with words that it takes."""

    def test_unit(self) -> None:
        lines = (TOP / "deploy/dmr_trunk.service").read_text(encoding="utf-8").splitlines()
        before = next(line for line in lines if line.startswith("ExecStartPre="))
        # `-`: the controller starts whatever comes of it, and judges the file itself
        self.assertTrue(before.startswith("ExecStartPre=-@PREFIX@/bin/dmr_check "), before)
        self.assertIn("StandardOutput=journal", lines)
        serve = next(line for line in lines if line.startswith("ExecStart="))
        *words, path = before.split()[1:]
        self.assertIn(f" {path} ", serve)
        self.assertEqual(run_tool("check", *words, TWO_CARRIERS).returncode, 0)
