"""How a release is made: its steps, the runs that make it, its record, and its list of components."""
import hashlib
import importlib
import io
import json
import pathlib
import re
import subprocess
import unittest
import unittest.mock

from tests.support import TOP, FolderCase, load_command

command = load_command("ci/release")
steps = importlib.import_module("releasing.steps")
reached = importlib.import_module("releasing.reached")
shown = importlib.import_module("progress")
record = importlib.import_module("releasing.record")
components = importlib.import_module("releasing.components")
promises = importlib.import_module("releasing.promises")

SOURCE = record.Source("1.2.3", "0123456789abcdef", "2026-01-02", "d" * 64, 7)
RUN = reached.Run("2026-01-02", ["2 processors", "8 GiB of memory"])


def outcome(name: str, status: int | None, last: str = "a last line") -> object:
    """The outcome of a step that took a second."""
    return steps.Outcome(steps.Step(name, ["true"], 1), status, 1.0, last)


class Steps(FolderCase):
    """The commands of a release."""

    def test_short_run_has_the_same_steps(self) -> None:
        """A short run leaves out no step, and none of it is served for long."""
        for listed in (steps.all_steps, steps.long_steps):
            whole, short = listed(False), listed(True)
            self.assertEqual([it.words[0] for it in whole], [it.words[0] for it in short])
            self.assertFalse([it for it in short if {str(steps.SERVED), str(steps.LONG_SERVED)} & set(it.words)])

    def test_names(self) -> None:
        """Each step has a name of its own, and so has its log, which is that of a file."""
        for short in (False, True):
            names = [steps.log_name(it) for it in (*steps.all_steps(short), *steps.long_steps(short))]
            self.assertEqual(len(names), len(set(names)))
            for name in names:
                self.assertRegex(name, r"^[a-z0-9-]+\.txt$")

    def test_it_fits(self) -> None:
        """By the times that the steps took last, a release is made in two hours, and half of the gate's time is left for a slower machine."""
        seconds = {it.name: it.seconds for it in steps.all_steps(False)}
        self.assertLess(sum(seconds.values()) + seconds["the prover's gate, from nothing"] / 2, 2 * 3600)

    def test_commands_exist(self) -> None:
        """Each command is a file of the repository, a program that it builds, or a target of the Makefile."""
        targets = (TOP / "Makefile").read_text(encoding="utf-8")
        for it in (*steps.all_steps(False), *steps.long_steps(False)):
            with self.subTest(it.name):
                if it.words[0] == "make":
                    self.assertIn(f"\n{it.words[1]}:", targets)
                elif not it.words[0].startswith("build/"):
                    self.assertTrue((TOP / it.words[0]).is_file())

    def test_outcomes(self) -> None:
        """A step that fails, one that does not start, and one that passes: their status and their last line."""
        for words, status, last in ((["sh", "-c", "echo first; echo last"], 0, "last"), (["sh", "-c", "echo why >&2; exit 3"], 3, "why"), (["./missing"], 127, "./missing: No such file or directory")):
            with self.subTest(words):
                step = steps.Step("a step", words, 1)
                got = steps.run_step(step, self.folder, self.folder / "log.txt")
                self.assertEqual((got.status, got.last), (status, last))


class Runs(FolderCase):
    """A release that several runs make."""

    def setUp(self) -> None:
        super().setUp()
        (self.folder / "logs").mkdir()
        self.steps = [steps.Step(name, ["sh", "-c", f"echo {name}; test {name} != fails"], 1) for name in ("first", "fails", "last")]

    def run_all(self, listed: list[object], seconds: float = 60) -> tuple[list[tuple[str, int, int]], str]:
        """Runs the steps as run 2: the outcomes, and what was shown, with 0 s in the place of all times."""
        out = io.StringIO()
        progress = shown.Progress([(it.name, it.seconds) for it in listed], out)
        return [(it.step.name, it.status, it.run) for it in steps.run_all(listed, self.folder, self.folder / "logs", progress, 2, seconds)], re.sub(r"\(\d+ s\)", "(0 s)", out.getvalue())

    def test_each_is_run_and_shown(self) -> None:
        """A step that fails ends nothing. Each has a line that says how many are left."""
        outcomes, text = self.run_all(self.steps)
        self.assertEqual(outcomes, [("first", 0, 2), ("fails", 1, 2), ("last", 0, 2)])
        for line in ("passed  first (0 s): first; 2 steps left", "FAILED, status 1  fails (0 s): fails; 1 step left", "passed  last (0 s): last; no step left"):
            self.assertIn(line, text)

    def test_time_is_over(self) -> None:
        """No step begins after the time is over, nor one that would end after it by the time that it took last. Shorter ones after it do."""
        self.assertEqual(self.run_all(self.steps, 0)[0], [])
        self.steps[1] = self.steps[1]._replace(seconds=90)
        self.assertEqual([it[0] for it in self.run_all(self.steps)[0]], ["first", "last"])
        self.assertEqual([it[0] for it in self.run_all(self.steps, 120)[0]], ["first", "fails", "last"])

    def test_side_by_side(self) -> None:
        """Two steps run side by side: each waits for the other."""
        meets = "touch {0}; for it in $(seq 500); do [ -e {1} ] && exit; sleep 0.01; done; exit 1"
        pair = [steps.Step(mine, ["sh", "-c", meets.format(mine, other)], 1, side_by_side=mine == "right") for mine, other in (("left", "right"), ("right", "left"))]
        self.assertEqual(self.run_all(pair)[0], [("left", 0, 2), ("right", 0, 2)])

    def test_reached(self) -> None:
        """What is written is read again. Steps that failed, were left out or were not done are to do. Any other text is refused."""
        outcomes = {"first": steps.Outcome(self.steps[0], 0, 1.5, "well", 1), "fails": steps.Outcome(self.steps[1], 3, 2.0, "why", 2)}
        written = reached.Reached("c0ffee", False, [RUN, RUN], outcomes)
        written.write(self.folder)
        read = reached.Reached.read(self.folder, self.steps)
        self.assertEqual((read.commit, read.short, len(read.runs), read.outcomes), ("c0ffee", False, 2, outcomes))
        self.assertEqual(read.to_do(self.steps), self.steps[1:])
        for text in ("", "{}", '{"commit": "c0ffee", "short": false, "runs": [], "steps": [{"step": "unknown"}]}'):
            with self.subTest(text), self.assertRaises(ValueError):
                (self.folder / reached.NAME).write_text(text, encoding="ascii")
                reached.Reached.read(self.folder, self.steps)

    def test_what_was_built_is_kept(self) -> None:
        """A later run finds in its clone what an earlier one has built, but for the package's folder; the release has the programs and the package of it."""
        first, second, folder = (self.folder / name for name in ("first", "second", "release"))
        for path in (second, folder):
            path.mkdir()
        reached.keep_built(second, folder)
        self.assertEqual((list(folder.iterdir()), command.copy_built(folder)), ([], []))
        (first / "build" / "package").mkdir(parents=True)
        for name in (*command.PROGRAMS, "dmr-trunk_1.2.3_amd64.deb", "SOURCES"):
            (first / "build" / name).write_text(name, encoding="ascii")
        reached.keep_built(first, folder)
        reached.keep_built(first, folder)
        reached.take_built(folder, second)
        kept = {*command.PROGRAMS, "dmr-trunk_1.2.3_amd64.deb", "SOURCES"}
        self.assertEqual({it.name for it in (second / "build").iterdir()}, kept)
        self.assertEqual(command.copy_built(folder), [*command.PROGRAMS, "dmr-trunk_1.2.3_amd64.deb"])
        self.assertEqual((folder / "dmr_trunk").read_text(encoding="ascii"), "dmr_trunk")


class Texts(FolderCase):
    """The texts that commands of the sources print."""

    def test_written(self) -> None:
        """Each is what its command prints in the clone. If a command fails, so does the release."""
        clone, to = self.folder / "clone", self.folder
        for name, *_ in command.TEXTS.values():
            self.write(f"clone/{name}", '#!/bin/sh\necho "${0##*/} $*"\n').chmod(0o755)
        command.write_texts(clone, to)
        self.assertEqual({it: (to / it).read_text(encoding="ascii") for it in command.TEXTS}, {"TRUSTED.txt": "trusted-definitions --sources\n", "CLAUSES.txt": "clauses \n"})
        self.write("clone/ci/clauses", "#!/bin/sh\nexit 1\n")
        self.assertRaises(subprocess.CalledProcessError, command.write_texts, clone, to)

    def test_commands_exist(self) -> None:
        for name, *_ in command.TEXTS.values():
            self.assertTrue((TOP / name).is_file())


class Begins(FolderCase):
    """The folder of a release, at the beginning of a run. The commit is a made one: a checkout may be without git."""

    def setUp(self) -> None:
        super().setUp()
        self.folder = self.folder / "release"
        self.enterContext(unittest.mock.patch.object(command, "git", lambda *_: "0ddba11\n"))

    def test_new_folder(self) -> None:
        """The first run makes the folder, and a later one goes on with it."""
        first = command.begin(self.folder, False, False)
        self.assertEqual((len(first.runs), first.outcomes), (1, {}))
        self.assertEqual(len(command.begin(self.folder, False, True).runs), 2)

    def test_refused(self) -> None:
        """A folder that is not there, or that has a release of another commit or of another kind, is refused."""
        with self.assertRaises(OSError):
            command.begin(self.folder, False, True)
        first = command.begin(self.folder, False, False)
        for other in (first._replace(commit="c0ffee"), first._replace(short=True)):
            other.write(self.folder)
            with self.subTest(other), self.assertRaises(ValueError):
                command.begin(self.folder, False, True)


class Records(FolderCase):
    """RECORD.md, and the digests."""

    def text(self, outcomes: list[object], short: bool = False, more: tuple[object, ...] = (), longer: tuple[object, ...] = ()) -> str:
        """The record of these outcomes, of more steps that are to do, and of longer ones that passed."""
        done = {it.step.name: it for it in (*outcomes, *longer)}
        made = record.Made(SOURCE, short, ["a toolchain", "compiler c0ffee"], [RUN], {"dmr_trunk": "e" * 64}, [*(it.step for it in outcomes), *more], [it.step for it in longer], done)
        return record.record_of(made, [promises.Promise("dmr_x::run", "Runs", "pub fn run()\n    ensures { x }")])

    def test_whole(self) -> None:
        """A record of a release names sources, toolchain, digests, steps and theorems."""
        text = self.text([outcome("a step", 0), outcome("another", None, "it needs root")])
        self.assertNotIn("not a release", text)
        self.assertNotIn("longer", text)
        for part in ("# dmr_trunk 1.2.3", SOURCE.commit, SOURCE.digest, "| toolchain | a toolchain |\n| toolchain | compiler c0ffee |\n", f"| `dmr_trunk` | SHA-256 `{'e' * 64}` |", "1 passed, 0 failed, 1 left out, 0 to do", "| another | left out |", "| run 1, 2026-01-02 | 2 processors; 8 GiB of memory |", "### `dmr_x::run`\n\nRuns.", "    ensures { x }\n```"):
            self.assertIn(part, text)

    def test_longer(self) -> None:
        """Longer steps have a table of their own, and no release waits for them."""
        text = self.text([outcome("a step", 0)], longer=(outcome("an hour", 1),))
        self.assertNotIn("not a release", text)
        self.assertIn("| an hour | FAILED, status 1 |", text.partition("## What was run longer")[2])

    def test_what_is_not_a_release(self) -> None:
        """A failed step, a short run, and a step that is to do: the record says so at its beginning."""
        to_do = (steps.Step("another", ["true"], 1),)
        for status, short, more in ((2, False, ()), (0, True, ()), (0, False, to_do)):
            with self.subTest(status=status, short=short):
                text = self.text([outcome("a step", status)], short, more)
                self.assertIn("not a release", text.partition("| commit |")[0])
        self.assertIn("| another | to do |", text)

    def test_sums(self) -> None:
        """`sha256sum -c` accepts the digests."""
        self.write("a", "octets\n")
        sums = self.write("SHA256SUMS", record.sums_of(self.folder, ["a"]))
        self.assertIn(hashlib.sha256(b"octets\n").hexdigest(), sums.read_text(encoding="utf-8"))
        subprocess.run(["sha256sum", "--quiet", "-c", "SHA256SUMS"], cwd=self.folder, check=True)

    def test_machine_has_no_name(self) -> None:
        """The record does not name the host."""
        host = pathlib.Path("/proc/sys/kernel/hostname").read_text(encoding="ascii").strip()
        self.assertFalse([it for it in record.describe_machine() if host and host in it])


class Version(unittest.TestCase):
    """The version that the documents name."""

    def test_status(self) -> None:
        """The README's status has the newest release in the list of changes, with its date, or says that there is none. The program's version is that or the next."""
        version = subprocess.run([TOP / "ci/version"], check=True, capture_output=True, text=True).stdout.strip().removesuffix("~dev")
        released = re.findall(r"^## (\d+\.\d+\.\d+), (\d{4}-\d\d-\d\d)$", (TOP / "CHANGELOG.md").read_text(encoding="utf-8"), re.M)
        status = f"version {', '.join(released[0])}" if released else f"not released yet; the next version is {version}"
        self.assertIn(f"\nStatus: {status}", (TOP / "README.md").read_text(encoding="utf-8"))
        if released:
            self.assertGreaterEqual([int(it) for it in version.split(".")], [int(it) for it in released[0][0].split(".")])


class Components(FolderCase):
    """The list of components."""

    def test_crates(self) -> None:
        """Each crate of crates.txt is there with its libraries."""
        self.assertEqual(sorted(components.read_crates(TOP)), sorted(it.name for it in (TOP / "crates").iterdir() if it.is_dir()))

    def test_identity(self) -> None:
        """The kit's line comes first, then each line of its file WHAT, or that it is not known, and why."""
        lines = {"archive": "archive ab", "commit": "commit cd", "compiler": "compiler ef"}
        for text, unknown, why in (
            ("rattle-kit-1\narchive ab\ncommit cd\ncompiler ef\n", (), ""),
            ("archive ab\ncommit cd\n", ("compiler",), "has no such line"),
            (None, ("archive", "commit", "compiler"), "cannot be read: No such file or directory"),
        ):
            with self.subTest(text):
                (self.folder / "WHAT").unlink(missing_ok=True)
                if text is not None:
                    self.write("WHAT", text)
                asked = {"ask_rt": lambda *_: f"{self.folder}/START-HERE.md\n",
                         "read_kit": lambda: "kit-1 logic c0ffee"}
                with unittest.mock.patch.multiple(components, **asked):
                    identity = components.read_identity()
                wanted = [f"{it} not known: the toolchain's file WHAT {why}" if it in unknown else line for it, line in lines.items()]
                self.assertEqual(identity, ["kit-1 logic c0ffee", *wanted])

    def test_document(self) -> None:
        """The document has each component and each file once, and relates the document to all of them."""
        listed = [components.Component("dmr_x", "1.2.3", components.OUR_LICENSE, "a crate"), components.Component("mio", "1.1.0", components.NO_ASSERTION, "a port")]
        document = json.loads(components.spdx_of(listed, {"dmr_trunk": "ab"}, "1.2.3", "2026-01-02T03:04:05Z", "c0ffee"))
        self.assertEqual(document["spdxVersion"], "SPDX-2.3")
        self.assertEqual([it["name"] for it in document["packages"]], ["dmr_x", "mio"])
        identifiers = [it["SPDXID"] for it in (*document["packages"], *document["files"])]
        self.assertEqual(sorted(identifiers), sorted(set(identifiers)))
        self.assertEqual([it["relatedSpdxElement"] for it in document["relationships"]], identifiers)


class Promises(unittest.TestCase):
    """The theorems."""

    def test_contracts(self) -> None:
        """Each function has its clauses, and not its body."""
        for it in promises.read_promises(TOP):
            with self.subTest(it.function):
                self.assertIn("ensures", it.contract)
                self.assertNotIn("\n}", it.contract)
                self.assertTrue(it.says)
