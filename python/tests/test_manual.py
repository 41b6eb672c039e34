"""The manual pages, as `ci/write-manual` writes them: their form, and that they have the options, statuses, keys, messages and commands of the programs and documents."""
import functools
import os
import re
import shlex
import shutil
import subprocess
import sys
import unittest
from typing import NamedTuple

from tests.support import (
    TOP, FolderCase, load_command, manual_pages, program, read_document, run_tool, table_rows,
)
from tests.test_messages import as_pattern, messages

WRITE = TOP / "ci" / "write-manual"
TOOLS = ("siteview", "timeline", "callbook", "report", "archive", "carriers", "conform", "check", "restart", "console", "hub")
PAGE_OF = {tool: f"dmr_{tool}.{8 if tool in ('hub', 'archive', 'restart') else 1}" for tool in TOOLS}
WANTED = {"dmr_trunk.8", "dmr_trunk.5", "dmr_decode.1", *PAGE_OF.values()}
# The order of sections; a page leaves out those that do not apply.
ORDER = ("NAME", "SYNOPSIS", "DESCRIPTION", "COMMANDS", "OPTIONS", "JUDGEMENTS", "JOURNAL", "CONSOLE", "SIGNALS", "EXIT STATUS", "DIAGNOSTICS", "ENVIRONMENT", "FILES", "SECURITY", "EXAMPLES", "SEE ALSO")
ALWAYS = {"NAME", "SYNOPSIS", "DESCRIPTION", "EXAMPLES", "SEE ALSO"}
# A reader of an installed page has no source tree.
SOURCE_TREE = re.compile(r"(?<![\w/])(?:tools|docs|build|crates|sites|ci|python|trials|cases|bench|deploy)/|\\fBmake \w|^ +make \w")
ESCAPES = {r"\-": "-", r"\:": "", r"\&": "", r"\e": "\\", r"\(lq": "“", r"\(rq": "”", r"\(aq": "'", r"\(dq": '"', r"\(ga": "`", r"\(ha": "^", r"\(ti": "~"}


class Entry(NamedTuple):
    """An item of a page's list: its tags, and the text below them."""
    tags: list[str]
    text: str


def text_of(page: str) -> str:
    """A page as it is written."""
    return manual_pages()[page].read_text(encoding="utf-8")


def unescaped(text: str) -> str:
    """A roff text without its escapes."""
    text = re.sub(r"\\f[BIR]", "", text)
    return re.sub(r"\\\(..|\\\[u([0-9A-F]{4})\]|\\.", lambda it: chr(int(it[1], 16)) if it[1] else ESCAPES[it[0]], text)


def plain(line: str) -> str:
    """The words of a line, without the macro before them."""
    if not line.startswith("."):
        return unescaped(line)
    _, _, rest = line[1:].partition(" ")
    return " ".join(unescaped(it) for it in shlex.split(rest.replace("\\", "\\\\").replace("'", "\\'"))) if rest else ""


def sections_of(page: str) -> dict[str, list[str]]:
    """The lines of each section of a page."""
    found: dict[str, list[str]] = {}
    for line in text_of(page).splitlines():
        if line.startswith(".SH "):
            found[line[4:]] = []
        elif found:
            found[list(found)[-1]].append(line)
    return found


def entries_of(lines: list[str]) -> list[Entry]:
    """The items of the lists in some lines."""
    found: list[Entry] = []
    tagged = inside = False
    for line in lines:
        macro = line[1:3] if line.startswith(".") else ""
        if macro in ("TP", "TQ"):
            if macro == "TP":
                found.append(Entry([], ""))
            tagged = inside = True
        elif macro in ("PP", "RS", "RE", "SS"):
            inside = False
        elif tagged:
            found[-1].tags.append(plain(line))
            tagged = False
        elif inside:
            found[-1] = found[-1]._replace(text=f"{found[-1].text} {plain(line)}".strip())
    return found


def options_of(help_text: str) -> dict[str, str]:
    """The options of a help text, each as it is written, with its text."""
    found, last = {}, ""
    for line in help_text.split("ptions:\n", 1)[1].splitlines():
        if option := re.match(r"^ {2,6}(-\S.*?)(?:  +(\S.*))?$", line):
            last = option[1].replace("<", "").replace(">", "")
            found[last] = option[2] or ""
        elif line.startswith("   ") and last:
            found[last] = f"{found[last]} {line.strip()}".strip()
        elif line:
            last = ""
    return found


@functools.cache
def help_of(tool: str) -> str:
    """What a tool prints for `--help`."""
    return run_tool(tool, "--help", env={**os.environ, "COLUMNS": "1000"}).stdout


def says(text: str, wanted: str) -> bool:
    """Whether a text begins with the expected one, except for the case of its first letter, and then ends a sentence."""
    return text[:1].lower() + text[1:len(wanted)] == wanted[:1].lower() + wanted[1:] and text[len(wanted):len(wanted) + 1] in ("", ".")


class Form(FolderCase):
    """The form of each page."""

    def test_there_is_a_page_for_each(self) -> None:
        self.assertEqual(set(manual_pages()), WANTED)

    def test_sections(self) -> None:
        version = subprocess.run([TOP / "ci" / "version"], capture_output=True, text=True, check=True).stdout.strip()
        for page in WANTED:
            with self.subTest(page):
                found = sections_of(page)
                self.assertLessEqual(ALWAYS, set(found))
                self.assertEqual([it for it in ORDER if it in found], [*found])
                name, number = page.split(".")
                self.assertRegex(text_of(page), rf'^\.TH {name.upper()} {number} "(\d{{4}}-\d\d-\d\d)?" "Temzaar {version}" ".*"\n')
                self.assertTrue(found["NAME"][0].startswith(rf"{name} \- "), found["NAME"])

    def test_no_path_of_the_source_tree(self) -> None:
        for page in WANTED:
            for line in text_of(page).splitlines():
                self.assertIsNone(SOURCE_TREE.search(line), f"{page}: {line}")

    def test_everything_is_filled_in(self) -> None:
        """No directive, no placeholder and no mark of the sources is left."""
        for page in WANTED:
            for line in text_of(page).splitlines():
                self.assertNotRegex(line, r"^@|@[A-Z]+@|`|\*|\]\(", page)

    def test_pages_that_are_named_exist(self) -> None:
        for page in WANTED:
            named = re.findall(r"(dmr_\w+)(?:\\fR)?\((\d)\)", text_of(page))
            self.assertTrue(named)
            for name, number in named:
                self.assertIn(f"{name}.{number}", WANTED, page)

    def test_tools_for_pages_find_nothing(self) -> None:
        for words in (["lexgrog"], ["groff", "-ww", "-man", "-Tutf8", "-z"], ["man", "--warnings", "-E", "UTF-8", "-l", "-Tutf8", "-Z"]):
            if not shutil.which(words[0]):
                self.skipTest(f"there is no {words[0]}: the packages man-db and groff have it")
            for page, path in manual_pages().items():
                with self.subTest(words[0], page=page):
                    done = subprocess.run([*words, str(path)], capture_output=True, text=True, check=False, env={**os.environ, "LC_ALL": "C.UTF-8", "MANPAGER": "cat"})
                    self.assertEqual((done.returncode, done.stderr), (0, ""))

    def test_each_run_writes_the_same(self) -> None:
        """The prefix is that of the words, and the date that of the environment."""
        for name in ("one", "two"):
            subprocess.run([sys.executable, WRITE, "--prefix", "/opt/x-y", self.folder / name],
                           check=True, env={**os.environ, "SOURCE_DATE_EPOCH": "0"})
        for page, path in manual_pages().items():
            one, two = ((self.folder / it / path.parent.name / page).read_bytes() for it in ("one", "two"))
            self.assertEqual(one, two)
            self.assertIn(b'"1970-01-01"', one)
            self.assertNotIn(b"/usr/local", one)
        self.assertIn(rb"/opt/x\-y/share/doc", (self.folder / "one/man8/dmr_trunk.8").read_bytes())

    def test_a_source_that_adds_to_nothing(self) -> None:
        """A row for an option, or a status, that the program does not have is refused."""
        writing = load_command("ci/write-manual")
        for section, row in (("OPTIONS", "| --nothing | Text. |"), ("EXIT STATUS", "| 7 | Text. |"), ("DESCRIPTION", "@nothing"), ("FILES", "@paragraph HUB.md No paragraph begins so")):
            with self.subTest(row):
                text = f"# dmr_check(1): check\n\n## {section}\n\n{row}\n"
                path = self.write("dmr_check.1.md", text)
                with self.assertRaises(SystemExit):
                    writing.Writer(writing.Source(path), set()).page("0", "/usr", "")


class Options(unittest.TestCase):
    """The options, and their texts."""

    def compare(self, page: str, wanted: dict[str, str]) -> None:
        """The page has the expected options, and their texts."""
        entries = {entry.tags[0]: entry.text for entry in entries_of(sections_of(page)["OPTIONS"])}
        self.assertEqual(set(entries), set(wanted))
        for option, text in wanted.items():
            # what clap adds to an option that has a default
            text = re.sub(r" \[default: .*\]$", "", text)
            self.assertTrue(says(entries[option], text), f"{page}: {option}: {entries[option]} / {text}")

    def test_of_tools(self) -> None:
        for tool in TOOLS:
            with self.subTest(tool):
                self.compare(PAGE_OF[tool], options_of(help_of(tool)))

    def test_examples_of_tools(self) -> None:
        """The commands of a tool's help, each with its text, under the name that is installed."""
        for tool in TOOLS:
            with self.subTest(tool):
                shown = re.sub(r"\\\n +", "", help_of(tool).partition("\nStatus: ")[0])
                wanted = [re.split(" {2,}", it.strip(), maxsplit=1) for it in re.findall(rf"^    ({tool}(?: .*)?)$", shown.replace("build/", ""), re.M)]
                self.assertTrue(wanted)
                entries = {re.sub(" +", " ", tag): entry.text for entry in entries_of(sections_of(PAGE_OF[tool])["EXAMPLES"]) for tag in entry.tags}
                self.assertEqual(len(entries), len(wanted))
                for command, *said in wanted:
                    text = entries[f"dmr_{command}"]
                    self.assertTrue(not said or says(text, said[0]), f"{command}: {text}")

    def test_of_the_controller(self) -> None:
        done = subprocess.run([program("dmr_trunk"), "--help"], capture_output=True, text=True, check=False)
        self.assertEqual((done.returncode, done.stdout), (2, ""))
        self.compare("dmr_trunk.8", options_of(done.stderr))

    def test_of_the_decoder(self) -> None:
        """The page has the decoder's commands, and what it says of them."""
        text = subprocess.run([program("dmr_decode"), "--help"], capture_output=True, text=True, check=True).stdout
        commands = dict(re.findall(r"^  dmr_decode (\S+(?: [A-Z.]+)?)  +(\S.*)$", text, re.M))
        self.assertEqual(len(commands), 8)
        entries = {entry.tags[0]: entry.text.replace("`", "") for entry in entries_of(sections_of("dmr_decode.1")["COMMANDS"])}
        self.assertEqual(set(entries), set(commands))
        for command, said in commands.items():
            self.assertTrue(says(entries[command], said.replace("`", "")), f"{command}: {entries[command]} / {said}")


class Statuses(unittest.TestCase):
    """The exit statuses, and the messages of the controller."""

    def statuses(self, page: str) -> list[str]:
        """The statuses of a page, each with a text."""
        entries = entries_of(sections_of(page)["EXIT STATUS"])
        self.assertTrue(all(entry.text for entry in entries))
        return [entry.tags[0] for entry in entries]

    def test_of_tools(self) -> None:
        for tool in TOOLS:
            with self.subTest(tool):
                said = re.search(r"^Status: (.*?)\n\n", help_of(tool), re.M | re.S)
                assert said
                self.assertEqual(self.statuses(PAGE_OF[tool]), re.findall(r"(?:^|;\s)(\d)\s", said[1]))

    def test_of_programs(self) -> None:
        for page, source in (("dmr_trunk.8", "dmr_command/src/words.rt"), ("dmr_decode.1", "dmr_decode/src/main.rt")):
            said = re.search(r"^Status: (.*)$", (TOP / "crates" / source).read_text(encoding="utf-8"), re.M)
            assert said
            self.assertEqual(self.statuses(page), re.findall(r"(?:^|; )(\d) ", said[1]))

    def test_of_the_operators_guide(self) -> None:
        rows = table_rows(read_document("OPERATING.md"), "## Statuses and messages")
        self.assertEqual(self.statuses("dmr_trunk.8"), list(dict.fromkeys(row[0] for row in rows)))

    def test_messages(self) -> None:
        entries = entries_of(sections_of("dmr_trunk.8")["DIAGNOSTICS"])
        tags = [tag for entry in entries for tag in entry.tags]
        for it in messages():
            self.assertTrue(any(re.fullmatch(as_pattern(it), tag) for tag in tags), it)
        self.assertEqual(len(tags), len(messages()))
        self.assertTrue(all(entry.text for entry in entries))


class SiteFile(FolderCase):
    """The page of the site file."""

    def test_keys(self) -> None:
        document = read_document("SITE_FILE.md")
        wanted = [f"{key} ({value}; {'required' if missing == 'fault' else 'default ' + missing})" for key, value, missing, _ in table_rows(document, "| key | value | if missing")]
        inner = [f"{key} ({value})" for key, value, _ in table_rows(document, "| key | value | what")]
        place = next(n for n, it in enumerate(wanted) if it.startswith("carrier ")) + 1
        tags = [tag for entry in entries_of(sections_of("dmr_trunk.5")["DESCRIPTION"]) for tag in entry.tags]
        self.assertEqual(tags, [*wanted[:place], *inner, *wanted[place:]])

    def test_texts_of_faults(self) -> None:
        wanted = [row[0] for row in table_rows(read_document("SITE_FILE.md"), "## Messages")]
        self.assertEqual([entry.tags[0] for entry in entries_of(sections_of("dmr_trunk.5")["DIAGNOSTICS"])], wanted)

    def test_example_is_accepted(self) -> None:
        lines = sections_of("dmr_trunk.5")["EXAMPLES"]
        text = "\n".join(unescaped(line).removeprefix("    ") for line in lines[lines.index(".EX") + 1:lines.index(".EE")]) + "\n"
        built = program("dmr_trunk")
        words = [built, "--site", self.write("site.toml", text), "--script", os.devnull]
        done = subprocess.run(words, capture_output=True, text=True, check=False)
        self.assertEqual((done.returncode, done.stdout, done.stderr), (0, "carrier 0 -\ncarrier 1 -\n", ""))
