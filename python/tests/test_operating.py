"""The console's examples in docs/OPERATING.md: a line, and under it the answer."""
import re
import unittest

from temzaar.console import LISTS
from temzaar.process import replay
from temzaar.script import read_printed
from tests.support import TWO_CARRIERS, program, read_document

OPERATING = read_document("OPERATING.md")
FORMATS = read_document("FORMATS.md")


def lines_of(cell: str) -> str:
    """A pattern for the lines that a reply of docs/FORMATS.md may have: those in backticks. A word in capitals is a number or a state."""
    said, _, states = cell.partition("STATE is")
    words = {"STATE": f"({'|'.join(states.split('`')[1::2])})", "..": ".*"}
    return "|".join(" ".join(words.get(it, r"\d+" if it.isupper() else it) for it in line.split()) for line in said.split("`")[1::2])


# The possible lines of each command's reply.
REPLIES = {name: lines_of(cell) for name, cell in re.findall(r"^\| `(\w+)[^|]*\|[^|]*\|(.*)\|$", FORMATS[FORMATS.index("## Console"):], re.M)}
# Lines whose answers are the same on every site.
ALWAYS = {name for name, forms in REPLIES.items() if forms == "ok"}


def transcripts() -> list[list[str]]:
    """The indented blocks of the section on the console."""
    section = re.split(r"^## ", OPERATING[OPERATING.index("## The console"):], maxsplit=2, flags=re.M)[1]
    blocks = re.findall(r"(?:^    .*\n)+", section, re.M)
    return [[line[4:] for line in block.splitlines()] for block in blocks]


def exchanges() -> list[tuple[str, list[str]]]:
    """Each line of the examples with its reply."""
    found = []
    for lines in transcripts():
        while lines:
            asked, answer, rest = lines[0], [lines[1]], lines[2:]
            if asked.split()[0] in LISTS and not answer[0].startswith("error"):
                while answer[-1] != "end":
                    answer.append(rest.pop(0))
            found.append((asked, answer))
            lines = rest
    return found


class Console(unittest.TestCase):
    """The examples."""

    def test_they_have_the_forms_of_the_formats(self) -> None:
        self.assertGreaterEqual(len(exchanges()), 12)
        for asked, answer in exchanges():
            with self.subTest(asked):
                if answer == ["error unknown command"]:
                    continue
                name = asked.split()[0]
                self.assertEqual(answer[-1] == "end", name in LISTS and not answer[0].startswith("error"))
                for line in answer:
                    self.assertRegex(line, f"^({REPLIES[name]})$")

    def test_answers_that_depend_on_no_state(self) -> None:
        chosen = [(asked, answer) for asked, answer in exchanges() if asked.split()[0] in ALWAYS or answer[0] in ("error unknown command", "error no carrier")]
        self.assertGreaterEqual(len(chosen), 6)
        script = "".join(f"say {asked}\n" for asked, _ in chosen)
        _, told = read_printed(replay(program("dmr_trunk"), TWO_CARRIERS, script))
        self.assertEqual(told, "".join(f"{line}\n" for _, answer in chosen for line in answer))
