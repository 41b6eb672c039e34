"""The documents, their indented blocks, and the commands that these show."""
import pathlib
import re
from collections.abc import Iterator
from typing import NamedTuple

TOP = pathlib.Path(__file__).resolve().parent.parent.parent
DOCUMENTS = sorted([*TOP.glob("*.md"), *TOP.glob("docs/*.md"), *TOP.glob("python/*.md"), *TOP.glob("cases/*.md"), *TOP.glob("bench/*.md"), *TOP.glob("reference/*.md"),
                    *TOP.glob("station/*.md")])


class Block(NamedTuple):
    """An indented block of a document: the number of its first line, the text of the comment before it, its lines without indent, and the line before both."""
    document: pathlib.Path
    line: int
    marker: str
    lines: list[str]
    before: str

    def place(self) -> str:
        """The document and line."""
        return f"{self.document.relative_to(TOP)}:{self.line}"


class Command(NamedTuple):
    """A command, and the lines that are shown after it."""
    words: str
    shown: list[str]


def blocks_of(document: pathlib.Path) -> Iterator[Block]:
    """The indented blocks of a document."""
    marker, before, lines, begins = "", "", [], 0  # type: str, str, list[str], int
    for number, line in enumerate([*document.read_text(encoding="utf-8").splitlines(), "end"], 1):
        if line.startswith("    "):
            begins = begins or number
            lines.append(line[4:])
        elif not line.strip():
            if lines:
                lines.append("")
        else:
            if lines:
                yield Block(document, begins, marker, "\n".join(lines).rstrip().split("\n"), before)
            said = re.fullmatch(r"<!-- check: (.*) -->", line.strip())
            marker, before, lines, begins = said[1] if said else "", before if said else line, [], 0


def commands_of(block: Block) -> list[Command]:
    """The commands of a block."""
    if block.marker == "ends well":
        return [Command(line.partition("  #")[0].strip(), []) for line in block.lines if line.strip()]
    commands: list[Command] = []
    for line in block.lines:
        if line.startswith("$ "):
            commands.append(Command(line[2:], []))
        elif commands:
            commands[-1].shown.append(line)
    return commands


def checked_blocks() -> list[Block]:
    """The blocks of the documents that have commands, or say how they are checked."""
    return [block for document in DOCUMENTS for block in blocks_of(document) if block.marker not in ("", "shortened") or commands_of(block)]
