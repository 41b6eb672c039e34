"""docs/OPERATING.md has each note, cause and message of the controller, and none that its sources do not have. Those of a recording are in
docs/INCIDENTS.md, and those of records in docs/RECORDS.md."""
import re
import unittest

from tests.support import TOP, read_document, table_rows

OPERATING, INCIDENTS = read_document("OPERATING.md"), read_document("INCIDENTS.md")
CRATES = TOP / "crates"
# The place of a value: in the sources a format's braces, in the document a word in upper case.
HOLE = r"\{[\w.]*\}"
WORD = r"[A-Z]+(?::[A-Z]+)?"
PROGRAM = "dmr_trunk: "
# What the program writes for its own names and for nouns.
NAMED = {
    "{TARGET}": "dmr_trunk", "{MOST_WAITING}": "1000", "{MOST_RADIOS}": "4096", "{done} {noun}": "{done} terms", "{lost} {noun}": "{lost} terms", "{radios} {noun}": "{radios} radios",
    "{carriers} {noun}": "{carriers} carriers",
}
# How notes begin that are documented with their subject.
RECORDS, RECORDING = "records: ", "recording: "


def source(name: str) -> str:
    """The text of a source file, by its path in crates/."""
    return (CRATES / name).read_text(encoding="utf-8")


def literals(text: str, pattern: str) -> list[str]:
    """The string literals that a pattern leads to."""
    return re.findall(pattern + r'"((?:[^"\\]|\\.)*)"', text)


def as_pattern(literal: str) -> str:
    """A pattern of what the document may write for a format: a word in upper case for each value."""
    return WORD.join(re.escape(part) for part in re.split(HOLE, literal))


def function(text: str, name: str) -> str:
    """The text of a function or an impl, from its name to the next line that closes it."""
    begins = text.index(name)
    return text[begins:text.index("\n}", begins)]


def written(text: str) -> str:
    """The text that a function writes by several `write!`, as one format."""
    return "".join(literals(text, r"write!\(\s*f,\s*"))


def notes() -> dict[str, str]:
    """The notes: the texts that the program's log receives, with its own name, and the level of each."""
    own = source("dmr_trunk/src/notes.rt")
    found: dict[str, str] = {}
    for level in ("info", "warn"):
        for note in literals(own, rf"{level}!\(\*(?:self\.)?rt; target: TARGET, "):
            for hole, text in NAMED.items():
                note = note.replace(hole, text)
            found[note] = level.upper()
    # what a port notes, after its owner; and the counts of terms
    of_ports = literals(function(source("dmr_port/src/notes.rt"), "impl fmt::Display for Note<"), r"=> (?:\{\s*)?write!\(f, ")
    for note in ("{whose}: {note}", "{count} more notes: {kind}"):
        del found[note]
    # a note that somebody waits says for whom, in the program's own words
    of_ports.remove("{from} waits, {count} waiting")
    found |= {"{whose}: " + note: "WARN" if note.startswith("cannot") else "INFO" for note in of_ports}
    counts = written(function(source("dmr_trunk/src/term_log.rt"), "impl fmt::Display for Happened"))
    # of several terms the counts have a name in the document, and of one their own form
    return {note.replace("{term}", counts).replace("{terms}", "{counts}"): level for note, level in found.items()}


def causes() -> list[str]:
    """The causes of a connection's end: the plain ones, and each fault of the link with the numbers that follow it."""
    text = source("dmr_port/src/cause.rt")
    plain = [it for it in literals(function(text, "impl fmt::Display for CloseCause"), r'write!\(f, ') if "{" not in it and it != ")"]
    with_both, with_version = literals(function(text, "fn write_numbers"), r"write!\(\s*f,\s*")
    faults = literals(function(source("dmr_frames/src/frame.rt"), "impl fmt::Display for Cause"), r"=> ")
    more = {"BadVersion": f" ({with_version})", "WrongCarrier": f" ({with_both})"}
    return [*plain, *(f"link fault: {it}{more.get(it.partition(',')[0], '')}" for it in faults)]


def messages() -> list[str]:
    """The lines that the program writes to standard error when it ends: the texts of faults, after its name, and those of refused words."""
    fault = source("dmr_command/src/fault.rt")
    desk = source("dmr_desk/src/fault.rt")
    replay = literals(source("dmr_replay/src/replaying.rt"), r"#\[error\(")
    own = literals(fault, r"write!\(\s*f,\s*")
    errors = {name: literals(function(desk, f"pub enum {name}"), r"#\[error\(") for name in ("OpenFault", "TermFault")}
    # the faults of a term that have their texts from dmr_desk: no stations, and a desk that is not opened, except for lack of memory
    stations, unopened = errors["TermFault"][0], errors["TermFault"][1]
    others = [stations, *(unopened.replace("{0}", it) for it in errors["OpenFault"] if it != "out of memory")]
    words = [*literals(source("dmr_command/src/words.rt"), r"report_refused_words\(err, "), *literals(source("dmr_trunk/src/main.rt"), r"report_refused_words\(\s*err,\s*")]
    texts = [*replay, *(it for it in own if it != "{other}"), *others]
    variables = [*literals(source("dmr_trunk/src/store.rt"), "const STATE_DIRECTORY: &str = "), *literals(source("dmr_trunk/src/script.rt"), "const RECORD: &str = ")]
    formats = [it for it in literals(source("dmr_trunk/src/serving.rt"), r"writeln!\(\s*err,\s*") if "{variable}" in it]
    environment = [it.replace("{variable}", name) for it in formats for name in variables]
    more = [it for name in ("main", "serving") for it in literals(source(f"dmr_trunk/src/{name}.rt"), r"writeln!\(\s*err,\s*") if it not in formats and "{fault}" not in it]
    return [*dict.fromkeys(PROGRAM + it for it in texts), *words, *environment, *(it.replace("{STATE_DIRECTORY}", variables[0]) for it in more)]


def column_of(heading: str, column: int, document: str = OPERATING) -> list[str]:
    """The cells of a column in the table after a heading."""
    return [row[column] for row in table_rows(document, heading)]


class Messages(unittest.TestCase):
    """Both ways: the document has what the sources have, and nothing else."""

    def compare(self, documented: list[str], formats: list[str]) -> None:
        """Each documented text is one of the formats, and each format is documented."""
        for text in documented:
            with self.subTest("documented", text=text):
                self.assertTrue(any(re.fullmatch(as_pattern(it), text) for it in formats), f"no source has: {text}")
        for it in formats:
            with self.subTest("in the sources", format=it):
                self.assertTrue(any(re.fullmatch(as_pattern(it), text) for text in documented), f"not documented: {it}")

    def test_notes(self) -> None:
        self.assertEqual(len(notes()), 31)
        self.compare(column_of("## Notes", 1), [it for it in notes() if not it.startswith((RECORDS, RECORDING))])

    def test_notes_of_records(self) -> None:
        self.compare(column_of("## When records cannot be written", 0, read_document("RECORDS.md")), [it for it in notes() if it.startswith(RECORDS)])

    def test_notes_of_the_recording(self) -> None:
        self.assertEqual([it for it in notes() if it.startswith(RECORDING)], ["recording: ended: {fault}"])
        faults = literals(source("dmr_trunk/src/script.rt"), r"#\[error\(")
        documented = column_of("### By the controller itself", 0, INCIDENTS)
        self.assertEqual(documented, [*faults, "event N ..", "out of memory"])

    def test_levels(self) -> None:
        for level, note in ((row[0], row[1]) for row in table_rows(OPERATING, "## Notes")):
            self.assertTrue(any(re.fullmatch(as_pattern(it), note) for it, its in notes().items() if its == level), note)

    def test_causes(self) -> None:
        self.assertEqual(len(causes()), 19)
        self.compare(column_of("### Why a connection ended", 0), causes())

    def test_messages(self) -> None:
        documented = [text for text in column_of("## Statuses and messages", 1) if text and not text.startswith(("the text of", "error: .."))]
        self.assertGreaterEqual(len(messages()), 15)
        self.compare(documented, messages())
