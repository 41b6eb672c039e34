"""`ci/prose`: what it counts in each kind of file, and how it compares the counts with its list."""
import contextlib
import io
import unittest

from tests.support import FolderCase, load_command

prose = load_command("ci/prose")

THIRTY = "One " + "word " * 28 + "more"


def found(kind: str, text: str) -> list[tuple[int, str]]:
    """The places in a text of a kind: line and name of each."""
    return [(it.line, it.name) for it in prose.found_in(text, kind)]


class Counted(unittest.TestCase):
    """The prose of each kind of file, and nothing else."""

    def test_documents(self) -> None:
        text = "# Behind\n\nIt is\nanew.\n\n    anew\n\n    anew\n\n```\nanew\n```\n\n- `anew` is\n  anew\n\n| anew | `a|b` anew |\n|---|---|\n<!-- anew -->\n"
        self.assertEqual(found("md", text), [(1, "behind"), (4, "anew"), (15, "anew"), (17, "anew"), (17, "anew")])

    def test_a_paragraph_of_an_item_is_no_code(self) -> None:
        self.assertEqual(found("md", "1. one\n\n   anew\n\n       anew\n\nanew\n\n    anew\n"), [(3, "anew"), (7, "anew")])

    def test_code_of_several_lines_in_a_paragraph(self) -> None:
        self.assertEqual(found("md", "one `anew\nanew` two\nanew\n"), [(3, "anew")])

    def test_rattle(self) -> None:
        text = '//! Anew.\n\nfn behind() -> u8 { // anew\n    let a = "// anew"; let b = \'"\'; /* so\n    many */\n    /// ```\n    /// anew\n    /// ```\n    /// owed\n}\n'
        self.assertEqual(found("rt", text), [(1, "anew"), (3, "anew"), (4, "so many"), (9, "owed")])

    def test_a_string_that_goes_on_in_the_next_line(self) -> None:
        self.assertEqual(found("rt", 'let a = "anew \\\n    // anew";\n// anew\n'), [(3, "anew")])

    def test_definitions(self) -> None:
        self.assertEqual(found("antt", '-- once\n-- more\nbehind = "-- anew"\n  pub x : ℕ  -- anew\n'), [(1, "once more"), (4, "anew")])

    def test_python(self) -> None:
        text = '#!/usr/bin/env python3\n"""Anew.\n\n    anew\n"""\nx = """anew"""\n\n\ndef f() -> None:\n    """Behind it."""\n    # owed\n    g("anew", 2)  # anew\n'
        self.assertEqual(found("py", text), [(2, "anew"), (10, "behind"), (11, "owed"), (12, "anew")])

    def test_shell_and_make(self) -> None:
        for kind in ("sh", "make"):
            self.assertEqual(found(kind, "# Anew.\necho ${anew#behind} $#  # owed\n"), [(1, "anew"), (2, "owed")])

    def test_c(self) -> None:
        self.assertEqual(found("c", '/* Anew\n * and anew. */\nchar *a = "/* anew */"; // owed\n'), [(1, "anew"), (2, "anew"), (3, "owed")])

    def test_plain_uses(self) -> None:
        self.assertEqual(found("md", "There is no line. It is no longer up. Counts of late grants. It tells two such calls apart, and can tell why. Put in order. A stand-in. Owing to it. `an Err`.\n"), [])

    def test_other_uses(self) -> None:
        self.assertEqual(found("md", "It is no line. It tells so many. For want of it an `Err`. It wants one.\n"),
                         [(1, "an Err"), (1, "is no"), (1, "so many"), (1, "tells"), (1, "want of"), (1, "wants")])


class Sentences(unittest.TestCase):
    """Those of more than 30 words."""

    def test_their_length(self) -> None:
        self.assertEqual(found("md", f"{THIRTY}. {THIRTY}.\n"), [])
        self.assertEqual(found("md", f"Short. {THIRTY} still.\n\n{THIRTY}, i.e. more.\n"), [(1, prose.LONG), (3, prose.LONG)])

    def test_where_they_end(self) -> None:
        for text in (f"- {THIRTY}\n- {THIRTY}\n", f"# {THIRTY}\n{THIRTY}\n", f"| {THIRTY} | {THIRTY} |\n", f"{THIRTY}.** {THIRTY}\n"):
            self.assertEqual(found("md", text), [], text)
        self.assertEqual(found("md", f"{THIRTY} .. {THIRTY}\n"), [(1, prose.LONG)])

    def test_code_is_one_word(self) -> None:
        self.assertEqual(found("md", f"{THIRTY[:-4]} `a b c d`.\n"), [])

    def test_comments_one_below_the_other_are_one_text(self) -> None:
        half = "word " * 20
        self.assertEqual(found("rt", f"// {half}\n// {half}\n"), [(1, prose.LONG)])
        self.assertEqual(found("rt", f"// {half}\n\n// {half}\n"), [])
        self.assertEqual(found("rt", f"let a; // {half}\n// {half}\n"), [])


class Listed(FolderCase):
    """The list, and what differs from it."""

    def test_a_list_is_read_as_it_was_written(self) -> None:
        counts = {("b.md", prose.LONG): 2, ("a.md", "so many"): 1}
        self.assertEqual(prose.list_text(counts), "a.md: so many: 1\nb.md: long sentences: 2\n")
        self.assertEqual(prose.read_list(prose.list_text(counts)), counts)

    def test_more_and_fewer(self) -> None:
        places = {"a.md": prose.found_in("anew\nanew\nowed\n", "md")}
        self.assertEqual(prose.faults(places, {("a.md", "anew"): 2, ("a.md", "owed"): 1}), ([], []))
        more, fewer = prose.faults(places, {("a.md", "anew"): 1, ("a.md", "owed"): 2, ("b.md", "behind"): 1})
        self.assertEqual(more, ["a.md: anew: 2, and the list allows 1; write again, from scratch; lines 1, 2"])
        self.assertEqual(fewer, ["a.md: owed: 1, and the list allows 2: it can be lowered", "b.md: behind: 0, and the list allows 1: it can be lowered"])

    def test_only_more_fails(self) -> None:
        places = {"a.md": prose.found_in("anew\n", "md")}
        for allowed, status in ({("a.md", "anew"): 2}, 0), ({("a.md", "anew"): 1}, 0), ({}, 1):
            with contextlib.redirect_stdout(io.StringIO()):
                self.assertEqual(prose.check(places, allowed), status)

    def test_which_files_are_read(self) -> None:
        for path, text in (("a.md", "anew"), ("out/a.md", "anew"), ("docs/TRUSTED.md", "anew"), ("b", "#!/bin/sh\n# anew"), ("c", "# anew"), ("d.txt", "anew"),
                           ("e.rt", "// ok"), ("Makefile", "# anew"), ("f.py", "# anew")):
            self.write(path, f"{text}\n")
        found = prose.read_places(prose.files_below(self.folder), self.folder)
        self.assertEqual(sorted(found), ["Makefile", "a.md", "b", "f.py"])
