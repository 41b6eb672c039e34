"""The clauses that promises name: ci/check-documents finds each under its function or definition, and refuses what is not there or is ambiguous; ci/clauses prints them."""
import contextlib
import importlib
import io
import re
import unittest
from unittest import mock

from tests.support import TOP, FolderCase, load_command

command = load_command("ci/clauses")
clauses = importlib.import_module("documents.clauses")
table_of = importlib.import_module("documents.names").table_of

CODE = """\
use x::Y;

impl Model for First {
    ghost view = { λ s. s };
}

impl First {
    /// Runs.
    pub fn run(&self) -> u8
        requires fit { 0 < 1 }
        ensures ok { IfOk result
            (λ r. r ≡ 1) }
    {
        1
    }
}

impl<T: Keyed<u8>> Wire for Second<T>
where
    T: Copy,
{
    fn run(&self) -> u8
        ensures ok { result ≡ 2 }
        ensures fit { 0 < 1 }
    {
        2
    }
}

pub trait Wire: Sized {
    fn run(&self) -> u8
        ensures ok { 0 < 1 };
}

/// A law.
pub fn law()
    ensures ok { 1 ≡ 1 }
{}

fn run() -> u8 {
    3
}
"""
DEFINITIONS = """\
-- a pair
pub record Pair (n : ℕ) : Type 0 where
  -- the first
  pub ok : n ≡ 1
      × n ≡ 1
  pub other : n ≡ 1

-- another
abbrev pub IsOne : ℕ → Type 0
IsOne n = Pair n

module _ (n : ℕ) where

  -- inner
  abbrev pub IsInner : Type 0
  IsInner = n ≡ 1

  pub record Inner : Type 0 where
    pub ok : n ≡ 1
"""
# what a page of promises begins with: how many of the first have each status, and the first ones
FIRST = """\
| status | promises | what it means |
|---|---|---|
| proved | 14 | by a clause |
| by tests | 1 | by none |

| no. | promise | by | main definition | status | what would still pass |
|---|---|---|---|---|---|
""" + "".join(f"| {number} | It runs | `First::run.ok` | `Pair` | proved | nothing |\n" for number in range(1, 15)) + "| 15 | It ends | no clause | none | by tests | a loop |\n"


class Clauses(FolderCase):
    """Two crates: `one`, with code and definitions, and `two`, with a law of the same name."""

    def setUp(self) -> None:
        super().setUp()
        for path, text in (("one/src/a.rt", CODE), ("one/specs/Pairs.antt", DEFINITIONS), ("two/src/b.rt", "pub fn law()\n    ensures ok { 2 ≡ 2 }\n{}\n")):
            self.write(f"crates/{path}", text)
        self.page = self.write("docs/GUARANTEES.md", "")
        for module in (clauses, command):
            self.enterContext(mock.patch.multiple(module, TOP=self.folder, PROMISES=self.page))
        clauses.all_items.cache_clear()
        self.addCleanup(clauses.all_items.cache_clear)

    def lines_of(self, *names: str) -> list[list[int]]:
        """The lines that each name is found at, counted from 1."""
        return [[line + 1 for _, line in clauses.find(name).places] for name in names]

    def faults(self, text: str) -> list[str]:
        """The faults of a page of promises."""
        self.page.write_text(text if FIRST.splitlines()[0] in text else f"{text}\n{FIRST}", encoding="utf-8")
        return list(clauses.clause_faults(self.page))

    def test_functions(self) -> None:
        self.assertEqual(self.lines_of("First::run.ok", "First::run.fit", "Second::run.fit", "Wire::run.ok", "First::run"), [[11], [10], [24], [32], [9]])
        # without a type it is the function that no type has, and its crate or file may be before it
        self.assertEqual(self.lines_of("run", "one::law.ok", "a::law", "one::First::run", "a::First::run"), [[40], [37], [36], [9], [9]])

    def test_types_and_definitions(self) -> None:
        self.assertEqual(self.lines_of("Wire", "Pair.ok", "Pair.other", "IsOne", "Pairs::IsOne", "one::Pair"), [[30], [4], [6], [9], [9], [2]])
        # those of a module are further in
        self.assertEqual(self.lines_of("IsInner", "Inner", "Inner.ok", "module"), [[15], [18], [19], []])

    def test_nothing_there(self) -> None:
        self.assertEqual(self.lines_of("First::run.no", "Third::run", "two::run", "Pair.no", "IsOne.ok", "run.ok"), [[]] * 6)

    def test_texts(self) -> None:
        for name, text in (("First::run.ok", "        ensures ok { IfOk result\n            (λ r. r ≡ 1) }"), ("Pair.ok", "  pub ok : n ≡ 1\n      × n ≡ 1"),
                           ("law", None), ("one::law", "pub fn law()\n    ensures ok { 1 ≡ 1 }"), ("Wire::run", "    fn run(&self) -> u8\n        ensures ok { 0 < 1 };"),
                           ("Wire", "pub trait Wire: Sized {\n    fn run(&self) -> u8\n        ensures ok { 0 < 1 };\n}"), ("IsOne", "abbrev pub IsOne : ℕ → Type 0\nIsOne n = Pair n"),
                           ("IsInner", "  abbrev pub IsInner : Type 0\n  IsInner = n ≡ 1"), ("Inner", "  pub record Inner : Type 0 where\n    pub ok : n ≡ 1"),
                           ("Pair", DEFINITIONS.partition("\n")[2].partition("\n\n")[0])):
            with self.subTest(name):
                found = clauses.find(name)
                self.assertEqual([item.text_from(line) for item, line in found.places] if text else len(found.places), [text] if text else 2)

    def test_promises(self) -> None:
        """A span may have several names, one that begins with a point is of the item before, one with colons of its type, and what follows "Not said" carries nothing."""
        page = "# Page\n\n- **One.** It runs. *By* `First::run.ok .fit ::run.ok`, with\n  `Pair.ok`, `.other`. *Not said*: `nothing`.\n- **Two.** More. *By* `one::law`.\n\nSee `law`.\n"
        self.assertEqual(self.faults(page), [])
        self.assertEqual([(it.name, [name.name for name in it.carried]) for it in clauses.read_promises(page)],
                         [("One", ["First::run.ok", "First::run.fit", "First::run.ok", "Pair.ok", "Pair.other"]), ("Two", ["one::law"])])

    def test_refusals(self) -> None:
        for words, fault in (("It runs.", "One: it names no clause"), ("*By* reading.", "One: it names no clause"), ("It is `law`. *Not said*: `law`.", "One: it names no clause"),
                             ("*By* `First::run.gone`.", "One: there is no First::run.gone"), ("*By* `First::run .gone`.", "One: there is no First::run.gone"),
                             ("*By* `law.ok`.", "One: law.ok is ambiguous: crates/one/src/a.rt:37, crates/two/src/b.rt:2; write its type, crate or file before it"),
                             ("*By* `run`.\n- **One.** *By* `run`.", "two promises are called One")):
            with self.subTest(words):
                self.assertEqual(self.faults(f"- **One.** {words}\n"), [f"docs/GUARANTEES.md: {fault}"])

    def test_rows(self) -> None:
        """A row of the table by crate is a promise; its names are those of its crates, or of the crates of the row above it."""
        table = "| crate | promise | by | said here alone | not said |\n|---|---|---|---|---|\n"
        rows = "| `one`, `two` | Laws | `law.ok` | | |\n| `one` | One | `law ::law.ok` | It runs | more |\n| | Two | `First::run.ok .fit` | | |\n"
        self.assertEqual(self.faults(f"- **Item.** `x` *By*\n  `one::law`. *Not\n  said*: `y`.\n\n{table}{rows}"), [])
        self.assertEqual([(it.name, it.words, [name.name for name in it.carried]) for it in clauses.read_promises(f"{table}{rows}")],
                         [("Laws", "(`one`, `two`) *By* `law.ok`.", ["one::law.ok", "two::law.ok"]),
                          ("One", "(`one`) It runs. *By* `law ::law.ok`. *Not said*: more.", ["one::law", "one::law.ok"]),
                          ("Two", "(`one`) *By* `First::run.ok .fit`.", ["one::First::run.ok", "one::First::run.fit"])])
        # a table without crates has names as items have them; a page may have several tables
        plain = "| promise | by | said here alone | not said |\n|---|---|---|---|\n| Three | `one::law` | | |\n"
        self.assertEqual([(it.name, it.words, [name.name for name in it.carried]) for it in clauses.read_promises(f"{table}{rows}\n{plain}\n{plain}")][3:],
                         [("Three", "*By* `one::law`.", ["one::law"])] * 2)
        self.assertEqual(self.faults(plain.replace("one::law", "law.ok")),
                         ["docs/GUARANTEES.md: Three: law.ok is ambiguous: crates/one/src/a.rt:37, crates/two/src/b.rt:2; write its type, crate or file before it"])
        for row, fault in (("| `two` | One | `First::run` | | |", "One: there is no two::First::run"), ("| `one` | One | the code | | |", "One: it names no clause"),
                           ("| `one` | One | `law` | | |\n| | One | `law` | | |", "two promises are called One")):
            with self.subTest(row):
                self.assertEqual(self.faults(f"{table}{row}\n"), [f"docs/GUARANTEES.md: {fault}"])

    def test_first_promises(self) -> None:
        """The promises that the page begins with: their number, their names, and how many have each status."""
        self.assertEqual(self.faults(FIRST), [])
        for before, after, *wanted in (
                ("| proved | 14 |", "| proved | 13 |", '14 of its first promises have the status "proved", and the table of statuses says 13'),
                ("| by tests | 1 |", "| by reading | 1 |", '0 of its first promises have the status "by reading", and the table of statuses says 1',
                 '1 of its first promises have the status "by tests", and the table of statuses says nothing'),
                ("| 9 | It runs", "| 10 | It runs", "it does not begin with promises 1 to 15"),
                ("| 9 | It runs | `First::run.ok` |", "| 9 | It runs | `First::run.gone` |", "promise 9: there is no First::run.gone"),
                ("| 9 | It runs | `First::run.ok` | `Pair` |", "| 9 | It runs | `First::run.ok` | `law` |",
                 "promise 9: law is ambiguous: crates/one/src/a.rt:36, crates/two/src/b.rt:1; write its type, crate or file before it"),
                ("| no clause |", "| the tests |", "promise 15 names no clause, and does not say so")):
            with self.subTest(after):
                self.assertIn(before, FIRST)
                self.assertEqual(self.faults(FIRST.replace(before, after)), [f"docs/GUARANTEES.md: {it}" for it in wanted])
        self.page.write_text("# Page\n", encoding="utf-8")
        self.assertEqual(list(clauses.clause_faults(self.page)), ["docs/GUARANTEES.md: it does not begin with promises 1 to 15"])

    def test_comments(self) -> None:
        """The comment of a function, also above an attribute, that of a definition, and those of their parts: of a field, the last above it."""
        for name, comment, of_part in (("First::run.ok", "    /// Runs.", ""), ("one::law", "/// A law.", ""), ("two::law.ok", "", ""), ("Pair.ok", "-- a pair", "  -- the first"),
                                       ("Pair.other", "-- a pair", "  -- the first"), ("Inner.ok", "", ""), ("IsInner", "  -- inner", "")):
            with self.subTest(name):
                [(item, line)] = clauses.find(name).places
                self.assertEqual(("\n".join(item.comment()), "\n".join([] if line == item.line else item.comment_of_part(line))), (comment, of_part))

    def test_other_documents_promise_nothing(self) -> None:
        page = self.write("docs/OTHER.md", "- **One.** It runs.\n")
        self.assertEqual(list(clauses.clause_faults(page)), [])

    def test_shown_definitions(self) -> None:
        block = f"<!-- check: definition Pair of crates/one/specs/Pairs.antt -->\n```\n{DEFINITIONS.split(chr(10), 1)[1].split(chr(10) * 2)[0]}\n```\n"
        self.assertEqual(self.faults(block), [])
        for wrong in (block.replace("n ≡ 1", "n ≡ 2"), block.replace("definition Pair", "definition None")):
            self.assertEqual(len(self.faults(wrong)), 1)

    def test_command(self) -> None:
        self.page.write_text("- **It runs.** Always. *By* `First::run.fit .ok`.\n- **A law.** It holds. *By* `two::law`.\n", encoding="utf-8")
        law = "\n## A law\n\nIt holds. *By* `two::law`.\n\ntwo::law, crates/two/src/b.rt:1\npub fn law()\n    ensures ok { 2 ≡ 2 }\n"
        runs = ("\n## It runs\n\nAlways. *By* `First::run.fit .ok`.\n\nFirst::run.fit, crates/one/src/a.rt:10\n    /// Runs.\n        requires fit { 0 < 1 }\n"
                "\nFirst::run.ok, crates/one/src/a.rt:11\n        ensures ok { IfOk result\n            (λ r. r ≡ 1) }\n")
        other = "\nPair.other, crates/one/specs/Pairs.antt:6\n-- a pair\n  -- the first\n  pub other : n ≡ 1\n"
        for words, printed in (("", runs + law), ("a law", law), ("two", law), ("Pair.other", other), ("nothing", "")):
            with self.subTest(words), contextlib.redirect_stdout(io.StringIO()) as out, contextlib.redirect_stderr(io.StringIO()) as err:
                self.assertEqual(command.main(words), 0 if printed else 1)
                self.assertEqual((out.getvalue(), err.getvalue()), (printed, "" if printed else "ci/clauses: no promise and no code has the name nothing\n"))


class Promises(unittest.TestCase):
    """The promises of this repository."""

    def test_each_crate_is_named(self) -> None:
        """The section "By crate" names each crate that is not one of tests."""
        section = (TOP / "docs/GUARANTEES.md").read_text(encoding="utf-8").partition("\n## By crate\n")[2].partition("\n## ")[0]
        self.assertEqual([it.name for it in sorted((TOP / "crates").glob("dmr_*")) if f"`{it.name}`" not in section], [])


class ShownBy(unittest.TestCase):
    """The table of refusals."""

    def test_names(self) -> None:
        """Each name after V, S or T is a function of that crate."""
        sources = {letter: "".join(it.read_text(encoding="utf-8") for it in (TOP / "crates" / crate / "src").rglob("*.rt"))
                   for letter, crate in (("V", "test_values"), ("S", "test_stories"), ("T", "test_trials"))}
        lacking, named = [], 0
        for *_, shown_by in table_of(clauses.PROMISES.read_text(encoding="utf-8"), "call \\| refusals"):
            letter = ""
            for other, name in re.findall(r"\b([VST]) (?=`)|`(\w+)`", shown_by):
                letter = other or letter
                named += bool(letter and name)
                if letter and name and f"fn {name}(" not in sources[letter]:
                    lacking.append(f"{letter} {name}")
        self.assertEqual(lacking, [])
        self.assertGreater(named, 20)
