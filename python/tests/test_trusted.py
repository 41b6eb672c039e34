"""The list of definitions that a reader has to believe: ci/trusted-definitions has a line for each crate, with its files and names, and refuses a list that is not so."""
import importlib
from unittest import mock

from tests.support import FolderCase, load_command

tool = load_command("ci/trusted-definitions")
clauses = importlib.import_module("documents.clauses")

CODE = """\
ghost use Rattle.one.specs.Numbers.{IsSmall};
ghost use Rattle.one.specs.declared.lib.Kind.{Kind};

/// A kind.
pub struct Kind {
    pub it: u8,
}

/// Counts. It never fails.
pub fn count(kind: &Kind) -> u8
    ensures is { IsSmall result }
{
    1
}
"""
NUMBERS = """\
-- Small numbers. More of them.
use Rattle.std.specs.Prelude.{ℕ}

-- the greatest
most : ℕ
most = 7

-- small
IsSmall : ℕ → Type 0
IsSmall n = n ≤ most

-- not used
other : ℕ
other = 1
"""
PAGE = """
## `one::count`
Counts. Definitions: 2; 2 new, of 6 lines.

- one: Numbers (most IsSmall), src (Kind)

2 definitions, 6 lines; 1 types; 0 traits; 0 words of the library.
"""
LAW = """
/// Does nothing.
pub fn smalls()
    // There is no other.
    ensures alone { (n : ℕ) → IsSmall n ↔ n ≤ other }
{}
"""
BY_LAW = """
- one: Numbers (other), src (Kind)

## Functions that need not be read
The clauses leave each of them one value. What the clauses use is listed above.

- `one::IsSmall`: `one::smalls.alone`

1 definitions, 3 lines; 1 types; 0 traits; 0 words of the library.
"""
TEXT = """\
- `one/specs/Numbers.antt`: most IsSmall

Small numbers.

```
-- the greatest
most : ℕ
most = 7

-- small
IsSmall : ℕ → Type 0
IsSmall n = n ≤ most
```
"""


class Trusted(FolderCase):
    """A crate with a function, a type and three definitions."""

    def setUp(self) -> None:
        super().setUp()
        for path, text in (("crates/one/src/lib.rt", CODE), ("crates/one/specs/Numbers.antt", NUMBERS), ("crates.txt", "one:\n")):
            self.write(path, text)
        document = self.write("TRUSTED.md", "# Head\n\nThe functions: `none`.\n")
        self.enterContext(mock.patch.multiple(tool, CRATES=self.folder / "crates", DOCUMENT=document))
        self.enterContext(mock.patch.object(clauses, "TOP", self.folder))
        clauses.all_items.cache_clear()
        self.addCleanup(clauses.all_items.cache_clear)

    def printed(self, sources: bool = False) -> str:
        """What is printed of the function."""
        return str(tool.page_of(tool.Reader(), ["one::count"], sources))

    def test_a_line_for_each_crate(self) -> None:
        """A definition comes after those that it uses. Its text is printed on demand, with the comments."""
        self.assertEqual(self.printed(), f"# Head\n\nThe functions: each has a heading.\n{PAGE}")
        self.assertIn("\nThe functions: `one::count`.\n", self.printed(True))
        self.assertIn(TEXT, self.printed(True))
        self.assertIn("```\n/// A kind.\npub struct Kind {\n", self.printed(True))

    def test_a_new_definition_shows(self) -> None:
        self.write("crates/one/specs/Numbers.antt", NUMBERS.replace("n ≤ most", "n ≤ most + other"))
        self.assertIn("- one: Numbers (most other IsSmall), src (Kind)\n", self.printed())

    def test_what_a_law_says(self) -> None:
        """The text of a function that a law says is not followed, but the law's clauses are, which are printed with the texts."""
        code = CODE.replace("{IsSmall}", "{IsSmall, other}") + LAW
        self.write("crates/one/src/lib.rt", code)
        with mock.patch.dict(tool.LAWS, {"one::IsSmall": ("one::smalls", "alone")}):
            self.assertTrue(self.printed().endswith(BY_LAW), self.printed())
            self.assertIn("`one::smalls.alone`\n\n```\n    ensures alone { (n : ℕ) → IsSmall n ↔ n ≤ other }\n```\n", self.printed(True))
        with mock.patch.dict(tool.LAWS, {"one::IsSmall": ("one::smalls", "none")}), self.assertRaises(SystemExit):
            self.printed()

    def test_more_than_a_reader_may_have_to_believe(self) -> None:
        for most, lines, said in (
                (2, 6, []),
                (1, 6, ["one::count depends on 2 definitions, and may depend on 1"]),
                (2, 5, ["the definitions have 6 lines, and may have 5"])):
            with mock.patch.object(tool, "MOST", {"one::count": most}), mock.patch.object(tool, "MOST_LINES", lines):
                self.assertEqual(list(tool.excesses(PAGE)), said)
