"""Repeated clauses: ci/repeated-clauses finds groups of three lines or more."""
import importlib.machinery
import importlib.util
import pathlib
import tempfile
import unittest

from tests.support import TOP

loader = importlib.machinery.SourceFileLoader("repeated_clauses", str(TOP / "ci/repeated-clauses"))
tool = importlib.util.module_from_spec(importlib.util.spec_from_loader("repeated_clauses", loader))
loader.exec_module(tool)

CODE = """\
/// One.
fn one()
    requires few { n ≤ 16 }
    // It is kept.
    ensures kept { self.new
        ≡ self.old }
    ensures one { result ≡ 1 }
{
    let requires = 1;
}

fn two()
    ensures none { n ≡ 0 }
    requires few { n ≤ 16 }
    ensures kept { self.new
        ≡ self.old }
    ensures two { result ≡ 2 }
{}

fn three()
    requires few { n ≤ 16 }
    ensures three { result ≡ 3 }
{}
"""


class RepeatedClauses(unittest.TestCase):
    """A file of three functions."""

    def groups(self, code: str) -> list[tuple[int, list[int]]]:
        """How many lines each group has, and the numbers of the lines that begin it."""
        with tempfile.TemporaryDirectory() as folder:
            path = pathlib.Path(folder) / "lib.rt"
            path.write_text(code, encoding="utf-8")
            return [(length, [it.number for it in places]) for length, places in tool.groups_in([*tool.contracts_of(path)])]

    def test_groups(self) -> None:
        """Two functions share three lines; comments do not count. Two lines are not a group."""
        self.assertEqual(self.groups(CODE), [(3, [3, 14])])
        self.assertEqual(self.groups(CODE.replace("result ≡ 2", "result ≡ 1").replace("ensures two", "ensures one")), [(4, [3, 14])])
        self.assertEqual(self.groups(CODE.replace("≡ self.old }", "≡ 0 }", 1)), [])


if __name__ == "__main__":
    unittest.main()
