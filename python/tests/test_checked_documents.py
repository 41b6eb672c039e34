"""What ci/check-documents knows of headings, to which links lead, and of lemma files; and what it
says of the sizes of documents and the contents of long pages."""
import sys
import unittest

from tests.support import TOP, FolderCase

sys.path.insert(0, str(TOP / "ci"))
from documents.names import anchors_of, lemma_files  # noqa: E402  (the path comes first)
from documents.sizes import contents_faults, size_faults  # noqa: E402

BUDGETS = "# KB, and a document\n2.0 README.md\n0.5 python/README.md\n1.5 docs/A.md\n3.5 deploy/man/*.md\n7.5 together\n"
SIZES = {"README.md": 2000, "python/README.md": 500, "docs/A.md": 1350, "deploy/man/a.1.md": 1600, "deploy/man/b.8.md": 1900}


class Headings(FolderCase):
    """The anchors of headings, and the first comments of lemma files."""

    def test_anchors(self) -> None:
        page = self.write("page.md", "# A page\n\n## `dmr_core`: the site machine\n### Tick, or [none](other.md)?\n```\n# no heading\n```\n## Tick, or none\n#hashtag\n")
        self.assertEqual(anchors_of(page), {"a-page", "dmr_core-the-site-machine", "tick-or-none", "tick-or-none-1"})

    def test_lemma_files(self) -> None:
        for name, text in (("Lib", "pub mod Second\npub mod First\npub mod Lost\nmod Silent\n"), ("First", "-- Counts\n-- ticks.\nuse A\n-- more\n"), ("Second", "-- Adds.\n"), ("Silent", "use A\n-- late\n")):
            self.write(f"proofs/{name}.antt", text)
        self.assertEqual(list(lemma_files(self.folder)), [("Second", "Adds."), ("First", "Counts ticks."), ("Lost", ""), ("Silent", "")])


class Sizes(unittest.TestCase):
    """Budgets, and the documents above and below them."""

    def faults(self, budgets: str = BUDGETS, **sizes: int) -> list[str]:
        """The faults, if some documents have other sizes: `A` is docs/A.md."""
        return list(size_faults(budgets, {**SIZES, **{f"docs/{name}.md": size for name, size in sizes.items()}}))

    def test_sizes(self) -> None:
        """A document at its budget, and one at nine tenths of it, are right; one of an octet more or less is not."""
        self.assertEqual(self.faults(), [])
        self.assertEqual(self.faults(A=1500), [])
        self.assertEqual(self.faults(A=1501), ["docs/A.md: 1.5 KB, and its budget is 1.5: say it shorter, or only once"])
        self.assertEqual(self.faults(A=1349), ["docs/A.md: 1.3 KB, and its budget is 1.5: lower the budget"])

    def test_pattern(self) -> None:
        """The budget of a pattern is for all documents that it matches."""
        sizes = {**SIZES, "deploy/man/c.1.md": 100}
        self.assertEqual(list(size_faults(BUDGETS, sizes)), ["deploy/man/*.md: 3.6 KB, and its budget is 3.5: say it shorter, or only once"])

    def test_budgets(self) -> None:
        """Documents without a budget, budgets without a document, and a wrong sum."""
        self.assertEqual(self.faults(B=10), ["docs/B.md: it has no budget"])
        self.assertEqual(self.faults(BUDGETS.replace("7.5 together", "1.0 docs/C.md\n8.5 together")), ["docs/C.md: there is no such document, but a budget of 1.0 KB for it"])
        self.assertEqual(self.faults(BUDGETS.replace("7.5", "7.6")), ["the budgets are 7.5 KB together, and the file says 7.6"])
        self.assertEqual(self.faults(BUDGETS.replace("7.5 together\n", "")), ["the budgets are 7.5 KB together, and the file says nothing"])


class Contents(unittest.TestCase):
    """The links at the head of a page to its headings."""

    def faults(self, head: str, lines: int, place: int = 1) -> list[str]:
        """The faults of a page of `lines` lines with five headings, and a line `head` at a place."""
        text = ["# Page", *["words"] * (lines - 10), "```", "## none", "```", *(f"## The `{it}`" for it in "abcde")]
        return list(contents_faults("docs/A.md", "\n".join([*text[:place], head, *text[place:]]) + "\n"))

    def test_contents(self) -> None:
        links = [f"[{it}](#the-{it})" for it in "abcde"]
        said = "docs/A.md: it has more than 150 lines, and its first 45 do not link to its headings"
        self.assertEqual(self.faults("no links", 150), [])
        self.assertEqual(self.faults("no links", 160), [f"{said} The `a`, The `b`, The `c`, The `d`, The `e`"])
        self.assertEqual(self.faults(" ".join(links[:3]), 160), [])
        self.assertEqual(self.faults(" ".join(links[:2]), 160), [f"{said} The `c`, The `d`, The `e`"])
        self.assertEqual(self.faults(" ".join(links), 160, 44), [])
        self.assertEqual(len(self.faults(" ".join(links), 160, 45)), 1)
