"""The sizes of documents, compared with the budgets of `ci/documents/sizes.txt`; and the contents that long pages have on their first screen."""
import fnmatch
import re
from collections.abc import Iterator

from documents.blocks import DOCUMENTS, TOP
from documents.names import anchor_of

BUDGETS = TOP / "ci/documents/sizes.txt"
# The octets of a KB, and the share of its budget that a document has at least.
KB, LEAST_SHARE = 1000, 0.9
# The lines of a first screen, those of a page that needs no contents, and how many of its headings these may leave out.
SCREEN, LONGEST_WITHOUT_CONTENTS, MOST_MISSING = 45, 150, 2


def size_faults(budgets: str, sizes: dict[str, int]) -> Iterator[str]:
    """The documents that are above their budgets or far below them, that have none, or do not exist; and a sum that is not that of the budgets.
    `sizes` has the octets of each document, by its path."""
    total, said, seen = 0.0, "nothing", set()  # type: float, str, set[str]
    for number, _, pattern in (line.partition(" ") for line in budgets.splitlines() if line and not line.startswith("#")):
        if pattern == "together":
            said = number
            continue
        total += float(number)
        names = [it for it in sizes if it not in seen and fnmatch.fnmatchcase(it, pattern)]
        seen.update(names)
        size = sum(sizes[it] for it in names) / KB
        if not names:
            yield f"{pattern}: there is no such document, but a budget of {number} KB for it"
        elif size > float(number):
            yield f"{pattern}: {size:.1f} KB, and its budget is {number}: say it shorter, or only once"
        elif size < LEAST_SHARE * float(number):
            yield f"{pattern}: {size:.1f} KB, and its budget is {number}: lower the budget"
    for name in sorted(sizes.keys() - seen):
        yield f"{name}: it has no budget"
    if said != f"{total:.1f}":
        yield f"the budgets are {total:.1f} KB together, and the file says {said}"


def contents_faults(document: str, text: str) -> Iterator[str]:
    """The headings of a long page to which its first screen does not link, if they are more than two."""
    links = set(re.findall(r"\]\(#([^)]+)\)", "\n".join(text.split("\n")[:SCREEN])))
    headings = re.findall(r"^## (.*)", re.sub(r"^```.*?^```$", "", text, flags=re.M | re.S), re.M)
    missing = [it for it in headings if anchor_of(it) not in links]
    if text.count("\n") > LONGEST_WITHOUT_CONTENTS and len(missing) > MOST_MISSING:
        yield f"{document}: it has more than {LONGEST_WITHOUT_CONTENTS} lines, and its first {SCREEN} do not link to its headings {', '.join(missing)}"


def all_size_faults() -> Iterator[str]:
    """The faults of all documents, and of the sources of the manual pages."""
    texts = {it.relative_to(TOP).as_posix(): it.read_text(encoding="utf-8") for it in [*DOCUMENTS, *sorted(TOP.glob("deploy/man/*.md"))]}
    yield from (f"ci/documents/sizes.txt: {it}" for it in size_faults(BUDGETS.read_text(encoding="utf-8"), {name: len(text.encode()) for name, text in texts.items()}))
    for name, text in texts.items():
        yield from contents_faults(name, text)
