"""Paths, targets, names and examples in documents that the repository does not have."""
import functools
import pathlib
import re
from collections.abc import Iterator

from documents.blocks import TOP, blocks_of, commands_of

FOLDERS = "tools|ci|trials|bench|station|python|docs|examples|sites|cases|deploy|crates"
# Names in documents that rt makes, that a release makes, or that are patterns or pages of the kit.
ELSEWHERE = re.compile(r"crates/[\w*]+/out\b|crates/NAME|crates/\*|sites/NAME|sites/\*|docs/NOT_COVERED\.md|docs/releases\b")
# Documents of the past, whose paths need not exist any more.
HISTORY = ("CHANGELOG.md",)
PROOFS = TOP / "docs/PROOFS.md"


def static_faults(document: pathlib.Path) -> Iterator[str]:
    """Paths, make targets and links of a document that do not exist."""
    name, text = document.relative_to(TOP), document.read_text(encoding="utf-8")
    targets = set(re.findall(r"^([a-z][\w./-]*):", (TOP / "Makefile").read_text(encoding="utf-8"), re.M))
    for path in () if str(name) in HISTORY else sorted(set(re.findall(rf"(?<![\w/.-])((?:{FOLDERS})/[\w./*-]*\w)", text))):
        if not ELSEWHERE.match(path) and not any(TOP.glob(path)) and not any(TOP.glob(path + "*")):
            yield f"{name}: there is no {path}"
    for path in () if str(name) in HISTORY else sorted(set(re.findall(r"`(dmr_\w+/[\w./*-]*\w)", text))):
        if not any((TOP / "crates").glob(path)) and not any((TOP / "crates").glob(path + "*")):
            yield f"{name}: there is no crates/{path}"
    for test in sorted(set(re.findall(r"`(test_\w+\.py)`", text))):
        if not (TOP / "python/tests" / test).is_file():
            yield f"{name}: there is no python/tests/{test}"
    for target in sorted(set(re.findall(r"[`\n] *make ([a-z][a-z-]*)", text)) - targets):
        yield f"{name}: there is no target {target}"
    for link in sorted(set(re.findall(r"\]\(([^)#:]+)\)", text))):
        if not (document.parent / link).exists():
            yield f"{name}: the link {link} leads nowhere"
    for link, heading in sorted(set(re.findall(r"\]\(((?:[^)#:]+\.md)?)#([^)]+)\)", text))):
        target = document.parent / link if link else document
        if not target.is_file() or heading not in anchors_of(target):
            yield f"{name}: the link {link}#{heading} leads to no heading"


def anchor_of(heading: str) -> str:
    """The anchor of a heading that is the first of its words, as GitHub makes it."""
    return re.sub(r"[^\w\- ]", "", re.sub(r"\[([^\]]*)\]\([^)]*\)", r"\1", heading).lower()).replace(" ", "-")


@functools.cache
def anchors_of(document: pathlib.Path) -> set[str]:
    """The anchors of a document's headings, as GitHub makes them."""
    anchors: list[str] = []
    for heading in re.findall(r"^#+ (.*)", re.sub(r"^```.*?^```$", "", document.read_text(encoding="utf-8"), flags=re.M | re.S), re.M):
        anchor = anchor_of(heading)
        anchors.append(f"{anchor}-{anchors.count(anchor)}" if anchor in anchors else anchor)
    return set(anchors)


class Sources:
    """The antt and Rattle files of a crate, by their paths within it, and their words."""

    def __init__(self, crate: pathlib.Path) -> None:
        self.crate = crate
        self.files = {path.relative_to(crate).as_posix(): path for folder in ("src", "specs", "proofs") for path in sorted((crate / folder).rglob("*.*t")) if path.suffix in (".rt", ".antt")}
        self.words = {word for path in self.files.values() for word in words_of(path)}

    def named(self, name: str) -> list[pathlib.Path]:
        """The files that a name or the end of a path is of."""
        return [path for within, path in self.files.items() if f"/{self.crate.name}/{within}".endswith(f"/{name}")]

    def has(self, name: str) -> bool:
        """Whether a file, a folder, or each word of a name is the crate's."""
        if name.endswith((".rt", ".antt")):
            return bool(self.named(name))
        if name.endswith("/"):
            return (self.crate / name).is_dir()
        return all(word in self.words for word in re.split(r"::|\.", name))


def words_of(path: pathlib.Path) -> set[str]:
    """The words of a source, as names of antt and of Rust are written."""
    return set(re.findall(r"[^\W\d][\w'-]*", path.read_text(encoding="utf-8")))


@functools.cache
def all_sources() -> dict[str, Sources]:
    """The sources of each crate, by its name."""
    return {folder.name: Sources(folder) for folder in sorted((TOP / "crates").iterdir())}


def source_faults(document: pathlib.Path) -> Iterator[str]:
    """Sources that a document names, by the end of their paths, and no crate has."""
    for path in sorted(set(re.findall(r"`([\w./-]+\.(?:rt|antt))`", document.read_text(encoding="utf-8")))):
        if not (TOP / path).is_file() and not any(sources.named(path) for sources in all_sources().values()):
            yield f"{document.relative_to(TOP)}: no crate has {path}"


def example_faults(document: pathlib.Path) -> Iterator[str]:
    """Examples of a document that are not a part of the file that the line before them names."""
    for block in blocks_of(document):
        named = [path for path in re.findall(r"`([\w./-]+/[\w./-]+)`", block.before) if (TOP / path).is_file()]
        if not named or commands_of(block):
            continue
        text, at = (TOP / named[-1]).read_text(encoding="utf-8"), 0
        parts = "\n".join(block.lines).split("\n..\n") if block.marker == "shortened" else ["\n".join(block.lines)]
        for part in parts:
            found = text.find(part, at)
            if found < 0:
                yield f"{block.place()}: {named[-1]} does not have these lines:\n" + "".join(f"    {it}\n" for it in part.split("\n"))
                break
            at = found + len(part)


def lemmas_of(path: pathlib.Path) -> set[str]:
    """The lemmas that an antt file states: the names before a colon, at the beginning of a line."""
    return set(re.findall(r"^ *(?:pub )?([^\W\d][\w'-]*) :", path.read_text(encoding="utf-8"), re.M)) if path.is_file() else set()


def table_of(section: str, header: str) -> list[list[str]]:
    """The rows of the table of a section whose header begins so, as the cells of each; none if there is no such table."""
    found = re.search(rf"^\| {header} \|.*\n\|[-|]+\n((?:\|.*\n)+)", section, re.M)
    return [[cell.strip() for cell in row.strip("|").split("|")] for row in found[1].splitlines()] if found else []


def lemma_files(crate: pathlib.Path) -> Iterator[tuple[str, str]]:
    """The lemma files of a crate in the order of its proofs/Lib.antt, each with its first comment; empty if it has none, or is not there."""
    for name in re.findall(r"\bmod (\w+)", (crate / "proofs/Lib.antt").read_text(encoding="utf-8")):
        path = crate / f"proofs/{name}.antt"
        comment = re.match(r"(?:--.*\n)*", path.read_text(encoding="utf-8") if path.is_file() else "")
        yield name, " ".join(line.removeprefix("--").strip() for line in (comment[0] if comment else "").splitlines())


def main_lemmas(section: str) -> list[str]:
    """The lemmas that the table of a section of docs/PROOFS.md names."""
    return [name for names, *_ in table_of(section, "lemma") for name in re.findall(r"`([^`]+)`", names)]


def proof_sections() -> Iterator[tuple[str, str]]:
    """The sections of docs/PROOFS.md, each with the crate that it is of, or with nothing."""
    for section in re.split(r"^(?=## )", PROOFS.read_text(encoding="utf-8"), flags=re.M):
        heading = re.match(r"## `(\w+)`", section)
        yield heading[1] if heading else "", section


def proof_faults() -> Iterator[str]:
    """The names in docs/PROOFS.md that the crate of their section does not have, the lemmas that no file or more than one states, and lemma files without
    a comment."""
    crates = all_sources()
    # a name: a word, or words joined, or a file or folder within a crate
    looks_like_name = re.compile(r"[^\W\d][\w'-]*(?:(?:::|\.)[^\W\d][\w'-]*)*/?|[\w./-]+\.(?:rt|antt)")
    for crate, section in proof_sections():
        own = [crates[crate]] if crate else list(crates.values())
        prose = re.sub(r"^    .*\n", "", section, flags=re.M)
        for name in sorted(set(re.findall(r"`([^`\n]+)`", prose))):
            if looks_like_name.fullmatch(name) and name not in crates and not (TOP / name).is_file() and not any(sources.has(name) for sources in own):
                yield f"docs/PROOFS.md: {crate or 'a crate'} has no {name}"
        if not crate:
            continue
        files = {name: lemmas_of(own[0].crate / f"proofs/{name}.antt") for name, _ in lemma_files(own[0].crate)}
        for lemma in main_lemmas(section):
            if len(places := [name for name, stated in files.items() if lemma in stated]) != 1:
                yield f"docs/PROOFS.md: {crate}: {lemma} is stated in {' and '.join(places) or 'no file'}"
        for name, comment in lemma_files(own[0].crate):
            if not comment:
                yield f"{crate}: proofs/{name}.antt does not say in its first comment what it is for"
