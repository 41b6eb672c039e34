"""What documents say of the Rattle kit, compared with the file `toolchain`."""
import re
from collections.abc import Iterator

from documents.blocks import DOCUMENTS, TOP
from toolchain import Named

# the documents that name the logic and the builds, and the one of the past, which may name any
NAME_THEM = ("README.md", "docs/ASSURANCE.md")
HISTORY = "CHANGELOG.md"
NAMES = r"`[\w.-]+`(?:(?:, | and )`[\w.-]+`)*"


def kit_faults(name: str, text: str, named: Named) -> Iterator[str]:
    """What a document says otherwise than the file: "logic `ID`" and "passed with `KIT` and `KIT`".
    A document that is not one of NAME_THEM has to name neither."""
    text = re.sub(r"\s+", " ", text)
    logics = set(re.findall(r"\blogic `?([0-9a-f]{6,})\b", text))
    kits = set(re.findall(r"\brattle-kit-\w+", text))
    if name not in NAME_THEM:
        if name != HISTORY and (logics or kits):
            yield f"{name}: it names {', '.join(sorted(logics | kits))}; only {', '.join(NAME_THEM)} do"
        return
    wanted = f"logic `{named.logic}`"
    if wanted not in text or logics != {named.logic}:
        yield f'{name}: by the file toolchain it has to say "{wanted}", and to name no other'
    passed = [re.findall(r"`([\w.-]+)`", it) for it in re.findall(rf"\bpassed with ({NAMES})", text)]
    if named.kits not in passed or kits != set(named.kits):
        wanted = f"passed with {' and '.join(f'`{it}`' for it in named.kits)}"
        yield f'{name}: by the file toolchain it has to say "{wanted}", and to name no other'


def all_kit_faults() -> Iterator[str]:
    """The faults of all documents."""
    named = Named.read()
    for document in DOCUMENTS:
        name = document.relative_to(TOP).as_posix()
        yield from kit_faults(name, document.read_text(encoding="utf-8"), named)
