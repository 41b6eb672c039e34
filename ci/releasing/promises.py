"""The theorems of a release: the public functions that carry the promises, with the text of their contracts."""
import importlib.machinery
import importlib.util
import pathlib
from types import ModuleType
from typing import NamedTuple


class Promise(NamedTuple):
    """A public function, what it does, and its signature with all its clauses."""
    function: str
    says: str
    contract: str


def load_tool(clone: pathlib.Path) -> ModuleType:
    """The clone's `ci/trusted-definitions`, which knows the functions and reads contracts."""
    path = clone / "ci" / "trusted-definitions"
    loader = importlib.machinery.SourceFileLoader("trusted_definitions", str(path))
    spec = importlib.util.spec_from_loader(loader.name, loader)
    assert spec
    tool = importlib.util.module_from_spec(spec)
    loader.exec_module(tool)
    return tool


def read_promises(clone: pathlib.Path) -> list[Promise]:
    """The main functions, those of `docs/TRUSTED.md`, in its order."""
    tool = load_tool(clone)
    found = [(it, tool.Source(it.partition("::")[0]).contract(it.partition("::")[2])) for it in tool.PROMISES]
    return [Promise(function, tool.first_sentence(it.comment), it.text) for function, it in found]
