"""Every function of the package, of its tests, of the gate's tools and of the benches has type annotations; every public one of the package a docstring."""
import ast
import pathlib
import sys
import unittest
from collections.abc import Iterator

from tests.support import TOP

Function = ast.FunctionDef | ast.AsyncFunctionDef


def functions_in(path: pathlib.Path) -> Iterator[Function]:
    """The functions and methods of a file."""
    for node in ast.walk(ast.parse(path.read_text(encoding="utf-8"))):
        if isinstance(node, Function):
            yield node


def lacks_annotation(function: Function) -> bool:
    """Whether a parameter or the result has none. `self` and `cls` need none."""
    words = function.args
    named = [it for it in (*words.posonlyargs, *words.args, *words.kwonlyargs, words.vararg, words.kwarg) if it and it.arg not in ("self", "cls")]
    return function.returns is None or any(it.annotation is None for it in named)


def python_files() -> list[pathlib.Path]:
    """The package, its tests, and the tools of the gate, of the trials and of the benches that are written in Python."""
    scripts = [path for folder in ("ci", "trials", "bench") if (TOP / folder).is_dir() for path in (TOP / folder).iterdir()
               if path.is_file() and path.read_bytes().startswith(b"#!/usr/bin/env python3")]
    return sorted({*(TOP / "python").rglob("*.py"), *(TOP / "bench").glob("*.py"), *scripts})


class Annotated(unittest.TestCase):
    """The rules above."""

    def test_annotations(self) -> None:
        lacking = [f"{path.relative_to(TOP)}:{it.lineno} {it.name}" for path in python_files() for it in functions_in(path) if lacks_annotation(it)]
        self.assertEqual(lacking, [])

    def test_docstrings(self) -> None:
        lacking = []
        for path in sorted((TOP / "python" / "temzaar").rglob("*.py")):
            tree = ast.parse(path.read_text(encoding="utf-8"))
            if not ast.get_docstring(tree):
                lacking.append(str(path.relative_to(TOP)))
            overriding = {"hand_over", "finish", "run", "judge"}
            lacking += [f"{path.relative_to(TOP)}:{it.lineno} {it.name}" for it in functions_in(path)
                        if not it.name.startswith("_") and it.name not in overriding and not ast.get_docstring(it)]
        self.assertEqual(lacking, [])

    def test_the_standard_library_alone(self) -> None:
        for path in (TOP / "python" / "temzaar").rglob("*.py"):
            for node in ast.walk(ast.parse(path.read_text(encoding="utf-8"))):
                names = [it.name for it in node.names] if isinstance(node, ast.Import) else [node.module or ""] if isinstance(node, ast.ImportFrom) else []
                for name in names:
                    self.assertIn(name.partition(".")[0], {*sys.stdlib_module_names, "temzaar"}, path.name)
