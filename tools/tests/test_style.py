"""How the repository's Python is written, beside what `vga-style` judges."""

from __future__ import annotations

import ast
import unittest
from pathlib import Path
from typing import Any, Iterator, Sequence, Union


from .tools import TOOLS, TOP


# So many lines has a function at most.
MOST_LINES = 40
Named = Union[ast.FunctionDef, ast.ClassDef]


def public(node: Union[ast.Module, ast.ClassDef], known: frozenset[str]) -> Iterator[Named]:
    """The functions and classes of a module or a class that others may name.

    It leaves out those whose meaning stands elsewhere: overloads, setters, what a base class of the
    module has, and structs of C.
    """
    for inner in node.body:
        if not isinstance(inner, (ast.FunctionDef, ast.ClassDef)) or inner.name.startswith("_"):
            continue
        words = [ast.unparse(one).rpartition(".")[2] for one in inner.decorator_list]
        if isinstance(inner, ast.ClassDef):
            bases = list(map(ast.unparse, inner.bases))
            if "Structure" not in bases:
                yield inner
                yield from public(inner, known if bases else frozenset())
        elif not {"overload", "setter"} & {*words} and inner.name not in known:
            yield inner


def methods(module: ast.Module) -> frozenset[str]:
    """The methods of a module's classes that have no base class, with docstrings."""
    return frozenset(
        inner.name
        for node in module.body
        if isinstance(node, ast.ClassDef) and not node.bases
        for inner in node.body
        if isinstance(inner, ast.FunctionDef) and ast.get_docstring(inner)
    )


class Written(unittest.TestCase):
    """What none of the judges asks of the tools and of the package for Python."""

    def setUp(self) -> None:
        folders = (TOOLS / "zaklimot_dev", TOP / "python" / "zaklimot")
        self.files = [path for folder in folders for path in folder.rglob("*.py")]
        self.files += (TOP / "python").glob("*.py")

    def nodes(self, *kinds: type[ast.AST], files: Sequence[Path] = ()) -> Iterator[tuple[str, Any]]:
        """The parts of these kinds of these files or of all, each with its place."""
        for path in files or self.files:
            for node in ast.walk(ast.parse(path.read_text("utf-8"))):
                if isinstance(node, kinds):
                    yield f"{path.relative_to(TOP)}:{getattr(node, 'lineno', 0)}", node

    def test_functions_are_short(self) -> None:
        tests = (TOOLS / "tests", TOP / "python" / "tests")
        files = self.files + [path for folder in tests for path in folder.glob("*.py")]
        functions = self.nodes(ast.FunctionDef, ast.AsyncFunctionDef, files=files)
        lines = [(node.end_lineno - node.lineno + 1, place) for place, node in functions]
        self.assertEqual([one for one in lines if one[0] > MOST_LINES], [])

    def test_public_functions_and_classes_have_docstrings(self) -> None:
        without = [
            f"{place}: {node.name}"
            for place, module in self.nodes(ast.Module)
            for node in public(module, methods(module))
            if ast.get_docstring(node) is None
        ]
        self.assertEqual(without, [])

    def test_what_is_caught_is_named(self) -> None:
        bare = [place for place, node in self.nodes(ast.ExceptHandler) if node.type is None]
        self.assertEqual(bare, [])

    def test_a_type_that_is_not_checked_has_a_reason(self) -> None:
        for path in self.files:
            before = ""
            for number, line in enumerate(path.read_text("utf-8").split("\n"), 1):
                if "# type: ignore" in line:
                    with self.subTest(f"{path.relative_to(TOP)}:{number}"):
                        self.assertRegex(line, r"# type: ignore\[[\w, -]+\]$")
                        self.assertTrue(before.lstrip().startswith("#"), "the line above has none")
                before = line
