"""The layout of the package: what its modules import of each other, and the page that lists them."""

import ast
import re
import unittest
from pathlib import Path

FOLDER = Path(__file__).resolve().parent.parent
#: What the modules of each subpackage may import of the others.
ALLOWED = {
    "engine": set(),
    "files": {"engine"},
    "drawing": {"engine", "files"},
    "search": {"engine", "files"},
    "edit": {"engine", "files", "drawing", "search"},
    "command": {"engine", "files", "drawing", "search", "edit"},
}
#: The modules that may import all subpackages.
TOP = {"fezdrok", "fezdrok.__main__", "fezdrok.layouts"}


def module_files() -> dict[str, Path]:
    """The files of all modules by their names; that of a package is its `__init__`."""
    files = sorted((FOLDER / "fezdrok").rglob("*.py"))
    return {".".join(file.relative_to(FOLDER).with_suffix("").parts).replace(".__init__", ""): file for file in files}


def imported_by(module: str, file: Path, known: set[str]) -> set[str]:
    """The modules of the package that a module imports anywhere, also in functions and for type checkers alone."""
    package = module if file.stem == "__init__" else module.rpartition(".")[0]
    names: set[str] = set()
    for node in ast.walk(ast.parse(file.read_text())):
        if isinstance(node, ast.Import):
            names.update(alias.name for alias in node.names)
        elif isinstance(node, ast.ImportFrom):
            above = package.split(".")[: 1 - node.level or None] if node.level else []
            source = ".".join([*above, *([node.module] if node.module else [])])
            names.update(it if it in known else source for it in (f"{source}.{alias.name}" for alias in node.names))
    return names & known


def imports() -> dict[str, set[str]]:
    """What each module imports."""
    files = module_files()
    return {module: imported_by(module, file, set(files)) for module, file in files.items()}


def subpackage(module: str) -> str:
    """The subpackage that a module is in; of the package itself, nothing."""
    return module.partition(".")[2].partition(".")[0]


def in_circles(graph: dict[str, set[str]]) -> set[str]:
    """The modules that import themselves by way of others, and those that import these."""
    left = dict(graph)
    while free := [module for module, others in left.items() if not others & set(left)]:
        for module in free:
            del left[module]
    return set(left)


class Layout(unittest.TestCase):
    def test_imports_are_found(self):
        found = imports()
        self.assertIn("fezdrok.engine.session", found["fezdrok"])
        self.assertIn("fezdrok.command.words", found["fezdrok.__main__"])
        self.assertIn("fezdrok.engine.line_process", found["fezdrok.engine.session"])
        self.assertIn("fezdrok.engine.library", found["fezdrok.engine.program"])
        self.assertIn("fezdrok.engine.results", found["fezdrok.drawing.scenes"])

    def test_no_module_imports_one_that_imports_it(self):
        self.assertEqual(in_circles({"a": {"b"}, "b": {"c"}, "c": {"b"}, "d": set()}), {"a", "b", "c"})
        self.assertEqual(in_circles(imports()), set())

    def test_subpackages_import_those_below_them(self):
        for module, others in imports().items():
            if module in TOP:
                continue
            own = subpackage(module)
            self.assertIn(own, ALLOWED, module)
            for other in others:
                self.assertIn(subpackage(other), ALLOWED[own] | {own}, f"{module} imports {other}")

    def test_the_page_lists_each_module(self):
        page = (FOLDER / "README.md").read_text()
        listed = re.findall(r"^- `(\w+\.\w+)`: .+\.$", page, re.MULTILINE)
        files = {module: file for module, file in module_files().items() if module not in TOP}
        modules = [module.partition(".")[2] for module, file in files.items() if file.stem != "__init__"]
        self.assertEqual(sorted(listed), sorted(modules))


if __name__ == "__main__":
    unittest.main()
