"""The packages of `draft` stand on one another in one order: no module imports from a package above its own. What still does is listed in
layers.txt, a line each, and that list may only become shorter."""
import ast
import pathlib
import unittest
from collections.abc import Iterator

from .support import TOOLS

# The packages, lowest first: each may import from itself and from those before it.
LAYERS = (
    "core", "geometry", "dxf", "projection", "recon", "sheet", "sections", "rounds", "cad", "solve", "explain", "messages", "report",
    "render", "live", "export", "table", "serve", "cli",
)
ROOT = TOOLS / "drafting"
LISTED = pathlib.Path(__file__).parent / "layers.txt"


def imported(file: pathlib.Path) -> Iterator[tuple[str, ...]]:
    """The modules of `draft` that a file imports, wherever in it: each by the parts of its path below the package."""
    own = file.relative_to(ROOT).with_suffix("").parts
    for node in ast.walk(ast.parse(file.read_text(encoding="utf-8"))):
        if isinstance(node, ast.ImportFrom) and node.level:
            base = own[: len(own) - node.level]
            if node.module:
                yield (*base, *node.module.split("."))
            else:
                yield from ((*base, name.name) for name in node.names)


def upward() -> set[str]:
    """The imports of a package above the importing one, as `rounds.verify -> cad.compare`."""
    found = set()
    for file in ROOT.rglob("*.py"):
        own = file.relative_to(ROOT).with_suffix("").parts
        for other in imported(file):
            if own[0] in LAYERS and other and other[0] in LAYERS and LAYERS.index(other[0]) > LAYERS.index(own[0]):
                found.add(f"{'.'.join(own)} -> {'.'.join(other[:2])}")
    return found


class Layers(unittest.TestCase):
    def test_each_package_has_its_layer(self) -> None:
        self.assertEqual({it.name for it in ROOT.iterdir() if (it / "__init__.py").is_file()}, set(LAYERS))

    def test_imports_go_down_but_for_those_listed(self) -> None:
        found, listed = upward(), set(LISTED.read_text(encoding="utf-8").split("\n")) - {""}
        self.assertEqual(found - listed, set(), "these import from a package above their own")
        self.assertEqual(listed - found, set(), "these are mended: take them out of layers.txt")
