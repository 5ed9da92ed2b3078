"""Letters, hatches, arrow heads and dimensions of mirrored and turned blocks lie on the sheet where they are seen."""
import math
import pathlib
import tempfile
import unittest
from typing import Any

from drafting.dxf import places
from drafting.dxf.reader import Sheet, read_sheet
from drafting.sections.cutting_plane_marks import heads_of, is_head, sides_of, words_of

from .support import needs_module

try:
    from . import sheets
except ImportError:
    sheets = None  # type: ignore[assignment]

# How a block is inserted at 100, 50: its scale along x and y, and its turn in degrees.
WAYS = ((1, 1, 0), (-1, 1, 0), (1, -1, 0), (-1, -1, 0), (-1, 1, 90), (1, 1, 90))
AT = (100, 50)


def seen(way: tuple[int, int, int], x: float, y: float) -> tuple[float, float]:
    """Where a point of the block is seen."""
    right, up, turn = way
    cos, sin = math.cos(math.radians(turn)), math.sin(math.radians(turn))
    return AT[0] + cos * right * x - sin * up * y, AT[1] + sin * right * x + cos * up * y


@needs_module("ezdxf", "python3-ezdxf")
class Blocks(unittest.TestCase):
    """A block with a letter, a hatch of 6 by 2 with lines at 45 degrees, and a filled arrow head."""

    def read(self, way: tuple[int, int, int]) -> Sheet:
        doc = sheets.new()
        block = doc.blocks.new("PLANE")
        block.add_text("A", dxfattribs={"height": 2}).set_placement((10, 20))
        hatch = block.add_hatch()
        hatch.set_pattern_fill("ANSI31", angle=0)
        hatch.paths.add_polyline_path([(4, 4), (10, 4), (10, 6), (4, 6)])
        block.add_hatch().paths.add_polyline_path([(12, 0), (12, 2), (16, 1)])
        block.add_lwpolyline([(20, 0, 0, 1), (23, 0, 1, 1)], format="xyse")
        doc.modelspace().add_blockref("PLANE", AT, dxfattribs={"xscale": way[0], "yscale": way[1], "rotation": way[2]})
        with tempfile.TemporaryDirectory() as folder:
            file = pathlib.Path(folder) / "sheet.dxf"
            doc.saveas(file)
            return read_sheet(str(file), [])

    def same(self, found: Any, wanted: Any) -> None:
        self.assertEqual(sorted((round(x, 6), round(y, 6)) for x, y in found), sorted((round(x, 6), round(y, 6)) for x, y in wanted))

    def test_a_letter(self) -> None:
        for way in WAYS:
            with self.subTest(way):
                sheet = self.read(way)
                self.same([words_of(sheet)[0].place], [seen(way, 10.7, 20)])
                self.same(sheet.texts, [seen(way, 10, 20)])

    def test_a_hatch(self) -> None:
        for way in WAYS:
            with self.subTest(way):
                hatch = next(it.entity for it in self.read(way).kept if it.source.kind == "HATCH" and not is_head(it.entity))
                self.same(sides_of(hatch)[0], [seen(way, x, y) for x, y in ((4, 4), (10, 4), (10, 6), (4, 6))])

    def test_arrow_heads(self) -> None:
        for way in WAYS:
            with self.subTest(way):
                heads = list(heads_of(self.read(way), [], [], 1e-4))
                ends = [end for head in heads if head.source.kind == "HATCH" and head.points for end in head.points]
                self.same(ends, [seen(way, 12, 1), seen(way, 16, 1)])
                ends = [end for head in heads if head.source.kind == "LWPOLYLINE" and head.points for end in head.points]
                self.same(ends, [seen(way, 20, 0), seen(way, 23, 0)])


@needs_module("ezdxf", "python3-ezdxf")
class Directions(unittest.TestCase):
    def test_seen_from_below(self) -> None:
        space = sheets.new().modelspace()
        text = space.add_text("A", dxfattribs={"insert": (3, 4), "extrusion": (0, 0, -1)})
        self.assertEqual(tuple(round(it, 9) for it in places.of(text, text.dxf.insert)), (-3, 4))
        self.assertEqual(round(places.angle(text, 30), 9), 150)
        line = space.add_line((3, 4), (5, 6), dxfattribs={"extrusion": (0, 0, -1)})
        self.assertEqual(places.of(line, line.dxf.start), (3, 4))
        self.assertEqual(round(places.angle(line, 30), 9), 30)


if __name__ == "__main__":
    unittest.main()
