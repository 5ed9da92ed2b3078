"""Views that names tell may lie over one another on the sheet: their places have no effect, with circles, arcs and oblique edges too."""
import pathlib
import tempfile
import unittest
from typing import Any

from drafting.core.messages import Refused
from drafting.dxf.drawing import Place
from drafting.sheet import pipeline as sheet

from .support import in_words, needs_module
from .test_sheet import arguments

try:
    from . import sheets
except ImportError:
    sheets = None  # type: ignore[assignment]

# A plate of 40 by 30 by 10 with a hole of radius 5 through it, and a chamfer of 4 at its upper right edge.
FRONT = [(0, 0, 40, 0), (40, 0, 40, 6), (40, 6, 36, 10), (36, 10, 0, 10), (0, 10, 0, 0)]
TOP = [(0, 0, 40, 0), (40, 0, 40, 30), (40, 30, 0, 30), (0, 30, 0, 0), (36, 0, 36, 30)]
SIDE = [(0, 0, 30, 0), (30, 0, 30, 10), (30, 10, 0, 10), (0, 10, 0, 0), (0, 6, 30, 6)]
HIDDEN = {"FRONT": [(10, 0, 10, 10), (20, 0, 20, 10)], "SIDE": [(10, 0, 10, 10), (20, 0, 20, 10)]}
HOLE = (15, 15)
APART: dict[str, Place] = {"FRONT": (0, 0), "TOP": (0, 50), "SIDE": (80, 0)}
# All from one place, two of them alone, and in another order.
OVERLAPPING: tuple[dict[str, Place], ...] = (
    {"FRONT": (0, 0), "TOP": (0, 0), "SIDE": (0, 0)}, {"FRONT": (0, 0), "TOP": (5, 5), "SIDE": (80, 0)},
    {"FRONT": (7, 21), "TOP": (0, 0), "SIDE": (3, 4)}, {"FRONT": (0, 0), "TOP": (0, 10), "SIDE": (40, 0)},
)


def made(places: dict[str, Place]) -> Any:
    doc = sheets.new()
    space = doc.modelspace()
    for view, its in (("FRONT", FRONT), ("TOP", TOP), ("SIDE", SIDE)):
        x, y = places[view]
        for style, lines in (("CONTINUOUS", its), ("HIDDEN", HIDDEN.get(view, []))):
            for a, b, c, d in lines:
                space.add_line((a + x, b + y), (c + x, d + y), dxfattribs={"layer": f"{view}_LINES", "linetype": style})
    space.add_circle((HOLE[0] + places["TOP"][0], HOLE[1] + places["TOP"][1]), 5, dxfattribs={"layer": "TOP_LINES"})
    return doc


@needs_module("ezdxf", "python3-ezdxf")
class Overlapping(unittest.TestCase):
    def drawn(self, doc: Any) -> tuple[str, list[str]]:
        with tempfile.TemporaryDirectory() as folder:
            file = pathlib.Path(folder) / "sheet.dxf"
            doc.saveas(file)
            said: list[str] = []
            made = sheet.draw(str(file), arguments("sheet", file), in_words(said))
            return made.text, [*said, *map(str, made.notes)]

    def test_places_have_no_effect(self) -> None:
        own, said = self.drawn(made(APART))
        self.assertFalse([it for it in said if "moved by" in it and "names tell" in it])
        for places in OVERLAPPING:
            with self.subTest(places):
                text, said = self.drawn(made(places))
                self.assertEqual(text, own)
                self.assertTrue(any("from here on, since views lie over one another on the sheet, and names tell them" in it for it in said), said)

    def test_what_lies_in_two_views_and_is_named_for_none_is_refused(self) -> None:
        doc = made(OVERLAPPING[0])
        doc.modelspace().add_circle((5, 5), 2, dxfattribs={"layer": "0"})
        with self.assertRaisesRegex(Refused, r"CIRCLE \w+ on layer 0 lies within the boxes of FRONT and TOP and SIDE, and its layer names none"):
            self.drawn(doc)

    def test_dimensions_and_texts_of_a_view_go_with_it(self) -> None:
        doc = made(OVERLAPPING[0])
        doc.modelspace().add_linear_dim(base=(0, -10), p1=(0, 0), p2=(40, 0), dxfattribs={"layer": "FRONT_DIM"}).render()
        self.assertIn("found: 1 dimension says the length that it spans", self.drawn(doc)[1])

    def test_a_hatch_of_no_view_is_refused(self) -> None:
        doc = made(OVERLAPPING[0])
        doc.modelspace().add_hatch(dxfattribs={"layer": "0"}).paths.add_polyline_path([(0, 0), (5, 0), (5, 5), (0, 5)])
        with self.assertRaisesRegex(Refused, r"HATCH \w+ on layer 0 lies over FRONT and TOP and SIDE, which lie over one another"):
            self.drawn(doc)


if __name__ == "__main__":
    unittest.main()
