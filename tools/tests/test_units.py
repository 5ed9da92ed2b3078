"""A unit that a file's header says and that can hardly be meant is asked about; dimensions and title blocks that say another one settle it."""
import pathlib
import tempfile
import unittest
from fractions import Fraction
from typing import Any

from drafting.core.messages import Refused
from drafting.dxf.drawing import Origin, lines_within, origin_of, written
from drafting.dxf.reader import Sheet
from drafting.sheet import pipeline as sheet, scale
from drafting.solve.pipeline import is_plain

from .support import EXAMPLES, in_words, needs_module
from .test_sheet import arguments

try:
    from . import sheets
except ImportError:
    sheets = None  # type: ignore[assignment]

METRES, INCHES, MILLIMETRES, MICRONS = 6, 1, 4, 13
# What a text says, and the unit that it says lengths are in.
TEXTS = {
    "ALL DIMENSIONS ARE IN MILLIMETERS": "mm", "DIMENSIONS IN MM UNLESS OTHERWISE SPECIFIED": "mm", "UNITS: mm": "mm", "Maße in mm": "mm",
    "Einheit: Zoll": "in", "Cotes en mm": "mm", "Units: inches": "in", "DIM. IN INCHES": "in", "UNITS: METRES": "m", "cotas en milímetros": "mm",
    "DIMENSIONS IN BRACKETS": "", "MASSE M 1:2": "", "Maßstab 1:2": "", "SECTION A-A": "", "UNIT 4": "", "minimum": "",
}


class Likely(unittest.TestCase):
    def test_sizes(self) -> None:
        for size, unit, wanted in ((60, "mm", True), (60, "m", False), (20, "m", True), (1, "mm", True), (0.9, "mm", False), (60, "µm", False),
                                   (60, "in", True), (800, "in", False), (60_000, "", True)):
            with self.subTest(size=size, unit=unit):
                self.assertEqual(scale.is_likely(size, unit), wanted)

    def test_what_texts_say(self) -> None:
        for text, unit in TEXTS.items():
            with self.subTest(text):
                said = scale.SAYS_UNIT.search(text)
                self.assertEqual(next((it for it in scale.NAMES if said and said[f"{it}_"]), ""), unit)

    def test_a_plain_drawing_is_read_as_a_sheet(self) -> None:
        side = [(False, (0, 0), (60, 0)), (False, (60, 0), (60, 60)), (False, (60, 60), (0, 60)), (False, (0, 60), (0, 0))]
        for unit, wanted in (("mm", True), ("m", False), ("", True)):
            text = written({view: side for view in ("FRONT", "TOP", "SIDE")}, 0, Origin(unit))
            self.assertEqual(origin_of(lines_within(text.encode())).unit, unit)
            self.assertEqual(is_plain(lines_within(text.encode())), wanted, unit)


@needs_module("ezdxf", "python3-ezdxf")
class Sheets(unittest.TestCase):
    """A clevis of 60 by 40 by 50, in a unit that the header says."""

    def draw(self, unit: int, *words: str, text: str = "", high: float = 3.5, dimension: str = "", times: float = 1.0) -> tuple[Any, list[str]]:
        views = sheets.views_in(EXAMPLES / "clevis.dxf")
        size = max(sheets.size_of(views["FRONT"]))
        self.times = 60 / size * times
        doc = sheets.new(unit=unit)
        places = sheets.places_of(views)
        sheets.draw(doc.modelspace(), views, places, scale=self.times)
        if text:
            doc.modelspace().add_text(text, dxfattribs={"height": high}).set_placement((0, -200))
        if dimension:
            (x, y), (width, _) = places["FRONT"], sheets.size_of(views["FRONT"])
            ends = (self.times * x, self.times * y), (self.times * (x + width), self.times * y)
            doc.modelspace().add_linear_dim(base=(0, self.times * (y - 9)), p1=ends[0], p2=ends[1], text=dimension).render()
        with tempfile.TemporaryDirectory() as folder:
            file = pathlib.Path(folder) / "sheet.dxf"
            doc.saveas(file)
            said: list[str] = []
            drawn = sheet.draw(str(file), arguments("sheet", file, *words), in_words(said))
        return drawn, said

    def refused(self, unit: int, **more: Any) -> Refused:
        with self.assertRaises(Refused) as caught:
            self.draw(unit, **more)
        return caught.exception

    def test_metres_are_asked_about(self) -> None:
        refusal = self.refused(METRES)
        self.assertEqual(str(refusal), "the file says that lengths are in m, so that the part is 60 m long, which can hardly be meant: say --unit mm or "
                         "--unit in, or --unit m where it is right")
        self.assertEqual((refusal.option, refusal.ways), ("unit", ["mm", "in", "m"]))

    def test_a_text_that_would_be_too_high_is_named(self) -> None:
        self.assertIn("; a text would be 3.5 m high: say --unit mm", str(self.refused(METRES, text="CLEVIS")))

    def test_its_advice_is_followed(self) -> None:
        for unit in ("mm", "m"):
            drawn, said = self.draw(METRES, "--unit", unit)
            self.assertEqual(drawn.origin.unit, unit)

    def test_too_small_a_part_is_asked_about(self) -> None:
        self.assertIn("the part is 60 µm long", str(self.refused(MICRONS)))
        self.assertIn("the part is 0.6 mm long", str(self.refused(MILLIMETRES, times=0.01)))

    def test_likely_sizes_are_read_as_they_were(self) -> None:
        for unit, name in ((MILLIMETRES, "mm"), (INCHES, "in"), (0, "")):
            drawn, said = self.draw(unit)
            self.assertEqual(drawn.origin.unit, name)

    def test_a_title_block_settles_it(self) -> None:
        drawn, said = self.draw(METRES, text="ALL DIMENSIONS IN MM")
        self.assertEqual(drawn.origin.unit, "mm")
        self.assertTrue(any(it.startswith("changed: lengths are in mm, as TEXT ") and it.endswith(
            "says, and not in m, in which the part would be 60 m long") for it in said), said)
        drawn, said = self.draw(METRES, text="UNITS: METRES")
        self.assertEqual(drawn.origin.unit, "m")

    def test_dimensions_with_a_unit_settle_it(self) -> None:
        width = "<> mm"
        drawn, said = self.draw(METRES, dimension=width)
        self.assertEqual(drawn.origin.unit, "mm", said)

    def test_witnesses_that_differ_are_asked_about(self) -> None:
        self.assertIn("--unit mm", str(self.refused(METRES, text="UNITS: INCHES", dimension="<> mm")))


class Witnesses(unittest.TestCase):
    def test_nothing_is_said_by_an_empty_sheet(self) -> None:
        self.assertEqual(scale.units_said(Sheet("m"), Fraction(1), 1e-4), {})
        self.assertEqual(scale.texts_against(Sheet("m")), "")


if __name__ == "__main__":
    unittest.main()
