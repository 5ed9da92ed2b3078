"""Half views with symmetry marks are refused; whole views beside centre lines, notches and small details aren't."""
import pathlib
import tempfile
import unittest

from drafting.cli import commands
from drafting.core import notes
from drafting.core.messages import Refused
from drafting.dxf.reader import Box, Edge, Source
from drafting.sheet import pipeline
from drafting.sheet.half_views import refuse_half

from .support import needs_module

try:
    from . import sheets
except ImportError:
    sheets = None  # type: ignore[assignment]

PARSER = commands.parser_of(commands.commands())
HALF: Box = (10.0, 10.0, 30.0, 30.0)


def edges(*rows: tuple[float, float, float, float]) -> list[Edge]:
    return [Edge(False, (a, b), (c, d), 7, Source("LINE", "0", "1")) for a, b, c, d in rows]


def level(x: float, *ups: float) -> list[tuple[float, float, float, float]]:
    return [(x - 1, y, x + 1, y) for y in ups]


class HalfViews(unittest.TestCase):
    def refused(self, rows: list[tuple[float, float, float, float]], chains: list[tuple[float, float, float, float]], box: Box = HALF) -> str:
        try:
            refuse_half({"TOP": box}, edges(*rows), edges(*chains), 1e-4)
        except Refused as refusal:
            return str(refusal)
        return ""

    def test_marks_at_both_ends(self) -> None:
        both = level(10, 7, 8, 32, 33)
        self.assertRegex(self.refused(both, []), "TOP, from 10, 10 to 30, 30, is a half view: at its left side .* draw the whole view")
        self.assertIn("right side", self.refused(level(30, 7, 8, 32, 33), []))
        self.assertIn("lower side", self.refused([(b, a, d, c) for a, b, c, d in both], []))
        self.assertIn("left side", self.refused(level(10, 9.5, 10.5, 29.5, 30.5), [(10, 5, 10, 35)], (9.0, 9.5, 30.0, 30.5)))

    def test_what_is_none(self) -> None:
        rows: dict[str, list[Box]] = {
            "marks at one end": level(10, 7, 8), "one stroke at each end": level(10, 8, 32), "marks of a whole view": level(20, 7, 8, 32, 33),
            "notches": [(10, 12, 12, 12), (10, 13, 12, 13), (10, 27, 12, 27), (10, 28, 12, 28)],
            "long strokes": [(0, 7, 20, 7), (0, 8, 20, 8), (0, 32, 20, 32), (0, 33, 20, 33)], "nothing": [],
        }
        for name, its in rows.items():
            with self.subTest(name):
                self.assertEqual(self.refused(its, [(20, 5, 20, 35)]), "")

    @needs_module("ezdxf", "python3-ezdxf")
    def test_a_sheet_of_half_views(self) -> None:
        """FRONT and TOP of a block are drawn up to their middle: taken as whole ones they give half of it."""
        doc = sheets.new()
        space = doc.modelspace()
        for left, low, wide, high in ((0, 0, 20, 20), (0, 40, 20, 16), (60, 0, 16, 20)):
            sheets.rectangle(space, left, low, left + wide, low + high)
        with tempfile.TemporaryDirectory() as folder:
            file = pathlib.Path(folder) / "half.dxf"
            doc.saveas(file)
            words = PARSER.parse_args(["sheet", str(file)])
            pipeline.draw(str(file), words, notes.tell_none)
            for low, high in ((0, 20), (40, 56)):
                space.add_line((0, low - 5), (0, high + 5), dxfattribs={"linetype": "CENTER"})
                for y in (low - 3, low - 2, high + 2, high + 3):
                    space.add_line((-1.5, y), (1.5, y))
            doc.saveas(file)
            with self.assertRaisesRegex(Refused, "is a half view: at its left side .* draw the whole view"):
                pipeline.draw(str(file), words, notes.tell_none)


if __name__ == "__main__":
    unittest.main()
