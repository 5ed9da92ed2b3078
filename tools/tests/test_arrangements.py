"""Random parts in every arrangement of three to six views, in both angles: the true part is listed, or the sheet is refused; never a mirror image
alone. Which angle is meant is asked where both give a part."""
import itertools
import os
import pathlib
import random
import tempfile
import unittest
from typing import Any

from drafting.cli import commands
from drafting.core import notes
from drafting.core.messages import Refused
from drafting.projection.draw import Cell, shown_of, strokes_shown
from drafting.recon.answer import Answer, Face, Solid
from drafting.sheet.titles import Said, Text, angle_said, projection_in, titled, titles_in, views_in
from drafting.sheet.two_views import AngleContradicted, AngleOpen
from drafting.solve import arrangements, pipeline

from . import made
from .support import needs_module, needs_program
from .test_two_views import cells_in

try:
    from . import sheets
except ImportError:
    sheets = None  # type: ignore[assignment]

PARSER = commands.parser_of(commands.commands("solve"))
SEEDS = 4_000 if os.environ.get("DRAFT_LONG") else 12
BOXES = {"FRONT": (0.0, 0.0, 4.0, 3.0), "TOP": (0.0, 5.0, 4.0, 7.0), "SIDE": (6.0, 0.0, 8.0, 3.0)}
SIX = ("FRONT", "TOP", "SIDE", "LEFT", "REAR", "BOTTOM")


def turned(cells: frozenset[Cell], rotation: arrangements.Rotation) -> frozenset[tuple[int, ...]]:
    """Unit cells, turned and moved to least coordinates 0."""
    its = [tuple(sign * cell[axis] for axis, sign in rotation) for cell in cells]
    least = [min(at) for at in zip(*its)]
    return frozenset(tuple(at - low for at, low in zip(cell, least)) for cell in its)


def form_of(cells: Any) -> list[tuple[int, ...]]:
    return min(sorted(turned(frozenset(cells), rotation)) for rotation in arrangements.ROTATIONS)


def mirrored(cells: Any) -> set[tuple[int, ...]]:
    return {(-x, y, z) for x, y, z in cells}


def views_of(cells: set[Cell], views: tuple[str, ...]) -> "sheets.Views":
    cuts = [list(range(max(cell[axis] for cell in cells) + 2)) for axis in range(3)]
    return {view: [(dashed, (start, end)) for dashed, start, end in strokes_shown(shown_of(list(cells), cuts, view), 0, 0)] for view in views}


def drawn(file: pathlib.Path, views: "sheets.Views", angle: str, texts: tuple[tuple[str, str], ...] = ()) -> None:
    """A sheet of some views as they are unfolded from FRONT in an angle; texts stand below views, or nowhere near one."""
    (width, high), depth = sheets.size_of(views["FRONT"]), next(sheets.size_of(views[it])[1] for it in ("TOP", "BOTTOM") if it in views)
    x, y, out = 100.0, 100.0, 1 if angle == "third" else -1

    def beside(sign: int, size: float, far: float) -> float:
        return sheets.GAP + far if sign > 0 else -sheets.GAP - size

    places = {"FRONT": (x, y), "TOP": (x, y + beside(out, depth, high)), "BOTTOM": (x, y + beside(-out, depth, high)),
              "SIDE": (x + beside(out, depth, width), y), "LEFT": (x + beside(-out, depth, width), y)}
    right = places["LEFT" if "LEFT" in views else "SIDE"][0]
    places["REAR"] = (right + sheets.GAP + depth if right > x else right - sheets.GAP - width, y)
    from ezdxf.enums import TextEntityAlignment
    doc = sheets.new()
    sheets.draw(doc.modelspace(), views, places)
    for view, text in texts:
        left, low = places.get(view, (500.0, 10.0))
        wide = sheets.size_of(views[view])[0] if view in views else 0.0
        doc.modelspace().add_text(text, dxfattribs={"height": 0.5}).set_placement((left + wide / 2, low - 1), align=TextEntityAlignment.MIDDLE_CENTER)
    doc.saveas(file)


def asked(file: pathlib.Path, *words: str) -> Answer:
    return pipeline.ask(str(file), PARSER.parse_args(["solve", str(file), *words]), notes.tell_none).answer()


def lists(answer: Answer, cells: Any) -> bool:
    return form_of(cells) in [form_of(cells_in(it)) for it in answer.solids if it.volume == len(cells)]


class Titles(unittest.TestCase):
    def test_views_by_language(self) -> None:
        rows = {"TOP VIEW": "TOP", "Front view (1:2)": "FRONT", "RIGHT SIDE VIEW  SCALE 1:2": "SIDE", "Draufsicht": "TOP", "Rückansicht": "REAR",
                "VUE DE DESSOUS": "BOTTOM", "Vista dall’alto": "TOP", "VISTA LATERAL IZQUIERDA": "LEFT", "Widok z góry": "TOP", "Вид слева": "LEFT",
                "俯视图": "TOP", "右側面図": "SIDE", "Alzado": "FRONT", "Widok z przodu": "FRONT"}
        self.assertEqual({text: views_in(text) for text in rows}, {text: (view,) for text, view in rows.items()})
        for text in ("HOLES IN TOP VIEW", "TOP PLATE", "SEE FRONT VIEW", "PLANT", "FRONTAL", ""):
            self.assertEqual(views_in(text), (), text)
        self.assertEqual(views_in("SIDE VIEW"), ("SIDE", "LEFT"))

    def test_projections(self) -> None:
        for text in ("FIRST ANGLE PROJECTION", "1st-angle", "Projektionsmethode 1", "ISO-E", "Premier dièdre", "第一角法"):
            self.assertEqual(projection_in([text, "SCALE 1:1"]).angle, "first", text)
        for text in ("Third angle projection", "3RD ANGLE", "PROJECTION METHOD 3", "ISO-A", "第三角法"):
            self.assertEqual(projection_in([text]).angle, "third", text)
        self.assertEqual(projection_in(["FIRST ANGLE", "THIRD ANGLE"]).angle, "")
        self.assertEqual(projection_in(["ISO A3", "ISO 2768", "ANGLE 30"]).angle, "")

    def said(self, **titles: str) -> str:
        its = [Text(text, ((BOXES[view][0] + BOXES[view][2]) / 2, BOXES[view][1] - 0.3)) for view, text in titles.items()]
        return angle_said(titles_in(its), Said(""), BOXES).angle

    def test_what_titles_say(self) -> None:
        self.assertEqual(self.said(FRONT="FRONT VIEW", TOP="TOP VIEW"), "third")
        self.assertEqual(self.said(TOP="BOTTOM VIEW"), "first")
        self.assertEqual(self.said(FRONT="FRONT VIEW", SIDE="LEFT SIDE VIEW"), "first")
        self.assertEqual(self.said(FRONT="TOP VIEW", SIDE="RIGHT SIDE VIEW"), "third")
        self.assertEqual(self.said(FRONT="FRONT VIEW", SIDE="SIDE VIEW"), "")
        with self.assertRaisesRegex(Refused, "don't stand so in third angle or in first"):
            self.said(FRONT="FRONT VIEW", TOP="RIGHT SIDE VIEW")
        with self.assertRaisesRegex(Refused, "says first angle, and the titles 'TOP VIEW' stand as in third"):
            angle_said(titles_in([Text("TOP VIEW", (2.0, 7.5))]), projection_in(["FIRST ANGLE"]), BOXES)

    def test_a_title_is_of_the_nearest_view(self) -> None:
        its = titles_in([Text("TOP VIEW", (2.0, 4.7)), Text("FRONT VIEW", (2.0, -1.0)), Text("REAR VIEW", (2.0, 4.0)), Text("LEFT VIEW", (30.0, 0.0))])
        self.assertEqual({view: [it.text for it in found] for view, found in titled(its, BOXES).items()}, {"TOP": ["TOP VIEW"], "FRONT": ["FRONT VIEW"]})


def box(x: int, y: int, z: int) -> Solid:
    """The faces of a box, as recon tells them."""
    loops = {(0, 1): [(x, 0, 0), (x, y, 0), (x, y, z), (x, 0, z)], (2, 1): [(0, 0, z), (x, 0, z), (x, y, z), (0, y, z)]}
    return Solid("1", x * y * z, [Face(tuple(sign * (it == axis) for it in range(3)), [list(loop)]) for (axis, sign), loop in loops.items()])


class Rotations(unittest.TestCase):
    def test_24_of_them(self) -> None:
        self.assertEqual(len(set(arrangements.ROTATIONS)), 24)
        corner = [(0, 0, 0), (1, 0, 0), (2, 0, 0), (0, 1, 0), (0, 0, 1), (0, 1, 1), (0, 2, 1)]
        self.assertNotEqual(form_of(corner), form_of(mirrored(corner)))
        self.assertEqual(form_of([(0, 0, 0), (1, 0, 0), (0, 1, 0)]), form_of([(0, 0, 0), (-1, 0, 0), (0, 1, 0)]))

    def test_solids_turned(self) -> None:
        self.assertEqual(len(arrangements.turned(box(1, 2, 3), arrangements.ROTATIONS[0])), 2)
        self.assertFalse(arrangements.are_same([box(1, 2, 3)], [box(1, 2, 4)]))
        self.assertTrue(arrangements.are_same([box(1, 2, 3)], [box(1, 2, 3)]))


# Two blocks, whose three views in third angle are also those of their mirror image in first angle; and a step that has its views in one angle alone.
BLOCKS = {(0, 0, 0), (0, 0, 1), (1, 0, 0), (1, 0, 1), (2, 1, 1), (2, 1, 2)}
STEP = {(x, y, z) for x, y, z in itertools.product(range(4), range(3), range(3)) if not (x and z == 2 or x == 3 and y == 0)}


@needs_module("ezdxf", "python3-ezdxf")
@needs_program()
class Arrangements(unittest.TestCase):
    def setUp(self) -> None:
        folder = tempfile.TemporaryDirectory()
        self.addCleanup(folder.cleanup)
        self.file = pathlib.Path(folder.name) / "sheet.dxf"

    def test_both_angles_give_a_part(self) -> None:
        """The question names both angles; each answer gives its own hand, and titles answer it too."""
        views = views_of(BLOCKS, ("FRONT", "TOP", "SIDE"))
        drawn(self.file, views, "third")
        with self.assertRaisesRegex(AngleOpen, "(?s)--angle third: .*1 solid.*--angle first: .*1 solid"):
            asked(self.file)
        self.assertTrue(lists(asked(self.file, "--angle", "third"), BLOCKS))
        self.assertTrue(lists(asked(self.file, "--angle", "first"), mirrored(BLOCKS)))
        for angle, texts in (("third", (("TOP", "TOP VIEW"),)), ("first", (("TOP", "BOTTOM VIEW"),)), ("first", (("", "FIRST ANGLE PROJECTION"),))):
            drawn(self.file, views, "third", texts)
            with self.subTest(texts):
                self.assertTrue(lists(asked(self.file), BLOCKS if angle == "third" else mirrored(BLOCKS)))

    def test_a_text_that_no_solid_bears_out(self) -> None:
        drawn(self.file, views_of(STEP, ("FRONT", "TOP", "SIDE")), "third", (("", "FIRST ANGLE PROJECTION"),))
        with self.assertRaisesRegex(AngleContradicted, "says first angle, in which no solid matches the views; in third angle 1 solid.*--angle third"):
            asked(self.file)
        self.assertTrue(lists(asked(self.file, "--angle", "third"), STEP))

    def test_a_bottom_view_above_front(self) -> None:
        """In first angle: only there a solid has the views, so nothing is asked."""
        drawn(self.file, views_of(STEP, ("FRONT", "BOTTOM", "LEFT")), "first")
        self.assertTrue(lists(asked(self.file), STEP))

    def test_random_parts(self) -> None:
        """Three to six views of random parts, as FRONT stands in the middle."""
        listed = asked_of = 0
        choices = [(*core, *more) for core in itertools.product(("FRONT",), ("TOP", "BOTTOM"), ("SIDE", "LEFT"))
                   for count in range(4) for more in itertools.combinations([it for it in SIX if it not in core], count)]
        for seed in range(SEEDS):
            rng = random.Random(seed)
            cells = made.random_solid(rng, rng.randint(2, 3), rng.randint(2, 5))
            views, angle = rng.choice(choices), ("third", "first")[seed % 2]
            drawn(self.file, views_of(cells, views), angle)
            with self.subTest(seed=seed, views=views, angle=angle):
                try:
                    self.assertTrue(lists(asked(self.file), cells))
                    listed += 1
                except AngleOpen as question:
                    asked_of += 1
                    self.assertEqual(set(question.gives), {"third", "first"})
                    self.assertTrue(lists(asked(self.file, "--angle", angle), cells))
                except Refused as refusal:
                    self.assertIn("--", str(refusal))
        self.assertGreater(listed, SEEDS // 3)


if __name__ == "__main__":
    unittest.main()
