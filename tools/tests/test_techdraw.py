"""Random parts as pages of FreeCAD's TechDraw, exported with and without hidden lines, come to the answer of the parts' own drawings."""
import pathlib
import random
import tempfile
import unittest
from collections.abc import Callable
from typing import Any

from drafting.core import notes
from drafting.core.messages import Refused
from drafting.dxf.drawing import Stroke, written
from drafting.sheet import pipeline

from .parts import Box, boxes_of, cells_of
from .support import in_words, needs_module, needs_program
from .test_sheet import arguments, plain_answer, solved

try:
    from drafting.cad.freecad import FreeCAD, Part, TechDraw
    from drafting.cad.project import part_of, views_of
    missing = ""
except Refused:
    missing = "apt-get install freecad-python3"

PARTS = 50
# A part whose drawing has more solids is passed over.
MOST_SOLIDS = 100
# How large a part is drawn, and where the middles of its views are on the page.
SIZE = 10
PLACES = {"FRONT": ((0, -1, 0), (1, 0, 0), (100, 80)), "TOP": ((0, 0, 1), (1, 0, 0), (100, 180)), "SIDE": ((1, 0, 0), (0, 1, 0), (220, 80))}
TEMPLATE = "/usr/share/freecad/Mod/TechDraw/Templates/A3_Landscape_blank.svg"


# What adds to a document's page with its views.
Annotate = Callable[[Any, Any, list[Any]], None]


def with_dimensions_and_a_section(doc: Any, page: Any, views: list[Any]) -> None:
    """A dimension of each view, and a section across y in the middle of the part, to the right of all views."""
    for view in views:
        dimension = doc.addObject("TechDraw::DrawViewDimension", "Dimension")
        dimension.Type, dimension.References2D = "Distance", [(view, "Edge0")]
        page.addView(dimension)
    section = doc.addObject("TechDraw::DrawViewSection", "SectionA")
    page.addView(section)
    section.BaseView, section.Source, section.SectionSymbol = views[1], views[1].Source, "A"
    section.SectionNormal, section.SectionOrigin = FreeCAD.Vector(0, 1, 0), FreeCAD.Vector(30, 20, 15)
    section.Direction, section.XDirection = FreeCAD.Vector(0, -1, 0), FreeCAD.Vector(1, 0, 0)
    section.X, section.Y, section.ScaleType, section.Scale = 330, 80, "Custom", views[1].Scale


def shape_of(boxes: list[Box]) -> "Part.Shape":
    shape: Any = None
    for word, low, high in boxes:
        sides = [SIZE * (b - a) for a, b in zip(low, high)]
        box = Part.makeBox(*sides, FreeCAD.Vector(*(SIZE * it for it in low)))
        shape = box if shape is None else shape.fuse(box) if word == "add" else shape.cut(box)
    return part_of(shape)


def exported(shape: "Part.Shape", folder: pathlib.Path, scale: float = 1, annotate: Annotate | None = None) -> tuple[pathlib.Path, pathlib.Path]:
    """The two exports of a page with three views, whose middles are at the places that FreeCAD gives the middle of a view; drawn at a
    scale, and with what is added to them."""
    doc = FreeCAD.newDocument()
    feature = doc.addObject("Part::Feature", "Shape")
    feature.Shape = shape
    page, template = doc.addObject("TechDraw::DrawPage", "Page"), doc.addObject("TechDraw::DrawSVGTemplate", "Template")
    template.Template, page.Template = TEMPLATE, template
    views = []
    for direction, right, (x, y) in PLACES.values():
        view = doc.addObject("TechDraw::DrawViewPart", "ProjItem")
        page.addView(view)
        view.Source, view.Direction, view.XDirection = [feature], FreeCAD.Vector(*direction), FreeCAD.Vector(*right)
        view.X, view.Y, view.ScaleType, view.Scale = x, y, "Custom", scale
        views.append(view)
    if annotate:
        doc.recompute()
        annotate(doc, page, views)
    files = folder / "whole.dxf", folder / "visible.dxf"
    for file, hidden in zip(files, (True, False)):
        for view in views:
            view.HardHidden = hidden
        doc.recompute()
        TechDraw.writeDXFPage(page, str(file))
    FreeCAD.closeDocument(doc.Name)
    return files


@unittest.skipIf(missing, missing)
@needs_module("ezdxf", "python3-ezdxf")
@needs_program()
class Pages(unittest.TestCase):
    def test_fifty_parts(self) -> None:
        done = 0
        with tempfile.TemporaryDirectory() as folder:
            for seed in range(10 * PARTS):
                boxes = boxes_of(random.Random(seed))
                if done == PARTS:
                    break
                if not cells_of(boxes):
                    continue
                with self.subTest(seed=seed):
                    done += self.one(boxes, pathlib.Path(folder))
        self.assertEqual(done, PARTS)

    def test_a_page_without_a_second_export_is_refused(self) -> None:
        with tempfile.TemporaryDirectory() as folder:
            whole, _ = exported(shape_of([("add", (0, 0, 0), (3, 2, 1)), ("add", (0, 1, 1), (1, 2, 2))]), pathlib.Path(folder))
            with self.assertRaisesRegex(Refused, "which tells no linetypes: .*--visible-only"):
                pipeline.draw(str(whole), arguments("sheet", whole), notes.tell_none)

    def test_dimensions_and_a_section_of_a_page_at_half_scale(self) -> None:
        boxes: list[Box] = [("add", (0, 0, 0), (6, 4, 3)), ("cut", (2, 1, 1), (4, 3, 3)), ("cut", (5, 0, 2), (6, 4, 3))]
        with tempfile.TemporaryDirectory() as folder:
            whole, visible = exported(shape_of(boxes), pathlib.Path(folder), 0.5, with_dimensions_and_a_section)
            words = ("--visible-only", visible)
            with self.assertRaisesRegex(Refused, "3 dimensions say 2 times the lengths as drawn.*say --scale 1:2"):
                pipeline.draw(str(whole), arguments("sheet", whole, *words), notes.tell_none)
            said: list[str] = []
            made = pipeline.draw(str(whole), arguments("sheet", whole, *words, "--scale", "1:2"), in_words(said))
        self.assertIn("found: 3 dimensions say the lengths that they span, at the scale 1:2", said)
        self.assertIn("a section, group 4, since its lines are on the layer or in the block SectionA", "\n".join(said))
        self.assertEqual([volume for _, volume, _ in plain_answer(solved(made.text.encode()))], [len(cells_of(boxes)) * SIZE**3])

    def one(self, boxes: list[Box], folder: pathlib.Path) -> bool:
        shape = shape_of(boxes)
        strokes: dict[str, list[Stroke]] = {view: [(edge.hidden, *edge.ends()) for edge in edges] for view, edges in views_of(shape).items()}
        own = solved(written(strokes, 0).encode(), most=MOST_SOLIDS)
        if not own.startswith("whole"):
            return False
        whole, visible = exported(shape, folder)
        said: list[str] = []
        made = pipeline.draw(str(whole), arguments("sheet", whole, "--visible-only", visible), in_words(said))
        self.assertEqual(made.decimals, 0, said)
        self.assertEqual(plain_answer(solved(made.text.encode(), most=MOST_SOLIDS)), plain_answer(own), said)
        self.assertIn(len(cells_of(boxes)) * SIZE**3, [volume for _, volume, _ in plain_answer(own)])
        return True
