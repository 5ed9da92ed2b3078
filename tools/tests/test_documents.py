"""Pages in documents of FreeCAD, as `draft` reads them: the part of the document is listed, where it stands there, and what can't be read is
refused by its cause. Among them are the traps that such documents set."""
import argparse
import math
import pathlib
import random
import tempfile
import unittest
import zipfile
from collections.abc import Callable
from typing import Any, NamedTuple

from drafting.core import notes
from drafting.core.messages import Refused
from drafting.dxf.drawing import lines_within
from drafting.explain import hidden_unknown
from drafting.projection.sections import strokes_in_all
from drafting.solve import pipeline

from .parts import Box, boxes_of, cells_of
from .support import TOOLS, draft, in_words, needs_long, needs_program

try:
    from drafting.cad.freecad import FreeCAD, Part

    from . import documents
    from .documents import Document, box, corner, placement, quartered, without_a_corner
    from drafting.cad import in_document
    missing = ""
except Refused:
    missing = "apt-get install freecad-python3"

RANDOM, LONG = 40, 200
# The most boxes of a random part, and the most solids that its drawing may have.
MOST_BOXES, MOST_SOLIDS = 14, 300
# What makes a document, and answers the shape that is to be listed, where it stands.
Make = Callable[["Document"], Any]


class Told(NamedTuple):
    """What was told of a document, and what came: which of the solids, by their numbers, is the part, and how many there are."""

    said: list[str]
    part: list[int]
    solids: int
    asked: pipeline.Asked


def arguments(*words: object) -> argparse.Namespace:
    parser = argparse.ArgumentParser()
    pipeline.add_arguments(parser)
    return parser.parse_args(["--solids", str(MOST_SOLIDS), *map(str, words)])


def told(path: pathlib.Path, known: Any, *words: object) -> Told:
    """What comes of a document, of whose solids those are told that are a known shape where that stands."""
    said: list[str] = []
    asked = pipeline.ask(str(path), arguments(*words), in_words(said))
    its = list(in_document.stood(asked))
    same = [at for at, it in enumerate(its, 1) if it.is_part and it.shape.cut(known).Volume + known.cut(it.shape).Volume < 1e-6 * known.Volume]
    return Told(said, same, len(its), asked)


def of_made(make: Make, *words: object) -> Told:
    """The same of a document that is made for it."""
    with tempfile.TemporaryDirectory() as folder:
        one = Document()
        known = make(one)
        return told(one.saved(folder), known, *words)


def body(one: "Document") -> Any:
    """A body of PartDesign: a sketch that is padded, with a pocket by another sketch."""
    made = one.add("PartDesign::Body", "Body")
    for name, (width, depth), (x, y), kind, length in (("Base", (40, 30), (0, 0), "Pad", 20), ("Cut", (20, 10), (10, 15), "Pocket", 12)):
        sketch = one.add("Sketcher::SketchObject", name)
        made.addObject(sketch)
        corners = [(x, y), (x + width, y), (x + width, y + depth), (x, y + depth)]
        for start, end in zip(corners, corners[1:] + corners[:1]):
            sketch.addGeometry(Part.LineSegment(FreeCAD.Vector(*start, 0), FreeCAD.Vector(*end, 0)), False)
        feature = one.add(f"PartDesign::{kind}", kind)
        made.addObject(feature)
        feature.Profile, feature.Length = sketch, length
        if kind == "Pocket":
            feature.Reversed = True
        one.doc.recompute()
    return made


# ---- documents whose part is listed

def single_views(one: "Document", *views: tuple[Any, ...]) -> Any:
    page, feature = one.page(), one.feature(corner())
    for direction, right, scale, turned in views:
        one.single(page, [feature], direction, right, scale, Rotation=turned)
    return feature.Shape


def in_a_group(one: "Document", shape: Any, names: tuple[str, ...] = ("Top", "Right"), **told_of: Any) -> Any:
    feature = one.feature(shape)
    one.group(one.page(), [feature], names, **told_of)
    return feature.Shape


def turned_part(one: "Document") -> Any:
    feature = one.feature(corner(), placed=placement((100, 50, 20), degrees=30))
    one.group(one.page(), [feature], front=documents.turn(30))
    return feature.Shape


def held(one: "Document", of_what: str) -> Any:
    """A part that something holds and turns: a view of the holder, or of the part within it, is drawn by the shape that each has itself."""
    holder, feature = one.add("App::Part", "Holder"), one.feature(corner())
    holder.addObject(feature)
    holder.Placement = placement((5, 6, 7), degrees=90)
    one.group(one.page(), [holder if of_what == "holder" else feature])
    shape = feature.Shape.copy()
    shape.Placement = holder.Placement * shape.Placement
    return shape


def linked(one: "Document") -> Any:
    link = one.add("App::Link", "Link")
    link.LinkedObject = one.feature(corner())
    link.Placement = placement((50, 0, 0), degrees=180)
    one.group(one.page(), [link])
    shape = corner()
    shape.Placement = link.Placement
    return shape


def assembled(one: "Document", *parts: Any) -> Any:
    """Several parts of one page's views."""
    one.group(one.page(), [one.feature(part, f"part {at}") for at, part in enumerate(parts)])
    return parts[0].multiFuse(parts[1:])


def linked_often(one: "Document") -> Any:
    """A link that stands for several of a part."""
    link = one.add("App::Link", "Link")
    link.LinkedObject, link.ElementCount, link.ShowElement = one.feature(box(10, 10, 10)), 3, False
    link.PlacementList = [placement((0, 0, 0)), placement((20, 0, 0)), placement((40, 0, 10))]
    one.doc.recompute()
    one.group(one.page(), [link])
    return Part.getShape(link)


def with_a_slot(one: "Document") -> Any:
    """A slot whose ends go over into its sides: a cut marks no edge as smooth."""
    ends = [Part.makeCylinder(5, 10, documents.vector((x, 20, 0))) for x in (15, 45)]
    return in_a_group(one, box(60, 40, 10).cut(box(30, 10, 10, 15, 15).multiFuse(ends)))


def with_rounded_corners(one: "Document") -> Any:
    """A part whose page draws smooth edges and no hidden ones."""
    shape = box(40, 30, 20)
    upright = [edge for edge in shape.Edges if edge.BoundBox.ZLength > 19]
    return in_a_group(one, shape.makeFillet(5, upright), ("Top", "Right", "Rear"), HardHidden=False)


def by_a_spreadsheet(one: "Document") -> Any:
    sheet, made = one.add("Spreadsheet::Sheet", "Sizes"), one.add("Part::Box", "Box")
    for cell, value in (("A1", "12.5"), ("A2", "=A1 * 2"), ("A3", "=A2 - 5")):
        sheet.set(cell, value)
    one.doc.recompute()
    for name, cell in (("Length", "A1"), ("Width", "A2"), ("Height", "A3")):
        made.setExpression(name, f"Sizes.{cell}")
    one.doc.recompute()
    one.group(one.page(), [made])
    return box(12.5, 25, 20)


def with_a_section(one: "Document") -> Any:
    feature = one.feature(corner())
    page = one.page()
    group = one.group(page, [feature])
    one.doc.recompute()
    section, dimension = one.add("TechDraw::DrawViewSection", "Section"), one.add("TechDraw::DrawViewDimension", "Dimension")
    page.addView(section)
    section.BaseView, section.Source, section.SectionNormal, section.SectionOrigin = group.Anchor, [feature], documents.vector((1, 0, 0)), documents.vector((15, 15, 15))
    dimension.Type, dimension.References2D = "Distance", [(group.Anchor, "Edge0")]
    page.addView(dimension)
    dimension.Arbitrary, dimension.FormatSpec = True, "99"
    return feature.Shape


def with_sections(one: "Document", shape: Any, *cuts: tuple[tuple[float, ...], tuple[float, ...]]) -> list[Any]:
    """A page with three views of a part and some sections by their normals and places; these."""
    page = one.page()
    group = one.group(page, [one.feature(shape)])
    one.doc.recompute()
    return [one.section(page, group.Anchor, *cut, letter) for letter, cut in zip("ABCDEF", cuts)]


def sectioned(shape: Any, *cuts: tuple[tuple[float, ...], tuple[float, ...]]) -> Make:
    def make(one: "Document") -> Any:
        with_sections(one, shape, *cuts)
        return shape
    return make


def with_a_hole(one: "Document") -> Any:
    shape = box(40, 30, 10).fuse(box(10, 30, 20)).cut(Part.makeCylinder(5, 10, documents.vector((25, 15, 0)))).removeSplitter()
    return in_a_group(one, shape)


LISTED: dict[str, tuple[Make, tuple[str, ...], str]] = {
    "all six views, at half size": (lambda one: in_a_group(one, corner(), ("Top", "Right", "Left", "Rear", "Bottom"), scale=0.5), (), "LEFT is Left"),
    "the left and the bottom view": (lambda one: in_a_group(one, corner(), ("Bottom", "Left"), scale=1 / 3), (), ""),
    "two views": (lambda one: in_a_group(one, corner(), ("Right",)), (), "without TOP"),
    "an isometric view beside": (lambda one: in_a_group(one, corner(), ("Top", "Right", "FrontTopRight")), (), "which looks aslant"),
    "single views": (lambda one: single_views(one, ((0, -1, 0), (1, 0, 0), 0.5, 0), ((0, 0, 1), (1, 0, 0), 0.5, 0), ((1, 0, 0), (0, 1, 0), 0.5, 0)), (), ""),
    "single views, turned, of other sizes": (
        lambda one: single_views(one, ((0, -1, 0), (1, 0, 0), 1, 90), ((0, 0, 1), (0, 1, 0), 0.5, 0), ((-1, 0, 0), (0, 0, 1), 2, 180)), (), ""),
    "a part that stands aslant, and views along it": (turned_part, (), ""),
    "a part within what holds it": (lambda one: held(one, "part"), (), ""),
    "what holds a part": (lambda one: held(one, "holder"), (), ""),
    "a link": (linked, (), ""),
    "parts that touch": (lambda one: assembled(one, box(10, 10, 10), box(10, 10, 20, 10)), (), "2 solids are taken as one part"),
    "parts that stand apart": (lambda one: assembled(one, box(10, 10, 10), box(10, 10, 20, 20)), (), "2 solids are taken as one part"),
    "a link that stands for several": (linked_often, (), "3 solids are taken as one part"),
    "a slot": (with_a_slot, (), "2 circles or rounds squared off"),
    "a chamfer": (lambda one: in_a_group(one, chamfered()), (), "in TOP 1 oblique edge squared off to a corner"),
    "rounded corners": (with_rounded_corners, (), "left out: 6 smooth edges, which the page draws"),
    "lengths in thirds, far from the middle": (
        lambda one: in_a_group(one, box(10, 10 / 3, 20 / 3, 1234.5, -99).cut(box(10 / 3, 10 / 3, 10 / 3, 1234.5, -99))), (), "lengths multiplied by 3"),
    "a spreadsheet": (by_a_spreadsheet, (), ""),
    "a section and a dimension": (with_a_section, (), "left out: section Section of page Page, which doesn't look straight at its plane from what is cut off|Dimension says 99 in words of its own"),
    "sections upon a face and aslant": (lambda one: sectioned(corner(), ((0, -1, 0), (5, 10, 5)), ((1, 1, 0), (5, 5, 5)))(one), (),
                                        "its plane lies upon a face of the part, at y = 10|left out: section|which looks aslant"),
    "a section of a part with a hole": (
        lambda one: sectioned(box(40, 30, 10).cut(Part.makeCylinder(5, 10, documents.vector((25, 15, 0)))), ((0, -1, 0), (0, 15, 0)))(one), (),
        ": of a page with rounds or oblique edges sections aren't read"),
    "coarse lines, isolines and smooth ones": (
        lambda one: in_a_group(one, corner(), CoarseView=True, IsoVisible=True, IsoCount=3, SmoothHidden=True), (), ""),
    "a hole": (with_a_hole, (), "1 circle or round squared off"),
}


# ---- documents that are refused

def two_parts(one: "Document") -> Any:
    page = one.page()
    features = [one.feature(shape, label) for shape, label in ((corner(), "Corner"), (box(10, 20, 30), "Block"))]
    for feature in features:
        one.group(page, [feature])
    return features[0].Shape


def two_pages(one: "Document") -> Any:
    feature = one.feature(corner())
    one.group(one.page("First"), [feature])
    one.group(one.page("Second", "First Angle"), [feature], ("Top", "Left"))
    return feature.Shape


def without_its_source(one: "Document") -> Any:
    in_a_group(one, corner())
    one.doc.recompute()
    one.doc.removeObject("Shape")


def chamfered() -> Any:
    shape = box(20, 20, 20)
    return shape.makeChamfer(3, shape.Edges[:1])


def elliptic() -> Any:
    rim = Part.Ellipse(FreeCAD.Vector(), 20, 10).toShape()
    return Part.Face(Part.Wire([rim])).extrude(FreeCAD.Vector(0, 0, 5))


REFUSED: dict[str, tuple[Make, str]] = {
    "no page": (lambda one: one.feature(corner()), "no page of TechDraw"),
    "two pages": (two_pages, "2 pages in the document: name one of First, Second by --sheet-page"),
    "two parts": (two_parts, "3 views of Corner; 3 views of Block: which part is meant has to be said, by --part"),
    "a source that is gone": (without_its_source, "shows nothing: what it showed isn't in the document"),
    "perspective": (lambda one: in_a_group(one, corner(), Perspective=True), "is in perspective"),
    "front and rear alone": (lambda one: in_a_group(one, corner(), ("Rear",)), "views along two axes are needed.*Front, Rear show one"),
    "a part aslant to the page": (
        lambda one: one.group(one.page(), [one.feature(corner(), placed=placement(degrees=30))]), r"an oblique edge from .* \(line of the page's view \w+\) is squared off to neither corner"),
    "a corner cut off": (lambda one: in_a_group(one, without_a_corner()), "a line of the page's view .* from its lower left corner on: it is oblique"),
    "an ellipse, all that is drawn in Top": (
        lambda one: in_a_group(one, elliptic()), "a curve of the page's view Top is neither .*, and stands in line with FRONT, where the view that lacks may be"),
    "a surface": (lambda one: in_a_group(one, Part.makePlane(10, 10)), "has no solid in it"),
}


@unittest.skipIf(missing, missing)
@needs_program()
class Pages(unittest.TestCase):
    def test_the_part_is_listed_where_it_stands(self) -> None:
        for name, (make, words, said) in LISTED.items():
            with self.subTest(name):
                it = of_made(make, *words)
                self.assertEqual(len(it.part), 1, (it.said, it.solids))
                for text in said.split("|"):
                    self.assertIn(text, "\n".join(it.said))

    def test_what_cant_be_read_is_refused_by_its_cause(self) -> None:
        for name, (make, cause) in REFUSED.items():
            with self.subTest(name):
                with self.assertRaisesRegex(Refused, cause) as refused:
                    of_made(make)
                self.assertNotIn("--as-is", str(refused.exception))

    def test_a_torus_comes_to_no_solid(self) -> None:
        self.assertEqual(of_made(lambda one: in_a_group(one, Part.makeTorus(20, 5))).solids, 0)

    def test_pages_and_parts_by_their_names(self) -> None:
        self.assertEqual(len(of_made(two_pages, "--sheet-page", "Second").part), 1)
        self.assertEqual(len(of_made(two_parts, "--part", "Corner").part), 1)
        with self.assertRaisesRegex(Refused, "no page is called Third: there are First, Second"):
            of_made(two_pages, "--sheet-page", "Third")
        with self.assertRaisesRegex(Refused, "none of a part called Ring"):
            of_made(two_parts, "--part", "Ring")

    def test_ambiguous_pages_of_the_quartered_cube(self) -> None:
        it = of_made(lambda one: in_a_group(one, quartered()))
        self.assertEqual((it.solids, len(it.part)), (3, 1))
        it = of_made(lambda one: in_a_group(one, quartered(), ("Top", "Right", "Left")))
        self.assertEqual((it.solids, len(it.part)), (2, 1))

    def test_a_section_of_the_quartered_cube(self) -> None:
        it = of_made(sectioned(quartered(), ((0, -1, 0), (10, 15, 10))))
        self.assertEqual((it.solids, len(it.part)), (1, 1), it.said)
        self.assertIn("SECTION A-A is what FRONT shows behind y = 15: layers SECTION_FRONT_15, AREA_FRONT_15", "\n".join(it.said))

    def test_sections_are_as_techdraw_draws_them(self) -> None:
        """Of each of six ways to look at a part within it."""
        ways = ((0, -1, 0), (0, 1, 0), (1, 0, 0), (-1, 0, 0), (0, 0, 1), (0, 0, -1))
        with tempfile.TemporaryDirectory() as folder:
            one = Document()
            its = with_sections(one, corner(), *((way, (15, 15, 15)) for way in ways))
            one.doc.recompute()
            lengths = [sum(edge.Length for edge in section.getVisibleEdges()) for section in its]
            ended = draft("sheet", one.saved(folder))
        self.assertEqual(ended.status, 0, ended.said)
        drawn = {name: sum(math.dist(start, end) for _, start, end in strokes)
                 for name, strokes in strokes_in_all(lines_within(ended.out.encode()), 0, True).items() if name.startswith("SECTION")}
        names = [f"SECTION_{view}_15" for view in ("FRONT", "REAR", "SIDE", "LEFT", "TOP", "BOTTOM")]
        self.assertEqual({name: round(drawn.get(name, 0)) for name in names}, {name: round(length) for name, length in zip(names, lengths)}, ended.said)

    def test_random_parts(self) -> None:
        self.some(RANDOM)

    @needs_long()
    def test_many_random_parts(self) -> None:
        self.some(LONG)

    def some(self, count: int) -> None:
        done = 0
        for seed in range(1000, 9999):
            chance = random.Random(seed)
            boxes = boxes_of(chance)
            if not cells_of(boxes) or len(boxes) > MOST_BOXES:
                continue
            with self.subTest(seed=seed):
                self.assertEqual(len(of_made(lambda one: self.one(one, boxes, chance)).part), 1)
            done += 1
            if done == count:
                break
        self.assertEqual(done, count)

    def one(self, one: "Document", boxes: list[Box], chance: random.Random) -> Any:
        feature = one.feature(documents.of_boxes(boxes), placed=placement((3, 4, 5), degrees=90 * chance.randrange(4)))
        page = one.page(angle=chance.choice(("Third Angle", "First Angle")))
        one.group(page, [feature], chance.choice(documents.SETS), chance.choice((1.0, 0.5, 2.0, 0.1, 1 / 3)), HardHidden=chance.random() < 0.5)
        return feature.Shape


@unittest.skipIf(missing, missing)
@needs_program()
class Traps(unittest.TestCase):
    def test_bodies_of_part_design_are_there_without_a_window(self) -> None:
        it = of_made(lambda one: in_a_body(one))
        self.assertEqual((len(it.part), it.solids), (1, 1), it.said)

    def test_a_page_without_hidden_lines_isnt_unique(self) -> None:
        with tempfile.TemporaryDirectory() as folder:
            one = Document()
            in_a_group(one, corner(), HardHidden=False)
            path = one.saved(folder)
            ended = draft("solve", path)
            alone = draft("solve", path, "--visible-edges-alone", "--most", 2)
        self.assertEqual(ended.status, 14, ended.said)
        self.assertIn("Not checked: the page as it is. It doesn't show hidden lines in Front, Top, Right", ended.out)
        self.assertRegex(ended.out, "As it is the page leaves open which solid is meant: at least [0-9]+ have what it shows")
        self.assertRegex(ended.said, "warning: page Page doesn't show hidden lines in Front, Top, Right")
        self.assertEqual(alone.status, 13, alone.said)
        self.assertIn("At least 2 solids have these visible edges", alone.out)

    def test_one_view_without_hidden_lines_leaves_less_open(self) -> None:
        def make(one: "Document") -> Any:
            feature = one.feature(corner())
            group = one.group(one.page(), [feature])
            group.Views[1].HardHidden = False
            return feature.Shape

        it = of_made(make)
        rows = hidden_unknown.told(it.asked, arguments())
        self.assertIn("which it doesn't show in Top.", rows[0])
        self.assertEqual(of_made(lambda one: in_a_group(one, corner())).asked.page.lacking, [])  # type: ignore[union-attr]

    def test_faces_of_one_plane_are_joined(self) -> None:
        unrefined = box(10, 10, 10).fuse(box(10, 10, 20, 10))
        it = of_made(lambda one: in_a_group(one, unrefined))
        self.assertEqual((len(it.part), it.solids), (1, 1), it.said)
        self.assertRegex("\n".join(it.said), r"changed: \d faces joined with others in their plane")

    def test_the_document_is_as_it_was(self) -> None:
        with tempfile.TemporaryDirectory() as folder:
            one = Document()
            feature = one.feature(corner())
            group = one.group(one.page(), [feature], front=((0, -2, 0), (3, 0, 0)))
            one.doc.recompute()
            before = [(tuple(it.Direction), tuple(it.XDirection), it.HardHidden, it.State) for it in group.Views]
            from drafting.cad import techdraw
            page, _ = techdraw.taken(techdraw.page_of(one.doc, None), None, notes.tell_none)
            self.assertEqual([(tuple(it.Direction), tuple(it.XDirection), it.HardHidden, it.State) for it in group.Views], before)
            self.assertEqual(tuple(group.Views[0].Direction), (0.0, -2.0, 0.0))
            names = [it.Name for it in one.doc.Objects]
            path = one.saved(folder)
            data = path.read_bytes()
            self.assertEqual(len(told(path, page.part).part), 1)
            self.assertEqual(path.read_bytes(), data)
            self.assertEqual(names, ["Shape", "Page", "Template", "ProjGroup", *[it for it in names if it.startswith("ProjItem")]])
            self.assertEqual(list(FreeCAD.listDocuments()), [])


def in_a_body(one: "Document") -> Any:
    made = body(one)
    one.group(one.page(), [made])
    return box(40, 30, 20).cut(box(20, 10, 12, 10, 15))


@unittest.skipIf(missing, missing)
@needs_program()
class Files(unittest.TestCase):
    def test_files_that_are_no_documents(self) -> None:
        with tempfile.TemporaryDirectory() as folder:
            one = Document()
            in_a_group(one, corner())
            path = one.saved(folder)
            cut, other, bomb = (pathlib.Path(folder, f"{name}.FCStd") for name in ("cut", "other", "bomb"))
            cut.write_bytes(path.read_bytes()[:3000])
            with zipfile.ZipFile(other, "w") as packed:
                packed.writestr("readme.txt", "no document")
            with zipfile.ZipFile(bomb, "w", zipfile.ZIP_DEFLATED) as packed:
                packed.writestr("Document.xml", "")
                with packed.open("Shape.brp", "w", force_zip64=True) as member:
                    for _ in range(1025):
                        member.write(bytes(1 << 20))
            for file, cause in ((cut, "or is cut: save it again"), (other, "Document.xml isn't in it"), (bomb, "once it is unpacked, more than")):
                ended = draft("solve", file)
                self.assertEqual((ended.status, ended.out), (1, ""), ended.said)
                self.assertIn(cause, ended.said)

    def test_all_commands_take_a_document(self) -> None:
        with tempfile.TemporaryDirectory() as folder:
            one = Document()
            in_a_group(one, quartered())
            path = one.saved(folder)
            for words, status, out in (
                (("sheet", path), 0, "SECTION"), (("solve", path, "--expect", 3), 0, "3 solids match this drawing"),
                (("why", path), 0, "Nothing is wrong"), (("settle", path, "--meant", 1), 0, "Checked: of the drawing with these lines"),
                (("judge", path), 0, "The same: 3 solids by clingo"), (("step", path, f"{folder}/s.step"), 0, "s_3.step volume"),
                (("stl", path, 2), 0, "facet"), (("clean", path), 0, "ENTITIES"), (("follow", path), 0, '"how":"whole"'),
                (("prove", path, "-o", f"{folder}/log"), 0, ""), (("check", path, f"{folder}/log"), 0, "Yes: 3 solids"),
            ):
                with self.subTest(words[0]):
                    ended = draft(*words)
                    self.assertEqual(ended.status, status, ended.said)
                    self.assertIn(out, ended.out)

    def test_what_the_page_tells_itself_isnt_said(self) -> None:
        with tempfile.TemporaryDirectory() as folder:
            one = Document()
            in_a_group(one, box(10, 20, 30))
            path = one.saved(folder)
            for words, cause in (((path, "--scale", "1:2"), "--scale is of DXF sheets"), ((path, "--as-is"), "--as-is is of DXF files"),
                                 ((TOOLS.parent / "examples" / "clevis.dxf", "--part", "X"), "--part is of documents of FreeCAD")):
                ended = draft("solve", *words)
                self.assertEqual(ended.status, 2, ended.said)
                self.assertIn(cause, ended.said)
