"""A section is known as one by its hatch, its label, its layer or its cutting-plane line, and is never taken for a view."""
import pathlib
import tempfile
import unittest
from collections.abc import Callable
from typing import Any

from ezdxf.enums import TextEntityAlignment

from drafting.core.messages import Refused
from drafting.dxf.drawing import Stroke, lines_within, strokes_in
from drafting.sheet import pipeline

from . import sheets
from .support import EXAMPLES, in_words, needs_module
from .test_sheet import arguments

Place = tuple[float, float]
HIGH = 1.0


class Drawing:
    """A sheet of the clevis whose views stand in third angle, and in which one thing or another tells a section."""

    def __init__(self) -> None:
        self.views = sheets.views_in(EXAMPLES / "clevis.dxf")
        self.places = sheets.places_of(self.views)
        self.doc = sheets.new()
        self.space = self.doc.modelspace()
        # The layer of the section's lines, and where it stands.
        self.layer, self.at = "0", self.places["FRONT"]
        self.size = sheets.size_of(self.views["FRONT"])

    def draw(self, cut: str = "", uncut: bool = True) -> None:
        """All views; one of them cut, in its place or beside them."""
        for view, strokes in self.views.items():
            if uncut or view != cut:
                sheets.draw(self.space, {view: strokes}, self.places)
        if cut:
            self.size = sheets.size_of(self.views[cut])
            self.at = self.places[cut] if not uncut else (self.places["SIDE"][0] + 40, self.places["FRONT"][1])
            section = {cut: [(False, ends) for _, ends in self.views[cut]]}
            sheets.draw(self.space, section, {cut: self.at}, lambda view, dashed: {"layer": self.layer, "linetype": "CONTINUOUS"})

    # -- what tells a section

    def hatch(self, **look: Any) -> None:
        (x, y), (width, height) = self.at, self.size
        hatch = self.space.add_hatch(dxfattribs=look)
        hatch.set_pattern_fill("ANSI31", scale=0.2)
        hatch.paths.add_polyline_path([(x, y), (x + width, y), (x + width, y + height / 4), (x, y + height / 4)])

    def bent_hatch(self) -> None:
        (x, y), _ = self.at, self.size
        self.space.add_hatch(color=3).paths.add_edge_path().add_arc((x + 1, y + 1), 0.9, 0, 360)

    def filled(self) -> None:
        """As a program writes it that knows polygons with holes."""
        (x, y), (width, height) = self.at, self.size
        self.space.add_mpolygon(color=7, fill_color=3).paths.add_polyline_path([(x, y), (x + width, y), (x + width, y + height / 4), (x, y + height / 4)])

    def hatch_beyond(self) -> None:
        """One that reaches beyond the lines, on one side."""
        (x, y), (width, height) = self.at, self.size
        hatch = self.space.add_hatch()
        hatch.set_pattern_fill("ANSI31", scale=0.2)
        hatch.paths.add_polyline_path([(x - 2, y), (x + width / 2, y), (x + width / 2, y + height / 4), (x - 2, y + height / 4)])

    def hatch_lines(self, **look: Any) -> None:
        (x, y), (width, height) = self.at, self.size
        for number in range(5):
            self.space.add_line((x + number * width / 6, y), (x + (number + 1) * width / 6, y + height / 4), dxfattribs=look)

    def label(self, text: str = "SECTION A-A", is_long: bool = False) -> None:
        place = self.at[0] + self.size[0] / 2, self.at[1] - 3
        if is_long:
            self.space.add_mtext(text, dxfattribs={"char_height": HIGH, "insert": place, "attachment_point": 2})
        else:
            self.space.add_text(text, height=HIGH).set_placement(place, align=TextEntityAlignment.CENTER)

    def cutting_plane(self, kind: str = "solid", letter: str = "A", view: str = "TOP") -> None:
        """A level line through a view, with its thick ends, arrows upwards and letters."""
        (x, y), (width, height) = self.places[view], sheets.size_of(self.views[view])
        at = y + height / 2
        self.space.add_line((x - 4, at), (x + width + 4, at), dxfattribs={"linetype": "CENTER"})
        for end, way in ((x - 4, 1), (x + width + 4, -1)):
            self.space.add_line((end, at), (end + 1.5 * way, at))
            self.arrow(kind, (end, at), (end, at + 2))
            self.space.add_text(letter, height=HIGH).set_placement((end, at + 3), align=TextEntityAlignment.MIDDLE_CENTER)

    def arrow(self, kind: str, tail: Place, tip: Place) -> None:
        left, right = (tip[0] - 0.2, tip[1] - 1), (tip[0] + 0.2, tip[1] - 1)
        if kind == "leader":
            self.space.add_leader([tip, tail])
            return
        self.space.add_line(tail, tip if kind == "open" else (tip[0], tip[1] - 1))
        if kind == "solid":
            self.space.add_solid([left, right, tip, tip])
        elif kind == "open":
            self.space.add_line(left, tip)
            self.space.add_line(right, tip)
        elif kind == "hatch":
            self.space.add_hatch(color=7).paths.add_polyline_path([left, right, tip])
        elif kind == "insert":
            from ezdxf.render.arrows import ARROWS
            ARROWS.create_block(self.doc.blocks, ARROWS.closed_filled)
            name = ARROWS.block_name(ARROWS.closed_filled)
            self.space.add_blockref(name, tip, dxfattribs={"xscale": 1, "yscale": 1, "rotation": 90})
        else:
            self.space.add_lwpolyline([(tip[0], tip[1] - 1, 0.4, 0), (*tip, 0, 0)], format="xyse")


Tells = Callable[[Drawing], None]


def on_layer(name: str) -> Tells:
    def tell(drawing: Drawing) -> None:
        drawing.layer = name
    return tell


def both(*tells: Tells) -> Tells:
    def tell(drawing: Drawing) -> None:
        for one in tells:
            one(drawing)
    return tell


HEADS = ("solid", "insert", "leader", "open", "hatch", "polyline")
# What tells a section, and how it is said. Those that change the layer of its lines are done before it is drawn.
LAYERS = {name: f"on the layer or in the block {name}" for name in ("SectionA", "SCHNITT_A-A", "Coupe", "SEZIONE", "Corte A", "Querschnitt", "SECTIONB", "Section001", "CROSS-SECTION")}
TELLS: dict[str, tuple[Tells, str]] = {
    "hatch": (Drawing.hatch, r"HATCH \w+ on layer 0 lies in it"),
    "bent_hatch": (Drawing.bent_hatch, "HATCH"),
    "filled_hatch": (Drawing.filled, r"MPOLYGON \w+ on layer 0 lies in it"),
    "hatch_beyond": (Drawing.hatch_beyond, r"HATCH \w+ on layer 0 lies in it"),
    "hatch_lines": (Drawing.hatch_lines, r"\d hatch lines lie in it"),
    "hatch_lines_on_a_layer": (lambda it: it.hatch_lines(layer="Schraffur"), r"\d hatch lines lie in it"),
    **{f"label {text}": (lambda it, text=text: it.label(text), "stands by it") for text in (  # type: ignore[misc]
        "SECTION A-A", "A-A", "Section B", "SCHNITT A - A", "COUPE A-A", "SEZIONE A-A", "CORTE A–A", "Sección A-A", "SECTION A-A (2:1)", "SECTION AA")},
    "label_of_two_lines": (lambda it: it.label("SECTION A-A\\PSCALE 1:1", True), "stands by it"),
    **{f"arrow {head}": (both(lambda it, head=head: it.cutting_plane(head), Drawing.label), "'SECTION A-A' stands by it") for head in HEADS},  # type: ignore[misc]
    "all": (both(Drawing.hatch, Drawing.label, Drawing.cutting_plane), "HATCH .* and 'SECTION A-A' stands by it"),
}


def drawn_with(cut: str, uncut: bool, tells: Tells, layer: str = "0") -> Drawing:
    drawing = Drawing()
    drawing.layer = layer
    drawing.draw(cut, uncut)
    tells(drawing)
    return drawing


def nothing(drawing: Drawing) -> None:
    """Nothing more tells it."""


Strokes = dict[str, list[Stroke]]


@needs_module("ezdxf", "python3-ezdxf")
class Sections(unittest.TestCase):
    def setUp(self) -> None:
        self.own, _ = self.drawn(drawn_with("", True, nothing))

    def drawn(self, drawing: Drawing, *words: object) -> tuple[Strokes, list[str]]:
        """The strokes that are drawn of a drawing, and what is said of it."""
        said: list[str] = []
        with tempfile.TemporaryDirectory() as folder:
            file = pathlib.Path(folder) / "sheet.dxf"
            drawing.doc.saveas(file)
            made = pipeline.draw(str(file), arguments("sheet", file, *words), in_words(said))
        return strokes_in(lines_within(made.text.encode()), made.decimals), said

    def test_in_the_place_of_a_view(self) -> None:
        for name, (tells, words) in TELLS.items():
            for cut in ("FRONT", "SIDE"):
                with self.subTest(name, cut=cut), self.assertRaisesRegex(Refused, f"in the place of {cut} stands group .* is a section, since .*{words}"
                                                                         f".*Draw {cut} uncut too"):
                    self.drawn(drawn_with(cut, False, tells))

    def test_in_the_place_of_top(self) -> None:
        for name in ("hatch", "filled_hatch", "hatch_beyond", "hatch_lines", "label A-A"):
            with self.subTest(name), self.assertRaisesRegex(Refused, "in the place of TOP stands group .* is a section, since .*Draw TOP uncut too"):
                self.drawn(drawn_with("TOP", False, TELLS[name][0]))

    def test_beside_the_views(self) -> None:
        """What has a label and a cutting-plane line is read; what has neither is left out; all else is refused with the way to leave it out, which
        was tried."""
        for name, (tells, words) in TELLS.items():
            drawing = drawn_with("FRONT", True, tells)
            with self.subTest(name):
                if name.startswith("arrow "):
                    strokes, said = self.drawn(drawing)
                    self.assertRegex("\n".join(said), "found: SECTION A-A is what FRONT shows behind y = 2; no hatch tells its area: layer SECTION_FRONT_2")
                    self.assertEqual(strokes, self.own)
                    continue
                if "hatch" in name:
                    strokes, said = self.drawn(drawing)
                    self.assertRegex("\n".join(said), f"left out: a section, group 4, since .*{words}.*; it has no label A-A, which tells its plane")
                    self.assertEqual(strokes, self.own)
                    continue
                with self.assertRaisesRegex(Refused, f"^section.*{words}.*, isn't read: .*; without it the views are read by --leave-out group=4$"):
                    self.drawn(drawing)
                strokes, _ = self.drawn(drawing, "--leave-out", "group=4")
                self.assertEqual(strokes, self.own)

    def test_by_its_layer(self) -> None:
        for name, words in LAYERS.items():
            with self.subTest(name), self.assertRaisesRegex(Refused, f"in the place of FRONT .* since its lines are {words}"):
                self.drawn(drawn_with("FRONT", False, nothing, name))
        for name in ("Intersection", "SECTOR", "Ausschnitt"):
            drawing = Drawing()
            sheets.draw(drawing.space, drawing.views, drawing.places, lambda view, dashed: {**sheets.by_linetype(view, dashed), "layer": name})
            strokes, said = self.drawn(drawing)
            self.assertEqual(strokes, self.own, said)

    def test_a_cutting_plane_line_without_its_section(self) -> None:
        for head in HEADS:
            with self.subTest(head), self.assertRaisesRegex(Refused, "a cutting-plane line A-A is drawn at group .*which group is its section isn't told"):
                self.drawn(drawn_with("FRONT", False, lambda it: it.cutting_plane(head)))

    def test_a_hatch_within_a_view_that_a_layer_names(self) -> None:
        drawing = Drawing()
        sheets.draw(drawing.space, drawing.views, drawing.places, lambda view, dashed: {**sheets.by_linetype(view, dashed), "layer": view})
        drawing.hatch(layer="HATCHES")
        with self.assertRaisesRegex(Refused, "FRONT, .*, is a section, since HATCH .* lies in it.*Draw FRONT uncut"):
            self.drawn(drawing)
        strokes, _ = self.drawn(drawing, "--leave-out", "layer=HATCHES")
        self.assertEqual(strokes, self.own)

    def test_a_cutting_plane_line_among_views_that_layers_name(self) -> None:
        drawing = Drawing()
        sheets.draw(drawing.space, drawing.views, drawing.places, lambda view, dashed: {**sheets.by_linetype(view, dashed), "layer": view})
        drawing.cutting_plane()
        with self.assertRaisesRegex(Refused, r"a cutting-plane line A-A is drawn at \d+ lines, .*which group is its section isn't told, .*: label it$"):
            self.drawn(drawing)

    def test_what_is_no_section(self) -> None:
        def notes(it: Drawing) -> None:
            for number, text in enumerate(("A", "1:2", "BREAK ALL EDGES", "SEE SECTION 4-2", "M6-6H", "A-B")):
                it.space.add_text(text, height=HIGH).set_placement((it.places["SIDE"][0] + 3 * number, it.places["SIDE"][1] - 4))
        def dot(it: Drawing) -> None:
            x, y = it.places["FRONT"]
            it.space.add_hatch(color=7).paths.add_polyline_path([(x, y), (x + 0.2, y), (x + 0.2, y + 0.2), (x, y + 0.2)])
        def isometric(it: Drawing) -> None:
            sheets.Maker(pathlib.Path(), it.views).isometric(it.space)
        for tells in (notes, dot, isometric):
            with self.subTest(tells.__name__):
                strokes, said = self.drawn(drawn_with("", True, tells))
                self.assertEqual(strokes, self.own)
                self.assertNotIn("section", "\n".join(said))

    def test_which_group_a_label_belongs_to(self) -> None:
        drawing = drawn_with("", True, nothing)
        (front, low), (_, top) = drawing.places["FRONT"], drawing.places["TOP"]
        middle = (low + sheets.size_of(drawing.views["FRONT"])[1] + top) / 2
        drawing.space.add_text("A-A", height=5).set_placement((front + 3, middle), align=TextEntityAlignment.CENTER)
        with self.assertRaisesRegex(Refused, "'A-A', TEXT .*which isn't told"):
            self.drawn(drawing)
