"""Sheets of one part as draughtsmen make them, by ezdxf: each kind writes a file, and says what `draft` has to make of it."""
import pathlib
import random
from collections.abc import Callable, Iterator
from typing import Any, NamedTuple

import ezdxf
from ezdxf.enums import TextEntityAlignment

from drafting.dxf.drawing import FURTHER, lines_of, views_of
from drafting.projection.cells import grid_round
from drafting.projection.draw import shown_of, strokes_shown
from drafting.recon.answer import answer_of

Ends = tuple[tuple[float, float], tuple[float, float]]
Views = dict[str, list[tuple[bool, Ends]]]
GAP = 25.0

HIDDEN = [0.375, 0.25, -0.125]
CENTER = [2.0, 1.25, -0.25, 0.25, -0.25]
ISO = {"ACAD_ISO02W100": [15.0, 12.0, -3.0], "ACAD_ISO04W100": [30.0, 24.0, -3.0, 0.5, -3.0 + 0.5]}


def views_in(file: pathlib.Path) -> Views:
    """The views of a drawing of three layers, each from its least corner on."""
    views: Views = {}
    for name, lines in views_of(lines_of(str(file))).items():
        x, y = (min(point[axis] for line in lines for point in (line.start, line.end)) for axis in (0, 1))
        views[name] = [(line.dashed, ((line.start[0] - x, line.start[1] - y), (line.end[0] - x, line.end[1] - y))) for line in lines]
    return views


def further_of_first(answer: str) -> Views:
    """The further views of the first solid of an answer."""
    solid = answer_of(answer, 1).solids[0]
    grid = grid_round([solid])
    cells = list(grid.all_in(grid.cells(solid)))
    strokes = {view: strokes_shown(shown_of(cells, grid.cuts, view), 0, 0) for view in FURTHER}
    return {view: [(dashed, (start, end)) for dashed, start, end in its] for view, its in strokes.items()}


def size_of(strokes: list[tuple[bool, Ends]]) -> tuple[float, float]:
    points = [point for _, ends in strokes for point in ends]
    return max(x for x, _ in points), max(y for _, y in points)


def mirrored(views: Views) -> Views:
    """The views of the part's mirror image, with its left view in place of the right one."""
    turned: Views = {}
    for name, strokes in views.items():
        width, _ = size_of(strokes)
        turned[name] = [(dashed, ((width - a, b), (width - c, d))) for dashed, ((a, b), (c, d)) in strokes]
    return turned


def places_of(views: Views, angle: str = "third", left: bool = False) -> dict[str, tuple[float, float]]:
    """Where the views stand on the sheet; the side view to the right of FRONT, or to the left, and the rear view behind it."""
    (width, height), (_, depth) = size_of(views["FRONT"]), size_of(views["TOP"])
    x, y = 40.0, 50.0 + (depth + GAP if angle == "first" else 0)
    x += depth + GAP if left else 0
    top = y + height + GAP if angle == "third" else y - GAP - depth
    bottom = y - GAP - depth if angle == "third" else y + height + GAP
    right, before = x + width + GAP, x - GAP - depth
    behind = before - GAP - width if left else right + depth + GAP
    return {"FRONT": (x, y), "TOP": (x, top), "SIDE": (before if left else right, y), "LEFT": (right if left else before, y),
            "REAR": (behind, y), "BOTTOM": (x, bottom)}


def new(version: str = "R2010", unit: int = 4) -> Any:
    doc = ezdxf.new(version)
    doc.header["$INSUNITS"] = unit
    for name, pattern in (("HIDDEN", HIDDEN), ("CENTER", CENTER), *ISO.items()):
        doc.linetypes.add(name, pattern)
    return doc


Look = Callable[[str, bool], dict[str, Any]]


def by_linetype(view: str, dashed: bool) -> dict[str, Any]:
    return {"layer": "0", "linetype": "HIDDEN" if dashed else "CONTINUOUS"}


def draw(space: Any, views: Views, places: dict[str, tuple[float, float]], look: Look = by_linetype, scale: float = 1.0) -> None:
    for view, strokes in views.items():
        right, up = places[view]
        for dashed, ends in strokes:
            start, end = ((scale * (x + right), scale * (y + up)) for x, y in ends)
            space.add_line(start, end, dxfattribs=look(view, dashed))


def rectangle(space: Any, left: float, low: float, right: float, high: float) -> None:
    corners = [(left, low), (right, low), (right, high), (left, high)]
    if space.doc.dxfversion == "AC1009":
        space.add_polyline2d(corners, close=True)
    else:
        space.add_lwpolyline(corners, close=True)


def frame(doc: Any, space: Any) -> None:
    """A frame of two rectangles, zone marks, and a title block: an insert with its own lines, texts and an attribute."""
    block = doc.blocks.new("TITLEBLOCK")
    rectangle(block, 0, 0, 100, 30)
    block.add_line((0, 10), (100, 10))
    block.add_text("BRACKET", dxfattribs={"height": 4}).set_placement((5, 3), align=TextEntityAlignment.LEFT)
    block.add_attdef("SCALE", (60, 3), dxfattribs={"height": 3})
    rectangle(space, 0, 0, 420, 297)
    rectangle(space, 10, 10, 410, 287)
    for x in range(60, 420, 60):
        space.add_line((x, 0), (x, 10))
    space.add_blockref("TITLEBLOCK", (310, 10)).add_auto_attribs({"SCALE": "1:1"})


# Lengths of a dimension's arrows, lines and text.
DIMENSION = {"dimasz": 2.5, "dimexe": 1.25, "dimexo": 0.625, "dimtxt": 2.5}


def dimensions(space: Any, views: Views, places: dict[str, tuple[float, float]], explode: bool = False, away: float = 12.0,
               scale: float = 1.0) -> None:
    """The width and the height of FRONT, their lines so far away from it; all of them drawn at a scale."""
    x, y = places["FRONT"]
    away *= scale
    style = {"dimtsz": 0, "dimblk": "", **{name: scale * length for name, length in DIMENSION.items()}}
    width, height = size_of(views["FRONT"])
    for base, p1, p2, angle in (((x, y - away), (x, y), (x + width, y), 0), ((x - away, y), (x, y), (x, y + height), 90)):
        made = space.add_linear_dim(base=base, p1=p1, p2=p2, angle=angle, override=style)
        made.render()
        if explode:
            made.dimension.explode()


# The kinds of sheets, each a method of the maker.
KINDS = ("styles", "surroundings", "strokes", "placings", "further_views", "refused", "versions")


class Made(NamedTuple):
    """A sheet: its file, what is said of it, and what has to come: the part's own answer with lengths so many times as large, or a
    refusal whose words are like this; and the further views that are found."""

    file: pathlib.Path
    words: list[str]
    factor: int | None
    refusal: str = ""
    further: tuple[str, ...] = ()


class Maker:
    """Makes the sheets of one part in a folder."""

    def __init__(self, folder: pathlib.Path, views: Views, further: Views | None = None) -> None:
        self.folder, self.views, self.further = folder, views, further or {}
        self.places = places_of(views)

    def save(self, doc: Any, name: str, *words: str, factor: int | None = 1, refusal: str = "", further: tuple[str, ...] = ()) -> Made:
        file = self.folder / f"{name}.dxf"
        doc.saveas(file)
        return Made(file, list(words), None if refusal else factor, refusal, further)

    def sheet(self, version: str = "R2010", **options: Any) -> Any:
        doc = new(version)
        draw(doc.modelspace(), self.views, self.places, **options)
        return doc

    def all(self) -> Iterator[Made]:
        for kind in KINDS:
            yield from getattr(self, kind)()

    # ---- how visible and hidden are told

    def styles(self) -> Iterator[Made]:
        yield self.save(self.sheet(), "linetype_on_layer_0")
        doc = new()
        doc.layers.add("VISIBLE", color=7)
        doc.layers.add("HIDDEN", color=3, linetype="HIDDEN")
        draw(doc.modelspace(), self.views, self.places, lambda view, dashed: {"layer": "HIDDEN" if dashed else "VISIBLE"})
        yield self.save(doc, "linetype_of_layer")
        yield self.save(self.sheet(look=lambda view, dashed: {"layer": "Verdeckt" if dashed else "Sichtbar"}), "name_of_layer")
        yield self.save(self.sheet(look=lambda view, dashed: {"linetype": "ACAD_ISO02W100" if dashed else "BYLAYER"}), "iso_linetypes")
        doc = new()
        doc.linetypes.add("MY_STROKES", HIDDEN)
        draw(doc.modelspace(), self.views, self.places, lambda view, dashed: {"linetype": "MY_STROKES" if dashed else "BYLAYER"})
        yield self.save(doc, "pattern_of_linetype")
        coloured = self.sheet(look=lambda view, dashed: {"color": 1 if dashed else 7})
        yield self.save(coloured, "hidden_by_colour", refusal="colours 1, 7: say which are hidden by --hidden color=NUMBER")
        yield self.save(coloured, "hidden_by_colour_as_said", "--hidden", "color=1")
        names = {"FRONT": "FRONT", "TOP": "TOP", "SIDE": "RIGHT"}
        yield self.save(self.sheet(look=lambda view, dashed: {"layer": names[view] + ("_HIDDEN" if dashed else "")}), "layers_front_hidden_right")
        yield self.save(self.sheet(look=lambda view, dashed: {"layer": "HIDDEN" if dashed else view}), "hidden_lines_on_a_layer_hidden")

    # ---- what stands round the views

    def surroundings(self) -> Iterator[Made]:
        doc = self.sheet()
        frame(doc, doc.modelspace())
        yield self.save(doc, "frame_and_title_block")
        dimensions(doc.modelspace(), self.views, self.places)
        x, y = self.places["FRONT"]
        width, height = size_of(self.views["FRONT"])
        doc.modelspace().add_line((x + width / 2, y - 5), (x + width / 2, y + height + 5), dxfattribs={"linetype": "CENTER"})
        doc.modelspace().add_line((x - 5, y + height / 2), (x + width + 5, y + height / 2), dxfattribs={"linetype": "ACAD_ISO04W100"})
        yield self.save(doc, "dimensions_and_centre_lines")
        doc = self.sheet()
        dimensions(doc.modelspace(), self.views, self.places, explode=True)
        yield self.save(doc, "exploded_dimensions")
        doc = new()
        places = places_of(self.views, "first", True)
        draw(doc.modelspace(), self.views, places)
        _, depth = size_of(self.views["TOP"])
        dimensions(doc.modelspace(), self.views, places, explode=True, away=2 * GAP + depth)
        yield self.save(doc, "exploded_dimensions_across_views")
        doc = self.sheet()
        self.isometric(doc.modelspace())
        yield self.save(doc, "isometric_view_beside")
        doc = self.sheet()
        doc.layers.add("CONSTRUCTION").off()
        doc.layers.add("OLD").freeze()
        for layer in ("CONSTRUCTION", "OLD"):
            doc.modelspace().add_line((x + 0.3, y), (x + 7, y + 5), dxfattribs={"layer": layer})
        doc.layout("Layout1").add_line((0, 0), (10, 5))
        yield self.save(doc, "layers_off_and_frozen_and_paper_space")

    def isometric(self, space: Any) -> None:
        x, y = self.places["SIDE"][0] + 10, self.places["TOP"][1] + 5
        corners = [(x + 0.866 * (a - b) * 12, y + 0.5 * (a + b) * 12 + c * 12) for a, b, c in
                   ((1, 0, 0), (0, 0, 0), (0, 1, 0), (0, 1, 1), (1, 1, 1), (1, 0, 1), (1, 0, 0))]
        for ends in zip(corners, corners[1:]):
            space.add_line(*ends)

    # ---- how strokes are drawn

    def strokes(self) -> Iterator[Made]:
        chance = random.Random(60)
        pieces: Views = {}
        for view, strokes in self.views.items():
            pieces[view] = []
            for dashed, (start, end) in strokes:
                at = chance.uniform(0.2, 0.8)
                middle = start[0] + at * (end[0] - start[0]), start[1] + at * (end[1] - start[1])
                pairs: list[Ends] = [(start, middle), (end, middle)] + ([(start, end)] if chance.random() < 0.3 else [])
                for one in pairs:
                    (a, b), (c, d) = (((x + chance.uniform(-1e-9, 1e-9), y + chance.uniform(-1e-9, 1e-9)) for x, y in one))
                    pieces[view].append((dashed, ((a, b), (c, d))))
        doc = new()
        draw(doc.modelspace(), pieces, self.places)
        yield self.save(doc, "pieces_with_noise")
        doc = new(unit=1)
        draw(doc.modelspace(), self.views, self.places, scale=1 / 16)
        yield self.save(doc, "inches_in_sixteenths", factor=625)
        doc = new()
        draw(doc.modelspace(), self.views, self.places, scale=1 / 3)
        yield self.save(doc, "thirds")
        doc = new()
        draw(doc.modelspace(), self.views, self.places, scale=1 / 2)
        yield self.save(doc, "half_scale", "--scale", "1:2")
        doc = new()
        for view, strokes in self.views.items():
            block = doc.blocks.new(f"VIEW_{'ABC'[list(self.views).index(view)]}")
            for dashed, ends in strokes:
                block.add_line(*ends, dxfattribs={"layer": "0", "linetype": "BYBLOCK" if not dashed else "HIDDEN"})
            doc.modelspace().add_blockref(block.name, self.places[view], dxfattribs={"layer": "PART"})
        yield self.save(doc, "each_view_a_block")
        doc = new()
        for view, strokes in self.views.items():
            for dashed, ends in strokes:
                right, up = self.places[view]
                points = [(x + right, y + up) for x, y in (*ends, ends[0])]
                doc.modelspace().add_lwpolyline(points, dxfattribs=by_linetype(view, dashed))
        yield self.save(doc, "polylines")
        doc = new()
        for view, strokes in self.views.items():
            for dashed, ends in strokes:
                right, up = self.places[view]
                points = [(x + right, y + up) for x, y in (ends[0], tuple((a + b) / 2 for a, b in zip(*ends)), ends[1])]
                doc.modelspace().add_open_spline(points, degree=2, dxfattribs=by_linetype(view, dashed))
        yield self.save(doc, "straight_splines")

    # ---- where views stand

    def placings(self) -> Iterator[Made]:
        doc = new()
        draw(doc.modelspace(), self.views, places_of(self.views, "first", True))
        yield self.save(doc, "first_angle_right_view")
        for name, angle, left in (("third_angle_left_view", "third", True), ("first_angle_left_view", "first", False)):
            doc = new()
            draw(doc.modelspace(), mirrored(self.views), places_of(self.views, angle, left))
            yield self.save(doc, name)

    # ---- further views

    def further_views(self) -> Iterator[Made]:
        six = {**self.views, **self.further}
        rows: tuple[tuple[str, list[str], str, tuple[str, ...]], ...] = (
            ("six_views_third_angle", ["--angle", "third"], "third", FURTHER),
            ("six_views_first_angle", ["--angle", "first"], "first", FURTHER),
            ("rear_view", [], "third", ("REAR",)), ("left_and_rear_view_in_first_angle", [], "first", ("LEFT", "REAR")),
            ("bottom_view", ["--angle", "third"], "third", ("BOTTOM",)),
        )
        for name, words, angle, views in rows:
            yield self.save(self.with_further(angle, views), name, *words, further=views)
        yield self.save(self.with_further("third", FURTHER), "which_angle", refusal="there are 2 ways .* say which by --angle")
        places = places_of(six)
        left, y = places["LEFT"]
        doc = new()
        draw(doc.modelspace(), {view: six[view] for view in (*self.views, "LEFT", "REAR")}, {**places, "REAR": (left - 60, y)})
        yield self.save(doc, "rear_view_behind_the_left_one", further=("LEFT", "REAR"))
        doc = new()
        turned = mirrored({view: six[view] for view in (*self.views, "REAR", "BOTTOM")})
        draw(doc.modelspace(), turned, places_of(turned, "third", True))
        yield self.save(doc, "third_angle_left_view_with_a_rear_and_a_bottom_one", "--angle", "third", further=("REAR", "BOTTOM"))
        names = {"SIDE": "RIGHT", "LEFT": "Left_View", "REAR": "BACK", "BOTTOM": "BOTTOM"}
        doc = new()
        row = {view: (70.0 * number, 3.0 * number) for number, view in enumerate(six)}
        draw(doc.modelspace(), six, row, lambda view, dashed: {**by_linetype(view, dashed), "layer": names.get(view, view)})
        yield self.save(doc, "further_views_by_names", further=FURTHER)

    def with_further(self, angle: str, views: tuple[str, ...]) -> Any:
        """A sheet with some further views, as they stand in third or first angle."""
        doc = new()
        its = {**self.views, **{view: self.further[view] for view in views}}
        draw(doc.modelspace(), its, places_of(its, angle, angle == "first"))
        return doc

    # ---- what is refused

    def refused(self) -> Iterator[Made]:
        x, y = self.places["FRONT"]
        width, height = size_of(self.views["FRONT"])
        doc = self.sheet()
        doc.modelspace().add_ellipse((x + width / 2, y + height / 2), (0.4, 0), 0.5, dxfattribs={"layer": "HOLES"})
        yield self.save(doc, "ellipse_in_a_view", refusal=r"in FRONT a ELLIPSE \w+ on layer HOLES, line [\d,]+ of ellipse_in_a_view.dxf is neither a level or upright line nor an arc")
        doc = self.sheet()
        doc.modelspace().add_line((x, y), (x + width, y + height))
        yield self.save(doc, "oblique_edge", refusal=r"in FRONT a LINE \w+ on layer 0, line [\d,]+ of oblique_edge.dxf goes from .* oblique")
        doc = self.sheet()
        doc.modelspace().add_arc((x + 1.3, y + 1.3), 0.5, 0, 90, dxfattribs={"layer": "FILLETS"})
        yield self.save(doc, "arc_in_a_view", refusal=r"round of radius 0.5 at .* \(ARC \w+ on layer FILLETS\) ends at .* where no line goes on: it is a thread")
        doc = self.sheet()
        doc.modelspace().add_spline([(x + 0.2, y + 0.2), (x + 0.5, y + 0.4), (x + 0.8, y + 0.6)])
        yield self.save(doc, "spline_in_a_view", refusal=r"in FRONT a SPLINE \w+ on layer 0, line [\d,]+ of spline_in_a_view.dxf is neither a level or upright line nor an arc")
        doc = self.sheet()
        doc.modelspace().add_spline([(x + 0.2, y + 0.2), (x + 0.4, y + 0.4), (x + 0.8, y + 0.8)])
        yield self.save(doc, "spline_in_line", refusal=r"a SPLINE \w+ on layer 0, line .* is neither a level or upright line nor an arc, and where it lies can't be told")
        doc = self.sheet()
        doc.linetypes.add("ZIGZAG_DOTS", [0.2, 0.0, -0.2])
        doc.modelspace().add_line((x, y + height / 2), (x + width, y + height / 2), dxfattribs={"linetype": "ZIGZAG_DOTS"})
        yield self.save(doc, "linetype_without_meaning", refusal="linetype ZIGZAG_DOTS, which tells no style")
        doc = self.sheet()
        draw(doc.modelspace(), {"SIDE": self.views["SIDE"]}, {"SIDE": (self.places["SIDE"][0] + 80, y)})
        yield self.save(doc, "fourth_view", refusal=r"(?s)beside the views stands .*--leave-out group=4:\s+group 4, ")
        yield self.save(doc, "fourth_view_left_out", "--leave-out", "group=4")
        places = {**self.places, "TOP": (x + 0.5, self.places["TOP"][1])}
        doc = new()
        draw(doc.modelspace(), self.views, places)
        yield self.save(doc, "view_out_of_line", refusal="no way to take three .*: FRONT begins at x")
        doc = self.sheet()
        right = self.places["SIDE"][0] + 100
        draw(doc.modelspace(), self.views, {view: (a + right, b) for view, (a, b) in self.places.items()})
        yield self.save(doc, "two_parts_on_a_sheet", refusal="ways to take three")
        doc = new()
        draw(doc.modelspace(), {view: its for view, its in self.views.items() if view != "SIDE"}, self.places)
        yield self.save(doc, "two_views", refusal="(?s)two views in line .*--angle third, TOP above FRONT: FRONT is group 1, .*--angle first, TOP below")
        doc = new()
        doc.modelspace().add_text("nothing here")
        yield self.save(doc, "no_line", refusal="no straight line in the model space")
        doc = self.sheet()
        doc.modelspace().add_line((x, y + 0.0002), (x + width, y + 0.0002))
        yield self.save(doc, "nearer_than_noise", refusal=r"coordinates 0.0002 apart|0\.0002")

    # ---- versions

    def versions(self) -> Iterator[Made]:
        for version in ("R12", "R2000", "R2004", "R2007", "R2010", "R2013", "R2018"):
            doc = self.sheet(version)
            frame(doc, doc.modelspace())
            yield self.save(doc, f"version_{version}")
        file = self.folder / "binary.dxf"
        self.sheet("R2000").saveas(file, fmt="bin")
        yield Made(file, [], 1)
