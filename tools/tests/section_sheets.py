"""Sheets with section views as draughtsmen make them, by ezdxf: a part in three views, the line of a cutting plane with its arrows and letters in
one of them, and the section beside them with its label and its hatch. What each section shows is drawn by the slow writer, from the definition.
"""
import math
import pathlib
from collections.abc import Iterable, Iterator
from typing import Any, NamedTuple

from ezdxf.enums import TextEntityAlignment
from ezdxf.render.arrows import ARROWS

from drafting.dxf.drawing import VIEWS
from drafting.projection.draw import FRAMES, Cell

from . import sheets
from .cut_solids import Shown, area_of, lines_of, moved_to_zero, seen_from, depth_of, section_of, view_of

Place = tuple[float, float]
HIGH, GAP = 1.0, 4.0
# How a line or arrow is drawn by kinds of linetypes: those that tables of `sheets.new` have.
LINETYPES = {"PHANTOM": [2.5, 1.25, -0.25, 0.25, -0.25, 0.25, -0.25], "DASHDOT": [1.0, 0.5, -0.25, 0.0, -0.25], "CUT": [3.0, 2.0, -0.25, 0.5, -0.25]}


def box(x0: int, y0: int, z0: int, x1: int, y1: int, z1: int) -> set[Cell]:
    return {(x, y, z) for x in range(x0, x1) for y in range(y0, y1) for z in range(z0, z1)}


# A block with a pocket, a step and a slot from below: it is like itself in no mirror and no turn.
PART = frozenset(box(0, 0, 0, 12, 10, 8) - box(2, 2, 3, 6, 6, 8) - box(8, 5, 5, 12, 10, 8) - box(7, 0, 0, 9, 3, 3))


class Form(NamedTuple):
    """How a sheet with one section is drawn."""

    looks: str = "FRONT"
    plane: int = 4
    # The cutting-plane line: the view that it is drawn in, its linetype or `none`, its ends, arrows, letters, and what is wrong with it.
    where: str = "TOP"
    line: str = "CENTER"
    ends: str = "asme"
    arrow: str = "solid"
    letter: str = "A"
    wrong: str = ""
    marks: str = "0"
    # The section: its label, hatch, turns, scale, and where it stands; whether its outline alone is drawn, or hidden lines too.
    label: str = "SECTION_A-A"
    hatch: str = "one"
    turns: int = 0
    scale: float = 1.0
    at: str = "right"
    lines: str = "all"
    layer: str = "0"
    # The views.
    angle: str = "third"
    left: int = 0
    names: int = 0


def form_of(words: str) -> Form:
    """A form by words as `plane=3`."""
    told = dict(word.split("=", 1) for word in words.split())
    return Form(**{name: type(getattr(Form(), name))(value) for name, value in told.items()})


def new_space() -> tuple[Any, Any]:
    """A document with the linetypes and the arrow that are drawn with, and its model space."""
    doc = sheets.new()
    for name, pattern in LINETYPES.items():
        doc.linetypes.add(name, pattern)
    ARROWS.create_block(doc.blocks, ARROWS.closed_filled)
    return doc, doc.modelspace()


class Maker:
    """Draws a part and its sections on one sheet."""

    def __init__(self, cells: Iterable[Cell], angle: str = "third", left: bool = False, with_names: bool = False) -> None:
        self.cells = set(cells)
        least = [min(cell[axis] for cell in self.cells) for axis in range(3)]
        self.size = [max(cell[axis] for cell in self.cells) + 1 - least[axis] for axis in range(3)]
        self.is_left = left
        # A side view on the left in third angle, or on the right in first angle, is the left one.
        self.side = "LEFT" if left == (angle == "third") else "SIDE"
        names = ("FRONT", "TOP", self.side)
        self.views = {"SIDE" if name == self.side else name: strokes_of(view_of(self.cells, name)) for name in names}
        self.places = sheets.places_of(self.views, angle, left)
        self.doc, self.space = new_space()
        look = (lambda view, dashed: {**sheets.by_linetype(view, dashed), "layer": self.side if view == "SIDE" else view}) if with_names else sheets.by_linetype
        self.right = max(self.places[view][0] + sheets.size_of(its)[0] for view, its in self.views.items()) + 3 * GAP
        self.look = look

    def draw_views(self, *without: str) -> None:
        sheets.draw(self.space, {view: its for view, its in self.views.items() if view not in without}, self.places, self.look)

    def frame(self, view: str) -> Any:
        return FRAMES[self.side if view == "SIDE" else view]

    # ---- the line of the cutting plane

    def cutting_line(self, form: Form, plane: float | None = None) -> None:
        """The line of a cutting plane with all that belongs to it, on its layer."""
        others = {id(it) for it in self.space}
        self.cutting_plane(form, plane)
        for entity in (it for it in self.space if form.marks != "0" and id(it) not in others):
            entity.dxf.layer = form.marks

    def cutting_plane(self, form: Form, plane: float | None) -> None:
        """A line through a view with an arrow and a letter at each end, drawn as ISO 128 or as ASME Y14.2 does; elsewhere where it is said."""
        frame, looks = self.frame(form.where), FRAMES[form.looks]
        is_upright = frame.right == looks.sight
        is_back = frame.right_back if is_upright else frame.up_back
        size = sheets.size_of(self.views[form.where])
        across, along = (0, 1) if is_upright else (1, 0)
        plane = form.plane if plane is None else plane
        at = self.places[form.where][across] + (self.size[looks.sight] - plane if is_back else plane)
        low, high = self.places[form.where][along], self.places[form.where][along] + size[along]
        way = (-1 if looks.sight_back else 1) * (-1 if is_back else 1) * (-1 if form.wrong == "reversed" else 1)

        def place(on: float, off: float) -> Place:
            return (off, on) if is_upright else (on, off)

        middle = (low + high) / 2
        high = middle - 2 if form.wrong == "half" else high
        stops = {"bent": ((low - 2, at), (middle, at), (middle, at + 1), (high + 2, at + 1)), "offset": (),
                 "jog": ((low - 2, at), (middle, at), (middle, at + 1), (middle + 2, at + 1), (middle + 2, at), (high + 2, at))}
        chain = stops.get(form.wrong, ((low - 2, at), (high + 2, at))) if form.line != "none" else ()
        for start, end in zip(chain, chain[1:]):
            self.space.add_line(place(*start), place(*end), dxfattribs={"linetype": form.line})
        for number, (outer, out) in enumerate(((low - 2, -1), (high + 2, 1))):
            own = at + 1 if number and form.wrong in ("bent", "offset") else at
            points = -way if number and form.wrong == "opposite" else way
            if not (form.wrong == "one_end" and number):
                self.end(form, place, outer, out, own, points, number)

    def end(self, form: Form, place: Any, end: float, out: int, at: float, way: int, number: int) -> None:
        """One end: a thick stroke, the arrow at its outer side, and the letter."""
        on = end + 1.7 * out
        thick = ((on, at), (on, at - 1.5)) if number and form.wrong == "turned_end" else ((end + 0.2 * out, at), (on, at))
        self.space.add_line(*(place(*it) for it in thick), dxfattribs={"lineweight": 70})
        tip, tail = (at + 2.5 * way, at) if form.ends == "asme" else (at, at - 2.5 * way)
        ends = place(on, tail), place(on, tip)
        if number and form.wrong in ("turned_end", "oblique"):
            ends = ends[0], place(on + 2.5, tail if form.wrong == "turned_end" else tip)
        self.arrow(form.arrow, *ends)
        if form.letter != "none":
            self.text(form.letter + "'" * (number * (form.wrong == "primed")), place(on + 1.0 * out, (tip + tail) / 2))

    def arrow(self, kind: str, tail: Place, tip: Place) -> None:
        way = (tip[0] - tail[0]) / math.dist(tip, tail), (tip[1] - tail[1]) / math.dist(tip, tail)
        foot = tip[0] - way[0], tip[1] - way[1]
        left, right = (foot[0] - 0.3 * way[1], foot[1] + 0.3 * way[0]), (foot[0] + 0.3 * way[1], foot[1] - 0.3 * way[0])
        if kind == "leader":
            self.space.add_leader([tip, tail])
            return
        if kind.startswith(("PLINE", "SOLID")):
            self.wide_arrow(kind, tail, foot, tip)
            return
        if kind not in ("block", "CUTTING_PLANE_ARROW"):
            self.space.add_line(tail, tip if kind == "open" else foot)
        if kind == "solid":
            self.space.add_solid([left, right, tip, tip])
        elif kind == "open":
            self.space.add_line(left, tip)
            self.space.add_line(right, tip)
        elif kind == "hatch":
            self.space.add_hatch(color=7).paths.add_polyline_path([left, right, tip])
        elif kind == "insert":
            turned = math.degrees(math.atan2(way[1], way[0]))
            self.space.add_blockref(ARROWS.block_name(ARROWS.closed_filled), tip, dxfattribs={"xscale": 1, "yscale": 1, "rotation": turned})
        elif kind == "polyline":
            self.space.add_lwpolyline([(*foot, 0.6, 0), (*tip, 0, 0)], format="xyse")
        elif kind in ("block", "CUTTING_PLANE_ARROW"):
            self.space.add_blockref(self.arrow_block(kind), tip, dxfattribs={"rotation": math.degrees(math.atan2(way[1], way[0]))})

    def arrow_block(self, name: str) -> str:
        """A block with a shaft and a filled triangle as a head, whose tip is its base point and points to the right."""
        if name not in self.doc.blocks:
            block = self.doc.blocks.new(name)
            block.add_line((-2.5, 0), (-1, 0))
            block.add_solid([(-1, 0.3), (-1, -0.3), (0, 0), (0, 0)])
        return name

    def wide_arrow(self, kind: str, tail: Place, foot: Place, tip: Place) -> None:
        """An arrow as one polyline with widths, as AutoCAD's PLINE makes it; or its shaft and its head as filled shapes."""
        if kind == "PLINE":
            self.space.add_lwpolyline([(*tail, 0, 0), (*foot, 0.6, 0), (*tip, 0, 0)], format="xyse")
        elif kind == "PLINE_from_the_tip":
            self.space.add_lwpolyline([(*tip, 0, 0.6), (*foot, 0, 0), (*tail, 0, 0)], format="xyse")
        elif kind == "PLINE_R12":
            self.space.add_polyline2d([(*tail, 0, 0), (*foot, 0.6, 0), (*tip, 0, 0)], format="xyse")
        else:
            x, y = (0.05, 0) if abs(tail[0] - tip[0]) < abs(tail[1] - tip[1]) else (0, 0.05)
            self.space.add_solid([(tail[0] - x, tail[1] - y), (tail[0] + x, tail[1] + y), (foot[0] - x, foot[1] - y), (foot[0] + x, foot[1] + y)])
            self.space.add_solid([(foot[0] - 6 * x, foot[1] - 6 * y), (foot[0] + 6 * x, foot[1] + 6 * y), tip, tip])

    def text(self, words: str, place: Place) -> None:
        self.space.add_text(words, height=HIGH).set_placement(place, align=TextEntityAlignment.MIDDLE_CENTER)

    # ---- the section

    def section(self, form: Form, uncut: Iterable[Cell] = (), is_mirrored: bool = False) -> None:
        """What a plane leaves of the part, drawn somewhere; of the area some cells aren't hatched, as those of a rib; or all of it in a mirror."""
        its = self.cells
        shown = section_of(its, form.looks, form.plane)
        area = area_cells(its, form.looks, form.plane, set(uncut))
        shown.update({side: 2 for side in sides(area)} if uncut else {})
        if form.lines == "outline":
            shown = area_of(its, form.looks, form.plane)
        strokes = [ends for _, *ends in lines_of(shown)]
        width, height = (max(end[at] for ends in strokes for end in ends) for at in (0, 1))
        turned = (height, width) if form.turns % 2 else (width, height)
        x, y = self.stand(form, turned)

        def place(it: Place) -> Place:
            a, b = (width - it[0], it[1]) if is_mirrored else it
            for _ in range(form.turns):
                a, b = -b, a
            a += {1: height, 2: width}.get(form.turns, 0)
            b += {2: height, 3: width}.get(form.turns, 0)
            return x + form.scale * a, y + form.scale * b

        for start, end in strokes:
            self.space.add_line(place(start), place(end), dxfattribs={"layer": form.layer, "linetype": "CONTINUOUS"})
        if form.lines == "hidden":
            self.space.add_line(place((0, 1)), place((width, 1)), dxfattribs={"layer": form.layer, "linetype": "HIDDEN"})
        Hatcher(self.space, area, place).draw(form.hatch)
        if form.label != "none":
            self.text(form.label.replace("_", " "), (x + form.scale * turned[0] / 2, y - 2))
        self.right = max(self.right, x + form.scale * turned[0] + 3 * GAP)

    def stand(self, form: Form, size: tuple[float, float]) -> Place:
        """Where a section stands: to the right of all, beside, above or below the view of its line, or in the place of a view."""
        if form.at in self.places and form.at in VIEWS:
            return self.places[form.at]
        where = self.places.get(form.where, self.places["FRONT"])
        if form.at == "right":
            return self.right, self.places["FRONT"][1]
        if form.at == "apart":
            return self.right, self.places["FRONT"][1] + 37
        if form.at == "beside":
            return self.right, where[1]
        height = sheets.size_of(self.views[form.where])[1]
        return where[0], where[1] + height + 2 * GAP if form.at == "above" else where[1] - 2 * GAP - size[1]


def strokes_of(shown: Shown) -> list[tuple[bool, sheets.Ends]]:
    return [(dashed, (start, end)) for dashed, start, end in lines_of(shown)]


def area_cells(cells: Iterable[Cell], view: str, plane: int, uncut: set[Cell]) -> set[tuple[int, int]]:
    """The unit squares that a plane cuts, as the section's lines stand once these are moved to least coordinates 0, but those of uncut cells."""
    left = seen_from(uncut, view)
    rest = {place for place in seen_from(cells, view) if place[2] >= depth_of(plane, view)}
    right, up = (min(place[at] for place in rest) for at in (0, 1))
    return {(i - right, j - up) for i, j, depth in rest if depth == depth_of(plane, view) and (i, j, depth) not in left}


def sides(area: set[tuple[int, int]]) -> Iterator[tuple[bool, int, int]]:
    """The sides of unit squares on one side of which alone one is."""
    for i, j in area:
        yield from ((True, u, j) for u, beside in ((i, (i - 1, j)), (i + 1, (i + 1, j))) if beside not in area)
        yield from ((False, i, v) for v, beside in ((j, (i, j - 1)), (j + 1, (i, j + 1))) if beside not in area)


class Hatcher:
    """Hatches some unit squares in one way or another."""

    def __init__(self, space: Any, area: set[tuple[int, int]], place: Any) -> None:
        self.space, self.area, self.place = space, area, place

    def draw(self, kind: str) -> None:
        if kind == "one":
            self.hatch(list(loops(self.area)))
        elif kind == "many":
            for i, j in sorted(self.area):
                self.hatch([[(i, j), (i + 1, j), (i + 1, j + 1), (i, j + 1)]])
        elif kind == "edges":
            hatch = self.space.add_hatch()
            hatch.set_pattern_fill("ANSI31", scale=0.2)
            for loop in loops(self.area):
                path, its = hatch.paths.add_edge_path(), list(map(self.place, loop))
                for ends in zip(its, [*its[1:], its[0]]):
                    path.add_line(*ends)
        elif kind == "solid":
            hatch = self.space.add_hatch(color=8)
            for loop in loops(self.area):
                hatch.paths.add_polyline_path([self.place(it) for it in loop])
        elif kind in ("lines", "layer", "crossed"):
            for start, end in slanted(self.area):
                self.space.add_line(self.place(start), self.place(end), dxfattribs={"layer": "HATCH" if kind == "layer" else "0"})
            wide = max(i for i, _ in self.area) + 1
            for (a, b), (c, d) in slanted({(wide - 1 - i, j) for i, j in self.area}) if kind == "crossed" else ():
                self.space.add_line(self.place((wide - a, b)), self.place((wide - c, d)))
        elif kind == "half":
            middle = (min(i for i, _ in self.area) + max(i for i, _ in self.area) + 1) // 2
            self.hatch(list(loops({(i, j) for i, j in self.area if i >= middle})))
        elif kind == "patterns":
            for number, (i, j) in enumerate(sorted(self.area)):
                self.hatch([[(i, j), (i + 1, j), (i + 1, j + 1), (i, j + 1)]], ("ANSI31", "ANSI32")[number % 2])
        elif kind in ("bent", "round"):
            (x, y), _ = self.place((0.5, 0.5)), None
            self.space.add_hatch(color=3).paths.add_edge_path().add_arc((x, y), 0.4, 0, 360 if kind == "round" else 300)

    def hatch(self, paths: list[list[tuple[int, int]]], pattern: str = "ANSI31") -> None:
        hatch = self.space.add_hatch()
        hatch.set_pattern_fill(pattern, scale=0.2)
        for path in paths:
            hatch.paths.add_polyline_path([self.place(it) for it in path])


def loops(area: set[tuple[int, int]]) -> Iterator[list[tuple[int, int]]]:
    """The closed lines round unit squares, each with its squares to the left; squares that touch at a corner alone have lines of their own."""
    nexts: dict[tuple[int, int], list[tuple[int, int]]] = {}
    for i, j in area:
        for beside, start, end in (((i, j - 1), (i, j), (i + 1, j)), ((i + 1, j), (i + 1, j), (i + 1, j + 1)),
                                   ((i, j + 1), (i + 1, j + 1), (i, j + 1)), ((i - 1, j), (i, j + 1), (i, j))):
            if beside not in area:
                nexts.setdefault(start, []).append(end)
    while nexts:
        first = min(nexts)
        loop, at, way = [first], first, (0, 0)
        while True:
            ends = sorted(nexts[at], key=lambda end: -(way[0] * (end[1] - at[1]) - way[1] * (end[0] - at[0])))
            end = ends[0]
            nexts[at].remove(end)
            if not nexts[at]:
                del nexts[at]
            way, at = (end[0] - at[0], end[1] - at[1]), end
            if at == first:
                break
            loop.append(at)
        yield loop


def slanted(area: set[tuple[int, int]]) -> Iterator[sheets.Ends]:
    """Lines at 45 degrees within unit squares, each as long as it goes."""
    wide, tall = (max(it[at] for it in area) + 1 for at in (0, 1))
    for step in range(-3 * wide, 3 * tall):
        off = step / 3 + 0.21
        stops = sorted({*map(float, range(wide + 1)), *(it - off for it in range(tall + 1) if 0 <= it - off <= wide)})
        begun: float | None = None
        for low, high in zip(stops, stops[1:]):
            middle = (low + high) / 2
            is_full = (math.floor(middle), math.floor(middle + off)) in area
            if is_full and begun is None:
                begun = low
            if begun is not None and not is_full:
                yield (begun, begun + off), (low, low + off)
                begun = None
        if begun is not None:
            yield (begun, begun + off), (stops[-1], stops[-1] + off)


def made(form: Form, file: pathlib.Path, cells: Iterable[Cell] = PART) -> None:
    """A sheet with one section in a form."""
    maker = Maker(cells, form.angle, bool(form.left), bool(form.names))
    maker.draw_views(*([form.at] if form.at in VIEWS else []))
    if form.where != "none":
        maker.cutting_line(form, -3 if form.wrong == "beside" else None)
    maker.section(form)
    maker.doc.saveas(file)


def shown_of_strokes(strokes: Iterable[tuple[int, int, int, int]]) -> Shown:
    """What solid strokes show, moved to least coordinates 0."""
    shown: Shown = {}
    for x0, y0, x1, y1 in strokes:
        (a, b), (c, d) = sorted(((x0, y0), (x1, y1)))
        shown.update({(True, a, y): 2 for y in range(b, d)} if a == c else {(False, x, b): 2 for x in range(a, c)})
    return moved_to_zero(shown)
