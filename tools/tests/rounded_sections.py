"""Sheets of parts with rounds that have a section view: the part cut by FreeCAD, drawn by hidden line removal and hatched, and its cutting-plane line."""
import math
import pathlib
from collections.abc import Iterator
from typing import Any

from drafting.cad.compare import SHARP, drawn
from drafting.cad.rounded_shapes import read_back
from drafting.projection.draw import FRAMES

from . import sheets
from .rounded_parts import box, draw
from .section_sheets import Form, Maker, new_space

Place = tuple[float, float]
# The groups of edges that are seen and sharp.
SEEN = SHARP[:2]


class RoundMaker(Maker):
    """Draws a part of FreeCAD's and its sections on one sheet, in third angle."""

    def __init__(self, shape: Any) -> None:
        self.shape = read_back(shape)
        around = self.shape.BoundBox
        self.least = [around.XMin, around.YMin, around.ZMin]
        self.size = [around.XLength, around.YLength, around.ZLength]
        self.side = "SIDE"
        self.views = {view: [(False, ((0.0, 0.0), (self.size[FRAMES[view].right], self.size[FRAMES[view].up])))] for view in ("FRONT", "TOP", "SIDE")}
        self.places = sheets.places_of(self.views)
        self.doc, self.space = new_space()
        self.right = max(self.places[view][0] + sheets.size_of(its)[0] for view, its in self.views.items()) + 30

    def draw_views(self, *without: str) -> None:
        for view, place in self.places.items():
            if view in self.views and view not in without:
                self.draw(self.shape, view, place)

    def draw(self, shape: Any, view: str, place: Place, groups: tuple[int, ...] = SHARP) -> Place:
        """Draws a view of a shape from a place on, and answers where the shape's own coordinates begin."""
        made = drawn(shape, view, groups)
        ends = [end for line in made.lines for end in (line.start, line.end)] + [arc.at(turn) for arc in made.arcs for turn in
                                                                                (arc.start, arc.start + arc.sweep, 0, 90, 180, 270)
                                                                                if (turn - arc.start) % 360 <= arc.sweep]
        x, y = (place[at] - min(end[at] for end in ends) for at in (0, 1))
        draw(self.space, shape, view, (x, y), groups)
        return x, y

    def saved(self, file: pathlib.Path) -> None:
        """A sheet of the views alone."""
        self.draw_views()
        self.doc.saveas(file)

    def cut(self, form: Form) -> Any:
        """What a plane leaves of the part."""
        frame = FRAMES[form.looks]
        low, high = [-1.0] * 3, [it + 1.0 for it in self.size]
        (high if frame.sight_back else low)[frame.sight] = form.plane
        ends = [a + b for a, b in zip([*low, *high], [*self.least, *self.least])]
        return read_back(self.shape.common(box(*ends)))

    def section(self, form: Form, uncut: Any = (), is_mirrored: bool = False) -> None:
        """What a plane leaves of the part, drawn to the right of all, hatched and with its label."""
        frame, left = FRAMES[form.looks], self.cut(form)
        x, y = self.draw(left, form.looks, (self.right, self.places["FRONT"][1]), SEEN)
        at = self.least[frame.sight] + form.plane

        def flat(point: Any) -> Place:
            its = tuple(point)
            return x + its[frame.right] * (-1 if frame.right_back else 1), y + its[frame.up] * (-1 if frame.up_back else 1)

        hatch = self.space.add_hatch()
        hatch.set_pattern_fill("ANSI31", scale=0.2)
        for face in left.Faces:
            its = face.BoundBox
            if max(abs(end[frame.sight] - at) for end in ((its.XMin, its.YMin, its.ZMin), (its.XMax, its.YMax, its.ZMax))) < 1e-6:
                for wire in face.Wires if form.hatch != "none" else ():
                    hatch.paths.add_polyline_path([(*place, bulge) for place, bulge in sides(wire, flat)])
        if form.hatch == "none":
            self.space.delete_entity(hatch)
        self.text(form.label.replace("_", " "), (self.right + 5, self.places["FRONT"][1] - 3))


def sides(wire: Any, flat: Any) -> Iterator[tuple[Place, float]]:
    """The corners of a wire with the bulges of its sides."""
    for edge in wire.OrderedEdges:
        ends = edge.ParameterRange[::-1] if edge.Orientation == "Reversed" else edge.ParameterRange
        count = 1 if edge.Curve.TypeId == "Part::GeomLine" else 2 if math.dist(*(tuple(edge.valueAt(it)) for it in ends)) < 1e-6 else 1
        for part in range(count):
            low, high = (ends[0] + (ends[1] - ends[0]) * (part + it) / count for it in (0, 1))
            a, middle, b = (flat(edge.valueAt(it)) for it in (low, (low + high) / 2, high))
            turn = (b[0] - a[0]) * (middle[1] - a[1]) - (b[1] - a[1]) * (middle[0] - a[0])
            yield a, -math.copysign(2 * abs(turn) / math.dist(a, b)**2, turn)
