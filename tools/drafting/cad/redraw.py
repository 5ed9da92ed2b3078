"""Drawing anew what a page of FreeCAD shows: the edges of its part, turned so that the page's views are the main and further ones, by
OpenCASCADE's hidden line removal, at full size, with hidden lines and without smooth ones. The document has no part in it.

A page that was taken before, by FreeCAD's window, is a folder: `taken_page.json` with labels, the frame and what was told, and `part.brep`.
"""
import argparse
import dataclasses
import json
import math
import pathlib
from collections.abc import Sequence
from typing import Any

from ..core import notes as noted
from ..core.messages import Refused, many
from ..core.notes import Note, Tell
from ..core.page import TAKEN, Cut, Page, View, check_options
from ..dxf import curves
from ..dxf.drawing import Place, places_of
from ..dxf.reader import Arc, Box, Edge, Sheet, Source, Unread
from .compare import SHARP, SMOOTH, Projected, ends_of, projected
from .freecad import FreeCAD, load, save
from .project import united
from .rounded_shapes import read_back

PART = "part.brep"
# FreeCAD's own unit, whatever it shows lengths in.
UNIT = "mm"
COLOUR = 7


class Lines:
    """What is drawn of a view, from the part's own coordinates on."""

    def __init__(self, part: Any, view: View, with_hidden: bool) -> None:
        self.edges: list[Edge] = []
        self.arcs: list[Arc] = []
        self.unread: list[Unread] = []
        self.smooth = 0
        for it in projected(part, view.name, (*SHARP, *SMOOTH)):
            if it.number in SMOOTH:
                self.smooth += not it.hidden
            elif with_hidden or not it.hidden:
                self.take(it, Source("line", view.label, "", view=view.name))

    def take(self, it: Projected, source: Source) -> None:
        """Takes an edge as a line, as a part of a circle, or as what isn't read."""
        kind = it.edge.Curve.TypeId.removeprefix("Part::Geom")
        if kind == "Line":
            self.edges.append(Edge(it.hidden, it.places[0], it.places[-1], COLOUR, source))
        elif arc := it.arc():
            self.arcs.append(arc._replace(source=source._replace(kind="curve")))
        elif (ends := ends_of(it.places)):
            self.edges.append(Edge(it.hidden, *ends, COLOUR, source._replace(kind="SPLINE")))
        elif (bow := curves.through(it.places)):
            self.arcs.append(Arc(it.hidden, *bow, source._replace(kind="curve")))
        else:
            self.unread.append(Unread(curves.neither(it.places), box_of(it.fine), source._replace(kind="curve"), places=tuple(it.fine), hidden=it.hidden))

    @property
    def box(self) -> Box:
        rounds = [arc.at(turn) for arc in self.arcs for turn in turns_of(arc)]
        places = [place for edge in self.edges for place in (edge.start, edge.end)] + rounds
        corners = [corner for it in self.unread if it.box for corner in (it.box[:2], it.box[2:])]
        return box_of([*places, *corners])

    def moved(self, right: float, up: float) -> None:
        """Moves all of it."""
        def there(place: Place) -> Place:
            return place[0] + right, place[1] + up

        self.edges = [it._replace(start=there(it.start), end=there(it.end)) for it in self.edges]
        self.arcs = [it._replace(centre=there(it.centre)) for it in self.arcs]
        self.unread = [it._replace(box=it.box and (*there(it.box[:2]), *there(it.box[2:])), places=tuple(map(there, it.places))) for it in self.unread]


def turns_of(arc: Arc) -> list[float]:
    """The ends of an arc, and where it reaches farthest to a side."""
    return [arc.start, arc.start + arc.sweep, *(at for at in range(0, 720, 90) if arc.start <= at <= arc.start + arc.sweep)]


def box_of(places: Sequence[Place]) -> Box:
    xs, ys = zip(*places)
    return min(xs), min(ys), max(xs), max(ys)


# ---- the sheet

def matrix_of(frame: tuple[Any, Any, Any]) -> Any:
    """What turns the drawing's directions into the document's."""
    x, y, z = frame
    return FreeCAD.Matrix(x.x, y.x, z.x, 0, x.y, y.y, z.y, 0, x.z, y.z, z.z, 0, 0, 0, 0, 1)


def turned(shape: Any, matrix: Any) -> Any:
    """A copy of a shape, turned, with each of its curves of the kind that it was."""
    turned_one = shape.copy()
    turned_one.Placement = FreeCAD.Placement(matrix) * shape.Placement
    return turned_one


def joined(page: Page, tell: Tell) -> Page:
    """The page with its solids as one part, without edges between faces of one plane, which TechDraw draws as any other; and with smooth edges
    marked, which cuts and unions don't do."""
    solids = page.part.Solids
    part = united(solids)
    if any(face.Surface.TypeId != "Part::GeomPlane" for face in part.Faces):
        part = read_back(part)
    if not part.isValid() or not part.Solids:
        raise Refused("what FreeCAD makes of the part is no valid solid: see it by Part, Check geometry")
    if len(solids) > 1:
        tell(noted.changed(f"{len(solids)} solids are taken as one part, without lines between those that touch", len(solids)))
    elif (count := len(solids[0].Faces) - len(part.Faces)) > 0:
        tell(noted.changed(f"{many(count, 'face')} joined with others in their plane: the page draws lines between them, unless the shape is refined",
                           count))
    return page._replace(part=part)


def drawn(page: Page, with_hidden: bool, tell: Tell) -> Sheet:
    """The views of a page as a sheet on which they stand apart."""
    part = turned(page.part, matrix_of(page.frame).inverse())
    lines = {view.name: Lines(part, view, with_hidden) for view in page.views}
    if empty := next((view.label for view in page.views if not (lines[view.name].edges or lines[view.name].arcs or lines[view.name].unread)), None):
        raise Refused(f"FreeCAD draws nothing in {empty}")
    boxes = {name: its.box for name, its in lines.items()}
    spans = {axis: span_along(axis, boxes) for axis in range(3)}
    sizes = [math.ceil(high - low) + 1 for low, high in spans.values()]
    sheet = Sheet(UNIT)
    for name, (right, up) in places_of(sizes[0], sizes[1], sizes[2], max(sizes)).items():
        if name in lines:
            lines[name].moved(right - boxes[name][0], up - boxes[name][1])
            sheet.edges += lines[name].edges
            sheet.arcs += lines[name].arcs
            sheet.unread += lines[name].unread
    if smooth := sum(lines[view.name].smooth for view in page.views if view.has_smooth):
        tell(noted.left_out(f"{many(smooth, 'smooth edge')}, which the page draws", smooth))
    sheet.page = page._replace(least=(spans[0][0], spans[1][0], spans[2][0]))
    return sheet


def span_along(axis: int, boxes: dict[str, Box]) -> tuple[float, float]:
    """From where to where the part reaches along an axis, by the main view that shows it."""
    shown = {0: (("FRONT", 0), ("TOP", 0)), 1: (("TOP", 1), ("SIDE", 0)), 2: (("FRONT", 1), ("SIDE", 1))}[axis]
    name, at = next(it for it in shown if it[0] in boxes)
    return boxes[name][at], boxes[name][at + 2]


def sheet_of(path: str, arguments: argparse.Namespace, tell: Tell) -> Sheet:
    """The sheet of a page of a document, or of one that was taken before."""
    check_options(arguments, True)
    if pathlib.Path(path).name == TAKEN:
        page, notes = taken_in(path)
        for note in notes:
            tell(note)
    else:
        from . import techdraw
        page = techdraw.read(path, arguments.sheet_page, arguments.part, tell)
    tell(noted.found("lengths in mm, FreeCAD's own unit"))
    return drawn(joined(page, tell), not getattr(arguments, "visible_edges_alone", False), tell)


# ---- solids at the part's place

def placed(shape: Any, page: Page) -> Any:
    """A solid of the answer, in the page's unit and from its own least corner on, where the part stands in the document."""
    moved = shape.copy()
    moved.translate(FreeCAD.Vector(*page.least))
    result = turned(moved, matrix_of(page.frame))
    result.Placement = page.outer * result.Placement
    return result


# ---- pages that were taken before

def saved(page: Page, notes: Sequence[Note], folder: str) -> str:
    """Keeps a page in a folder, and answers the file that stands for it."""
    save(page.part, str(pathlib.Path(folder, PART)), "mm")
    text = {"label": page.label, "views": page.views, "cuts": page.cuts, "frame": [tuple(it) for it in page.frame], "outer": page.outer.toMatrix().A,
            "notes": list(map(dataclasses.asdict, notes))}
    path = pathlib.Path(folder, TAKEN)
    path.write_text(json.dumps(text))
    return str(path)


def taken_in(path: str) -> tuple[Page, list[Note]]:
    """A page that was kept, and what was told of it."""
    try:
        told = json.loads(pathlib.Path(path).read_text())
        views, cuts = tuple(View(*it) for it in told["views"]), tuple(Cut(*it) for it in told["cuts"])
        frame = tuple(FreeCAD.Vector(*it) for it in told["frame"])
        outer = FreeCAD.Placement(FreeCAD.Matrix(*told["outer"]))
        notes = [Note(**it) for it in told["notes"]]
    except (ValueError, KeyError, TypeError):
        raise Refused(f"{path} isn't what FreeCAD's window keeps of a page") from None
    return Page(told["label"], views, (frame[0], frame[1], frame[2]), load(str(pathlib.Path(path).with_name(PART))), outer, cuts=cuts), notes
