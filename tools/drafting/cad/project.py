"""The views of a shape, as FreeCAD's TechDraw projects it by OpenCASCADE's hidden line removal. Solids of one shape are
united, and faces of one plane that touch are joined.
"""
import itertools
import pathlib
from collections import defaultdict
from collections.abc import Callable, Iterable, Iterator, Sequence
from decimal import Decimal, InvalidOperation
from typing import NamedTuple

from ..core.messages import Refused
from ..dxf.drawing import VIEWS, Stroke, places_of, written
from .freecad import FreeCAD, Part, TechDraw, is_shape_file, load

# The direction from the part to the viewer; and, as a box with three different sides shows, what is to the right and upwards
# in the two coordinates that TechDraw answers.
DIRECTIONS: dict[str, tuple[tuple[int, int, int], Callable[[float, float], tuple[float, float]]]] = {
    "FRONT": ((0, -1, 0), lambda u, v: (v, -u)),
    "TOP": ((0, 0, 1), lambda u, v: (u, v)),
    "SIDE": ((1, 0, 0), lambda u, v: (-v, u)),
    "LEFT": ((-1, 0, 0), lambda u, v: (v, -u)),
    "REAR": ((0, 1, 0), lambda u, v: (-v, u)),
    "BOTTOM": ((0, 0, -1), lambda u, v: (-u, -v)),
}

# Of the ten groups of edges that TechDraw answers the first five are visible.
VISIBLE = 5
MARGIN = 10


class Edge(NamedTuple):
    """An edge of a view, level or upright, at a coordinate across its way, from one along it to a greater one, in units of the
    last decimal."""

    hidden: bool
    upright: bool
    at: int
    low: int
    high: int

    def ends(self) -> tuple[tuple[int, int], tuple[int, int]]:
        if self.upright:
            return (self.at, self.low), (self.at, self.high)
        return (self.low, self.at), (self.high, self.at)

    def moved(self, right: int, up: int) -> "Edge":
        across, along = (right, up) if self.upright else (up, right)
        return self._replace(at=self.at + across, low=self.low + along, high=self.high + along)


# ---- the part

def box_of(line: str, decimals: int) -> tuple[str, Part.Shape]:
    """What a line of a text of boxes does, and its box."""
    word, *numbers = line.split()
    try:
        told = [Decimal(number).scaleb(decimals) for number in numbers]
    except InvalidOperation:
        told = []
    if word not in ("add", "cut") or len(told) != 6 or any(it % 1 for it in told):
        raise Refused(f"not `add` or `cut` with six numbers of {decimals} decimals")
    coordinates = list(map(int, told))
    sides = [high - low for low, high in zip(coordinates[:3], coordinates[3:])]
    if min(sides) <= 0:
        raise Refused("the second corner isn't greater than the first one")
    return word, Part.makeBox(*sides, FreeCAD.Vector(*coordinates[:3]))


def shape_of_boxes(path: str, decimals: int) -> Part.Shape:
    shape = None
    for number, line in enumerate(pathlib.Path(path).read_text(errors="replace").splitlines(), 1):
        line = line.partition("#")[0].strip()
        if not line:
            continue
        try:
            word, box = box_of(line, decimals)
        except Refused as refusal:
            raise Refused(f"{path}: line {number}: {refusal}") from None
        if shape is not None:
            shape = shape.fuse(box) if word == "add" else shape.cut(box)
        elif word == "add":
            shape = box
    if shape is None:
        raise Refused(f"{path}: no box is added")
    return shape


def are_whole(coordinates: Iterable[float]) -> bool:
    return all(abs(coordinate - round(coordinate)) < 1e-6 for coordinate in coordinates)


def united(solids: Sequence[Part.Shape]) -> Part.Shape:
    """Some solids as one shape, without edges between faces of one plane."""
    joining = Part.ShapeUpgrade.UnifySameDomain(solids[0].multiFuse(solids[1:]) if len(solids) > 1 else solids[0])
    joining.build()
    return joining.shape()


def part_of(shape: Part.Shape) -> Part.Shape:
    """The shape's solids as one part, without edges between faces of one plane; refused where it can't be drawn."""
    if not shape.Solids:
        raise Refused("there is no solid in it")
    part = united(shape.Solids)
    for face in part.Faces:
        if face.Surface.TypeId != "Part::GeomPlane":
            raise Refused("a face isn't plane")
        if sorted(abs(share) for share in face.Surface.Axis)[1] > 1e-9:
            raise Refused("a face isn't parallel to a view plane")
    for vertex in part.Vertexes:
        if not are_whole(vertex.Point):
            raise Refused("the corner {:.9g}, {:.9g}, {:.9g} has more decimals".format(*vertex.Point))
    if not part.isValid() or part.Volume < 0.5:
        raise Refused("what FreeCAD makes of it is no closed solid")
    return part


# ---- the views

def projected(part: Part.Shape, view: str) -> Iterator[Edge]:
    """The edges of a view as they come, in pieces and some of them repeated."""
    direction, place = DIRECTIONS[view]
    for number, group in enumerate(TechDraw.projectEx(part, FreeCAD.Vector(*direction))):
        for edge in [] if group.isNull() else group.Edges:
            places = [place(vertex.X, vertex.Y) for vertex in edge.Vertexes]
            (x0, y0), (x1, y1) = sorted((round(x), round(y)) for x, y in places)
            if (x0 != x1 and y0 != y1) or not are_whole(itertools.chain(*places)):
                raise Refused(f"FreeCAD draws an edge of {view} that isn't level or upright, or whose ends aren't whole")
            yield Edge(number >= VISIBLE, True, x0, y0, y1) if x0 == x1 else Edge(number >= VISIBLE, False, y0, x0, x1)


def joined(edges: Iterable[Edge]) -> Iterator[Edge]:
    """The same edges, each stretch of one style once; a visible one wins."""
    rows = defaultdict(list)
    for edge in edges:
        rows[edge.upright, edge.at].append(edge)
    for (upright, at), row in sorted(rows.items()):
        cuts = sorted({end for edge in row for end in (edge.low, edge.high)})
        pieces: list[Edge] = []
        for low, high in itertools.pairwise(cuts):
            styles = [edge.hidden for edge in row if edge.low <= low and high <= edge.high]
            if styles and pieces and pieces[-1].high == low and pieces[-1].hidden == all(styles):
                low = pieces.pop().low
            if styles:
                pieces.append(Edge(all(styles), upright, at, low, high))
        yield from pieces


def views_of(part: Part.Shape, further: Iterable[str] = ()) -> dict[str, list[Edge]]:
    """The three views and some further ones in third-angle places, FRONT at the part's own coordinates."""
    box = part.BoundBox
    places = places_of(round(box.XLength), round(box.YLength), round(box.ZLength), MARGIN)
    views = {}
    for view in (*VIEWS, *further):
        edges = list(joined(projected(part, view)))
        least = [min(end[axis] for edge in edges for end in edge.ends()) for axis in (0, 1)]
        right, up = (round(begin) + at - low for begin, at, low in zip((box.XMin, box.ZMin), places[view], least))
        views[view] = [edge.moved(right, up) for edge in edges]
    return views


# ---- the file

def drawing_of(path: str, decimals: int, further: Iterable[str] = ()) -> str:
    """The drawing of a file's shape, with so many decimals and some further views."""
    shape = load(path).scale(10**decimals) if is_shape_file(path) else shape_of_boxes(path, decimals)
    try:
        views = views_of(part_of(shape), further)
    except Refused as refusal:
        raise Refused(f"{path}: {refusal}") from None
    strokes: dict[str, list[Stroke]] = {
        view: [(edge.hidden, *edge.ends()) for edge in edges] for view, edges in views.items()
    }
    return written(strokes, decimals)
