"""Whether a stretch of a view's line or arc is visible, decided by rays through the shape beside it: OpenCASCADE's hidden line removal draws some
visible edges dashed.

An edge that is drawn somewhere is visible there if what is nearest to the viewer has a step or a bend there. So three rays go along the sight on
each side of the place, and the depths at which they enter the shape are continued to the place. What lies too near to be told apart, or turns
too fast, is left undecided.
"""
import math
from collections.abc import Iterator, Sequence
from typing import NamedTuple

from ..dxf.drawing import Place
from ..projection.draw import FRAMES
from .freecad import FreeCAD, Part

# How far beside a place the nearest ray of each side goes; the others go twice and three times as far. Coordinates of a sheet and of a shape that
# are one lie no farther apart than this.
BESIDE = 4e-3
# Depths on both sides, continued to the place, are one below the first number and two above the second one; slopes, as angles, likewise.
ONE_DEPTH, TWO_DEPTHS = 4e-3, 4e-2
ONE_SLOPE, TWO_SLOPES = 2e-3, 2e-2
# What is noise of a point that lies on a face, and of a face's box.
ON_FACE, OF_BOX = 1e-7, 1e-6


class Surface(NamedTuple):
    """What is nearest to the viewer beside a place, continued to it: its depth, and its slope away from the place as an angle."""

    depth: float
    slope: float


class Boxed(NamedTuple):
    """A face, with its least and greatest coordinates in the view: to the right, and upwards, of the shape's own axes."""

    face: "Part.Face"
    low: Place
    high: Place


class Rays:
    """Rays along the sight of one view of a shape, which is large enough that BESIDE is small for it. `least` is the view's least corner in
    the coordinates that are projected; places of the view count from there on."""

    def __init__(self, shape: "Part.Shape", view: str, least: Place) -> None:
        self.frame, self.least = FRAMES[view], least
        self.faces = list(map(self.boxed, shape.Faces))

    def boxed(self, face: "Part.Face") -> Boxed:
        box, frame = face.BoundBox, self.frame
        low, high = (box.XMin, box.YMin, box.ZMin), (box.XMax, box.YMax, box.ZMax)
        return Boxed(face, (low[frame.right] - OF_BOX, low[frame.up] - OF_BOX), (high[frame.right] + OF_BOX, high[frame.up] + OF_BOX))

    def is_visible(self, key: Sequence[float], at: float) -> bool | None:
        """Whether an edge that is drawn is visible at a place of its line or arc, which `key` and `at` name as the rows of `compare` do; none where
        rays can't tell."""
        left, right = (self.beside(key, at, sign * BESIDE) for sign in (-1, 1))
        if left is None or right is None:
            return None if left is right else True
        # The slopes are those away from the place: of one plane they are opposite.
        apart, bend = abs(left.depth - right.depth), abs(left.slope + right.slope)
        if apart > TWO_DEPTHS or apart < ONE_DEPTH and bend > TWO_SLOPES:
            return True
        return False if apart < ONE_DEPTH and bend < ONE_SLOPE else None

    def beside(self, key: Sequence[float], at: float, off: float) -> Surface | None:
        """What is nearest to the viewer on one side of a place, continued as a parabola; none where a ray passes the shape by."""
        first, second, third = (min(self.depths(place_beside(key, at, times * off)), default=None) for times in (1, 2, 3))
        if first is None or second is None or third is None:
            return None
        return Surface(3 * first - 3 * second + third, math.atan2(8 * second - 5 * first - 3 * third, 2 * abs(off)))

    def depths(self, place: Place) -> Iterator[float]:
        """How far from the viewer the ray at a place meets the shape's faces."""
        frame, foot = self.frame, self.spot(place, 0.0)
        x, y, ray = foot[frame.right], foot[frame.up], Part.Line(foot, self.spot(place, 1.0))
        for face, low, high in self.faces:
            if low[0] <= x <= high[0] and low[1] <= y <= high[1]:
                yield from (-point[frame.sight] if frame.sight_back else point[frame.sight] for point in met(face, ray))

    def spot(self, place: Place, depth: float) -> "FreeCAD.Vector":
        """A place of the view in the shape's coordinates, so far along the axis of sight."""
        frame, at = self.frame, [0.0, 0.0, 0.0]
        u, v = place[0] + self.least[0], place[1] + self.least[1]
        at[frame.right], at[frame.up], at[frame.sight] = -u if frame.right_back else u, -v if frame.up_back else v, depth
        return FreeCAD.Vector(*at)


def place_beside(key: Sequence[float], at: float, off: float) -> Place:
    """A place of a view so far beside a line or an arc, of which `at` is a length along it."""
    if len(key) == 2:
        return (key[1] + off, at) if key[0] else (at, key[1] + off)
    if len(key) == 4:
        (a, b), (c, d) = key[:2], key[2:]
        length = math.dist((a, b), (c, d))
        right, up = (c - a) / length, (d - b) / length
        return a + right * at - up * off, b + up * at + right * off
    x, y, radius = key
    turn = at / radius
    return x + (radius + off) * math.cos(turn), y + (radius + off) * math.sin(turn)


def met(face: "Part.Face", ray: "Part.Line") -> Iterator["FreeCAD.Vector"]:
    """Where a ray meets a face: nowhere where it runs along its surface."""
    try:
        found = ray.intersectCS(face.Surface)
    except (RuntimeError, ValueError):
        return
    for point in found[0] if found else ():
        place = FreeCAD.Vector(point.X, point.Y, point.Z)
        if face.isPartOfDomain(*face.Surface.parameter(place)) or face.distToShape(Part.Vertex(place))[0] < ON_FACE:
            yield place
