"""Solids of an answer as FreeCAD's shapes, each made from its faces.

Where four faces meet at an edge, each joins the one that bounds the same full cells. So parts that touch along an edge or at
a corner alone stay parts, each with a closed shell of its own, and what touches itself there is one closed shell that comes
to the same place twice. Several parts are a compound of solids. A void is a further shell of the part round it.
"""
import itertools
from collections import Counter, defaultdict
from collections.abc import Iterable, Iterator
from typing import NamedTuple

from ..core.messages import Refused
from ..recon.answer import Face, Point, Solid, Way, ways_along
from .freecad import FreeCAD, Part


class Side(NamedTuple):
    """A side of faces, by its ends; where four faces meet at it, also the direction to the full cells of two of them."""

    low: Point
    high: Point
    full: Point | None


# ---- the faces' sides

def simple(loop: list[Point]) -> list[list[Point]]:
    """The loop as loops that come to each point once."""
    way: list[Point] = []
    closed = []
    for point in loop:
        if point in way:
            first = way.index(point)
            closed.append(way[first:])
            del way[first:]
        way.append(point)
    return [way, *closed]


def line_of(point: Point, axis: int) -> tuple[int, Point]:
    """The line along an axis through a point."""
    return axis, point[:axis] + point[axis + 1 :]


class Corners:
    """The corners of a solid's faces, by the lines on which they lie."""

    def __init__(self, faces: list[Face]) -> None:
        self.stops: dict[tuple[int, Point], set[int]] = defaultdict(set)
        for point in (point for face in faces for loop in face.loops for point in loop):
            for axis in range(3):
                self.stops[line_of(point, axis)].add(point[axis])

    def cut(self, loop: list[Point]) -> list[Way]:
        """The loop in pieces, from each corner of any face on it to the next."""
        return [piece for way in ways_along(loop) for piece in self.pieces(way)]

    def pieces(self, way: Way) -> Iterator[Way]:
        start, end = way
        axis = next(axis for axis in range(3) if start[axis] != end[axis])
        low, high = sorted((start[axis], end[axis]))
        stops = sorted(stop for stop in self.stops[line_of(start, axis)] if low <= stop <= high)
        points = [(*start[:axis], stop, *start[axis + 1 :]) for stop in stops]
        return itertools.pairwise(points if start[axis] == low else points[::-1])


def full_beside(way: Way, outward: Point) -> Point:
    """The direction from a face's side to the full cells under the face: into the face, and back from its outward side."""
    up, along = FreeCAD.Vector(*outward), FreeCAD.Vector(*way[1]) - FreeCAD.Vector(*way[0])
    return tuple(map(round, up.cross(along.normalize()) - up))


# ---- the solid

class Model:
    """The vertices and edges of a solid, each made once, so that the faces which it joins share it."""

    def __init__(self, faces: list[Face]) -> None:
        corners = Corners(faces)
        self.outward = [face.outward for face in faces]
        self.loops = [[corners.cut(loop) for told in face.loops for loop in simple(told)] for face in faces]
        ways = [way for loops in self.loops for loop in loops for way in loop]
        self.meeting = Counter(frozenset(way) for way in ways)
        self.vertices = {point: Part.Vertex(*point) for way in ways for point in way}
        self.edges: dict[Side, Part.Edge] = {}
        self.beside: dict[Side, list[int]] = defaultdict(list)

    def edge(self, way: Way, face: int) -> Part.Edge:
        """The edge along a side of a face."""
        low, high = sorted(way)
        four = self.meeting[frozenset(way)] > 2
        side = Side(low, high, full_beside(way, self.outward[face]) if four else None)
        if side not in self.edges:
            self.edges[side] = Part.Edge(self.vertices[low], self.vertices[high])
        self.beside[side].append(face)
        return self.edges[side] if way[0] == low else self.edges[side].reversed()

    def face(self, number: int) -> Part.Face:
        wires = [Part.Wire([self.edge(way, number) for way in loop]) for loop in self.loops[number]]
        start, _ = self.loops[number][0][0]
        return Part.Face(Part.Plane(FreeCAD.Vector(*start), FreeCAD.Vector(*self.outward[number])), wires)

    def shells(self) -> list[Part.Shell]:
        """The shells that chains of common sides make of the faces."""
        faces = [self.face(number) for number in range(len(self.outward))]
        if any(len(pair) != 2 for pair in self.beside.values()):
            raise Refused("its faces aren't closed")
        return [Part.Shell([faces[number] for number in group]) for group in joined(self.beside.values(), len(faces))]


def joined(pairs: Iterable[list[int]], count: int) -> list[list[int]]:
    """So many numbers in groups, joined by chains of pairs."""
    groups = [[number] for number in range(count)]
    for first, second in pairs:
        if groups[first] is not groups[second]:
            groups[first] += groups[second]
            for number in groups[second]:
                groups[number] = groups[first]
    return [group for number, group in enumerate(groups) if group[0] == number]


def parts_of(shells: list[Part.Shell]) -> list[list[Part.Shell]]:
    """The parts: an outer shell each, and the shells of its voids."""
    parts = sorted(([shell] for shell in shells if shell.Volume > 0), key=lambda part: float(part[0].Volume))
    for void in (shell for shell in shells if shell.Volume < 0):
        # The void's cell at its least corner. The smallest part that has it within its outer shell is the one round the void.
        least = min(tuple(vertex.Point) for vertex in void.Vertexes)
        cell = FreeCAD.Vector(*least) + FreeCAD.Vector(0.5, 0.5, 0.5)
        around = next((part for part in parts if Part.Solid(part[0]).isInside(cell, 1e-7, False)), None)
        if around is None:
            raise Refused("a void lies in no part of it")
        around.append(void)
    return parts


def shape_of(told: Solid) -> Part.Shape:
    """The solid, or a compound of its parts."""
    shells = Model(told.faces).shells()
    if not all(shell.isClosed() for shell in shells):
        raise Refused("its faces aren't closed")
    solids = [Part.makeSolid(Part.makeCompound(part)) for part in parts_of(shells)]
    shape = solids[0] if len(solids) == 1 else Part.makeCompound(solids)
    if not shape.isValid():
        raise Refused("FreeCAD doesn't hold it to be a valid solid")
    if abs(shape.Volume - told.volume) > 1e-6 * told.volume:
        raise Refused(f"its volume is {shape.Volume:.6f}, and {told.volume} is told")
    return shape
