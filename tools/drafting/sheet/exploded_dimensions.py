"""Exploded dimensions: which edges of a sheet are lines of dimensions, by the arrow heads that stand with them.

Edges are looked at as they are drawn, before pieces are joined: an extension line may lie upon an edge of another view.
"""
from collections import defaultdict
from collections.abc import Iterable, Sequence

from ..dxf.reader import Arrow, Edge
from ..geometry.segments import Piece, rows_of


class Pieces:
    """The level and the upright edges of a sheet, found by their coordinates across."""

    def __init__(self, edges: Iterable[Edge], tolerance: float) -> None:
        self.tolerance = tolerance
        self.cells: dict[tuple[bool, int], list[Piece]] = defaultdict(list)
        for (_, upright), row in rows_of(edges, tolerance)[0].items():
            for piece in row:
                self.cells[upright, self.cell(piece.at)].append(piece)

    def cell(self, at: float) -> int:
        return round(at / (2 * self.tolerance))

    def on(self, upright: bool, at: float) -> list[Piece]:
        """The pieces on one line."""
        cell = self.cell(at)
        return [piece for it in (cell - 1, cell, cell + 1) for piece in self.cells.get((upright, it), ())
                if abs(piece.at - at) <= self.tolerance]

    def through(self, upright: bool, at: float, along: float) -> list[Piece]:
        """The pieces on one line that pass or touch a place."""
        return [it for it in self.on(upright, at) if it.low - self.tolerance <= along <= it.high + self.tolerance]

    def has_loose_end(self, upright: bool, piece: Piece) -> bool:
        """Whether at one of its ends nothing goes on, and nothing crosses or touches it."""
        def is_loose(end: float, sign: int) -> bool:
            reach = max(sign * it for other in self.through(upright, piece.at, end) for it in (other.low, other.high))
            return reach <= sign * end + self.tolerance and not self.through(not upright, end, piece.at)

        return is_loose(piece.low, -1) or is_loose(piece.high, 1)


def is_near(piece: Piece, along: float, distance: float) -> bool:
    """Whether an end of a piece is no farther away along its line."""
    return min(abs(along - piece.low), abs(along - piece.high)) <= distance


def without_dimensions(edges: Sequence[Edge], arrows: Iterable[Arrow], tolerance: float) -> tuple[list[Edge], list[Arrow]]:
    """The edges without those of exploded dimensions, and the arrow heads of these: a dimension line ends at an arrow head, and an
    extension line passes its tip near a loose end."""
    pieces = Pieces(edges, tolerance)
    gone: set[int] = set()
    used = []
    for arrow in arrows:
        found: list[Piece] = []
        for tip in arrow.tips:
            for upright in (False, True):
                across, along = tip if upright else tip[::-1]
                dimension = [it for it in pieces.on(upright, across) if is_near(it, along, 1.01 * arrow.size + tolerance)]
                extension = [it for it in pieces.through(not upright, along, across)
                             if is_near(it, across, 2 * arrow.size + tolerance) and pieces.has_loose_end(not upright, it)]
                found += [*dimension, *extension] if dimension and extension else []
        gone |= {id(piece.edge) for piece in found}
        used += [arrow] if found else []
    return [edge for edge in edges if id(edge) not in gone], used
