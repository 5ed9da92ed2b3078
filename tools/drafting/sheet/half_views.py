"""Half views: a view of a symmetric part that is drawn up to its centre line alone. ISO 128 marks them by two short parallel strokes across
each end of the centre line. They aren't read, and taken as a whole view one gives half of the part."""
import itertools
from collections.abc import Iterator, Mapping, Sequence
from typing import NamedTuple

from ..core.messages import Refused
from ..dxf.reader import Box, Edge

# A mark's strokes are no longer than this part of the view's extent, and no farther apart or from its corner.
SHORT = 0.35


class Stroke(NamedTuple):
    """A level or upright stroke: whether it is upright, where it stands, and from where to where it goes."""

    upright: bool
    at: float
    low: float
    high: float


def strokes_of(edges: Sequence[Edge], tolerance: float) -> list[Stroke]:
    """The visible level and upright strokes among edges."""
    found = []
    for edge in edges:
        (a, b), (c, d) = edge.start, edge.end
        if not edge.hidden and abs(a - c) <= tolerance < abs(b - d):
            found.append(Stroke(True, (a + c) / 2, min(b, d), max(b, d)))
        elif not edge.hidden and abs(b - d) <= tolerance < abs(a - c):
            found.append(Stroke(False, (b + d) / 2, min(a, c), max(a, c)))
    return found


class Pair(NamedTuple):
    """Two short parallel strokes side by side: the middle of both, across and along the line that they cross, and how long they are."""

    across: float
    along: float
    length: float


def pairs(strokes: Sequence[Stroke], upright: bool, most: float, tolerance: float) -> Iterator[Pair]:
    """The pairs of short strokes that may cross an upright or level centre line."""
    short = sorted((it for it in strokes if it.upright != upright and it.high - it.low <= most), key=lambda it: ((it.low + it.high) / 2, it.at))
    for one, other in itertools.pairwise(short):
        middle = (one.low + one.high) / 2
        if tolerance < other.at - one.at <= most and abs(one.low - other.low) <= tolerance and abs(one.high - other.high) <= tolerance:
            yield Pair(middle, (one.at + other.at) / 2, one.high - one.low)


def cut_side(box: Box, strokes: Sequence[Stroke], chains: Sequence[Stroke], tolerance: float) -> str:
    """At which side a view is cut at a line with marks beyond both of its ends; nothing where it isn't. Marks that touch the view count where
    a centre line goes through them."""
    x0, y0, x1, y1 = box
    noise = 3 * tolerance
    for side, upright, at, low, high in (("left", True, x0, y0, y1), ("right", True, x1, y0, y1), ("lower", False, y0, x0, x1), ("upper", False, y1, x0, x1)):
        most = SHORT * (high - low)
        near = [it for it in pairs(strokes, upright, most, noise) if abs(it.across - at) <= it.length / 2 + noise]
        on_side = [it for it in near if abs(it.across - at) <= noise and not low + noise < it.along < high - noise]
        on_line = [it for it in near if any(line.upright == upright and abs(line.at - it.across) <= noise and line.low - noise <= it.along <= line.high + noise
                                            for line in chains)]
        for its in (on_side, on_line):
            if any(abs(it.along - low) <= most for it in its) and any(abs(it.along - high) <= most for it in its):
                return side
    return ""


def refuse_half(boxes: Mapping[str, Box], edges: Sequence[Edge], chains: Sequence[Edge], tolerance: float) -> None:
    """Refuses a view that is cut at a centre line with symmetry marks."""
    strokes, lines = strokes_of(edges, tolerance), strokes_of(chains, tolerance)
    for view, box in boxes.items():
        if side := cut_side(box, strokes, lines, tolerance):
            raise Refused(f"{view}, from {box[0]:.6g}, {box[1]:.6g} to {box[2]:.6g}, {box[3]:.6g}, is a half view: at its {side} side stand symmetry "
                          "marks, two short strokes across each end of a centre line. Half views aren't read: draw the whole view")
