"""Two exports of one sheet, one without hidden lines, of which each line, arc and curve that this one lacks is hidden."""
import itertools
import math
from collections.abc import Iterator, Sequence

from ..dxf.reader import Arc, Edge, Unread
from ..geometry.free_curves import NEAR, is_on
from ..rounds import rounds, tangent_edges
from ..rounds.features import Stretch
from ..rounds.rounds import OF_ONE, is_level, is_straight


def arcs_hidden_by(whole: Sequence[Arc], visible: Sequence[Arc], tolerance: float) -> Iterator[Arc]:
    """The arcs of a sheet, hidden where its export without hidden lines lacks them, and cut where it begins to."""
    for arc in whole:
        beside = [it for it in visible if rounds.are_of_one(it, arc, tolerance)]
        noise = math.degrees(1e-3 / arc.radius)
        offs = [(at - arc.start) % 360 for it in beside if it.sweep < 360 - noise for at in (it.start, it.start + it.sweep)]
        stops = sorted({0.0, arc.sweep, *(off for off in offs if noise < off < arc.sweep - noise)})
        spans = [(low, high) for low, high in itertools.pairwise(stops) if high - low > noise]
        seen = [any((arc.start + (low + high) / 2 - it.start) % 360 <= it.sweep for it in beside) for low, high in spans]
        for is_seen, its in itertools.groupby(zip(seen, spans), key=lambda it: it[0]):
            of_one = [span for _, span in its]
            low, high = of_one[0][0], of_one[-1][1]
            yield arc._replace(hidden=not is_seen, start=(arc.start + low) % 360, sweep=high - low)


def curves_hidden_by(whole: Sequence[Unread], visible: Sequence[Unread]) -> Iterator[Unread]:
    """The curves of a sheet, hidden where its export without hidden lines lacks them: programs cut them where that changes."""
    seen = [it.places for it in visible if it.places]
    for it in whole:
        inner = it.places[1:-1] or it.places
        yield it._replace(hidden=not all(any(is_on(place, its, NEAR) for its in seen) for place in inner[::max(1, len(inner) // 16)]))


Row = tuple[bool, float]


def tallied(edges: Sequence[Edge], tolerance: float) -> dict[Row, list[tuple[float, float]]]:
    """From where to where level and upright edges go, by their lines; a drawing's noise is evened out by the first edge of each."""
    rows: dict[Row, list[tuple[float, float]]] = {}
    for edge in sorted(edges, key=lambda it: (is_level(it), it.start[1 if is_level(it) else 0])):
        way = 0 if is_level(edge) else 1
        at = edge.start[1 - way]
        last = next(reversed(rows), None)
        key = last if last and last[0] == bool(way) and abs(last[1] - at) <= OF_ONE * tolerance else (bool(way), at)
        rows.setdefault(key, []).append(tangent_edges.span_of(edge, way))
    return rows


def twice_hidden(whole: Sequence[Edge], visible: Sequence[Edge], tolerance: float) -> Iterator[Edge]:
    """Hidden lines under visible ones: the whole export has a stretch more often there than the one of visible lines."""
    straight = [it for it in whole if is_straight(it, OF_ONE * tolerance)]
    rows, seen = tallied(straight, tolerance), tallied(visible, tolerance)
    for (upright, at), its in rows.items():
        others = [it for (way, there), row in seen.items() if way == upright and abs(there - at) <= 2 * OF_ONE * tolerance for it in row]
        for low, high in itertools.pairwise(sorted({stop for it in [*its, *others] for stop in it})):
            counts = [sum(a <= (low + high) / 2 <= b for a, b in row) for row in (its, others)]
            if high - low > OF_ONE * tolerance and counts[0] > counts[1] > 0:
                yield Stretch("", upright, at, low, high, True).edge()._replace(source=straight[0].source)
