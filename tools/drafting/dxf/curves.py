"""Curves of a sheet as what they are: parts of circles; or level and upright lines, as circles are that are seen from their edge and that
some programs write as splines. Many short chords round one centre are a part of a circle too.
"""
import itertools
import math
from collections.abc import Sequence
from typing import Any, NamedTuple

from . import places
from .drawing import Place

# How far from a line or from a circle a curve may lie: files with three decimals have this noise.
NOISE = 1.5e-3
# The share of its radius or its length by which a curve may lie from a circle or a line, and the least part of a circle in degrees, that is
# taken as one: where two rounds meet in space a view has curves that are nearly arcs, and aren't.
SHARE, LEAST = 1 / 500, 45.0
# The widest chord in degrees, and the fewest of them, that stand for a round.
WIDEST_CHORD, FEWEST_CHORDS = 15.1, 6


class Bow(NamedTuple):
    """A part of a circle: counterclockwise from an angle on, in degrees."""

    centre: Place
    radius: float
    start: float
    sweep: float


def at(centre: Place, radius: float, angle: float) -> Place:
    turn = math.radians(angle)
    return centre[0] + radius * math.cos(turn), centre[1] + radius * math.sin(turn)


def angle_of(centre: Place, place: Place) -> float:
    return math.degrees(math.atan2(place[1] - centre[1], place[0] - centre[0])) % 360


# ---- entities

Line = tuple[Place, Place]


def taken(entity: Any) -> Bow | Line | None:
    """What a curve is: a part of a circle, or a level or upright line by its ends; or neither."""
    kind = entity.dxftype()
    bow = bow_of_arc(entity) if kind in ("ARC", "CIRCLE") else None
    places = [] if bow or kind not in ("ARC", "CIRCLE", "ELLIPSE", "SPLINE") else places_of(entity)
    return bow or straight_ends(places) or through(places)


def bow_of_arc(entity: Any) -> Bow | None:
    """An arc or a circle that is seen from above or below."""
    extrusion = entity.dxf.extrusion
    if abs(extrusion.z) < 1 - 1e-9:
        return None
    centre = entity.ocs().to_wcs(entity.dxf.center)
    is_whole = entity.dxftype() == "CIRCLE"
    start, end = (0.0, 360.0) if is_whole else (entity.dxf.start_angle, entity.dxf.end_angle)
    sweep = (end - start) % 360 or 360.0
    start = 180 - start - sweep if extrusion.z < 0 else start
    numbers = (centre.x, centre.y, entity.dxf.radius, start)
    if not all(map(math.isfinite, numbers)) or entity.dxf.radius <= 0:
        return None
    return Bow((centre.x, centre.y), entity.dxf.radius, start % 360, sweep)


def places_of(entity: Any) -> list[Place]:
    """Places along a curve; none where ezdxf can't tell them."""
    dxf = entity.dxf
    try:
        if entity.dxftype() == "SPLINE" and not len(entity.control_points) and not dxf.hasattr("start_tangent") and not dxf.hasattr("end_tangent"):
            fit = [(float(it[0]), float(it[1])) for it in entity.fit_points]
            if any(max(along) - min(along) < 1e-6 for along in zip(*fit)):
                return fit  # in one level or upright line, of which ezdxf makes no curve
        if entity.dxftype() == "SPLINE" and entity.dxf.degree == 1 and len(entity.control_points):
            places = [(float(it[0]), float(it[1])) for it in entity.control_points]
        else:
            places = [(it.x, it.y) for it in entity.flattening(1e-3, 16)]
    except Exception:  # whatever a broken entity makes ezdxf stumble on
        return []
    return places if all(map(math.isfinite, itertools.chain(*places))) else []


def places_upon(entity: Any) -> list[Place]:
    """Places that lie on a curve for sure: where it was laid through enough of them, these."""
    through_these = [(float(it[0]), float(it[1])) for it in entity.fit_points] if entity.dxftype() == "SPLINE" else []
    is_known = len(through_these) >= FEWEST_CHORDS and all(map(math.isfinite, itertools.chain(*through_these)))
    return through_these if is_known else places_of(entity)


def straight_ends(places: Sequence[Place]) -> Line | None:
    """The ends of a level or upright line on which places lie."""
    if not places:
        return None
    (x0, x1), (y0, y1) = ((min(its), max(its)) for its in zip(*places))
    noise = min(NOISE, max(x1 - x0, y1 - y0) * SHARE)
    if y1 - y0 <= noise < x1 - x0:
        return (x0, (y0 + y1) / 2), (x1, (y0 + y1) / 2)
    if x1 - x0 <= noise < y1 - y0:
        return ((x0 + x1) / 2, y0), ((x0 + x1) / 2, y1)
    return None


def neither(places: Sequence[Place]) -> str:
    """Why a curve along some places, if they can be told, isn't taken."""
    text = "is neither a level or upright line nor an arc"
    if not places:
        return text
    (a, b), (c, d) = ((round(it, 4) + 0.0 for it in place[:2]) for place in (places[0], places[-1]))
    ends = f", from {a:g}, {b:g} to {c:g}, {d:g}" if (a, b) != (c, d) else ""
    return f"{text}{ends}: where holes cross, or a cylinder is slanted, curves are of this kind"


# ---- circles through places

def centre_of(a: Place, b: Place, c: Place) -> Place | None:
    """The centre of the circle through three places, where they aren't in line."""
    (px, py), (qx, qy) = ((it[0] - a[0], it[1] - a[1]) for it in (b, c))
    twice = 2 * (px * qy - py * qx)
    if abs(twice) < 1e-9 * (px * px + py * py + qx * qx + qy * qy):
        return None
    p, q = px * px + py * py, qx * qx + qy * qy
    return a[0] + (qy * p - py * q) / twice, a[1] + (px * q - qx * p) / twice


def through(places: Sequence[Place]) -> Bow | None:
    """The part of a circle on which some places lie, one after the other."""
    count = len(places)
    if count < 5:
        return None
    is_closed = math.dist(places[0], places[-1]) < min(NOISE, math.dist(places[0], places[count // 2]) * SHARE)
    thirds = (0, count // 3, 2 * count // 3) if is_closed else (0, count // 2, count - 1)
    centre = centre_of(*(places[it] for it in thirds))
    if centre is None:
        return None
    radius = math.dist(centre, places[thirds[1]])
    turns = [(angle_of(centre, b) - angle_of(centre, a) + 180) % 360 - 180 for a, b in itertools.pairwise(places)]
    is_one_way = all(turn > 0 for turn in turns) or all(turn < 0 for turn in turns)
    noise = min(NOISE, radius * SHARE)
    if not is_one_way or any(abs(math.dist(centre, it) - radius) > noise for it in places):
        return None
    sweep = 360.0 if is_closed else abs(sum(turns))
    if not LEAST <= sweep <= 360.0 or max(abs(turn) for turn in turns) > 60:
        return None
    return Bow(centre, radius, angle_of(centre, places[0] if turns[0] > 0 else places[-1]), sweep)


def chords_from(places: Sequence[Place], first: int) -> tuple[Bow | None, int]:
    """The longest round of short chords that begins at a place, and how many chords it has."""
    found, count = None, 0
    for last in range(first + FEWEST_CHORDS, len(places)):
        bow = through(places[first:last + 1])
        if bow is None or any(2 * math.degrees(math.asin(min(1.0, math.dist(a, b) / 2 / bow.radius))) > WIDEST_CHORD
                              for a, b in itertools.pairwise(places[first:last + 1])):
            break
        found, count = bow, last - first
    return found, count


def without_chords(parts: list[Any]) -> tuple[list[Any], list[tuple[Bow, int]]]:
    """The sides of a polyline that aren't short chords of a round, and the rounds with how many chords each has."""
    if len(parts) < FEWEST_CHORDS or any(part.dxftype() != "LINE" for part in parts):
        return parts, []
    places = [(it.x, it.y) for it in (parts[0].dxf.start, *(part.dxf.end for part in parts))]
    left, bows, number = [], [], 0
    while number < len(parts):
        bow, count = chords_from(places, number)
        if bow:
            bows.append((bow, count))
        else:
            left.append(parts[number])
        number += count or 1
    return left, bows


def tapers_of(polyline: Any) -> dict[int, tuple[Place, Place]]:
    """The straight stretches of a polyline that come to a point, as arrow heads are drawn by widths: from the wide end to the point, by their
    numbers from 0 on."""
    if polyline.dxftype() == "LWPOLYLINE":
        rows = [((x, y), start, end, bulge) for x, y, start, end, bulge in polyline.get_points("xyseb")]
    elif polyline.is_2d_polyline:
        first, last = polyline.dxf.get("default_start_width", 0.0), polyline.dxf.get("default_end_width", 0.0)
        rows = [(it.dxf.location, it.dxf.get("start_width", first), it.dxf.get("end_width", last), it.dxf.get("bulge", 0.0))
                for it in polyline.vertices]
    else:
        return {}
    found = {}
    for number, ((one, start, end, bulge), (other, *_)) in enumerate(zip(rows, rows[1:])):
        tail, tip = (places.of(polyline, it) for it in ((one, other) if end == 0 else (other, one)))
        if start != end and 0 in (start, end) and not bulge and tail != tip:
            found[number] = tail, tip
    return found
