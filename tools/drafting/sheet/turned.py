"""A sheet turned by 180 degrees, so that views of first angle are placed as those of third angle and the other way round.

What stands above and to the right of the main view shows the part from above and from the right in third angle; in first angle it shows it
from below and from the left. Turned by 180 degrees, the sheet has these views below and to the left of the main one, where first angle
has the views from above and from the right. So the other angle is read by the same rules, and the part comes out upside down, never
mirrored.
"""
from typing import Any

from ..core.messages import Refused
from ..dxf.drawing import Place
from ..dxf.reader import Arc, Arrow, Box, Edge, Kept, Sheet, Unread


def place(at: Place) -> Place:
    return -at[0], -at[1]


def box(its: Box) -> Box:
    return -its[2], -its[3], -its[0], -its[1]


def edge(its: Edge) -> Edge:
    return its._replace(start=place(its.start), end=place(its.end))


def arc(its: Arc) -> Arc:
    return its._replace(centre=place(its.centre), start=(its.start + 180) % 360)


def arrow(its: Arrow) -> Arrow:
    points = its.points and (place(its.points[0]), place(its.points[1]))
    return its._replace(tips=list(map(place, its.tips)), points=points)


def unread(its: Unread) -> Unread:
    return its._replace(box=its.box and box(its.box), places=tuple(map(place, its.places)))


def kept(its: Kept) -> Kept:
    """An annotation, turned as a copy; refused where ezdxf can't turn it."""
    from ezdxf.math import Matrix44
    try:
        copy: Any = its.entity.copy()
        copy.transform(Matrix44.scale(-1, -1, 1))
    except Exception:  # whatever of ezdxf doesn't take part in turning
        raise Refused(f"a {its.source} can't be turned with the sheet, which has to be turned to read it in the other angle") from None
    return Kept(copy, its.source)


def turned(sheet: Sheet) -> Sheet:
    """The sheet turned by 180 degrees about its origin."""
    result = Sheet(sheet.unit)
    result.edges, result.chains = list(map(edge, sheet.edges)), list(map(edge, sheet.chains))
    result.arcs, result.arrows = list(map(arc, sheet.arcs)), list(map(arrow, sheet.arrows))
    result.unread, result.texts = list(map(unread, sheet.unread)), list(map(place, sheet.texts))
    result.kept, result.scales = list(map(kept, sheet.kept)), set(sheet.scales)
    result.stamps = list(sheet.stamps)
    result.changed, result.left = sheet.changed.copy(), sheet.left.copy()
    result.seen = sheet.seen and turned(sheet.seen)
    result.whole, result.page = list(map(edge, sheet.whole)), sheet.page
    return result
