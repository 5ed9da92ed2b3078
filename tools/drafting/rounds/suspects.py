"""Which curves of a sheet the other views don't confirm: by these it is told why no solid is kept. A round that stands free, at its right,
has a line in both views that show how far it reaches to the right: along its axis, a radius beside its centre, over all of its layers; and so
it is at its other sides. A curve is suspected, the more so the earlier it stands here, where

1. some of these lines isn't drawn at all, or all of them over no stretch in common: then there is no layer in which it stands free;
2. a wall cuts it, or it ends within a quarter;
3. some of these lines are drawn over a part alone of how far the others go;
4. in its own view a line goes along a whole side of its square: it may touch a wall.

2 to 4 may be of a round that stands free in some layers, and that another thing goes over, or beside which one stands.
"""
from collections.abc import Iterator, Sequence
from typing import NamedTuple

from ..dxf.drawing import VIEWS
from ..projection.draw import FRAMES
from .holes import Spans, joined
from .rounds import OF_ONE, Round
from .tangent_edges import Views, contacts, shared_axis, sides_of, within


class Suspect(NamedTuple):
    """A curve that is suspected: by which of the four, and why, in words."""

    rank: int
    words: str


class Outline(NamedTuple):
    """Where a view from the side has an outline of a round: across its axis, on the sheet, from which depth to which along it, and whether that
    is along the view's border."""

    view: str
    is_upright: bool
    at: float
    spans: Spans
    is_border: bool

    @property
    def length(self) -> float:
        return sum(high - low for low, high in self.spans)

    def __str__(self) -> str:
        return f"{self.view} at {'x' if self.is_upright else 'y'} {self.at:.6g}"


def suspects(views: Views) -> list[Suspect]:
    """The curves of the main views that the others don't confirm, the most suspicious first."""
    found = [it for view, one in views.rounds if view in VIEWS for it in suspected(view, one, list(outlines(view, one, views)), views.tolerance)]
    found += [Suspect(4, "the {} in {}, beside which a line goes from {:.6g}, {:.6g} to {:.6g}, {:.6g}: it may touch a wall there".format(
        one, view, *it.edge().start, *it.edge().end)) for view, one, it in contacts(views) if view in VIEWS]
    return sorted(found, key=lambda it: it.rank)


def outlines(view: str, one: Round, views: Views) -> Iterator[Outline]:
    """The outlines that a round has where it stands free."""
    noise, sight, lines = OF_ONE * views.tolerance, FRAMES[view].sight, {other: within(views, other) for other in views.boxes}
    for side in (it for it in sides_of(views, view, one, lines) if it.view in VIEWS):
        axis = shared_axis(view, side.view)
        assert axis is not None
        for corner in sorted({quarter.corner[0 if axis == FRAMES[view].right else 1] for quarter in one.quarters}):
            place = views.place(side.view, axis, views.depth(view, axis, corner))
            spans = (sorted(views.depth(side.view, sight, it) for it in span) for span in side.spans(place, noise))
            box = views.boxes[side.view]
            is_border = min(abs(place - box[at]) for at in ((0, 2) if side.is_upright else (1, 3))) <= noise
            yield Outline(side.view, side.is_upright, place, joined(sorted((low, high) for low, high in spans), noise), is_border)


def suspected(view: str, one: Round, its: Sequence[Outline], tolerance: float) -> Iterator[Suspect]:
    """Why a round is suspected, where it is."""
    noise, common = OF_ONE * tolerance, its[0].spans if its else []
    for it in its[1:]:
        common = [(max(a, low), min(b, high)) for a, b in common for low, high in it.spans if min(b, high) > max(a, low) + noise]
    shared, most = sum(high - low for low, high in common), max((it.length for it in its if not it.is_border), default=0.0)
    if lacking := [it for it in its if not it.spans]:
        yield Suspect(1, f"the {one} in {view}, whose outline {listed(lacking)} isn't drawn: something cuts it off, or it goes over into what is wider")
    elif not common:
        yield Suspect(1, f"the {one} in {view}, whose outlines {listed(its)} are nowhere drawn side by side")
    elif one.cuts:
        yield Suspect(2, "the {} in {}, which is cut at {:.6g}, {:.6g}".format(one, view, *one.at(one.cuts[0])))
    elif partly := [it for it in its if it.length < most - noise]:
        yield Suspect(3, f"the {one} in {view}, whose outline {listed(partly)} goes along it over {shared:.6g} of {most:.6g} alone")


def listed(its: Sequence[Outline]) -> str:
    return "in " + " and ".join(map(str, its))
