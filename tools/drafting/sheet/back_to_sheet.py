"""From the drawing that was made of a sheet back to the sheet: where a place of the drawing lies on it, and which entities are drawn there."""
from collections.abc import Callable, Mapping
from fractions import Fraction
from typing import NamedTuple

from ..dxf.drawing import Place
from ..dxf.reader import Source
from .groups import Group

# How many entities of one place are named.
NAMED = 4
# How far from the other views one is to be drawn, as a part of what these take.
GAP = 0.1


class Paper(NamedTuple):
    """How a drawing stands for a sheet: the groups of lines that are its views, where these begin in the drawing, how many units of the
    drawing one of the sheet has as drawn and at full size, whether it is a mirror image, what noise is, how entities are told, and whether the
    groups are those of the sheet turned by 180 degrees."""

    views: Mapping[str, Group]
    begins: Mapping[str, tuple[int, int]]
    per_drawn: Fraction
    per_real: Fraction
    mirrored: bool
    tolerance: float
    where: Callable[[Source], str]
    is_turned: bool = False

    def on_sheet(self, view: str, right: int, up: int) -> Place:
        """A place of a view in the sheet's own coordinates."""
        return self.turned(self.as_read(view, right, up))

    def turned(self, place: Place) -> Place:
        """A place in the coordinates in which the sheet was read, in its own ones."""
        return (-place[0], -place[1]) if self.is_turned else place

    def as_read(self, view: str, right: int, up: int) -> Place:
        """A place of a view in the coordinates in which the sheet was read."""
        x, y = self.begins[view]
        box = self.views[view].box
        across, along = float((right - x) / self.per_drawn), float((up - y) / self.per_drawn)
        return (box[2] - across if self.mirrored else box[0] + across), box[1] + along

    def place(self, view: str, right: int, up: int) -> tuple[str, str]:
        x, y = self.on_sheet(view, right, up)
        return f"{x:.9g}", f"{y:.9g}"

    def name(self, view: str) -> str:
        """What a view of the drawing is on the sheet: in a mirror the left one stands for SIDE, and the right one for LEFT."""
        return {"SIDE": "LEFT", "LEFT": "SIDE"}.get(view, view) if self.mirrored else view

    def place_beside(self, view: str, size: tuple[int, int], right: int, up: int) -> tuple[str, str]:
        """A place of a view of this size that the sheet hasn't, from that view's least corner on in the drawing, where the view is to stand."""
        wide, high, across, along = (float(it / self.per_drawn) for it in (*size, right, up))
        x, y = self.beside(self.name(view), wide, high)
        x, y = self.turned((x + (wide - across if self.mirrored else across), y + along))
        return f"{x:.9g}", f"{y:.9g}"

    def beside(self, view: str, wide: float, high: float) -> Place:
        """Where a view that the sheet hasn't begins on it: in line with those that it has, on the side that its angle says, beyond all."""
        boxes = {self.name(one): group.box for one, group in self.views.items()}
        front, top = (boxes.get(it) for it in ("FRONT", "TOP"))
        side, to_right = next(((boxes[it], it == "SIDE") for it in ("SIDE", "LEFT") if it in boxes), (None, True))
        is_third = front is None or (top[1] > front[1] if top else side is None or (side[0] > front[0]) == to_right)
        x0, y0, x1, y1 = (pick(box[at] for box in boxes.values()) for pick, at in ((min, 0), (min, 1), (max, 2), (max, 3)))
        gap = GAP * max(x1 - x0, y1 - y0)
        x, y = (front or top or (x0,))[0], (front or side or (0.0, y0))[1]
        if view in ("TOP", "BOTTOM"):
            return x, y1 + gap if (view == "TOP") == is_third else y0 - gap - high
        if view == "FRONT":
            return x, y
        goes_right = (side[0] > front[0] if side and front else is_third) if view == "REAR" else (view == "SIDE") == is_third
        return x1 + gap if goes_right else x0 - gap - wide, y

    def length(self, units: int) -> str:
        """A length at full size."""
        return f"{float(units / self.per_real):.9g}"

    def entities(self, view: str, start: tuple[int, int], end: tuple[int, int]) -> str:
        """The entities that are drawn along a stretch of a view, in words; nothing where none is."""
        (a, b), (c, d) = self.as_read(view, *start), self.as_read(view, *end)
        upright = start[0] == end[0]
        at, ends = (a, sorted((b, d))) if upright else (b, sorted((a, c)))
        reach = 3 * self.tolerance
        found = [run.edge.source for run in self.views[view].runs if run.upright == upright and not run.oblique
                 and abs(run.at - at) <= reach and run.low < ends[1] - reach and run.high > ends[0] + reach]
        names = [self.where(source) for source in dict.fromkeys(found)]
        return ", ".join(names[:NAMED]) + (", .." if len(names) > NAMED else "")
