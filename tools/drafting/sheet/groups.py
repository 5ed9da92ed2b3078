"""Groups of lines and curves on a sheet that touch, and the frames and title blocks among them."""
from collections.abc import Iterable, Sequence
from typing import NamedTuple

from ..core.messages import many
from ..dxf.reader import Box, Source, Unread
from ..geometry.components import meet, together
from ..geometry.segments import Run

MOST_GROUPS = 2000
# How much of a frame's width and height the one within it has, at least.
NEARLY_AS_LARGE = 0.8


class Group(NamedTuple):
    """Runs that belong together with what can't be read among them, and the box round all."""

    runs: list[Run]
    box: Box
    curves: Sequence[Unread] = ()

    @property
    def width(self) -> float:
        return self.box[2] - self.box[0]

    @property
    def height(self) -> float:
        return self.box[3] - self.box[1]

    def __str__(self) -> str:
        what = [many(len(self.runs), "line")] if self.runs else []
        what += [many(len(self.curves), "curve")] if self.curves else []
        return f"{' and '.join(what)}, {self.width:.9g} by {self.height:.9g} at {self.box[0]:.6g}, {self.box[1]:.6g}"

    @property
    def first(self) -> Source:
        """An entity of it."""
        return self.runs[0].edge.source if self.runs else self.curves[0].source

    def boxes(self) -> list[Box]:
        return [run.box() for run in self.runs] + [it.box for it in self.curves if it.box]


def group_of(runs: Sequence[Run], curves: Sequence[Unread] = ()) -> Group:
    boxes = Group(list(runs), (0.0, 0.0, 0.0, 0.0), curves).boxes()
    low, high = ([pick(box[at] for box in boxes) for at in ats] for pick, ats in ((min, (0, 1)), (max, (2, 3))))
    return Group(list(runs), (low[0], low[1], high[0], high[1]), tuple(curves))


def united(groups: Iterable[Group]) -> Group:
    """Groups as one."""
    its = list(groups)
    return group_of([run for group in its for run in group.runs], [curve for group in its for curve in group.curves])


def holds(outer: Box, inner: Box, tolerance: float) -> bool:
    low = outer[0] - tolerance <= inner[0] and outer[1] - tolerance <= inner[1]
    return low and inner[2] <= outer[2] + tolerance and inner[3] <= outer[3] + tolerance


def pieces_of(runs: Sequence[Run], tolerance: float, curves: Sequence[Unread] = ()) -> list[Group]:
    """Runs and curves in groups that touch."""
    ones = [group_of([run]) for run in runs] + [group_of([], [curve]) for curve in curves]
    return [united(ones[at] for at in group) for group in together([one.box for one in ones], tolerance)]


def merged(groups: Sequence[Group], tolerance: float) -> list[Group]:
    """Groups whose boxes lie over one another are one, in the order of their places."""
    groups = list(groups)
    while True:
        joined = together([group.box for group in groups], -tolerance)
        if len(joined) == len(groups):
            return sorted(groups, key=lambda group: group.box)
        groups = [united(groups[at] for at in numbers) for numbers in joined]


# ---- frames and title blocks

def has_extent(group: Group, tolerance: float) -> bool:
    """Whether a group reaches to the right and upwards, as a view does."""
    return min(group.width, group.height) > tolerance


def frames(pieces: list[Group], tolerance: float, least: int = 3) -> tuple[list[Group], list[Group]]:
    """The pieces without those round all the rest, one within another, where so many groups or more are left; and those. What stands between
    one frame and the next, as marks of zones do, is left out with them."""
    rest = pieces
    found: list[Group] = []
    while least < len(rest) <= MOST_GROUPS:
        around = next((piece for piece in rest if all(holds(piece.box, it.box, tolerance) for it in rest)), None)
        if around is None and found:
            around = next((piece for piece in rest if is_within(piece, found[0], rest, tolerance)), None)
        if around is None:
            break
        found += [around, *(it for it in rest if not holds(around.box, it.box, tolerance))]
        rest = [piece for piece in rest if piece is not around and holds(around.box, piece.box, tolerance)]
        if sum(has_extent(group, tolerance) for group in merged(rest, tolerance)) >= least:
            return rest, found
    return pieces, []


def is_within(piece: Group, frame: Group, rest: Sequence[Group], tolerance: float) -> bool:
    """Whether a piece is a frame right within another one: nearly as large, and nothing lies over its sides."""
    if min(piece.width / frame.width, piece.height / frame.height) < NEARLY_AS_LARGE:
        return False
    return all(holds(piece.box, it.box, tolerance) or not meet(piece.box, it.box, tolerance) for it in rest)


def title_blocks(around: Sequence[Group], views: Sequence[Group], tolerance: float) -> list[Group]:
    """What hangs together within the sides of frames, and holds no view."""
    blocks = []
    for frame in around:
        x0, y0, x1, y1 = frame.box
        inner = [run for run in frame.runs
                 if run.oblique or all(abs(run.at - it) > tolerance for it in ((x0, x1) if run.upright else (y0, y1)))]
        for piece in pieces_of(inner, tolerance) if 0 < len(inner) < len(frame.runs) else []:
            if any(holds(piece.box, view.box, tolerance) for view in views):
                blocks += title_blocks([piece], views, tolerance)
            elif not any(meet(piece.box, view.box, tolerance) for view in views):
                blocks.append(piece)
    return blocks
