"""Two views of a sheet that stand in line: which ones they are, and what is refused where that isn't told.

FRONT and TOP stand one above the other, FRONT and a side view beside one another; in which angle, two views alone don't say. In first
angle TOP stands below FRONT, and to the right of FRONT the left side view. Which of two views in a row is called FRONT makes no other
part: it is the same one, turned.
"""
import itertools
from collections.abc import Mapping, Sequence

from ..core import notes
from ..core.advice import InTheWay
from ..core.messages import Refused
from ..messages.controls import option
from .groups import NEARLY_AS_LARGE, Group, has_extent, holds, title_blocks
from .placement import (
    Hints, Placed, Standing, Way, by_places as three_by_places, beside, in_line, is_mirrored, numbers_told, said_of, standing, stretches_of,
    view_named, ways_of, why_no_view, with_a_side, without_told
)
from ..dxf.reader import Source
from ..geometry.segments import Run


class TwoReadings(Refused):
    """Two views that may be read in third or in first angle, and nothing on the sheet says which."""

    def __init__(self, ways: Sequence[Way], groups: Sequence[Group]) -> None:
        rows = "".join(f"\n  {option('angle', way.angle)}, {reading_told(way, groups)}" for way in ways)
        super().__init__(f"two views in line may be read in two ways, and which one is meant has to be said:{rows}", "angle", [way.angle for way in ways])
        self.angles = [way.angle for way in ways]


class AngleOpen(Refused):
    """Views that may be read in third or in first angle: each gives solids, and these aren't the same part. `gives` says in words what each gives."""

    def __init__(self, gives: Mapping[str, str]) -> None:
        rows = "".join(f"\n  {option('angle', angle)}: {words}" for angle, words in gives.items())
        super().__init__("the views can be read in third angle or in first angle, and these are different parts: mirror images, mostly. Say which "
                         f"angle is meant:{rows}", "angle", list(gives))
        self.gives = dict(gives)


class AngleContradicted(Refused):
    """Texts of the sheet say an angle in which no solid has its views, and in the other one some solid has them."""

    def __init__(self, angle: str, texts: str, other: str, words: str) -> None:
        super().__init__(f"the text {texts} says {angle} angle, in which no solid matches the views; in {other} angle {words}. Correct the text, or say "
                         f"{option('angle', other)}", "angle", [other])


def number_in(groups: Sequence[Group], group: Group) -> int:
    return next(at for at, it in enumerate(groups, 1) if it is group)


def reading_told(way: Way, groups: Sequence[Group]) -> str:
    """How the views stand, and which group is which one."""
    its = (f"{view} is group {number_in(groups, group)}, {group}" for view, group in way.views.items())
    return f"{way}: {'; '.join(its)}"


# ---- the ways

def is_named_so(way: Way) -> bool:
    """Whether no layer or block of a view names another one."""
    return all(view_named(run.edge.source) in ("", view) for view, group in way.views.items() for run in group.runs)


def are_alike(one: Group, other: Group, axis: int, tolerance: float) -> bool:
    """Whether two groups cover the same stretches along an axis, as two views of one part do even where it is in pieces."""
    first, second = (stretches_of(group, axis, tolerance) for group in (one, other))
    return len(first) == len(second) and all(abs(a - b) <= 3 * tolerance for a, b in zip(first, second))


def ways_of_two(groups: Sequence[Group], hints: Hints) -> list[Way]:
    """The ways to take two groups in line as two views, at most one for each angle."""
    ways = []
    for front, other in itertools.permutations(groups, 2):
        it = in_line(front, groups, hints.tolerance)
        for angle, view, others, axis in (("third", "TOP", it.above, 0), ("first", "TOP", it.below, 0),
                                          ("third", "SIDE", it.right, 1), ("first", "LEFT", it.right, 1)):
            if others and hints.angle in (None, angle) and are_alike(front, other, axis, hints.tolerance):
                ways.append(Way(angle, {"FRONT": front, view: other}))
    return sorted(filter(is_named_so, ways), key=lambda way: way.angle, reverse=True)


# ---- what stands beside them

def may_be_third(group: Group, views: Sequence[Group], blocks: Sequence[Group], hints: Hints) -> bool:
    """Whether what stands beside two views may be the third one though it has curves or texts, or no line that is read."""
    if any(holds(block.box, group.box, hints.tolerance) for block in blocks) or not has_extent(group, hints.tolerance):
        return False
    return bool(group.curves) or any(any(in_line(view, [view, group], hints.tolerance)) for view in views)


def refuse_third(it: Standing, views: Sequence[Group], hints: Hints) -> None:
    blocks = title_blocks(it.around, views, hints.tolerance)
    others = [group for group in it.chosen if not any(group is view for view in views) and may_be_third(group, views, blocks, hints)]
    if others:
        numbers = [number_in(it.groups, group) for group in others]
        told = "".join(f"\n  group {number}, {group}, whose first entity is {group.first}" for number, group in zip(numbers, others))
        way = f"group={numbers_told(numbers)}"
        raise Refused(f"beside two views stands what may be the third one and isn't read as one; where it is none, leave it out by "
                      f"{option('leave-out', way)}:{told}", "leave-out", [way])


def is_double(frame: Group) -> bool:
    """Whether a frame has a second one in it, which zone marks join with it: four lines nearly as long as it is in either direction."""
    return all(sum(not run.oblique and run.upright == upright and run.high - run.low >= NEARLY_AS_LARGE * length for run in frame.runs) >= 4
               for upright, length in ((True, frame.height), (False, frame.width)))


def sources_of(groups: Sequence[Group]) -> list[Source]:
    return [run.edge.source for group in groups for run in group.runs]


def refuse_bare_frame(it: Standing, views: Sequence[Group], hints: Hints) -> None:
    """Refuses two groups that have something round them which may be a view, with these in it as its holes: a frame is a double one, or has
    texts beside the views."""
    rounds = [group for group in it.around if has_extent(group, hints.tolerance) and all(holds(group.box, view.box, hints.tolerance) for view in views)]
    texts = [(x, y, x, y) for x, y in hints.texts if not any(holds(view.box, (x, y, x, y), 0) for view in views)]
    if len(rounds) == 1 and not is_double(rounds[0]) and not any(holds(rounds[0].box, text, 0) for text in texts):
        raise InTheWay(f"two groups of lines stand within {rounds[0]}, which may be a frame round two views, or a view with these in it",
                       sources_of(rounds), "; a frame is left out by", sources_of(views))


# ---- both

def pair_of(runs: Sequence[Run], hints: Hints) -> Placed | None:
    """Two views in line, where there is no third one."""
    it = standing(runs, hints, 2)
    views = [group for group in it.chosen if not why_no_view(group, hints)]
    if len(views) != 2 or any(ways_of([group for group in it.kept if has_extent(group, hints.tolerance)], hints)):
        return None
    ways = ways_of_two(views, hints)
    if not ways:
        return None
    refuse_bare_frame(it, views, hints)
    refuse_third(it, views, hints)
    said = said_of(ways[:1], hints)
    ways = [way for way in ways if said.angle in ("", way.angle)]
    if len(ways) != 1:
        raise TwoReadings(ways, it.groups)
    way = ways[0]
    others = [group for group in it.chosen if not any(group is view for view in views)]
    left = [*it.left, *beside(it.groups, others, title_blocks(it.around, views, hints.tolerance), hints)]
    its = with_a_side(way.views)
    return Placed(its, is_mirrored(way.views), [notes.found(f"{way.angle}-angle views, {way}{without_told(its)}"), *left], sections=it.sections,
                  angle_by=said.words)


def by_places(runs: Sequence[Run], hints: Hints) -> Placed:
    """The views by their places: three or more of them, or else two in line; refused where that doesn't tell."""
    try:
        return three_by_places(runs, hints)
    except Refused:
        placed = pair_of(runs, hints)
        if placed is None:
            raise
        return placed
