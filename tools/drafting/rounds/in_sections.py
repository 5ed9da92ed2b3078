"""Sections of sheets with rounds, where a solid and the same one squared off show the same lines in them: a circle in a section becomes its square
as it does in the views, and a plane along a round's axis cuts it as wide as its square through its centre alone. A plane beside a round doesn't cut
it. All else is refused, as are circles that no view shows.
"""
from collections.abc import Callable, Iterator, Mapping, Sequence

from ..core.messages import Refused
from ..dxf.drawing import Place
from ..dxf.reader import Arc
from ..projection.draw import FRAMES
from ..sections.cutting_planes import Plane
from ..geometry.components import meet
from ..sheet.groups import Group
from .rounds import OF_ONE, Round, arc_box, rounds_of

# The rounds of a sheet, as drawn, by the views that show them.
Rounds = Mapping[str, Sequence[Round]]
Corner = tuple[Place, Place]


def check_plane(plane: Plane, views: Mapping[str, Group], rounds: Rounds, reach: float) -> None:
    """Refuses a plane that cuts a round elsewhere than through its centre."""
    axis = FRAMES[plane.looks].sight
    for view, its in rounds.items():
        frame, box = FRAMES[view], views[view].box
        if frame.sight == axis:
            continue
        way, is_back = (0, frame.right_back) if frame.right == axis else (1, frame.up_back)
        at = box[way + 2] - plane.at if is_back else box[way] + plane.at
        for one in its:
            ends = [end for quarter in one.quarters for end in (quarter.box[way], quarter.box[way + 2])]
            if min(ends) + reach < at < max(ends) - reach and abs(at - one.centre[way]) > reach:
                raise Refused(f"its plane, at {'xyz'[axis]} = {plane.at:.6g}, cuts in {view} a {one} beside its centre, where it is narrower than the square "
                              "that stands for it: draw it through the centre, or beside the round")


def within(group: Group, arcs: Sequence[Arc], tolerance: float) -> list[Round]:
    """The rounds that are drawn visible in a group, or touch it."""
    return rounds_of([arc for arc in arcs if not arc.hidden and meet(group.box, arc_box(arc), tolerance)], tolerance)


def check_radii(its: Sequence[Round], times: float, looks: str, rounds: Rounds, tolerance: float) -> None:
    """Refuses a round of a section, whose lengths are so many times as drawn, where no view along the same axis shows one as large."""
    shown = [one.radius for view, ones in rounds.items() if FRAMES[view].sight == FRAMES[looks].sight for one in ones]
    if other := next((one for one in its if all(abs(times * one.radius - radius) > OF_ONE * tolerance for radius in shown)), None):
        raise Refused(f"no view shows its {other}")


def corners_of(one: Round, there: Callable[[Place], Place]) -> Iterator[Corner]:
    """The centre and the corner of each quarter of a round, in other coordinates."""
    return ((there(it.centre), there(it.corner)) for it in one.quarters)


def turned_back(view: str, place: Place, size: tuple[float, float]) -> Place:
    """A place of a view along the part's axes."""
    frame = FRAMES[view]
    return size[0] - place[0] if frame.right_back else place[0], size[1] - place[1] if frame.up_back else place[1]


def check_shown(its: Sequence[Round], there: Callable[[Place], Place], looks: str, views: Mapping[str, Group], rounds: Rounds, tolerance: float) -> None:
    """Refuses a round of a section that no view shows where it lies; it is told where places of the sheet lie in the view that the section is of."""
    shown: list[Corner] = []
    for view, group in views.items():
        if FRAMES[view].sight == FRAMES[looks].sight:
            size, (x, y) = (group.width, group.height), group.box[:2]
            shown += [it for one in rounds.get(view, ()) for it in corners_of(one, lambda place: turned_back(view, (place[0] - x, place[1] - y), size))]
    size = next(((group.width, group.height) for view, group in views.items() if FRAMES[view].sight == FRAMES[looks].sight), (0.0, 0.0))
    for one in its:
        for corner in corners_of(one, lambda place: turned_back(looks, there(place), size)):
            if not any(are_near(corner, it, OF_ONE * tolerance) for it in shown):
                raise Refused(f"no view shows its {one} where that lies")


def are_near(one: Corner, other: Corner, reach: float) -> bool:
    return all(abs(a - b) <= reach for here, there in zip(one, other) for a, b in zip(here, there))
