"""What is told of a sheet whose rounds, cones and oblique edges were squared off: what was changed, and what was left out to be put back."""
from collections import Counter
from collections.abc import Sequence

from ..core import notes
from ..core.messages import many
from ..core.notes import Tell
from ..dxf.drawing import VIEWS
from ..rounds.features import Cone, Given, Squared


def tell_squares(told: Given, tell: Tell) -> None:
    for words, its in (("whose squares would meet others", [it for it in told.holes if not it.probe]), ("that cross other rounds", [it for it in told.holes if it.probe])):
        for view, count in Counter(view for view, *_ in {(it.view, it.centre, it.radius) for it in its}).items():
            tell(notes.left_out(f"of {view} {many(count, 'hole or boss', 'holes or bosses')} {words}, which are put back", count, view))
    for view in dict.fromkeys(it.view for it in told.squared):
        circles = [it for it in told.rounds if it.view == view]
        if circles:
            tell(notes.changed(f"in {view} {many(len(circles), 'circle or round', 'circles or rounds')} squared off, of {radii_told(circles)}",
                               len(circles), view))
        if count := sum(it.view == view for it in told.chamfers):
            tell(notes.changed(f"in {view} {many(count, 'oblique edge')} squared off to {'a corner' if count == 1 else 'corners'}", count, view))


def radii_told(circles: Sequence[Squared]) -> str:
    radii = sorted({f"{it.radius:.6g}" for it in circles}, key=float)
    return f"radius {radii[0]}" if len(radii) == 1 else f"radii {', '.join(radii)}"


def tell_cones(its: Sequence[Cone], tell: Tell) -> None:
    for view in VIEWS:
        points = sum(it.end_radius == 0 for it in its if it.view == view)
        steps = sum(it.end_radius > 0 for it in its if it.view == view)
        if points:
            tell(notes.left_out(f"of {view} {many(points, 'place')} where a hole may end in a cone to a point, which is put back", points, view))
        if steps:
            tell(notes.changed(f"of {view} {many(steps, 'cone')} between two circles squared off to {'a step' if steps == 1 else 'steps'}",
                               steps, view))
