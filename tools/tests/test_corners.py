"""Housings whose bosses stand in the corners of their pockets, filleted or not, come to the parts, or the curve is named that isn't read."""
import math
from typing import Any, NamedTuple

from drafting.core.messages import Refused

from . import test_rounds

if not test_rounds.missing:
    from . import rounded_parts as parts
    from .rounded_parts import box, cylinder, filleted

# All edges that TechDraw draws by its settings at first, smooth ones too.
SMOOTH = (0, 1, 3, 5, 8)


class Boss(NamedTuple):
    """A boss in a corner of a pocket whose walls are 4 thick and 30 high: how far its centre is from the outer walls, its radius, how high it is, and
    the radius of the pocket's fillets and of those outside."""

    centre: float
    radius: float
    top: float
    fillet: float = 0
    outer: float = 0


def housing(it: Boss) -> Any:
    """A box, hollow from above, with bosses in two corners across from one another, each with a blind hole."""
    pocket, outside = box(4, 4, 4, 76, 46, 30), box(0, 0, 0, 80, 50, 30)
    shape = filleted(outside, it.outer, 2) if it.outer else outside
    shape = shape.cut(filleted(pocket, it.fillet, 2) if it.fillet else pocket)
    for plan in ((it.centre, it.centre), (80 - it.centre, 50 - it.centre)):
        shape = shape.fuse(cylinder(2, plan, 4, it.top, it.radius)).cut(cylinder(2, plan, it.top - 10, it.top, 1.5))
    return shape.removeSplitter()


class Housings(test_rounds.InAFolder):
    def one(self, it: Boss, volume: str = "") -> None:
        parts.sheet_of(housing(it), self.file)
        asked = self.asked()
        self.exact(housing(it), asked)
        if volume:
            self.assertEqual(asked.rounded_volume(asked.kept[0]), volume)

    def test_bosses_that_fill_the_fillets_of_their_corners(self) -> None:
        # 80 * 50 * 30 - 72 * 42 * 26 = 41,376. Of two corners 26 times 25 - 6.25 pi, of the two others with a boss 25 + 18.75 pi as high as that is, and
        # above it as in those; but for holes of 2.25 pi, 10 deep.
        for top, volume in ((20, "43,976 + 105 pi = 44,305.87 mm³"), (30, "43,976 + 605 pi = 45,876.66 mm³")):
            with self.subTest(top=top):
                self.one(Boss(9, 5, top, 5), volume)

    def test_bosses_before_smaller_fillets(self) -> None:
        # Four fillets 26 high of (4 - pi) 9 / 4 each, and two bosses of 25 pi but for holes of 2.25 pi, 10 deep.
        for top, volume in ((20, "42,312 + 521 pi = 43,948.77 mm³"), (30, "42,312 + 1,021 pi = 45,519.57 mm³")):
            with self.subTest(top=top):
                self.one(Boss(9, 5, top, 3), volume)

    def test_bosses_that_reach_into_the_walls(self) -> None:
        for it in (Boss(7, 5, 20), Boss(7, 5, 30, 3), Boss(4, 8, 20), Boss(8, 6, 20, 4, 8), Boss(8, 4, 30, 4, 8)):
            with self.subTest(it=it):
                self.one(it)

    def test_their_smooth_edges_drawn(self) -> None:
        for it in (Boss(9, 5, 20, 3), Boss(7, 5, 20, 3)):
            parts.sheet_of(housing(it), self.file, groups=SMOOTH)
            with self.subTest(it=it):
                self.exact(housing(it))

    def test_a_line_that_is_changed_keeps_none(self) -> None:
        def shorter(space: Any, places: dict[str, tuple[float, float]]) -> None:
            arc = next(it for it in space.query("ARC") if it.dxf.radius == 3)
            arc.dxf.radius += 0.05

        def hidden(space: Any, places: dict[str, tuple[float, float]]) -> None:
            for arc in [it for it in space.query("ARC CIRCLE") if it.dxf.radius == 5]:
                arc.dxf.linetype = "HIDDEN"

        for more in (shorter, hidden):
            parts.sheet_of(housing(Boss(9, 5, 20, 3)), self.file, more)
            with self.subTest(more=more.__name__):
                try:
                    kept = self.asked().kept
                except Refused:
                    kept = []
                self.assertEqual([one for one in kept if parts.are_same(one.shape, housing(Boss(9, 5, 20, 3)))], [])

    def test_rounds_that_others_cut_or_go_over_into_are_named(self) -> None:
        parts.sheet_of(housing(Boss(7, 5, 20, 10)), self.file)
        with self.assertRaisesRegex(Refused, r"a round of radius 5 at \S+, \S+ \(ARC \w+ on layer 0\) ends at \S+, \S+, where a round of radius 10 at "
                                    r"\S+, \S+ \(ARC \w+ on layer 0\) cuts it: rounds are read that level and upright walls cut, and no others"):
            self.asked()
        shape = box(0, 0, 0, 60, 40, 30).cut(box(4, 4, 4, 56, 36, 30)).fuse(cylinder(2, (7, 7), 4, 20, 5)).removeSplitter()
        shape = filleted(shape, 2, 2, lambda it: math.isclose(it.x, 4) and math.isclose(it.y, 11) or math.isclose(it.x, 11) and math.isclose(it.y, 4))
        parts.sheet_of(shape, self.file)
        with self.assertRaisesRegex(Refused, r"a round of radius [25] at .* where it goes over into a round of radius [25] at \S+, \S+ \(ARC \w+ on layer "
                                    r"0\), which bends to the other side, without a wall between them"):
            self.asked()
