"""Plain holes whose squares would meet those of others are taken off and put back; what is changed about them never keeps the part."""
from typing import Any

from drafting.core.messages import Refused
from drafting.rounds.features import Given, Hole, comments, given_in, times

from . import test_rounds
from .support import draft

if not test_rounds.missing:
    from . import rounded_parts as parts
    from .rounded_parts import box, cylinder

HOLES = ((9, 9), (41, 9), (9, 41), (41, 41))


def motor_plate(depth: float = 0) -> Any:
    """A plate with a wide bore, a wider one above it, and holes within the corners of its square; one of two diameters for all."""
    shape = box(0, 0, 0, 50, 50, 10).cut(cylinder(2, (25, 25), 0, 10, 15)).cut(cylinder(2, (25, 25), 6, 10, 18)).cut(box(0, 20, 7, 4, 30, 10))
    for plan in HOLES:
        shape = shape.cut(cylinder(2, plan, depth, 10, 3))
    return shape


class Holes(test_rounds.InAFolder):
    def one(self, shape: Any, volume: str) -> None:
        parts.sheet_of(shape, self.file)
        asked = self.asked()
        self.exact(shape, asked)
        self.assertEqual([asked.rounded_volume(it) for it in asked.kept], [volume])
        self.assertIn("left out: of TOP 5 holes or bosses whose squares would meet others, which are put back", self.said)

    def test_holes_round_a_wide_bore(self) -> None:
        # 225 * 6 + 324 * 4 + 4 * 9 * 10; and holes that end 3 above the floor.
        self.one(motor_plate(), "24,880 - 3,006 pi = 15,436.37 mm³")
        self.one(motor_plate(3), "24,880 - 2,898 pi = 15,775.66 mm³")

    def test_a_groove_that_is_seen_across_them(self) -> None:
        shape = box(0, 0, 0, 70, 70, 10).cut(cylinder(2, (35, 35), 7, 10, 30)).fuse(cylinder(2, (35, 35), 7, 10, 27))
        for plan in ((9, 9), (61, 9), (9, 61), (61, 61)):
            shape = shape.cut(cylinder(2, plan, 0, 10, 3))
        self.one(shape.removeSplitter(), "49,000 - 873 pi = 46,257.39 mm³")
        self.assertTrue(any("may end where another line goes across: other solids may be missed" in it for it in self.said), self.said)

    def test_bosses_that_reach_farther_than_all_else_are_not_taken_off(self) -> None:
        block = box(0, 0, 0, 47, 49, 35)
        for boss, hole, told in ((cylinder(2, (17, 29), 35, 45.5, 7), cylinder(2, (26, 36), 0, 25, 2.5),
                                  "47 mm by 49 mm by 45.5 mm, volume 80,605 + 358.25 pi = 81,730.48 mm³"),
                                 (cylinder(0, (29, 17), -9.25, 0, 7), cylinder(0, (36, 26), 10, 47, 2.5),
                                  "56.25 mm by 49 mm by 35 mm, volume 80,605 + 222 pi = 81,302.43 mm³")):
            shape = block.fuse(boss).cut(hole).removeSplitter()
            parts.sheet_of(shape, self.file)
            self.exact(shape)
            self.assertIn(told, draft("solve", self.file).out)

    def test_a_left_view_and_the_drawing_between(self) -> None:
        from drafting.cad.rounded_shapes import turned_round
        parts.sheet_of(motor_plate(), self.file, views=("FRONT", "TOP", "LEFT"))
        self.exact(turned_round(motor_plate()))
        drawing = self.file.with_name("squared.dxf")
        self.assertEqual(draft("sheet", self.file, "-o", drawing).status, 0)
        self.assertIn("999\ndraft hole TOP 41 9 3 0 10\n", drawing.read_text())
        self.assertEqual(draft("solve", drawing).out, draft("solve", self.file).out)

    def test_changes(self) -> None:
        def radius(space: Any, places: Any) -> None:
            next(it for it in space.query("CIRCLE") if it.dxf.radius == 3).dxf.radius += 0.05

        def centre(space: Any, places: Any) -> None:
            circle = next(it for it in space.query("CIRCLE") if it.dxf.radius == 3)
            circle.dxf.center = circle.dxf.center + (0.05, 0, 0)

        def style(space: Any, places: Any) -> None:
            for circle in [it for it in space.query("CIRCLE") if it.dxf.radius == 3][:4]:
                circle.dxf.linetype = "HIDDEN"

        def depth(space: Any, places: Any) -> None:
            x, y = places["FRONT"]
            for line in [it for it in space.query("LINE") if it.dxf.start.x == it.dxf.end.x and round(it.dxf.start.x - x) in (6, 12) and it.dxf.start.y < y + 10]:
                line.dxf.start = (line.dxf.start.x, y + 10)
                line.dxf.end = (line.dxf.end.x, y + 2)

        for more in (radius, centre, style, depth):
            parts.sheet_of(motor_plate(3), self.file, more)
            with self.subTest(more=more.__name__):
                try:
                    kept = self.asked().kept
                except Refused:
                    kept = []
                self.assertFalse([one for one in kept if parts.are_same(one.shape, motor_plate(3))])

    def test_a_hole_is_written_and_read(self) -> None:
        given = Given([], {}, {}, [], [], [], holes=(Hole("TOP", (41.0, 9.0), 3.0, 0.0, 10.0),))
        read = given_in(comments(given).splitlines())
        assert read
        self.assertEqual((read.holes, read.kinds, read.least, times(read, 2).holes[0].high), (given.holes, "rounds", 3.0, 20.0))
        for row in ("hole TOP 41 9 0 0 10", "hole TOP 41 9 3 10 0", "hole TOP 41 9 3 10"):
            with self.assertRaises(Refused):
                given_in(["999", f"draft {row}"])
