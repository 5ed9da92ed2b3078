"""Drill points, countersinks and chamfers of shafts are taken off sheets and put back; what is changed about them never keeps the part."""
import unittest
from typing import Any

from drafting.cli.solve import rounded_told
from drafting.core.messages import Refused
from drafting.rounds import cones
from drafting.rounds.features import Cone, Given, comments, given_in

from . import test_rounds
from .support import draft

if not test_rounds.missing:
    from . import rounded_parts as parts
    from .rounded_parts import box, cone, cylinder, drilled, sunk


def drilled_plate() -> Any:
    """Blind holes with points of 118 degrees, in two directions."""
    return box(0, 0, 0, 60, 40, 30).cut(drilled(2, (15, 12), 30, 20, 5)).cut(drilled(0, (28, 10), 60, 51, 3))


def sunk_plate() -> Any:
    """Countersunk holes in two directions."""
    return box(0, 0, 0, 60, 40, 30).cut(sunk(2, (15, 12), 30, 0, 3, 6)).cut(sunk(1, (45, 15), 40, 0, 4, 7))


def stepped_plate() -> Any:
    """A hole of two diameters with a cone between."""
    return box(0, 0, 0, 60, 40, 30).cut(cylinder(2, (15, 12), 0, 30, 3)).cut(drilled(2, (15, 12), 30, 20, 5))


class Cones(test_rounds.InAFolder):
    def one(self, shape: Any, volume: str) -> None:
        asked = self.asked()
        self.exact(shape, asked)
        self.assertEqual([asked.rounded_volume(it) for it in asked.kept], [volume])

    def test_a_drilled_plate(self) -> None:
        parts.sheet_of(drilled_plate(), self.file)
        # 25 * 10 + 9 * 9, and of the points a third of 25 * 3.004303 + 9 * 1.802582.
        self.one(drilled_plate(), "72,000 - about 361.443605 pi = 70,864.49 mm³")
        self.assertIn("left out: of TOP 1 place where a hole may end in a cone to a point, which is put back", self.said)

    def test_a_countersunk_plate(self) -> None:
        parts.sheet_of(sunk_plate(), self.file)
        # 9 * 27 + 16 * 37, and 3 * (36 + 18 + 9) / 3 + 3 * (49 + 28 + 16) / 3.
        self.one(sunk_plate(), "72,000 - 991 pi = 68,886.68 mm³")
        self.assertIn("changed: of TOP 1 cone between two circles squared off to a step", self.said)

    def test_a_stepped_drill(self) -> None:
        # A drill of 3 through, one of 5 down to 18, with a point of 118 degrees, and a taper between two diameters of a shaft.
        shape = box(0, 0, 0, 60, 40, 30).cut(cylinder(2, (15, 12), 0, 30, 3)).cut(drilled(2, (15, 12), 30, 18, 5)).cut(cylinder(0, (28, 8), 40, 60, 4))
        parts.sheet_of(shape, self.file)
        asked = self.asked()
        self.exact(shape, asked)
        self.assertIn("changed: of TOP 1 cone between two circles squared off to a step", self.said)
        shaft = cylinder(0, (20, 20), 0, 20, 10).fuse(cone(0, (20, 20), 20, 26, 10, 15)).fuse(cylinder(0, (20, 20), 26, 40, 15)).removeSplitter()
        parts.sheet_of(shaft, self.file)
        # 100 * 20 + 6 * (100 + 150 + 225) / 3 + 225 * 14.
        self.one(shaft, "6,100 pi = 19,163.72 mm³")

    def test_seams_of_cones(self) -> None:
        # FreeCAD draws a seam of each cone, as TechDraw does: those that are drawn tell which holes have points.
        shape = box(0, 0, 0, 60, 60, 20)
        for plan in ((15, 15), (15, 45), (45, 15), (45, 45)):
            shape = shape.cut(drilled(2, plan, 20, 12, 4))
        parts.sheet_of(shape, self.file, groups=(0, 1, 2, 3, 5, 8))
        asked = self.asked()
        self.exact(shape, asked)
        self.assertEqual([it.doubt for it in asked.kept], [""])
        self.assertTrue(any("in TOP the level line at 15 from" in it and it.endswith("taken as a tangent edge") for it in self.said), self.said)

    def test_seams_of_cones_from_their_sides(self) -> None:
        # A tapered shaft with a chamfered end: 225 * 40, 30 * (225 + 150 + 100) / 3, 36 * 18 and 2 * (36 + 24 + 16) / 3.
        taper = cylinder(0, (20, 20), 0, 40, 15).fuse(cone(0, (20, 20), 40, 70, 15, 10)).fuse(cylinder(0, (20, 20), 70, 88, 6))
        shaft = taper.fuse(cone(0, (20, 20), 88, 90, 6, 4)).removeSplitter()
        parts.sheet_of(shaft, self.file, groups=(0, 1, 2, 3, 5, 8))
        self.one(shaft, "about 14448.6667 pi = 45,391.83 mm³")
        self.assertTrue(any("line at 15 from 40 to 70, taken as a tangent edge" in it for it in self.said), self.said)

    def test_the_chamfered_ends_of_a_shaft(self) -> None:
        shape = cylinder(0, (20, 20), 2, 20, 10).fuse(cylinder(0, (20, 20), 20, 30, 15)).fuse(cone(0, (20, 20), 2, 0, 10, 8)).removeSplitter()
        parts.sheet_of(shape, self.file)
        # 100 * 18 + 225 * 10 + 2 * (100 + 80 + 64) / 3.
        self.one(shape, "about 4212.66667 pi = 13,234.48 mm³")

    def test_what_is_hollow(self) -> None:
        # A bush with a flange, chamfered outside, and a plate with a countersunk boss.
        bush = cylinder(2, (24, 24), 0, 8, 24).fuse(cylinder(2, (24, 24), 8, 38, 16)).fuse(cone(2, (24, 24), 38, 40, 16, 14))
        bush = bush.cut(cylinder(2, (24, 24), 0, 40, 10)).removeSplitter()
        parts.sheet_of(bush, self.file)
        # 576 * 8 + 256 * 30 + 2 * (256 + 224 + 196) / 3 - 100 * 40.
        self.one(bush, "about 8738.66667 pi = 27,453.33 mm³")
        boss = box(0, 0, 0, 60, 40, 10).fuse(cylinder(2, (20, 20), 10, 20, 12)).cut(sunk(2, (20, 20), 20, 0, 5, 8)).removeSplitter()
        parts.sheet_of(boss, self.file)
        # 144 * 10 - 25 * 17 - 3 * (25 + 40 + 64) / 3.
        self.one(boss, "24,000 + 886 pi = 26,783.45 mm³")

    def test_a_left_view_and_the_drawing_between(self) -> None:
        from drafting.cad.rounded_shapes import turned_round
        parts.sheet_of(drilled_plate(), self.file, views=("FRONT", "TOP", "LEFT"))
        self.exact(turned_round(drilled_plate()))
        drawing = self.file.with_name("squared.dxf")
        self.assertEqual(draft("sheet", self.file, "-o", drawing).status, 0)
        self.assertIn("999\ndraft cone TOP 45 12 5 20 0 16.995696905\n", drawing.read_text())
        self.assertEqual(draft("solve", drawing).out, draft("solve", self.file).out)

    def test_two_exports_of_a_sheet_without_linetypes(self) -> None:
        def only_visible(space: Any, places: Any) -> None:
            for entity in [it for it in space if it.dxf.linetype == "HIDDEN"]:
                space.delete_entity(entity)

        def all_solid(space: Any, places: Any) -> None:
            for entity in space:
                entity.dxf.linetype = "CONTINUOUS"

        parts.sheet_of(drilled_plate(), self.file.with_name("part.visible.dxf"), only_visible)
        parts.sheet_of(drilled_plate(), self.file, all_solid)
        self.exact(drilled_plate(), self.asked("--pairs"))

    def test_holes_in_line_that_may_have_points(self) -> None:
        shape = box(0, 0, 0, 60, 60, 20).cut(cylinder(2, (15, 15), 12, 20, 4))
        for plan in ((15, 45), (45, 15)):
            shape = shape.cut(drilled(2, plan, 20, 12, 4))
        parts.sheet_of(shape, self.file)
        asked = self.asked()
        assert asked.rounds
        # The views from the side tell both points, and nothing of the bottom of the hole in line with both.
        self.assertEqual((sum(parts.are_same(one.shape, shape) for one in asked.kept), len(asked.kept)), (1, 2), rounded_told(asked, asked.rounds, 9))


class Changes(test_rounds.InAFolder):
    """What is changed about a cone never keeps the part; what none is, is refused with its cause."""

    def kept(self, shape: Any, more: "parts.More") -> list[bool]:
        parts.sheet_of(shape, self.file, more)
        try:
            return [parts.are_same(one.shape, shape) for one in self.asked().kept]
        except Refused as refusal:
            self.cause = str(refusal)
            return []

    @staticmethod
    def oblique(space: Any) -> list[Any]:
        return [it for it in space.query("LINE") if min(abs(it.dxf.start[at] - it.dxf.end[at]) for at in (0, 1)) > 1e-3]

    def test_an_edge_of_another_style_or_none(self) -> None:
        def solid(space: Any, places: Any) -> None:
            for line in self.oblique(space):
                line.dxf.linetype = "CONTINUOUS"

        def lacking(space: Any, places: Any) -> None:
            def middle(line: Any) -> Any:
                return (line.dxf.start + line.dxf.end) / 2

            first = middle(self.oblique(space)[0])
            # FreeCAD draws some edges twice.
            for line in [it for it in self.oblique(space) if middle(it).isclose(first, abs_tol=1e-6)]:
                space.delete_entity(line)

        for shape in (drilled_plate(), sunk_plate()):
            self.assertEqual(self.kept(shape, solid), [])
            self.assertEqual(self.kept(shape, lacking), [])
            self.assertRegex(self.cause, "it is oblique, .* and of cones those at the ends of whole circles")

    def test_another_angle(self) -> None:
        for shape, low in ((stepped_plate(), 117), (stepped_plate(), 0), (drilled_plate(), 117), (drilled_plate(), 0), (sunk_plate(), 117), (sunk_plate(), 0)):
            def more(space: Any, places: Any) -> None:
                for line in self.oblique(space):
                    for end in ("start", "end"):
                        at = line.dxf.get(end)
                        # The points of the holes from above, and the floors of the countersinks, in both views or in FRONT alone.
                        if 110 < at.y < 129 and (low == 0 or at.x < 161):
                            line.dxf.set(end, at + (0, 0.05 if abs(at.y - 120) > 1e-6 else 0, 0))

            self.assertEqual([it for it in self.kept(shape, more) if it], [])

    def test_another_depth_or_circle(self) -> None:
        def circle(space: Any, places: Any) -> None:
            next(it for it in space.query("CIRCLE") if it.dxf.radius in (5, 6)).dxf.radius += 0.01

        def depth(space: Any, places: Any) -> None:
            for line in space.query("LINE"):
                if {line.dxf.start.y, line.dxf.end.y} <= {120.0, 127.0}:
                    line.dxf.start, line.dxf.end = (it + (0, 0.1, 0) for it in (line.dxf.start, line.dxf.end))

        for shape in (drilled_plate(), sunk_plate()):
            for more in (circle, depth):
                self.assertEqual(self.kept(shape, more), [])

    def test_a_point_that_comes_out(self) -> None:
        shape = box(0, 0, 0, 60, 40, 30).cut(cylinder(2, (45, 12), 0, 30, 5)).fuse(cylinder(2, (15, 20), 30, 40, 5))
        self.assertEqual(self.kept(shape.fuse(cone(2, (15, 20), 40, 45, 5, 0)).removeSplitter(), lambda space, places: None), [])
        self.assertRegex(self.cause, "the oblique edges of a cone reach farther than all other lines")


class Rows(unittest.TestCase):
    def test_choices_of_cones_in_line(self) -> None:
        # Fillings of a table without an empty row or column: 7 of two by two, 25 of three by two; noise makes no other look.
        for across, along, count in ((1, 3, 1), (2, 2, 7), (3, 2, 25)):
            its = [Cone("TOP", (10.0 * x + y * 1e-4, 10.0 * y), 2.5 - y * 1e-6, 9.0, 0.0, 7.5, False) for x in range(across) for y in range(along)]
            found = cones.covering(its, its)
            with self.subTest(across=across, along=along):
                self.assertEqual((len(found), found[0]), (count, tuple(its)))
                self.assertEqual(len(cones.covering([it._replace(is_sure=True) for it in its], [it._replace(is_sure=True) for it in its])), 1)

    def test_a_cone_is_written_and_read(self) -> None:
        one = Cone("TOP", (15.0, 12.0), 5.0, 20.0, 0.0, 16.995696905, False)
        given = Given([], {}, {}, [], [], [one, one._replace(end_radius=6.0, is_sure=True)])
        lines = comments(given).splitlines() + ["999", "draft round TOP 15 12 5 1234"]
        read = given_in(lines)
        assert read
        self.assertEqual(read.cones, given.cones)
        for row in ("cone TOP 1 2 0 3 0 4", "cone TOP 1 2 3 4 0 4", "cone TOP 1 2 3 4 -1 5", "cone TOP 1 2 3 4 5"):
            with self.assertRaises(Refused):
                given_in(["999", f"draft {row}"])
