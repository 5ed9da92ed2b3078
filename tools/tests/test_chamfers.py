"""Gussets and chamfers, oblique edges of one view, are squared off and cut back; what is changed about them never keeps the part."""
import random
from fractions import Fraction
from typing import Any

from drafting.core.messages import Refused
from drafting.rounds.features import Chamfer, Given, comments, given_in, times
from drafting.rounds.rounds import Slant

from . import test_rounds
from .support import draft, needs_long

if not test_rounds.missing:
    from drafting.cad.freecad import Part
    from . import rounded_parts as parts
    from .rounded_parts import box, chamfered, cylinder, prism

RAMP = [(0, 0), (60, 0), (60, 20), (40, 20), (20, 10), (0, 10)]


def bracket(more: Any = None) -> Any:
    """A bracket with a gusset."""
    shape = box(0, 0, 0, 60, 40, 8).fuse(box(0, 32, 8, 60, 40, 50)).fuse(prism(0, [(12, 8), (32, 8), (32, 36)], 26, 34))
    return (shape.fuse(more) if more else shape).removeSplitter()


def drilled_bracket() -> Any:
    """Nothing of it is the same on two sides."""
    return bracket().cut(cylinder(2, (12, 14), 0, 8, 4)).cut(cylinder(2, (46, 16), 0, 8, 3))


def plate() -> Any:
    """A plate with two corners cut off, and a pocket."""
    return chamfered(box(0, 0, 0, 50, 40, 10), 6, 2, lambda point: point.x > 49).cut(box(10, 8, 4, 30, 20, 10))


def oblique(space: Any) -> list[Any]:
    return [it for it in space.query("LINE") if min(abs(it.dxf.start[at] - it.dxf.end[at]) for at in (0, 1)) > 1e-3]


class Cases(test_rounds.InAFolder):
    """One part for each question."""

    def one(self, shape: Any, volume: str, readings: int = 1) -> None:
        parts.sheet_of(shape, self.file)
        asked = self.asked()
        self.exact(shape, asked)
        assert asked.rounds
        self.assertEqual(([asked.rounded_volume(it) for it in asked.kept], asked.rounds.tried, asked.rounds.among), ([volume], readings, readings))

    def test_a_gusset(self) -> None:
        # 60 * 40 * 8 + 60 * 8 * 42 + 8 * 20 * 28 / 2, and holes of 16 * 8 and 9 * 8.
        self.one(drilled_bracket(), "41,600 - 200 pi = 40,971.68 mm³")
        self.assertIn("changed: in SIDE 1 oblique edge squared off to a corner", self.said)
        self.assertFalse([it for it in self.said if "may be missed" in it], self.said)

    def test_corners_that_are_cut_off(self) -> None:
        # 50 * 40 * 10 - 2 * 6 * 6 / 2 * 10 - 20 * 12 * 6.
        self.one(plate(), "18,200 mm³")
        self.one(box(0, 0, 0, 50, 40, 20).cut(prism(1, [(50, 20), (44, 20), (50, 14)], 0, 25)), "39,550 mm³")
        self.one(chamfered(chamfered(box(0, 0, 0, 60, 40, 20), 5, 2, lambda it: it.x < 1 and it.y < 1), 4, 1, lambda it: it.x > 59 and it.z > 19),
                 "47,430 mm³")

    def test_two_slopes_at_one_corner(self) -> None:
        self.one(box(0, 0, 0, 50, 40, 20).cut(prism(1, [(50, 20), (40, 20), (45, 18), (50, 10)], 0, 40)), "38,600 mm³", 4)

    def test_walls_that_go_straight_on(self) -> None:
        self.one(prism(1, RAMP, 0, 30), "27,000 mm³", 2)
        self.one(box(0, 0, 0, 60, 40, 30).cut(prism(1, [(20, 30), (40, 30), (30, 20)], 0, 40)), "68,000 mm³", 3)
        self.one(prism(2, [(10, 0), (5, 9), (-5, 9), (-10, 0), (-5, -9), (5, -9)], 0, 8), "2,160 mm³", 9)

    def test_dovetails(self) -> None:
        # 80 * 60 * 24 less a groove of 28 and 40 by 12; and a slide that fits it, 28 and 40 by 12 upon 60 * 60 * 10.
        groove = box(0, 0, 0, 80, 60, 24).cut(prism(1, [(26, 24), (54, 24), (60, 12), (20, 12)], 0, 60))
        self.one(groove, "90,720 mm³", 4)
        # A slide whose foot, at 13.75 and 46.25, is drawn by lines alone that are left out: 60 * 60 * 10 + 32.5 and 40 by 12 upon it.
        narrow = box(0, 0, 0, 60, 60, 10).fuse(prism(1, [(13.75, 10), (46.25, 10), (50, 22), (10, 22)], 0, 60)).removeSplitter()
        self.one(narrow, "62,100 mm³", 4)
        slide = box(0, 0, 0, 60, 60, 10).fuse(prism(1, [(16, 10), (44, 10), (50, 22), (10, 22)], 0, 60)).removeSplitter()
        self.one(slide, "60,480 mm³", 4)

    def test_what_stands_behind_and_before(self) -> None:
        self.one(bracket(box(0, 18, 8, 10, 32, 24)), "43,840 mm³")
        self.one(bracket(box(50, 18, 8, 60, 32, 24)), "43,840 mm³")
        self.assertTrue(any("ends in the corner of the box of an oblique edge from" in it and it.endswith("other solids may be missed") for it in self.said), self.said)

    def test_walls_that_end_at_a_slope(self) -> None:
        # A jaw of 120 * 16 * 45 with a step of 3 by 5 along it, and a groove of 8 by 4 down through that: half of 4 * 8 * 40 and 2 * 1 * 5.
        jaw = box(0, 0, 0, 120, 16, 45).cut(box(0, 0, 40, 120, 3, 45)).cut(prism(2, [(56, 0), (64, 0), (60, 4)], 0, 45))
        self.one(jaw, "83,955.00 mm³ by FreeCAD", 3)
        self.assertTrue(any("is cut by walls, and doesn't stand free: other solids may be missed" in it for it in self.said), self.said)
        # A ramp, in which a slot ends.
        ramp = prism(1, [(0, 0), (60, 0), (60, 10), (30, 25), (0, 25)], 0, 40).cut(box(20, 10, 18, 60, 30, 25))
        self.one(ramp, "48,620.00 mm³ by FreeCAD", 1)

    def test_a_hole_beside_a_groove(self) -> None:
        # A block of 100 * 60 * 60 with a groove of 40 by 20, a slot of 4 from 34 on under it, a hole beside it, and side slots of 10 by 12, as deep
        # as the groove's edges lie: 400 + 28 and 2 * 120 along 100, and 169 * pi / 16 along 16.
        block = box(0, 0, 0, 100, 60, 60).cut(prism(0, [(10, 60), (50, 60), (30, 40)], 0, 100)).cut(box(0, 28, 34, 100, 32, 50))
        block = block.cut(box(0, 0, 20, 100, 10, 32)).cut(box(0, 50, 20, 100, 60, 32)).cut(cylinder(0, (15, 45), 0, 16, 3.25))
        self.one(block, "293,200 - 169 pi = 292,669.07 mm³", 4)

    def test_gussets_whose_slopes_cross(self) -> None:
        self.one(bracket(prism(0, [(18, 8), (32, 8), (32, 44)], 4, 10)), "43,112 mm³")
        self.assertTrue(any("meets an oblique edge from" in it for it in self.said), self.said)

    def test_a_slope_without_an_end(self) -> None:
        # 40 * 30 * 20 less 30 * 10 * 10 / 2 / sqrt(3), to four decimals.
        self.one(box(0, 0, 0, 40, 30, 20).cut(prism(1, [(40, 20), (30, 20), (40, 20 - 10 / 3**0.5)], 0, 30)), "23,133.975 mm³")
        self.assertTrue(any("to 4 decimals" in it for it in self.said), self.said)

    def test_a_left_view_and_views_from_behind(self) -> None:
        from drafting.cad.rounded_shapes import turned_round
        parts.sheet_of(drilled_bracket(), self.file, views=("FRONT", "TOP", "LEFT"))
        self.exact(turned_round(drilled_bracket()))
        parts.sheet_of(drilled_bracket(), self.file, views=("FRONT", "TOP", "SIDE", "LEFT", "REAR"))
        self.exact(drilled_bracket())

    def test_two_exports_of_a_sheet_without_linetypes(self) -> None:
        def only_visible(space: Any, places: Any) -> None:
            for entity in [it for it in space if it.dxf.linetype == "HIDDEN"]:
                space.delete_entity(entity)

        def all_solid(space: Any, places: Any) -> None:
            for entity in space:
                entity.dxf.linetype = "CONTINUOUS"

        parts.sheet_of(bracket(), self.file.with_name("part.visible.dxf"), only_visible)
        parts.sheet_of(bracket(), self.file, all_solid)
        self.exact(bracket(), self.asked("--pairs"))


class Refusals(test_rounds.InAFolder):
    def refused(self, shape: Any, words: str, more: "parts.More | None" = None) -> None:
        parts.sheet_of(shape, self.file, more)
        with self.assertRaisesRegex(Refused, words):
            self.asked()

    def test_true_causes(self) -> None:
        block = box(0, 0, 0, 50, 40, 10)
        rim = block.makeChamfer(3, [it for it in block.Edges if all(abs(end.Point.z - 10) < 1e-9 for end in it.Vertexes)])
        self.refused(rim, "it is oblique, .*: the views from its side don't show lines along it at both its ends, side by side")

        def floorless(space: Any, places: dict[str, tuple[float, float]]) -> None:
            x, y = places["FRONT"]
            for line in [it for it in space.query("LINE") if it.dxf.start.y == it.dxf.end.y == y + 20 and it.dxf.start.x < x + 60]:
                space.delete_entity(line)

        self.refused(box(0, 0, 0, 60, 40, 30).cut(prism(1, [(20, 30), (40, 30), (45, 20), (15, 20)], 0, 40)),
                     "it is oblique, .*: where it ends no level or upright line goes on away from it", floorless)

        arm = prism(2, [(0, -12), (80, -8), (80, 8), (0, 12)], 4, 12).fuse(cylinder(2, (0, 0), 0, 16, 20)).fuse(cylinder(2, (80, 0), 0, 16, 12))
        self.refused(arm.removeSplitter(), "in TOP a LINE .* it is oblique, .*: it ends upon a circle of radius (12|20) .*, and not at a corner")

        def stray(space: Any, places: dict[str, tuple[float, float]]) -> None:
            x, y = places["TOP"]
            space.add_line((x + 5, y + 5), (x + 11, y + 14), dxfattribs={"linetype": "CONTINUOUS"})

        self.refused(block, "in TOP a LINE .* it is oblique, off by 6, .* the views from its side don't show lines", stray)

    def test_a_further_view_alone(self) -> None:
        def lacking(space: Any, places: dict[str, tuple[float, float]]) -> None:
            x, y = places["SIDE"]
            for line in [it for it in oblique(space) if it.dxf.start.x > x]:
                space.delete_entity(line)

        parts.sheet_of(bracket(), self.file, lacking, views=("FRONT", "TOP", "SIDE", "LEFT"))
        with self.assertRaisesRegex(Refused, "in LEFT a LINE .* it is oblique, .*: the view across from this one doesn't draw it"):
            self.asked()


class Changes(test_rounds.InAFolder):
    """What is changed about an oblique edge never keeps the part."""

    def kept(self, shape: Any, more: "parts.More") -> list[bool]:
        parts.sheet_of(shape, self.file, more)
        try:
            return [parts.are_same(one.shape, shape) for one in self.asked().kept]
        except Refused:
            return []

    def test_angles_sizes_and_styles(self) -> None:
        def angle(space: Any, places: Any) -> None:
            for line in oblique(space):
                line.dxf.end = line.dxf.end + (0, 0.05, 0)

        def size(space: Any, places: Any) -> None:
            for line in oblique(space):
                line.dxf.start, line.dxf.end = (it + (0.05, 0, 0) for it in (line.dxf.start, line.dxf.end))

        def style(space: Any, places: Any) -> None:
            for line in oblique(space):
                line.dxf.linetype = "HIDDEN"

        def lacking(space: Any, places: Any) -> None:
            for line in oblique(space):
                space.delete_entity(line)

        def at_its_end(space: Any, places: Any) -> None:
            # The line across the gusset's upper end, or along one of the plate's corners.
            for line in space.query("LINE"):
                if {line.dxf.start.y, line.dxf.end.y} == {136.0} or {line.dxf.start.x, line.dxf.end.x} == {144.0}:
                    line.dxf.start, line.dxf.end = (it + (0.05, 0.05, 0) for it in (line.dxf.start, line.dxf.end))

        for shape in (bracket(), plate(), prism(1, RAMP, 0, 30)):
            self.assertTrue(self.kept(shape, lambda space, places: None))
            for more in (angle, size, style, lacking):
                with self.subTest(more=more.__name__):
                    self.assertEqual([it for it in self.kept(shape, more) if it], [])
        for shape in (bracket(), plate()):
            self.assertEqual([it for it in self.kept(shape, at_its_end) if it], [])


class Words(test_rounds.InAFolder):
    def test_commands(self) -> None:
        shape = drilled_bracket()
        parts.sheet_of(shape, self.file)
        ended = draft("solve", self.file)
        self.assertEqual(ended.status, 0, ended.said)
        self.assertIn("This speaks of parts made of boxes and these rounds and chamfers, each standing free. It is tested, not proved.\n", ended.out)
        self.assertTrue(ended.out.startswith("Unique: one solid matches this drawing.\nsolid 1: "), ended.out)
        drawing = self.file.with_name("squared.dxf")
        self.assertEqual(draft("sheet", self.file, "-o", drawing).status, 0)
        self.assertIn("999\ndraft chamfer SIDE 12 36 32 8\n", drawing.read_text())
        self.assertEqual(draft("solve", drawing).out, ended.out)
        self.assertEqual(draft("step", self.file, self.file.with_suffix(".step")).status, 0)
        made = Part.Shape()
        made.read(str(self.file.with_name("part_1.step")))
        self.assertTrue(parts.are_same(made, shape))
        stl = draft("stl", self.file)
        self.assertEqual((stl.status, stl.out.count("facet normal") > 12), (0, True))
        answer = self.file.with_name("answer.txt")
        self.assertEqual(draft("solve", drawing, "--answer", answer).status, 0)
        picture = draft("picture", drawing, answer)
        self.assertIn("40,971.68", picture.out)
        self.assertIn("file,status,verdict,solids,rounds,", draft("table", self.file.parent, "--csv", "--memory", 0).out)

    def test_of_a_sheet_without_rounds(self) -> None:
        parts.sheet_of(plate(), self.file)
        ended = draft("solve", self.file)
        self.assertIn("This speaks of parts made of boxes and these chamfers, each standing free. It is tested, not proved.\n", ended.out)
        self.assertIn(",0,unique,1,2,", draft("table", self.file.parent, "--csv", "--memory", 0).out)
        self.assertIn("clingo", draft("judge", self.file).out)
        self.assertEqual(draft("settle", self.file).status, 0)
        log = self.file.with_suffix(".log")
        self.assertEqual(draft("prove", self.file, "-o", log).status, 0)
        self.assertEqual(draft("check", self.file, log).out, "Yes: one solid has these views, its chamfers squared off, and no other.\n")
        self.assertIn("Nothing is wrong: 1 solid has these views", draft("why", self.file).out)

    def test_why_names_the_edge(self) -> None:
        def lacking(space: Any, places: dict[str, tuple[float, float]]) -> None:
            x, y = places["FRONT"]
            for line in [it for it in space.query("LINE") if it.dxf.start.x == it.dxf.end.x == x + 16]:
                line.dxf.start, line.dxf.end = (x + 16, y), (x + 16, y + 5)

        parts.sheet_of(chamfered(box(0, 0, 0, 20, 12, 10), 4, 2, lambda it: it.x > 19 and it.y < 1), self.file, lacking)
        ended = draft("why", "--runs", 60, "--processes", 2, self.file)
        self.assertIn("Its chamfers are squared off", ended.out, ended.said)
        self.assertIn("where an oblique edge of TOP from 16, 0 to 20, 4 is seen from its side", ended.out)

    def test_solids_of_two_readings(self) -> None:
        from drafting.recon import process
        from drafting.render import html
        from drafting.rounds import verify as kept
        from drafting.sheet import pipeline
        from drafting.solve import readings as answering
        from drafting.solve.pipeline import Asked
        from drafting.solve.verdict import verdict_of
        from drafting.recon.answer import Solid
        from drafting.dxf.drawing import Origin

        def answered(number: int, volume: int) -> answering.Answered:
            solid = Solid("1", volume, [])
            outcome = kept.Outcome(1, 0, [], [kept.Kept(1, solid, (Fraction(volume), Fraction(0)), None)], True)
            given = Given([], {}, {}, [], [], [], (number, 3), (Chamfer("SIDE", Slant((32.0, 8.0), (12.0, 36.0))),))
            drawn = pipeline.Drawn("", 0, Origin("mm", Fraction(1), False))
            return answering.Answered(drawn, given, process.Run(0, f"whole 1 nodes 1 blocks {number}\n", 0.0), outcome)

        readings = answering.Readings([], None, 0, 1)
        for number, volume in enumerate((5, 6, 5), 1):
            readings = answering.with_one(readings, answered(number, volume))
        self.assertEqual((len(readings.kept), readings.elsewhere, readings.tried), (2, 1, 3))
        head = "whole 1 nodes 1 blocks 1"
        its = verdict_of(Asked(b"", [], 0, Origin("mm", Fraction(1), False), process.Run(0, f"{head}\n", 0.0), None, readings))
        told = html.head_told(its, head, readings)
        self.assertIn("2 solids match this drawing.", told)
        self.assertIn("Solids come of 2 readings of the sheet. Pages show those of the first one.", told)
        self.assertIn("boxes and these chamfers, each standing free", told)

    def test_a_chamfer_is_written_and_read(self) -> None:
        given = Given([], {}, {}, [], [], [], chamfers=(Chamfer("SIDE", Slant((32.0, 8.0), (12.0, 36.0))),))
        read = given_in(comments(given).splitlines())
        assert read
        self.assertEqual((read.chamfers, read.kinds, read.least), (given.chamfers, "chamfers", 20.0))
        self.assertEqual(times(read, 10).chamfers[0].slant.corner, (120.0, 360.0))
        for row in ("chamfer SIDE 12 36 12 8", "chamfer SIDE 12 36 32", "chamfer ABOVE 12 36 32 8"):
            with self.assertRaises(Refused):
                given_in(["999", f"draft {row}"])


def random_part(seed: int) -> Any:
    """A bracket or a block of random sizes with gussets, chamfers, ramps and holes that stand free; or nothing."""
    chance = random.Random(seed)
    x, y, base, wall, tall = chance.randint(50, 90), chance.randint(30, 60), chance.randint(6, 14), chance.randint(5, 9), chance.randint(20, 40)
    shape = box(0, 0, 0, x, y, base)
    if chance.random() < 0.6:
        shape = shape.fuse(box(0, y - wall, base, x, y, base + tall))
        for at in {2: (chance.randint(8, x - 16),), 1: (0,), 3: (4, x - 14)}[chance.randint(1, 3)]:
            deep, high = chance.randint(6, y - wall - 8), chance.randint(6, tall - 3)
            shape = shape.fuse(prism(0, [(y - wall - deep, base), (y - wall, base), (y - wall, base + high)], at, at + chance.randint(3, 7)))
    shape = shape.removeSplitter()
    for corner in ((0, 0), (x, 0)):
        if chance.random() < 0.6:
            wide, deep = chance.randint(2, 6), chance.randint(2, 6)
            ways = [1 if it == 0 else -1 for it in corner]
            cut = prism(2, [corner, (corner[0] + ways[0] * wide, corner[1]), (corner[0], corner[1] + ways[1] * deep)], 0, base)
            shape = shape.cut(cut)
    if chance.random() < 0.7:
        shape = shape.cut(cylinder(2, (x // 2, 4 + 3), 0, base, chance.choice((1.5, 2, 2.5))))
    return shape.removeSplitter() if shape.isValid() and len(shape.Solids) == 1 else None


class RandomParts(test_rounds.InAFolder):
    @needs_long()
    def test_many(self) -> None:
        for seed in range(60):
            shape = random_part(seed)
            if shape is not None:
                parts.sheet_of(shape, self.file)
                with self.subTest(seed=seed):
                    self.exact(shape)
