"""Sheets with holes, bosses and rounds come to the parts that FreeCAD made, by volume and symmetric difference; what can't be told is
refused, or told."""
import argparse
import math
import pathlib
import tempfile
import unittest
from typing import Any

from drafting.cli import commands
from drafting.cli.solve import rounded_told
from drafting.core.messages import Refused
from drafting.core.verdict import Doubt, Kind
from drafting.solve import pipeline
from drafting.solve.verdict import verdict_of

from .support import draft, in_words, needs_long, needs_module, needs_program

try:
    from drafting.cad.freecad import FreeCAD, Part
    from . import rounded_parts as parts
    from .rounded_parts import box, cylinder, filleted, obround
    missing = ""
except Refused:
    missing = "apt-get install freecad-python3"

PARSER = commands.parser_of(commands.commands())
PARTS, MANY = 20, 160


def arguments(*words: object) -> argparse.Namespace:
    return PARSER.parse_args(list(map(str, words)))


@unittest.skipIf(missing, missing)
@needs_module("ezdxf", "python3-ezdxf")
@needs_program()
class InAFolder(unittest.TestCase):
    def setUp(self) -> None:
        folder = tempfile.TemporaryDirectory()
        self.addCleanup(folder.cleanup)
        self.file = pathlib.Path(folder.name) / "part.dxf"

    def asked(self, *words: object) -> pipeline.Asked:
        """What is asked of the sheet, in third angle: in the other one most parts are others, and which is meant would be asked."""
        self.said: list[str] = []
        return pipeline.ask(str(self.file), arguments("solve", self.file, "--angle", "third", *words), in_words(self.said))

    def exact(self, shape: Any, asked: pipeline.Asked | None = None) -> None:
        """Just this part is kept."""
        asked = asked or self.asked()
        told = rounded_told(asked, asked.rounds, 9) if asked.rounds else []
        self.assertEqual(len(asked.kept), 1, told)
        self.assertTrue(parts.are_same(asked.kept[0].shape, shape), told)


class Cases(InAFolder):
    """One part for each question."""

    def one(self, shape: Any, more: "parts.More | None" = None) -> None:
        parts.sheet_of(shape, self.file, more)
        self.exact(shape)

    def test_holes_through_blind_and_counterbored(self) -> None:
        self.one(box(0, 0, 0, 50, 40, 10).cut(cylinder(2, (20, 20), 0, 10, 5)).cut(cylinder(2, (20, 20), 6, 10, 8))
                 .cut(cylinder(2, (40, 10), 3, 10, 3)))

    def test_a_boss_with_a_hole_nearly_as_wide(self) -> None:
        self.one(box(0, 0, 0, 40, 40, 8).fuse(cylinder(2, (20, 20), 8, 20, 10)).cut(cylinder(2, (20, 20), 0, 20, 8)).removeSplitter())

    def test_a_boss_with_a_square_pocket(self) -> None:
        self.one(box(0, 0, 0, 40, 40, 8).fuse(cylinder(2, (20, 20), 8, 20, 12)).cut(box(16, 16, 4, 24, 24, 20)).removeSplitter())

    def test_a_stepped_shaft(self) -> None:
        self.one(cylinder(0, (20, 20), 0, 20, 10).fuse(cylinder(0, (20, 20), 20, 50, 15)).fuse(cylinder(0, (20, 20), 50, 60, 8)).removeSplitter())

    def test_obrounds_a_lug_and_rounded_corners(self) -> None:
        shape = box(0, 0, 0, 60, 40, 12).cut(obround(2, (15, 12), (40, 12), 0, 12, 4)).cut(obround(2, (15, 28), (40, 28), 5, 12, 4))
        self.one(filleted(shape, 3, 2, lambda point: point.x < 1))
        self.one(box(0, 0, 0, 30, 20, 8).fuse(cylinder(2, (30, 10), 0, 8, 10)).removeSplitter().cut(cylinder(2, (30, 10), 0, 8, 4)))

    def test_a_concave_fillet(self) -> None:
        shape = box(0, 0, 0, 40, 30, 8).fuse(box(0, 22, 0, 40, 30, 30)).removeSplitter()
        self.one(filleted(shape, 5, 0, lambda point: abs(point.y - 22) < 1e-9 and abs(point.z - 8) < 1e-9))

    def test_a_clevis_and_holes_in_three_directions(self) -> None:
        shape = box(0, 0, 0, 40, 30, 8).fuse(box(0, 0, 8, 8, 30, 40)).fuse(box(32, 0, 8, 40, 30, 40)).removeSplitter()
        self.one(shape.cut(cylinder(0, (15, 28), 0, 40, 5)).cut(cylinder(1, (20, 4), 0, 30, 2)).cut(cylinder(2, (4, 25), 30, 40, 2)))

    def test_a_flange_with_a_bolt_circle(self) -> None:
        shape = cylinder(2, (30, 30), 0, 8, 30).fuse(cylinder(2, (30, 30), 8, 20, 12)).cut(cylinder(2, (30, 30), 0, 20, 7))
        for number in range(6):
            turn = number * math.pi / 3
            shape = shape.cut(cylinder(2, (30 + 20 * math.cos(turn), 30 + 20 * math.sin(turn)), 0, 8, 3))
        self.one(shape.removeSplitter())
        self.assertTrue(any("to 4 decimals" in it for it in self.said), self.said)

    def test_volumes_of_radii_with_a_decimal_more_than_the_drawing(self) -> None:
        plate = box(0, 0, 0, 200, 200, 10)
        for tool, volume in ((cylinder(2, (10.5, 10.5), 0, 10, 0.5), "400,000 - 2.5 pi = 399,992.15 mm³"),
                             (parts.drilled(2, (50.5, 50.5), 10, 4, 2.5, 90), " = 399,865.83 mm³")):
            shape = plate.cut(tool)
            parts.sheet_of(shape, self.file)
            asked = self.asked()
            self.exact(shape, asked)
            self.assertAlmostEqual(asked.kept[0].size(), shape.Volume, 4)
            self.assertIn(volume, asked.rounded_volume(asked.kept[0]))

    def test_bulges_chords_and_centre_lines(self) -> None:
        plain = box(0, 0, 0, 50, 40, 10).cut(cylinder(2, (20, 20), 0, 10, 5)).cut(cylinder(2, (20, 20), 6, 10, 8))
        bulges: list[tuple[float, float, float]] = [(-1, 0, 1), (1, 0, 1)]
        chords: list[tuple[float, float, float]] = [(math.cos(it * math.pi / 18), math.sin(it * math.pi / 18), 0) for it in range(36)]
        for points, words in ((bulges, "LWPOLYLINE on layer 0 taken apart"), (chords, "36 short chords are taken as 1 round")):
            def more(space: Any, places: dict[str, tuple[float, float]]) -> None:
                x, y = places["TOP"][0] + 20, places["TOP"][1] + 20
                space.add_circle((x, y), 12, dxfattribs={"linetype": "CENTER"})
                for circle in list(space.query("CIRCLE")):
                    if circle.dxf.radius in (5, 8) and circle.dxf.linetype == "CONTINUOUS":
                        radius = circle.dxf.radius
                        space.delete_entity(circle)
                        space.add_lwpolyline([(x + radius * a, y + radius * b, bulge) for a, b, bulge in points], format="xyb", close=True,
                                             dxfattribs={"linetype": "CONTINUOUS"})

            self.one(plain, more)
            self.assertTrue(any(words in it for it in self.said), self.said)

    def test_balloons_beside_the_views_are_left_out(self) -> None:
        def more(space: Any, places: dict[str, tuple[float, float]]) -> None:
            space.add_circle((40, 220), 4)
            space.add_text("1").set_placement((39, 219))

        self.one(box(0, 0, 0, 50, 40, 10).cut(cylinder(2, (20, 20), 0, 10, 5)), more)
        self.assertIn("left out: 1 CIRCLE on layer 0, outside the views", self.said)


class OnSheets(InAFolder):
    """What else stands on sheets is read as on those without rounds."""

    PLATE = (0, 0, 0, 50, 40, 10)

    def plate(self) -> Any:
        return box(*self.PLATE).cut(cylinder(2, (20, 16), 0, 10, 6))

    def dimensioned(self, times: float) -> "parts.More":
        def more(space: Any, places: dict[str, tuple[float, float]]) -> None:
            (x, y), (right, up) = places["FRONT"], places["TOP"]
            space.add_linear_dim(base=(x, y - 8), p1=(x, y), p2=(x + 50, y), text=f"{50 * times:g}").render()
            space.add_linear_dim(base=(right - 8, up), p1=(right, up), p2=(right, up + 40), angle=90, text=f"{40 * times:g}").render()
            space.add_diameter_dim(center=(right + 20, up + 16), radius=6, angle=45, text=f"%%c{12 * times:g}").render()

        return more

    def test_dimensions_of_lengths_and_diameters_are_compared(self) -> None:
        parts.sheet_of(self.plate(), self.file, self.dimensioned(1))
        self.exact(self.plate())
        self.assertIn("found: 3 dimensions say the lengths that they span", self.said)
        parts.sheet_of(self.plate(), self.file, self.dimensioned(2))
        with self.assertRaisesRegex(Refused, "3 dimensions say 2 times the lengths as drawn.*say --scale 1:2"):
            self.asked()
        large = self.asked("--scale", "1:2")
        self.assertEqual([large.rounded_volume(it) for it in large.kept], ["160,000 - 2,880 pi = 150,952.21 mm³"])

    def test_a_frame_and_a_section_are_left_out(self) -> None:
        def more(space: Any, places: dict[str, tuple[float, float]]) -> None:
            space.add_lwpolyline([(20, 20), (420, 20), (420, 300), (20, 300)], close=True)
            for low in (0, 26):
                corners = [(300 + low, 200), (300 + low + 14 + low / 2, 200), (300 + low + 14 + low / 2, 210), (300 + low, 210)]
                space.add_lwpolyline(corners, close=True)
                space.add_hatch().paths.add_polyline_path(corners)
            space.add_circle((320, 205), 3)

        parts.sheet_of(self.plate(), self.file, more)
        self.exact(self.plate())
        self.assertTrue(any("a frame round all the rest" in it for it in self.said), self.said)
        self.assertTrue(any("a section, group" in it for it in self.said), self.said)

    def test_a_section_in_the_place_of_a_view_is_refused(self) -> None:
        def more(space: Any, places: dict[str, tuple[float, float]]) -> None:
            x, y = places["FRONT"]
            corners = [(x, y), (x + 14, y), (x + 14, y + 10), (x, y + 10)]
            space.add_hatch().paths.add_polyline_path(corners)

        parts.sheet_of(self.plate(), self.file, more)
        with self.assertRaisesRegex(Refused, "is a section, since HATCH"):
            self.asked()

    def test_two_views_with_rounds_are_refused(self) -> None:
        parts.sheet_of(self.plate(), self.file, views=("FRONT", "TOP"))
        with self.assertRaisesRegex(Refused, "SIDE isn't drawn, and a sheet with circles or arcs is read where all three main views are there"):
            self.asked("--angle", "third")
        with self.assertRaisesRegex(Refused, "SIDE isn't drawn|may be read in two ways"):
            self.asked()


class OtherViews(InAFolder):
    def part(self) -> Any:
        shape = box(0, 0, 0, 50, 40, 20).cut(box(30, 0, 12, 50, 40, 20)).cut(cylinder(2, (15, 12), 8, 20, 5)).cut(cylinder(0, (28, 6), 0, 30, 3))
        return filleted(shape, 6, 2, lambda point: point.x < 1 and point.y < 1)

    def test_a_left_view_alone(self) -> None:
        from drafting.cad.rounded_shapes import turned_round
        shape = self.part()
        parts.sheet_of(shape, self.file, views=("FRONT", "TOP", "LEFT"))
        asked = self.asked()
        self.assertTrue(asked.origin.mirrored)
        self.exact(turned_round(shape), asked)
        self.assertEqual(draft("step", self.file, self.file.with_suffix(".step")).status, 0)
        made = Part.Shape()
        made.read(str(self.file.with_name("part_1.step")))
        self.assertTrue(parts.are_same(made, shape))

    def test_views_from_the_left_and_behind(self) -> None:
        parts.sheet_of(self.part(), self.file, views=("FRONT", "TOP", "SIDE", "LEFT", "REAR"))
        self.exact(self.part())


class Refusals(InAFolder):
    def refused(self, shape: Any, words: str, more: "parts.More | None" = None) -> None:
        parts.sheet_of(shape, self.file, more)
        with self.assertRaisesRegex(Refused, words):
            self.asked()

    def test_true_causes(self) -> None:
        plate = box(0, 0, 0, 50, 40, 10).cut(cylinder(2, (20, 20), 0, 10, 5))

        def thread(space: Any, places: dict[str, tuple[float, float]]) -> None:
            x, y = places["TOP"]
            space.add_arc((x + 20, y + 20), 5.8, 10, 280, dxfattribs={"linetype": "CONTINUOUS", "layer": "THREADS"})

        self.refused(plate, r"circle of radius 5.8 .* on layer THREADS\) ends at .*: it is a thread", thread)
        asked = self.asked("--leave-out", "layer=THREADS")
        self.exact(plate, asked)
        slanted = Part.makeCylinder(3, 90, FreeCAD.Vector(-10, 6, -10), FreeCAD.Vector(1, 0, 1))
        self.refused(box(0, 0, 0, 50, 40, 30).cut(cylinder(2, (25, 30), 0, 30, 4)).cut(slanted),
                     r"a SPLINE .* is neither a level or upright line nor an arc, from \S+, \S+ to \S+, \S+: where holes cross")

    def test_a_square_that_reaches_beyond_the_part(self) -> None:
        link = box(0, 0, 0, 100, 30, 10).cut(cylinder(2, (50, 90), 0, 10, 70)).cut(cylinder(2, (12, 15), 0, 10, 6))
        self.refused(link, r"in TOP a round of radius 70 .* is cut within its quarters, and its square reaches beyond the view")

    def test_too_many_circles(self) -> None:
        def more(space: Any, places: dict[str, tuple[float, float]]) -> None:
            for number in range(3_001):
                space.add_circle((number, 500), 0.3)

        self.refused(box(0, 0, 0, 50, 40, 10), "3,001 circles and arcs, more than 3,000", more)

    def test_what_has_no_solid_says_what_differs(self) -> None:
        shape = box(0, 0, 0, 50, 40, 10)
        for plan in ((20, 15), (29, 24)):
            shape = shape.cut(cylinder(2, plan, 4, 10, 6)).cut(cylinder(2, plan, 0, 10, 2))
        parts.sheet_of(shape, self.file)
        asked = self.asked()
        assert asked.rounds
        for one in asked.kept:
            self.assertTrue(parts.are_same(one.shape, shape))
        self.assertTrue(any("other solids may be missed" in it for it in self.said), self.said)


class Ambiguous(InAFolder):
    def holes(self, across: int, along: int, depths: dict[tuple[int, int], int]) -> Any:
        shape = box(0, 0, 0, 20 * across, 20 * along, 20)
        for i in range(across):
            for j in range(along):
                shape = shape.cut(cylinder(2, (20 * i + 10, 20 * j + 10), 20 - depths.get((i, j), 5), 20, 4))
        return shape

    def test_holes_of_mixed_depths(self) -> None:
        # Of each row and each column the side views show both depths: as many solids as there are ways to place them.
        for across, along, deep, count in ((2, 2, [(0, 0), (1, 1)], 2), (3, 2, [(0, 0), (1, 1), (2, 0)], 6)):
            shape = self.holes(across, along, {place: 12 for place in deep})
            parts.sheet_of(shape, self.file)
            asked = self.asked()
            with self.subTest(across=across, along=along):
                assert asked.rounds
                right = sum(parts.are_same(one.shape, shape) for one in asked.kept)
                self.assertEqual((right, len(asked.kept)), (1, count))
                self.assertEqual((verdict_of(asked).kind, verdict_of(asked).count), (Kind.AMBIGUOUS, count))


class Words(InAFolder):
    def test_solve_step_and_the_squared_drawing(self) -> None:
        shape = box(0, 0, 0, 50, 40, 10).cut(cylinder(2, (20, 20), 0, 10, 5)).fuse(cylinder(2, (40, 10), 10, 14, 4)).removeSplitter()
        parts.sheet_of(shape, self.file)
        ended = draft("solve", self.file)
        self.assertEqual(ended.status, 0, ended.said)
        self.assertTrue(ended.out.startswith("Unique: one solid matches this drawing.\n"), ended.out)
        self.assertIn("This speaks of parts made of boxes and these rounds, each standing free. It is tested, not proved.\n", ended.out)
        self.assertIn("solid 1: 50 mm by 40 mm by 14 mm, volume 20,000 - 186 pi = 19,415.66 mm³\n", ended.out)
        self.assertIn("Checked: FreeCAD redrew the solid, and its views are the sheet's.\n", ended.out)
        drawing = self.file.with_name("squared.dxf")
        self.assertEqual(draft("sheet", self.file, "-o", drawing).status, 0)
        self.assertIn("999\ndraft round TOP 20 20 5 1234\n", drawing.read_text())
        self.assertEqual(draft("solve", drawing).out, ended.out)
        saved = draft("step", self.file, self.file.with_suffix(".step"))
        self.assertEqual(saved.status, 0, saved.said)
        self.assertIn("_1.step volume 20,000 - 186 pi = 19,415.66 parts 1 voids 0", saved.out)
        made = Part.Shape()
        made.read(str(self.file.with_name("part_1.step")))
        self.assertTrue(parts.are_same(made, shape))
        for words, text in ((("judge",), "The same: 1 solid by clingo"), (("why",), "Nothing is wrong: 1 solid has these views")):
            ended = draft(words[0], drawing, *words[1:])
            self.assertEqual(ended.status, 0, ended.said)
            self.assertIn(text, ended.out)


class Why(InAFolder):
    def test_the_circle_is_named(self) -> None:
        import ezdxf
        parts.sheet_of(box(0, 0, 0, 20, 20, 10).cut(cylinder(2, (8, 10), 0, 10, 3)), self.file)
        doc = ezdxf.readfile(self.file)
        space = doc.modelspace()
        for line in [it for it in space.query("LINE") if it.dxf.linetype == "HIDDEN" and it.dxf.start.x == it.dxf.end.x == 105]:
            space.delete_entity(line)
        doc.saveas(self.file)
        self.assertIn("Not decided: no solid was found", draft("solve", self.file).out)
        ended = draft("why", "--runs", 40, "--processes", 2, self.file)
        self.assertEqual(ended.status, 0, ended.said)
        self.assertIn("Its rounds are squared off", ended.out)
        self.assertIn("where a circle of TOP at 8, 10, of radius 3 is seen from its side", ended.out)


class Metres(InAFolder):
    """A part in metres, whose features are smaller than what is noise in millimetres."""

    def test_a_small_part_is_compared_too(self) -> None:
        import ezdxf
        from ezdxf.math import Matrix44
        shape = box(0, 0, 0, 50, 40, 10).cut(cylinder(2, (20, 20), 0, 10, 5)).cut(cylinder(2, (40, 10), 4, 10, 2))
        for wrong in (False, True):
            parts.sheet_of(shape, self.file)
            doc = ezdxf.readfile(self.file)
            for entity in doc.modelspace():
                entity.transform(Matrix44.scale(0.001))
            for circle in doc.modelspace().query("CIRCLE") if wrong else ():
                circle.dxf.radius += 0.0005 if circle.dxf.radius < 0.003 else 0
            doc.saveas(self.file)
            asked = self.asked("--tolerance", "1e-7", "--unit", "m")
            with self.subTest(wrong=wrong):
                if wrong:
                    self.assertEqual(asked.kept, [])
                else:
                    self.exact(shape.copy().scale(0.001), asked)


class TangentEdges(InAFolder):
    """Sheets with their smooth edges drawn have several readings."""

    def test_all_are_tried_or_it_is_told(self) -> None:
        block = box(0, 0, 0, 40, 30, 8)
        shape = filleted(block, 6, 2, lambda point: point.x > 39).cut(cylinder(2, (12, 15), 0, 8, 4))
        parts.sheet_of(shape, self.file, groups=(0, 1, 3, 5, 8))
        asked = self.asked()
        self.exact(shape, asked)
        assert asked.rounds
        self.assertGreater(asked.rounds.among, 1)
        self.assertEqual((asked.rounds.tried, verdict_of(asked).reasons, verdict_of(asked).kind), (asked.rounds.among, (), Kind.UNIQUE))
        self.assertTrue(any("taken as a tangent edge" in it for it in self.said), self.said)
        one = self.asked("--reading", 1)
        self.assertEqual([it.doubt for it in verdict_of(one).reasons], [Doubt.READINGS_NOT_TRIED])
        self.assertEqual(draft("solve", self.file, "--reading", 1, "--expect", 1).status, 12)

    def test_what_lies_dashed_under_them_is_of_rounds_or_of_others(self) -> None:
        # Two rounded corners in line, whose edges lie one under the other, a wall with two more, and a hole that ends where the first ones begin.
        base = filleted(box(0, 0, 0, 77, 54, 24), 8, 2, lambda point: point.y < 1)
        shape = base.fuse(filleted(box(0, 45, 24, 77, 54, 63), 8, 1, lambda point: point.z > 62)).cut(cylinder(1, (35, 17.5), 0, 8, 3))
        parts.sheet_of(shape.removeSplitter(), self.file, groups=(0, 1, 3, 5, 6, 8))
        self.exact(shape)

    def test_time_is_limited(self) -> None:
        shape = filleted(box(0, 0, 0, 40, 30, 8), 6, 2, lambda point: point.x > 39).cut(cylinder(2, (12, 15), 0, 8, 4))
        parts.sheet_of(shape, self.file, groups=(0, 1, 3, 5, 8))
        asked = self.asked("--reading-seconds", 0)
        self.exact(shape, asked)
        assert asked.rounds
        its = verdict_of(asked)
        self.assertEqual((its.kind, dict(its.reasons[0].data)), (Kind.NOT_DECIDED, {"tried": 1, "among": asked.rounds.among, "seconds": 0.0}))


class Changed(InAFolder):
    """A radius, a centre or a style that is changed on the sheet never keeps the part."""

    def test_changes(self) -> None:
        import ezdxf
        for seed in range(2):
            shape = next(it for number in range(1000 * seed + 500, 1000 * seed + 600) if (it := parts.random_part(number)))
            for kind in ("radius", "centre", "style"):
                parts.sheet_of(shape, self.file)
                doc = ezdxf.readfile(self.file)
                circle = next(it for it in doc.modelspace() if it.dxftype() in ("CIRCLE", "ARC"))
                if kind == "radius":
                    circle.dxf.radius += 0.5
                elif kind == "centre":
                    circle.dxf.center = circle.dxf.center + (0.5, 0, 0)
                else:
                    circle.dxf.linetype = "HIDDEN" if circle.dxf.linetype == "CONTINUOUS" else "CONTINUOUS"
                doc.saveas(self.file)
                with self.subTest(seed=seed, kind=kind):
                    try:
                        kept = self.asked().kept
                    except Refused:
                        kept = []
                    self.assertFalse([one for one in kept if parts.are_same(one.shape, shape)])


class RandomParts(InAFolder):
    def some(self, first: int, count: int) -> None:
        done, seed = 0, first
        while done < count:
            shape, seed = parts.random_part(seed), seed + 1
            if shape is not None:
                parts.sheet_of(shape, self.file)
                with self.subTest(seed=seed - 1):
                    self.exact(shape)
                done += 1

    def test_some(self) -> None:
        self.some(0, PARTS)

    @needs_long()
    def test_many(self) -> None:
        self.some(10_000, MANY)
