"""Holes that cross rounds of other views are taken off and put back: parts as FreeCAD's TechDraw draws them come to just these parts, and what is
changed about such a hole or its curve never keeps the part; what isn't taken in is refused by its true cause."""
import math
import pathlib
from collections.abc import Callable
from typing import Any

from drafting.core.messages import Refused
from drafting.geometry import free_curves
from drafting.geometry.free_curves import Bend, Panel, differing, smoothed
from drafting.rounds import features
from drafting.rounds.features import Given, Hole, comments, given_in, times
from drafting.solve import pipeline

from . import test_rounds
from .support import draft, in_words, needs_long
from .test_rounds import arguments

if not test_rounds.missing:
    from drafting.cad.freecad import FreeCAD, Part
    from . import rounded_parts as parts
    from .rounded_parts import box, cylinder, obround
    from .test_techdraw import exported

PARTS, MANY = 12, 60
Place = tuple[float, float]


def ported(depth: float = 20, off: float = 0, radius: float = 4) -> Any:
    """A block with a bore, and a port from in front into it."""
    return box(0, 0, 0, 50, 40, 30).cut(cylinder(2, (25, 20), 0, 30, 8)).cut(cylinder(1, (25 + off, 15), 0, depth, radius))


def hub() -> Any:
    """A flange with a hub, a bore, and a set screw's hole through the hub's wall."""
    shape = cylinder(2, (25, 25), 0, 10, 25).fuse(cylinder(2, (25, 25), 10, 30, 14)).cut(cylinder(2, (25, 25), 0, 30, 8)).removeSplitter()
    return shape.cut(cylinder(1, (25, 20), 0, 25, 3))


def keyed() -> Any:
    """A shaft with a keyway that is milled from above."""
    return cylinder(0, (20, 20), 0, 60, 12).cut(obround(2, (20, 20), (40, 20), 26, 40, 4))


class Cases(test_rounds.InAFolder):
    def one(self, shape: Any, volume: str, is_sure: bool = True) -> None:
        parts.sheet_of(shape, self.file)
        asked = self.asked()
        self.exact(shape, asked)
        self.assertEqual([asked.rounded_volume(it) for it in asked.kept], [volume])
        self.assertEqual(any("other solids may be missed" in it for it in self.said), not is_sure, self.said)

    def test_ports_into_a_bore(self) -> None:
        self.one(ported(), "53,351.96 mm³ by FreeCAD")
        self.assertIn("left out: of FRONT 1 hole or boss that cross other rounds, which are put back", self.said)
        self.one(ported(40), "52,735.79 mm³ by FreeCAD")
        # Any end within the bore is one solid.
        self.one(ported(17), "53,351.96 mm³ by FreeCAD")

    def test_a_port_beside_the_middle_of_a_bore(self) -> None:
        self.one(ported(off=3), "53,318.50 mm³ by FreeCAD")

    def test_holes_as_wide_as_each_other(self) -> None:
        shape = box(0, 0, 0, 50, 40, 30).cut(cylinder(2, (25, 20), 0, 30, 6)).cut(cylinder(1, (25, 15), 0, 40, 6))
        # Two cylinders of one radius that cross have 16/3 r³ in common.
        self.one(shape, f"{60000 - math.pi * 36 * 70 + 16 / 3 * 216:,.2f} mm³ by FreeCAD")

    def test_a_hub_and_a_shaft(self) -> None:
        self.one(hub(), "25,746.67 mm³ by FreeCAD")
        self.one(cylinder(2, (20, 20), 0, 50, 12).cut(cylinder(1, (20, 30), 0, 40, 4)), "21,430.11 mm³ by FreeCAD")

    def test_ports_that_lie_in_line(self) -> None:
        # Of two ports one above the other TOP has one pair of lines: which of both is the longer one SIDE says.
        shape = ported(radius=3).cut(cylinder(1, (25, 24), 0, 40, 3))
        parts.sheet_of(shape, self.file)
        self.exact(shape)

    def test_a_keyway_in_a_bore(self) -> None:
        shape = box(0, 0, 0, 50, 40, 30).cut(cylinder(2, (25, 20), 0, 30, 8)).cut(box(23, 20, 0, 27, 30, 30))
        parts.sheet_of(shape, self.file)
        self.exact(shape)

    def test_the_drawing_between_and_a_left_view(self) -> None:
        from drafting.cad.rounded_shapes import turned_round
        shape = ported(off=3)
        parts.sheet_of(shape, self.file)
        drawing = self.file.with_name("squared.dxf")
        self.assertEqual(draft("sheet", self.file, "-o", drawing).status, 0)
        self.assertIn("999\ndraft hole FRONT 28 15 4 0 20 crossing ", drawing.read_text())
        self.assertIn("999\ndraft bend SIDE dashed ", drawing.read_text())
        # The drawing is of one reading of the sheet: the other one isn't tried of it.
        between, whole = (draft("solve", file).out.splitlines() for file in (drawing, self.file))
        self.assertEqual((between[0].partition(":")[0], whole[0].partition(":")[0]), ("Not decided", "Unique"))
        self.assertEqual(*([it for it in its if it.startswith("solid ")] for its in (between, whole)))
        parts.sheet_of(shape, self.file, views=("FRONT", "TOP", "LEFT"))
        self.exact(turned_round(shape))


Change = Callable[[Any, dict[str, Place]], None]


def circle_of(space: Any) -> Any:
    return next(it for it in space.query("CIRCLE") if it.dxf.radius == 4)


def curve_of(space: Any, places: dict[str, Place]) -> Any:
    return next(it for it in space.query("SPLINE") if it.fit_points[0][0] > places["SIDE"][0] - 1)


def radius(space: Any, places: dict[str, Place]) -> None:
    circle_of(space).dxf.radius += 0.05


def centre(space: Any, places: dict[str, Place]) -> None:
    circle = circle_of(space)
    circle.dxf.center = circle.dxf.center + (0.05, 0, 0)


def bore(space: Any, places: dict[str, Place]) -> None:
    for circle in [it for it in space.query("CIRCLE") if it.dxf.radius == 8]:
        circle.dxf.radius += 0.05


def curve(space: Any, places: dict[str, Place]) -> None:
    for it in space.query("SPLINE"):
        it.fit_points = [(x + (0.05 if x > places["SIDE"][0] - 1 else 0), y, z) for x, y, z in it.fit_points]


def style(space: Any, places: dict[str, Place]) -> None:
    for it in space.query("SPLINE"):
        it.dxf.linetype = "CONTINUOUS"


def depth(space: Any, places: dict[str, Place]) -> None:
    """Behind the bore the hole is drawn up to 5 before the back, in both views, without its end."""
    (x, y), (right, up) = places["TOP"], places["SIDE"]
    for line in space.query("LINE"):
        ends = [(round(it.x, 3), round(it.y, 3)) for it in (line.dxf.start, line.dxf.end)]
        if {it[0] for it in ends} in ({x + 21}, {x + 29}) and max(it[1] for it in ends) == y + 40:
            line.dxf.start, line.dxf.end = (ends[0][0], min(it[1] for it in ends)), (ends[0][0], y + 35)
        if {it[1] for it in ends} in ({up + 11}, {up + 19}) and max(it[0] for it in ends) == right + 40:
            line.dxf.start, line.dxf.end = (min(it[0] for it in ends), ends[0][1]), (right + 35, ends[0][1])


class Changed(test_rounds.InAFolder):
    def test_changes(self) -> None:
        shape = ported(40)
        parts.sheet_of(shape, self.file)
        self.exact(shape)
        for more in (radius, centre, bore, curve, style, depth):
            parts.sheet_of(shape, self.file, more)
            with self.subTest(more=more.__name__):
                try:
                    kept = self.asked().kept
                except Refused:
                    kept = []
                self.assertEqual(kept, [])

    def test_what_is_not_taken_in_is_refused_by_its_cause(self) -> None:
        port = r"circle of radius 4 at 125, 115 of FRONT crosses the circle of radius 8 at 125, 170 of TOP"

        def extra(space: Any, places: dict[str, Place]) -> None:
            space.add_circle((places["FRONT"][0] + 26, places["FRONT"][1] + 15), 1)

        slanted = ported(0, radius=1).cut(Part.makeCylinder(3, 90, FreeCAD.Vector(-10, 6, -10), FreeCAD.Vector(1, 0, 1)))
        for shape, words, more in (
            (ported(), rf"in SIDE a SPLINE \w+ on layer 0, line [\d,]+ of part.dxf is none of a round: it looks like the curve where the {port}, and isn't just there",
             curve),
            (ported(), rf"in SIDE a SPLINE .* is the curve where the {port}, and the narrower one isn't taken off: a line or another circle is seen within it", extra),
            (keyed(), r"in FRONT a SPLINE .* is the curve where the round of radius 4 at .* of TOP crosses the circle of radius 12 at .* of SIDE, and the "
             r"narrower one isn't taken off: it isn't drawn as a whole circle", None),
            (slanted, r"a SPLINE .* is neither a level or upright line nor an arc, from \S+, \S+ to \S+, \S+: where holes cross, or a cylinder is slanted", None),
        ):
            parts.sheet_of(shape, self.file, more)
            with self.subTest(words=words), self.assertRaisesRegex(Refused, words):
                self.asked()


class Comments(test_rounds.InAFolder):
    def test_holes_that_cross_and_curves_are_written_and_read(self) -> None:
        curve_by_places = Bend("SIDE", True, tuple((float(at), float(at * at)) for at in range(20)))
        told = Given([], {}, {}, [], [], [], holes=(Hole("TOP", (41.0, 9.0), 3.0, -0.5, 10.0, (1.0, 4.0)),), bends=(curve_by_places,))
        read = given_in(comments(told).splitlines())
        assert read
        self.assertEqual((read.holes, read.is_crossed), (told.holes, True))
        self.assertEqual({it.places[0] for it in read.bends}, {(0.0, 0.0), (7.0, 49.0), (14.0, 196.0)})
        self.assertEqual(sum(len(it.places) - 1 for it in read.bends), 19)
        self.assertEqual((times(read, 2).holes[0].probe, times(read, 2).bends[0].places[1]), ((2.0, 8.0), (2.0, 2.0)))
        for row in ("hole TOP 41 9 3 0 10 crossing 4 1", "hole TOP 41 9 3 0 10 crossing 4", "bend SIDE dashed 1 2 3", "bend SIDE dashed 1 2 3 4 5"):
            with self.assertRaises(Refused):
                given_in(["999", f"draft {row}"])
        self.assertLess(max(map(len, comments(told).splitlines())), 255)

    def test_curves_are_compared_by_places(self) -> None:
        def ellipse(count: int, wide: float, hidden: bool = False, share: float = 1) -> Panel:
            turns = (share * 2 * math.pi * at / count for at in range(count + 1))
            return Panel([], [], [Bend("SIDE", hidden, tuple((wide * math.cos(it), 3 * math.sin(it)) for it in turns))])

        self.assertEqual(list(differing(ellipse(200, 5), ellipse(60, 5))), [])
        self.assertGreater(len(list(differing(ellipse(200, 5), ellipse(200, 5.03)))), 10)
        self.assertEqual({it[1:] for it in differing(ellipse(200, 5), ellipse(200, 5, True))}, {("solid", "dashed")})
        self.assertEqual({it[1:] for it in differing(ellipse(200, 5), ellipse(150, 5, share=0.75))}, {("solid", "nothing")})
        # Between chords of 24 degrees a circle is found as far as they turn.
        places = smoothed([(10 * math.cos(it * math.pi / 7.5), 10 * math.sin(it * math.pi / 7.5)) for it in range(16)])
        self.assertLess(max(abs(math.hypot(*it) - 10) for it in places), free_curves.NEAR)
        self.assertEqual(features.MOST_PLACES, 8)


class RandomParts(test_rounds.InAFolder):
    """As TechDraw draws them, unless told otherwise: with smooth edges and seams; by two exports, of which one has no hidden lines."""

    def some(self, first: int, count: int) -> None:
        for seed in range(first, first + count):
            shape = parts.crossing_part(seed)
            whole, visible = exported(shape, pathlib.Path(self.file.parent))
            with self.subTest(seed=seed):
                self.said: list[str] = []
                self.exact(shape, pipeline.ask(str(whole), arguments("solve", whole, "--angle", "third", "--visible-only", visible), in_words(self.said)))

    def test_some(self) -> None:
        self.some(0, PARTS)

    @needs_long()
    def test_many(self) -> None:
        self.some(1_000, MANY)
