"""Noise in the coordinates of sheets: it is found by the sheet itself and taken off, told with its tolerance, and no detail is taken for it."""
import math
import pathlib
import random
import tempfile
import unittest
from collections.abc import Callable
from typing import Any

from drafting.core.messages import Refused
from drafting.dxf.reader import Arc, Edge, Sheet, Source
from drafting.sheet import noise, pipeline
from drafting.sheet.groups import group_of
from drafting.sheet.placement import Placed
from drafting.geometry.segments import runs_of

from .support import EXAMPLES, draft, in_words, needs_module, needs_program
from .test_sheet import arguments

SHEETS = EXAMPLES / "sheets"
SOURCE = Source("LINE", "0", "")
PLACES = {"FRONT": (20.0, 30.0), "TOP": (20.0, 90.0), "SIDE": (90.0, 30.0)}
SIZES = {"FRONT": (40.0, 30.0), "TOP": (40.0, 25.0), "SIDE": (25.0, 30.0)}

Change = Callable[[float], float]


def shaken(off: float, seed: int = 3) -> Change:
    chance = random.Random(seed)
    return lambda it: it + chance.uniform(-off, off)


def rounded(unit: float) -> Change:
    return lambda it: round((it + 0.41772) / unit) * unit


def views(change: Change, more: Callable[[], list[Edge]] = list, steps: tuple[float, ...] = (12.5,)) -> dict[str, list[Edge]]:
    """Boxes with a step each, every coordinate changed."""
    found: dict[str, list[Edge]] = {}
    for view, (x, y) in PLACES.items():
        wide, high = SIZES[view]
        lines = [((0, 0), (wide, 0)), ((wide, 0), (wide, high)), ((wide, high), (0, high)), ((0, high), (0, 0))]
        lines += [(end, other) for step in steps for end, other in (((step, 0), (step, high)), ((0, step), (wide, step)))]
        found[view] = [Edge(False, (change(x + a), change(y + b)), (change(x + c), change(y + d)), 7, SOURCE) for (a, b), (c, d) in lines]
    found["FRONT"] += more()
    return found


def found_in(its: dict[str, list[Edge]], arcs: list[Arc] | None = None, tolerances: tuple[float, ...] = (1e-4, *noise.TRIED)) -> noise.Noise | None:
    """The noise that is found in some views, as the pipeline looks for it."""
    sheet = Sheet("")
    sheet.edges, sheet.arcs = [edge for edges in its.values() for edge in edges], arcs or []

    def place(tolerance: float) -> Placed | None:
        groups = {view: group_of(runs_of(edges, tolerance)[0]) for view, edges in its.items()}
        return None if any(run.oblique for group in groups.values() for run in group.runs) else Placed(groups, False, [])

    slant = noise.slant_of(sheet.edges, 1e-4)
    return next((it for one in tolerances if one >= slant and (it := noise.found_with(sheet, one, 1e-4, place))), None)


class Found(unittest.TestCase):
    def test_noise_is_found_and_told_from_chance(self) -> None:
        """By how much coordinates are shaken or rounded, and the tolerance and the unit that come."""
        for change, tolerance, unit in ((shaken(2e-4), 5e-4, 0.5), (shaken(4e-4), 1e-3, 0.5), (shaken(1e-3), 2e-3, 0.5), (shaken(4e-3), 0.01, 0.5),
                                        (shaken(0.01), 0.02, 0.5), (rounded(3e-4), 2e-4, 0.5), (rounded(7e-4), 5e-4, 0.5)):
            with self.subTest(tolerance=tolerance):
                its = found_in(views(change))
                assert its is not None
                self.assertTrue(its.is_clear)
                self.assertEqual((its.tolerance, its.grid.unit), (tolerance, unit))
        its = found_in(views(shaken(1e-3), steps=(12.5, 7.3, 9.13)))
        assert its is not None
        self.assertEqual(its.grid.unit, 0.01)

    def test_what_is_exact_has_none(self) -> None:
        for steps in ((12.5,), (12.5, 7.25), (12.5, 12.501), (12.5, 12.5005), (0.0625, 3 / 16)):
            with self.subTest(steps):
                its = found_in(views(lambda it: it, steps=steps))
                self.assertFalse(its and its.is_clear)

    def test_details_are_no_noise(self) -> None:
        """A step of a thousandth has an edge of that length; and coordinates that are multiples of nothing aren't told from chance."""
        def detail() -> list[Edge]:
            return [Edge(False, (x, y), (x, y + 0.001), 7, SOURCE) for x, y in ((30.0, 40.0), (31.0, 40.0))]

        its = found_in(views(shaken(1e-3), detail))
        self.assertFalse(its and its.is_clear)
        its = found_in(views(shaken(4e-3), steps=(12.513, 7.291, 9.137, 3.377)))
        self.assertFalse(its and its.is_clear)

    def test_a_slope_is_no_noise(self) -> None:
        taper = [Edge(False, (20.0, 42.0), (24.0, 42.04), 7, SOURCE)]
        self.assertEqual(noise.slant_of(taper, 1e-4), 0)
        self.assertAlmostEqual(noise.slant_of([Edge(False, (20.0, 42.0), (60.0, 42.04), 7, SOURCE)], 1e-4), 0.04)


class Moved(unittest.TestCase):
    def test_coordinates_are_whole_again(self) -> None:
        """Ends that are short of corners, arcs with their ends, and views in line."""
        change = shaken(2e-3)
        its = views(change)
        its["FRONT"].append(Edge(True, (50.0003, 30.0016), (50.0005, 59.9988), 7, SOURCE))
        arcs = [Arc(False, (change(50.0), change(50.0)), change(5.0), change(0.0), 90.0 + change(0.0), SOURCE),
                Arc(False, (change(30.0), change(40.0)), change(2.25), 0.0, 360.0, SOURCE)]
        found = found_in(its, arcs)
        assert found is not None
        sheet = Sheet("mm")
        sheet.edges, sheet.arcs = [edge for edges in its.values() for edge in edges], arcs
        there = noise.without(sheet, found)
        self.assertEqual(there.unit, "mm")
        left, below = found.grid.origins["FRONT", 0], found.grid.origins["FRONT", 1]
        unit = found.grid.unit

        def is_whole(place: tuple[float, float], x: float, y: float) -> bool:
            return max(abs(math.remainder(place[0] - x, unit)), abs(math.remainder(place[1] - y, unit))) < 1e-9

        self.assertTrue(all(is_whole(end, left, below) for edge in there.edges[:6] for end in (edge.start, edge.end)))
        last = there.edges[6]
        self.assertAlmostEqual(last.end[1] - last.start[1], 30.0, 9)
        self.assertEqual(last.start[0], last.end[0])
        quarter, circle = there.arcs
        self.assertEqual((quarter.radius, quarter.start, quarter.sweep), (5.0, 0.0, 90.0))
        self.assertEqual((circle.radius, circle.sweep), (2.25, 360.0))
        self.assertTrue(is_whole(quarter.centre, left, below) and is_whole(circle.centre, left, below))


@needs_module("ezdxf", "python3-ezdxf")
class OnSheets(unittest.TestCase):
    def setUp(self) -> None:
        room = tempfile.TemporaryDirectory()
        self.addCleanup(room.cleanup)
        self.file = pathlib.Path(room.name, "sheet.dxf")

    def changed(self, name: str, change: Change, moved: Callable[[float, float], tuple[float, float]] = lambda x, y: (x, y)) -> None:
        """A sheet of the examples with each coordinate changed."""
        import ezdxf
        doc = ezdxf.readfile(SHEETS / name)

        def there(place: Any) -> tuple[float, float]:
            x, y = moved(place[0], place[1])
            return change(x), change(y)

        for it in doc.modelspace():
            if it.dxftype() == "LINE":
                start, end = it.dxf.start, it.dxf.end
                it.dxf.start, it.dxf.end = there(start), there(end)
            elif it.dxftype() in ("CIRCLE", "ARC"):
                it.dxf.radius = change(it.dxf.center.x + it.dxf.radius) - change(it.dxf.center.x)
                it.dxf.center = there(it.dxf.center)
            elif it.dxftype() == "LWPOLYLINE":
                it.set_points([(*there(point), *point[2:]) for point in it.get_points()])
        doc.saveas(self.file)

    def drawn(self, *words: str) -> list[str]:
        told: list[str] = []
        drawn = pipeline.draw(str(self.file), arguments("sheet", str(self.file), *words), in_words(told))
        return [*told, *map(str, drawn.notes)]

    def test_noise_is_told_with_its_tolerance(self) -> None:
        for off, tolerance in ((5e-4, "0.001"), (2e-3, "0.005")):
            self.changed("clevis_sheet.dxf", shaken(off))
            told = next(it for it in self.drawn() if "noise" in it)
            self.assertRegex(told, f"^found: coordinates are off by up to .* from multiples of 1, which is noise: .*, as with --tolerance {tolerance}$")

    def test_the_advice_is_right_where_it_is_not_clear(self) -> None:
        """A detail as small as the noise: the tolerance that was tried is named, and reads the sheet."""
        self.changed("clevis_sheet.dxf", shaken(4e-4))
        import ezdxf
        doc = ezdxf.readfile(self.file)
        doc.modelspace().add_line((3, 2.5), (3, 2.5006))
        doc.saveas(self.file)
        with self.assertRaises(Refused) as caught:
            self.drawn()
        self.assertIn("--tolerance 0.001", str(caught.exception))
        self.assertTrue(any("third-angle views" in it for it in self.drawn("--tolerance", "0.001")))

    def test_views_that_are_not_quite_in_line(self) -> None:
        self.changed("rounded_bracket.dxf", lambda it: it, lambda x, y: (x + 1 if y > 160 else x, y - 0.7 if x > 175 else y))
        told = self.drawn()
        self.assertIn("found: TOP is 1 too far to the right to be in line with FRONT; it is read as in line, since their lengths agree", told)
        self.assertIn("found: SIDE is 0.7 too far down to be in line with FRONT; it is read as in line, since their lengths agree", told)

    @needs_program()
    def test_rounds_come_back(self) -> None:
        for change in (shaken(5e-4), rounded(3e-4), shaken(3e-3)):
            self.changed("rounded_bracket.dxf", change)
            ended = draft("solve", self.file)
            self.assertIn("solid 1: 60 by 40 by 44, volume 28,096 - 152 pi", ended.out, ended.said)
        self.changed("rounded_bracket.dxf", shaken(5e-4))
        self.assertIn("solid 1: 60 by 40 by 44, volume 28,096 - 152 pi", draft("solve", "--tolerance", "0.002", self.file).out)
