"""What `draft` reads of the layers of sections and draws of solids there, beside the slow writer of sections."""
import random
import unittest
from fractions import Fraction

from drafting.dxf.drawing import decimals_of, lines_within, passed_over, written
from drafting.projection.cells import Grid
from drafting.projection.draw import FRAMES, SOLID
from drafting.projection.section_keys import keys_of
from drafting.projection.sections import Section, named, sections_of, shown_in, shown_of_layer, strokes_in_all

from .cut_solids import Shown, area_of, planes_through, section_of, unit_cells
from .made import random_cuts, random_solid


def in_units(runs: frozenset[tuple[bool, int, int, int, int]]) -> Shown:
    """Runs as unit segments."""
    return {(upright, at, it) if upright else (upright, it, at): style for upright, at, style, *ends in runs for it in range(*ends)}


class Layers(unittest.TestCase):
    def test_names(self) -> None:
        for layer, decimals, wanted in (
            ("SECTION_FRONT_12", 0, ("FRONT", 12, False)), ("section_front_012.0", 0, ("FRONT", 12, False)),
            ("AREA_LEFT_1.5", 1, ("LEFT", 15, True)), ("AREA_TOP_15E-1", 1, ("TOP", 15, True)), ("SECTION_BOTTOM_+.5", 2, ("BOTTOM", 50, False)),
            ("SECTION_FRONT", 0, None), ("SECTION_BACK_1", 0, None), ("AREA_TOP_", 0, None), ("AREA_TOP_x", 0, None), ("XSECTION_TOP_1", 0, None),
        ):
            self.assertEqual(named(layer, decimals), wanted, layer)
        for view, at, is_area, decimals, with_point, name in (
            ("FRONT", Fraction(12), False, 0, True, "SECTION_FRONT_12"), ("LEFT", Fraction(15), True, 1, True, "AREA_LEFT_1.5"),
            ("LEFT", Fraction(150), True, 2, False, "AREA_LEFT_15E-1"), ("TOP", Fraction(100), False, 1, False, "SECTION_TOP_10"),
            ("TOP", Fraction(1, 2), False, 6, True, "SECTION_TOP_0.0000005"),
        ):
            its = Section(view, at, is_area)
            self.assertEqual(its.layer(decimals, with_point), name)
            self.assertEqual(named(name, decimals), its)

    def test_what_is_read(self) -> None:
        """Layers that name one section are read together, dashed lines aren't, and none of it is a line that isn't read."""
        square = [(False, (0, 0), (4, 0)), (False, (4, 0), (4, 4)), (False, (0, 4), (4, 4)), (False, (0, 0), (0, 4))]
        views = {"FRONT": square, "SECTION_FRONT_1": [(False, (7, 7), (9, 7))], "SECTION_FRONT_01.0": [(False, (7, 7), (7, 8))],
                 "AREA_FRONT_1.25": [(False, (1, 1), (2, 1)), (True, (1, 1), (1, 2))], "AREA_TOP_1": [(True, (1, 1), (1, 2))]}
        lines = lines_within(written(views, 0).encode())
        self.assertEqual((decimals_of(lines), decimals_of(lines, True)), (0, 2))
        found = shown_in(lines, 2, True)
        self.assertEqual(found, {
            Section("FRONT", Fraction(100)): {(False, 0, SOLID, 0, 200), (True, 0, SOLID, 0, 100)},
            Section("FRONT", Fraction(125), True): {(False, 0, SOLID, 0, 100)},
        })
        self.assertEqual(shown_in(lines, 2, False), {})
        self.assertEqual(len(sections_of(lines, 2)[Section("FRONT", Fraction(100))]), 2)
        strokes = strokes_in_all(lines, 2, True)
        self.assertEqual(list(strokes)[-2:], ["SECTION_FRONT_100", "AREA_FRONT_125"])
        self.assertEqual(strokes["AREA_FRONT_125"], [(False, (100, 100), (200, 100))])
        self.assertEqual(passed_over(lines), {})
        other = lines_within(written({"FRONT": square, "SECTIONS": [(False, (1, 1), (2, 1))]}, 0).encode())
        self.assertEqual(passed_over(other), {("SECTIONS", "LINE"): 1})


class Drawn(unittest.TestCase):
    def setUp(self) -> None:
        self.rng = random.Random(791)

    def test_beside_the_slow_writer(self) -> None:
        """Each plane through random solids, upon a face and within a gap."""
        for _ in range(5):
            solid = random_solid(self.rng, 3, 4)
            cuts = random_cuts(self.rng, solid)
            cells = unit_cells(solid, cuts)
            for view in FRAMES:
                for plane in planes_through(cells, view):
                    for is_area, drawn in ((False, section_of), (True, area_of)):
                        found = shown_of_layer(solid, cuts, Section(view, Fraction(plane), is_area))
                        self.assertEqual(in_units(found), drawn(cells, view, plane), (view, plane, is_area))
                    # A half further on no other cells are cut.
                    half = Fraction(1, 2) if not FRAMES[view].sight_back else -Fraction(1, 2)
                    self.assertEqual(shown_of_layer(solid, cuts, Section(view, plane + half)),
                                     shown_of_layer(solid, cuts, Section(view, Fraction(plane))))

    def test_keys(self) -> None:
        """Solids have one key where a section shows the same of them, and none where it shows nothing."""
        moved = 0
        for _ in range(12):
            sizes = [self.rng.randint(1, 4) for _ in range(3)]
            cuts = [[0, *sorted(self.rng.sample(range(1, 9), size))] for size in sizes]
            grid = Grid(cuts)
            cells = [(x, y, z) for x in range(sizes[0]) for y in range(sizes[1]) for z in range(sizes[2])]
            solids = [{cell for cell in cells if self.rng.random() < full} for full in (0.2, 0.3, 0.5, 0.9) for _ in range(4)]
            bits = [sum(1 << sum(at * stride for at, stride in zip(cell, grid.strides)) for cell in solid) for solid in solids]
            for view, frame in FRAMES.items():
                for low, high in zip(cuts[frame.sight], cuts[frame.sight][1:]):
                    for is_area in (False, True):
                        section = Section(view, Fraction(low + high, 2), is_area)
                        shown = [shown_of_layer(solid, cuts, section) for solid in solids]
                        keys = keys_of(grid, bits, section)
                        self.assertEqual([key is None for key in keys], [not it for it in shown])
                        self.assertEqual([keys.index(key) for key in keys], [shown.index(it) for it in shown], (section, cuts, solids))
                        moved += isinstance(keys[0], frozenset)
        self.assertGreater(moved, 15)


if __name__ == "__main__":
    unittest.main()
