"""The slow writer of sections: rows that were worked out by hand, and whole views against those that `draft` draws."""
import itertools
import random
import unittest

from drafting.projection.draw import FRAMES, SOLID, Cell, shown_of

from .cut_solids import Shown, area_of, depth_of, drawn, layers_of, moved_to_zero, planes_through, section_of, seen_from, unit_cells, view_of
from .made import random_cuts, random_solid

# The three solids whose views are a square in four quarters, by their choices of the eight cells: z slowest and x fastest.
QUARTERED = ("01101001", "10010110", "10110110")
# A bar of three cells along x, with one cell on its first one, and one behind its last.
STEPPED = {(0, 0, 0), (1, 0, 0), (2, 0, 0), (0, 0, 1), (2, 1, 0)}
RISING, FALLING = "rect 0 0 1 1, rect 1 1 2 2", "rect 1 0 2 1, rect 0 1 1 2"

# Of the quartered cube, whose quarters are so wide: what each layer shows, and the solids that show it all. Each of the six views;
# planes within a gap; areas alone, lines alone and both; one that no solid shows.
ROWS = f"""\
1; SECTION_FRONT_1 {FALLING}; 10010110
1; SECTION_FRONT_1 {RISING}; 01101001
1; SECTION_FRONT_1 line 0 0 2 0, line 2 0 2 1, line 1 1 2 1, line 1 1 1 2, line 0 2 1 2, line 0 0 0 2; 10110110
1; SECTION_TOP_1 {RISING}; 10010110
1; SECTION_SIDE_1 {FALLING}; 01101001
1; SECTION_LEFT_1 {RISING}; 10010110 10110110
1; SECTION_REAR_1 {RISING}; 01101001
1; SECTION_BOTTOM_1 {RISING}; 10010110 10110110
1; AREA_LEFT_1 {FALLING}; 01101001
1; SECTION_FRONT_1 rect 0 0 2 2;
2; SECTION_FRONT_3 rect 2 0 4 2, rect 0 2 2 4; 10010110
2; SECTION_FRONT_1 rect 0 0 4 4, line 0 2 4 2, line 2 0 2 4; 01101001 10010110 10110110
2; AREA_FRONT_1 rect 0 0 2 2, rect 2 2 4 4; 10010110 10110110
2; AREA_FRONT_1 rect 0 0 2 2, rect 2 2 4 4 | SECTION_FRONT_2 rect 2 0 4 2, rect 0 2 2 4; 10010110
"""

# Of the stepped bar: what is left begins beside the first coordinate, or has another cell's edge in it that the area hasn't.
BAR = """\
SECTION_FRONT_1 rect 0 0 1 1
SECTION_BOTTOM_1 rect 0 0 1 1
SECTION_REAR_1 line 0 0 3 0, line 3 0 3 2, line 2 2 3 2, line 2 1 2 2, line 0 1 2 1, line 0 0 0 1
SECTION_LEFT_1 rect 0 0 2 1, line 1 0 1 1
SECTION_LEFT_2 rect 0 0 2 1
AREA_LEFT_2 rect 0 0 2 1
SECTION_SIDE_2 rect 0 0 1 2, line 0 1 1 1
AREA_SIDE_2 rect 0 0 1 1
"""


def shown_by(strokes: str) -> Shown:
    """What solid strokes show, each `line X0 Y0 X1 Y1` or `rect X0 Y0 X1 Y1`."""
    shown: Shown = {}
    for stroke in strokes.split(", "):
        kind, *ends = stroke.split()
        x0, y0, x1, y1 = map(int, ends)
        if kind == "rect" or y0 == y1:
            shown.update({(False, x, y): SOLID for x in range(x0, x1) for y in {y0, y1}})
        if kind == "rect" or x0 == x1:
            shown.update({(True, x, y): SOLID for x in {x0, x1} for y in range(y0, y1)})
    return shown


def shows(cells: set[Cell], layer: str) -> bool:
    """Whether a solid shows what a layer does, told by its name and its strokes."""
    name, _, strokes = layer.partition(" ")
    kind, view, plane = name.split("_")
    return (area_of if kind == "AREA" else section_of)(cells, view, int(plane)) == shown_by(strokes)


def quartered(choice: str, width: int) -> set[Cell]:
    cells = [(x, y, z) for z, y, x in itertools.product(range(2), repeat=3)]
    return unit_cells([cell for cell, full in zip(cells, choice) if full == "1"], [[0, width, 2 * width]] * 3)


class ByHand(unittest.TestCase):
    def test_quartered_cube(self) -> None:
        for row in ROWS.splitlines():
            width, layers, left = row.split(";")
            with self.subTest(row):
                solids = {choice: quartered(choice, int(width)) for choice in QUARTERED}
                found = [choice for choice, cells in solids.items() if all(shows(cells, layer.strip()) for layer in layers.split("|"))]
                self.assertEqual(found, left.split())

    def test_stepped_bar(self) -> None:
        for layer in BAR.splitlines():
            with self.subTest(layer):
                self.assertTrue(shows(STEPPED, layer))

    def test_three_solids(self) -> None:
        """They are all that have the views of the quartered cube."""
        square = shown_by("rect 0 0 2 2, line 0 1 2 1, line 1 0 1 2")
        choices = map("".join, itertools.product("01", repeat=8))
        solids = ((choice, quartered(choice, 1)) for choice in choices if "1" in choice)
        self.assertEqual(tuple(choice for choice, cells in solids
                               if all(view_of(cells, view) == square for view in ("FRONT", "TOP", "SIDE"))), QUARTERED)


class Random(unittest.TestCase):
    def setUp(self) -> None:
        self.rng = random.Random(79)

    def test_whole_views(self) -> None:
        """Two ways to draw: edge by edge here, by columns there."""
        for _ in range(40):
            cells = random_solid(self.rng, 4, 3)
            cuts = [[0, *range(1, max(cell[axis] for cell in cells) + 2)] for axis in range(3)]
            for view in FRAMES:
                runs = shown_of(list(cells), cuts, view)
                its = {(upright, at, it) if upright else (upright, it, at): style for upright, at, style, *ends in runs for it in range(*ends)}
                self.assertEqual(view_of(cells, view), its)

    def test_planes_within_a_gap(self) -> None:
        """All planes behind which the same cells of the grid stand first show the same."""
        for _ in range(20):
            grid = random_solid(self.rng, 3, 3)
            cuts = [[it * 2 for it in cut] for cut in (range(max(cell[axis] for cell in grid) + 2) for axis in range(3))]
            cells = unit_cells(grid, cuts)
            for view, frame in FRAMES.items():
                for plane in planes_through(cells, view):
                    other = plane + 1 if frame.sight_back else plane - 1
                    if plane % 2:
                        self.assertEqual(section_of(cells, view, plane), section_of(cells, view, other))
                        self.assertEqual(area_of(cells, view, plane), area_of(cells, view, other))

    def test_filled_behind(self) -> None:
        """A section is the whole view of what is left, filled behind each full cell."""
        for _ in range(20):
            cells = random_solid(self.rng, 4, 4)
            for view in FRAMES:
                for plane in planes_through(cells, view):
                    rest = {place for place in seen_from(cells, view) if place[2] >= depth_of(plane, view)}
                    if rest:
                        last = max(place[2] for place in rest)
                        filled = {(right, up, far) for right, up, depth in rest for far in range(depth, last + 1)}
                        self.assertEqual(section_of(cells, view, plane), moved_to_zero(drawn(filled)))

    def test_layers(self) -> None:
        """Lines as long as they go show what was drawn."""
        for _ in range(10):
            grid = random_solid(self.rng, 3, 3)
            cells = unit_cells(grid, random_cuts(self.rng, grid))
            view = self.rng.choice(list(FRAMES))
            for plane in list(planes_through(cells, view))[:2]:
                section, area = layers_of(cells, view, plane).values()
                for lines, its in ((section, section_of(cells, view, plane)), (area, area_of(cells, view, plane))):
                    self.assertEqual(shown_by(", ".join(f"line {x0} {y0} {x1} {y1}" for _, (x0, y0), (x1, y1) in lines)) if lines else {}, its)
