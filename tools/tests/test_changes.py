"""The rules that refuse changes hold of every drawing that some solid has, and no single change is lost."""
import itertools
import random
import unittest

from drafting.dxf.drawing import VIEWS
from drafting.explain import edits
from drafting.projection.draw import Grid, Row, panels_of

from .made import MISTAKES, canon, cells_of, drawn, painted, random_cuts, random_solid, runs, scattered

Drawing = frozenset[tuple[Row, bytes]]


def drawings_of_solids(sizes: tuple[int, int, int]) -> set[Drawing]:
    """The drawings of all solids in a small box, each but those that don't reach its ends too."""
    cells = list(cells_of(*map(range, sizes)))
    found: set[Drawing] = set()
    for bits in range(1, 1 << len(cells)):
        solid = [cell for at, cell in enumerate(cells) if bits >> at & 1]
        found.add(frozenset(pair for view in VIEWS for pair in panels_of(solid, sizes, view).items()))
    return found


class Rules(unittest.TestCase):
    def test_no_rule_refuses_the_drawing_of_a_solid(self) -> None:
        rng = random.Random(61)
        solids = [random_solid(rng, rng.randint(1, 9), rng.randint(1, 9)) for _ in range(200)]
        solids += [scattered(rng, (rng.randint(1, 5), rng.randint(1, 5), rng.randint(1, 5)), rng.random()) for _ in range(200)]
        for number, cells in enumerate(solids):
            judged = edits.judged(drawn(cells, random_cuts(rng, cells)))
            wrong = any(judged.points.values()) or judged.places or judged.strips or judged.outlines
            self.assertFalse(wrong, (number, sorted(cells)))

    def test_no_rule_refuses_the_way_back(self) -> None:
        rng = random.Random(62)
        for number in range(200):
            cells = random_solid(rng, rng.randint(2, 8), rng.randint(1, 8))
            right = drawn(cells, random_cuts(rng, cells))
            told = rng.choice(MISTAKES[:2])(rng, right, runs(right))
            spoiled = edits.judged(right._replace(panels=painted(right, told)))
            back = [
                change for change in edits.single_changes(spoiled)
                if {**spoiled.grid.panels, **dict(change.rows)} == right.panels
            ]
            self.assertEqual([edits.is_refused(spoiled, change) for change in back], [False], (number, sorted(cells)))

    def test_no_stretch_is_lost(self) -> None:
        """On small grids each stretch in each style is tried, against the drawings of all solids there."""
        rng = random.Random(63)
        for sizes in ((2, 2, 2), (3, 2, 2), (1, 2, 3)):
            known = drawings_of_solids(sizes)
            cuts = [list(range(size + 1)) for size in sizes]
            for drawing in rng.sample(sorted(known, key=sorted), 25):
                right = Grid(cuts, dict(drawing), {})
                panels = painted(right, rng.choice(MISTAKES)(rng, right, runs(right)))
                wanted = {
                    frozenset({**panels, row: edits.stretch(styles, low, high, style)}.items())
                    for row, styles in panels.items() for low, high in itertools.combinations(range(len(styles) + 1), 2)
                    for style in range(3)
                } & known - {frozenset(panels.items())}
                judged = edits.judged(right._replace(panels=panels))
                found = {
                    frozenset({**panels, **dict(change.rows)}.items())
                    for change in edits.single_changes(judged) if not edits.is_refused(judged, change)
                }
                self.assertLessEqual(wanted, found)


class Canon(unittest.TestCase):
    def test_a_drawing_is_the_same_on_a_finer_grid(self) -> None:
        coarse = drawn({(0, 0, 0)}, [[0, 2], [0, 3], [0, 5]])
        fine = drawn(set(itertools.product(range(2), range(1), range(2))), [[0, 1, 2], [0, 3], [0, 4, 5]])
        self.assertEqual(canon(coarse, coarse.panels), canon(fine, fine.panels))
