"""Drawings of two views: the program lists just the solids that a plain drawing of all sets of cells finds, and that clingo finds."""
import functools
import itertools
import pathlib
import random
import tempfile
import unittest
from collections import Counter
from collections.abc import Iterable

from drafting.dxf.drawing import VIEWS, lines_within, strokes_in, views_of, written
from drafting.explain import judge
from drafting.projection.cells import grid_round
from drafting.projection.draw import BLANK, DASHED, FRAMES, SOLID, Cell, grid_of, sheet_of
from drafting.recon import process
from drafting.recon.answer import WHOLE, Answer, Solid, answer_of
from drafting.recon.blocks import blocks_in

from . import made
from .made import drawn, random_cuts, random_solid, without
from .parts import boxes_of, cells_of, moved_to_zero
from .support import EXAMPLES, needs_command, needs_long, needs_program
from .test_shapes import has_freecad

SIZES = (2, 2, 3)
SETS, LARGER, PARTS = 250, 20, 6
# How many larger drawings and parts there are with --long.
LARGER_LONG, PARTS_LONG = 500, 100
# A drawing that has more solids, or takes more nodes, isn't compared whole.
MOST_SOLIDS, MOST_NODES = 1_000, 20_000

# What a view shows between each two columns, in one order of all of them.
Shown = tuple[int, ...]


# ---- drawing a set of cells plainly

def style_of(before: list[bool], after: list[bool]) -> int:
    """What two neighbouring columns of cells show between them, from the viewer on: of the four cells round an edge neither both pairs of
    neighbours across it nor both along it are alike, and it is hidden where two full cells stand before it."""
    style = BLANK
    for depth in range(len(before) + 1):
        nearer, farther = ([column[at] if 0 <= at < len(column) else False for column in (before, after)] for at in (depth - 1, depth))
        is_edge = not (nearer[0] == nearer[1] and farther[0] == farther[1]) and nearer != farther
        is_hidden = any(map(all, zip(before[:depth], after[:depth])))
        style = max(style, (DASHED if is_hidden else SOLID) if is_edge else BLANK)
    return style


def shown_plainly(cells: frozenset[Cell], view: str) -> Shown:
    """What a view shows of cells in the box."""
    frame = FRAMES[view]
    depths = range(SIZES[frame.sight])[::-1 if frame.sight_back else 1]

    def column(right: int, up: int) -> list[bool]:
        places = {frame.right: right, frame.up: up}
        return [(*(depth if axis == frame.sight else places[axis] for axis in range(3)),) in cells for depth in depths]

    wide, tall = SIZES[frame.right], SIZES[frame.up]
    upright = (style_of(column(i - 1, j), column(i, j)) for i in range(wide + 1) for j in range(tall))
    level = (style_of(column(i, j - 1), column(i, j)) for i in range(wide) for j in range(tall + 1))
    return (*upright, *level)


@functools.cache
def views_plainly(cells: frozenset[Cell]) -> dict[str, Shown]:
    return {view: shown_plainly(cells, view) for view in VIEWS}


def two_of(cells: frozenset[Cell], missing: str) -> tuple[Shown, ...]:
    return tuple(shown for view, shown in views_plainly(cells).items() if view != missing)


def every_set() -> Iterable[frozenset[Cell]]:
    """All sets of cells of the box but the empty one."""
    cells = list(made.cells_of(*map(range, SIZES)))
    return (frozenset(cell for cell, bit in zip(cells, bits) if bit) for bits in itertools.product((0, 1), repeat=len(cells)) if any(bits))


# ---- what the program says

def two_views(data: str, *words: object, command: str = "solve") -> str:
    return process.run(process.find(), [command, process.TWO_VIEWS, *words], data.encode()).text


def units_of(cells: Iterable[Cell]) -> list[list[int]]:
    return [list(range(max(cell[axis] for cell in cells) + 2)) for axis in range(3)]


def cells_in(solid: Solid) -> set[tuple[int, ...]]:
    """The unit cells of a solid."""
    grid = grid_round([solid])
    boxes = ([range(cut[at], cut[at + 1]) for cut, at in zip(grid.cuts, cell)] for cell in grid.all_in(grid.cells(solid)))
    return {cell for box in boxes for cell in itertools.product(*box)}


@needs_program()
class Counted(unittest.TestCase):
    def test_small_sets_of_cells(self) -> None:
        """The same number of solids as by drawing all sets of cells of the box."""
        rng = random.Random(78)
        counts = {view: Counter(two_of(cells, view) for cells in every_set()) for view in VIEWS}
        several = 0
        for _ in range(SETS):
            chosen = {cell for cell in itertools.product(*map(range, SIZES)) if rng.random() < 0.5} or {(0, 0, 0)}
            cells = frozenset((x, y, z) for x, y, z in moved_to_zero(set(chosen)))
            grid = drawn(cells, units_of(cells))
            for view in VIEWS:
                head = WHOLE.match(two_views(without(grid, view)))
                self.assertEqual(head and int(head[1]), counts[view][two_of(cells, view)], (view, sorted(cells)))
                several += counts[view][two_of(cells, view)] > 1
        self.assertGreater(several, SETS // 10)

    def test_the_quartered_cube(self) -> None:
        """Each of its views left out, and none."""
        lines = lines_within((EXAMPLES / "quartered_cube.dxf").read_bytes())
        strokes = strokes_in(lines, 0)
        for view, head in (("FRONT", "whole 4 nodes 30 blocks 8"), ("TOP", "whole 4 nodes 25 blocks 8"), ("SIDE", "whole 4 nodes 28 blocks 8")):
            data = written({name: its for name, its in strokes.items() if name != view}, 0)
            self.assertEqual(two_views(data).splitlines()[0], head)
            self.assertEqual(process.run(process.find(), ["solve"], data.encode()).text, f"fault F14 EmptyView view {view}\n")
        answer = (EXAMPLES / "quartered_cube.txt").read_text()
        self.assertEqual(two_views(written(strokes, 0)), answer)

    def test_one_view_is_too_few(self) -> None:
        strokes = strokes_in(lines_within((EXAMPLES / "bracket.dxf").read_bytes()), 0)
        for view, first in (("FRONT", "TOP"), ("TOP", "FRONT"), ("SIDE", "FRONT")):
            self.assertEqual(two_views(written({view: strokes[view]}, 0)), f"fault F14 EmptyView view {first}\n")

    def test_logs(self) -> None:
        """A log of two views is taken with the option, and the drawing is at fault without it."""
        rng = random.Random(79)
        for number in range(12):
            cells = random_solid(rng, rng.randint(2, 5), rng.randint(2, 6))
            view = VIEWS[number % 3]
            data = without(drawn(cells, random_cuts(rng, cells)), view)
            head = WHOLE.match(two_views(data))
            log = two_views(data, command="prove")
            self.assertTrue(head and log.startswith(f"log 1 blocks {head[3]}\n"), log[:40])
            self.assertEqual(two_views(data + log, command="check").splitlines()[0], f"yes {head and head[1]}")
            self.assertEqual(process.run(process.find(), ["check"], (data + log).encode()).text, f"fault F14 EmptyView view {view}\n")


@needs_command("clingo", "gringo")
@needs_program()
class Judged(unittest.TestCase):
    def test_larger_ones(self) -> None:
        self.judge(LARGER)

    @needs_long()
    def test_many_larger_ones(self) -> None:
        self.judge(LARGER_LONG)

    def judge(self, count: int) -> None:
        """The same solids as clingo finds, which knows nothing of the program."""
        rng = random.Random(count)
        whole = 0
        for number in range(count):
            cells = random_solid(rng, rng.randint(3, 6), rng.randint(2, 8))
            data = without(drawn(cells, random_cuts(rng, cells)), VIEWS[number % 3])
            answer = answer_of(two_views(data, "--solids", MOST_SOLIDS))
            drawing = judge.Drawing(grid_of(sheet_of(views_of(lines_within(data.encode())), 0)), {})
            with self.subTest(number):
                judge.judged(answer, drawing, blocks_in(two_views(data, command="blocks")), MOST_SOLIDS, 600)
            whole += bool(WHOLE.fullmatch(answer.head))
        self.assertGreater(whole, count * 3 // 4)


@unittest.skipUnless(has_freecad(), "apt-get install freecad-python3")
@needs_program()
class Parts(unittest.TestCase):
    def test_random_parts(self) -> None:
        self.parts(PARTS)

    @needs_long()
    def test_many_random_parts(self) -> None:
        self.parts(PARTS_LONG)

    def parts(self, count: int) -> None:
        """Parts that FreeCAD draws are listed with each view left out, wherever the list is whole."""
        from drafting.cad.project import drawing_of
        whole = number = 0
        with tempfile.TemporaryDirectory() as folder:
            file = pathlib.Path(folder) / "random.part"
            for seed in itertools.count():
                boxes = boxes_of(random.Random(seed))
                if not cells_of(boxes):
                    continue
                file.write_text("".join(" ".join(map(str, (word, *low, *high))) + "\n" for word, low, high in boxes))
                strokes = strokes_in(lines_within(drawing_of(str(file), 0).encode()), 0)
                for view in VIEWS:
                    data = written({name: its for name, its in strokes.items() if name != view}, 0)
                    text = two_views(data, "--solids", MOST_SOLIDS, "--nodes", MOST_NODES)
                    if WHOLE.match(text):
                        self.assertTrue(self.lists(answer_of(text), cells_of(boxes)), (seed, view))
                        whole += 1
                number += 1
                if number == count:
                    break
        self.assertGreater(whole, count // 2)

    def lists(self, answer: Answer, cells: set[tuple[int, ...]]) -> bool:
        return any(solid.volume == len(cells) and cells_in(solid) == moved_to_zero(cells) for solid in answer.solids)


if __name__ == "__main__":
    unittest.main()
