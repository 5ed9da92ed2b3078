"""`recon solve` and `check` with --sections: of the solids that match the three views just those are listed that show what the layers of
sections and areas do, as the slow writer of sections draws it."""
import random
import unittest
from typing import NamedTuple

from drafting.dxf.drawing import Stroke, lines_of, strokes_in, written
from drafting.projection.cells import grid_round
from drafting.projection.draw import FRAMES, Cell
from drafting.recon import process
from drafting.recon.answer import Solid, answer_of

from .cut_solids import Shown, area_of, layers_of, lines_of as strokes_of, planes_through, section_of, unit_cells
from .made import drawn, lines_of_runs, pierced, random_cuts, random_solid, runs
from .support import EXAMPLES, needs_long, needs_program
from .test_cut_solids import ROWS, shown_by

SECTIONS = "--sections"
DRAWINGS, MANY = 25, 500
# Of how many solids of a drawing the sections are drawn.
MOST_SOLIDS = 200

Views = dict[str, list[Stroke]]


class Drawing(NamedTuple):
    """The strokes of a drawing's views, the cells of each solid that has them, by its choice, and what the program says of it."""

    views: Views
    solids: dict[str, set[Cell]]
    text: str


def cells_of(solid: Solid) -> set[Cell]:
    grid = grid_round([solid])
    return unit_cells(grid.all_in(grid.cells(solid)), grid.cuts)


def said(views: Views, *words: object, data: bytes = b"") -> process.Run:
    return process.run(process.find(), list(words), written(views, 0).encode() + data)


def choices_in(text: str) -> list[str]:
    return [solid.choice for solid in answer_of(text).solids]


def drawing_of(views: Views) -> Drawing:
    text = said(views, "solve").text
    return Drawing(views, {solid.choice: cells_of(solid) for solid in answer_of(text).solids}, text)


def random_views(rng: random.Random) -> Views:
    cells = random_solid(rng, rng.randint(2, 4), rng.randint(1, 4)) if rng.random() < 0.3 else pierced(rng)
    grid = drawn(cells, random_cuts(rng, cells))
    return {view: list(strokes) for view, strokes in lines_of_runs(grid, runs(grid)).items()}


def random_layers(rng: random.Random, cells: set[Cell]) -> Views:
    """The layers of one plane or two through a solid, somewhere on the sheet: lines, area or both. On those of lines a dashed one stands too,
    which isn't read."""
    layers: Views = {}
    for _ in range(rng.randint(1, 2)):
        view = rng.choice(list(FRAMES))
        planes = planes_through(cells, view)
        if planes:
            both = layers_of(cells, view, rng.choice(planes))
            names = rng.choice((list(both), *([name] for name in both)))
            layers.update({name: moved(rng, both[name]) + [(True, (0, 0), (1, 0))] for name in names if both[name]})
    return layers


def moved(rng: random.Random, strokes: list[Stroke]) -> list[Stroke]:
    right, up = rng.randint(-50, 50), rng.randint(-50, 50)
    return [(dashed, (a + right, b + up), (c + right, d + up)) for dashed, (a, b), (c, d) in strokes]


def shows(cells: set[Cell], name: str, shown: Shown) -> bool:
    kind, view, plane = name.split("_")
    return (area_of if kind == "AREA" else section_of)(cells, view, int(plane)) == shown


@needs_program()
class SectionLayers(unittest.TestCase):
    def checked(self, drawing: Drawing, cells: set[Cell], layers: Views) -> bool:
        """Whether layers of a solid leave fewer than all; the program has to list just those that show them, and to say so of a log."""
        shown = {name: (section_of if name.startswith("SECTION") else area_of)(cells, *plane_of(name)) for name in layers}
        wanted = [choice for choice, its in drawing.solids.items() if all(shows(its, name, what) for name, what in shown.items())]
        views = {**drawing.views, **layers}
        run = said(views, "solve", SECTIONS)
        self.assertEqual((run.status, choices_in(run.text)), (0, wanted), layers)
        self.assertEqual(said(views, "solve").text, drawing.text)
        log = said(drawing.views, "prove").text.encode()
        told = "".join(f"choice {choice}\n" for choice in wanted)
        self.assertEqual(said(views, "check", SECTIONS, data=log).text, f"yes {len(wanted)} of {len(drawing.solids)}\n{told}")
        return len(wanted) < len(drawing.solids)

    def random_drawings(self, count: int, seed: int) -> int:
        """How many of so many drawings have layers that leave fewer solids."""
        rng, fewer, tried = random.Random(seed), 0, 0
        while tried < count:
            drawing = drawing_of(random_views(rng))
            if len(drawing.solids) == 1 and rng.random() < 0.8:
                continue
            cells = rng.choice(list(drawing.solids.values()))
            layers = random_layers(rng, cells) if len(drawing.solids) <= MOST_SOLIDS else {}
            if layers:
                tried += 1
                fewer += self.checked(drawing, cells, layers)
        return fewer

    def test_random_drawings(self) -> None:
        self.assertGreater(self.random_drawings(DRAWINGS, 79), 5)

    @needs_long()
    def test_many_random_drawings(self) -> None:
        self.assertGreater(self.random_drawings(MANY, 80), 100)

    def test_rows_by_hand(self) -> None:
        views = strokes_in(lines_of(str(EXAMPLES / "quartered_cube.dxf")), 0)
        for row in ROWS.splitlines():
            width, told, left = row.split(";")
            times = int(width)
            wide = {view: [(dashed, (a * times, b * times), (c * times, d * times)) for dashed, (a, b), (c, d) in strokes]
                    for view, strokes in views.items()}
            layers = {name: list(strokes_of(shown_by(strokes))) for name, _, strokes in (it.strip().partition(" ") for it in told.split("|"))}
            with self.subTest(row):
                run = said({**wide, **layers}, "solve", SECTIONS)
                self.assertEqual(sorted(choices_in(run.text)), left.split())

    def test_faults(self) -> None:
        views = strokes_in(lines_of(str(EXAMPLES / "quartered_cube.dxf")), 0)
        for name, fault in (("SECTION_FRONT", "F20 SectionName"), ("AREA_BACK_1", "F20 SectionName"), ("SECTION_TOP_0.5", "F20 SectionName"),
                            ("SECTION_FRONT_0", "F21 NoCut"), ("AREA_LEFT_2", "F21 NoCut"), ("SECTION_TOP_-1", "F21 NoCut")):
            with self.subTest(name):
                layers = {**views, name: [(False, (0, 0), (1, 0))]}
                run = said(layers, "solve", SECTIONS)
                self.assertRegex(run.text, rf"^fault {fault} line \d+\n$")
                self.assertEqual(said(layers, "solve").status, 0)


def plane_of(name: str) -> tuple[str, int]:
    _, view, plane = name.split("_")
    return view, int(plane)
