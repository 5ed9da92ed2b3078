"""Random sheets of drawings that recon makes and of examples, each put on a sheet in some way, come to the answers of the drawings."""
import pathlib
import random
import tempfile
import unittest
from collections.abc import Callable
from fractions import Fraction
from typing import Any

from drafting.dxf.drawing import FURTHER, lines_within, views_of, written
from drafting.recon import process
from drafting.sheet import pipeline

from .support import EXAMPLES, in_words, needs_module, needs_program
from .test_sheet import arguments, plain_answer, solved

try:
    from . import sheets
except ImportError:
    sheets = None  # type: ignore[assignment]

SHEETS = 100
# A drawing that has more solids is compared by its views alone, as all are: those with the same views have one answer.
MOST_SOLIDS = 100
NAMES = ("bracket", "clevis", "pierced_plate", "quartered_cube", "untidy_redrawn", "two_cubes_along_an_edge")
# Scales at which a sheet is drawn.
SCALES = (1.0, 0.5, 0.0625, 1 / 3, 0.1, 2.5)


def whole(ends: "sheets.Ends") -> tuple[tuple[int, int], tuple[int, int]]:
    (a, b), (c, d) = ends
    return (round(a), round(b)), (round(c), round(d))


@needs_module("ezdxf", "python3-ezdxf")
@needs_program()
class RandomSheets(unittest.TestCase):
    def test_a_hundred(self) -> None:
        with tempfile.TemporaryDirectory() as folder:
            for seed in range(SHEETS):
                with self.subTest(seed=seed):
                    self.one(random.Random(seed), seed, pathlib.Path(folder))

    def one(self, chance: random.Random, seed: int, folder: pathlib.Path) -> None:
        base = folder / "base.dxf"
        name = f"{chance.choice(NAMES)}.dxf"
        angle, left = chance.choice(("third", "first")), chance.random() < 0.5
        mirrored = (angle == "third") == left
        further: list[str] = []
        if chance.random() < 0.5:
            base.write_text(process.run(process.find(), ["make", seed], b"").text)
        else:
            base.write_bytes((EXAMPLES / name).read_bytes())
            further = chance.sample([view for view in FURTHER if not mirrored or view != "LEFT"], chance.randint(0, 2))
        views = sheets.views_in(base)
        if further:
            shown = sheets.further_of_first((EXAMPLES / name).with_suffix(".txt").read_text())
            views |= {view: shown[view] for view in further}
            base.write_text(written({view: [(dashed, *whole(ends)) for dashed, ends in strokes] for view, strokes in views.items()}, 0))
        file, words = self.drawn(chance, views, folder, angle, left)
        words += ["--angle", angle] if "BOTTOM" in further else []
        said: list[str] = []
        made = pipeline.draw(str(file), arguments("sheet", file, *words), in_words(said))
        self.assertEqual(made.origin.mirrored, mirrored)
        # Lengths are those of the drawing, times what the scale and the decimals make of them.
        own, told = plain_views(base.read_bytes(), 0), plain_views(made.text.encode(), made.decimals)
        factor = Fraction(max(told["FRONT"])[2], max(own["FRONT"])[2])
        grown = {view: [(*run[:2], *(factor * it for it in run[2:])) for run in runs] for view, runs in own.items()}
        self.assertEqual(told, grown, said)
        answer = solved(base.read_bytes(), most=MOST_SOLIDS)
        if answer.startswith("whole"):
            self.assertEqual(plain_answer(solved(made.text.encode(), made.decimals)), plain_answer(answer, factor), said)

    def drawn(
        self, chance: random.Random, views: "sheets.Views", folder: pathlib.Path, angle: str, left: bool
    ) -> tuple[pathlib.Path, list[str]]:
        its = sheets.mirrored(views) if (angle == "third") == left else views
        places = sheets.places_of(its, angle, left)
        scale = chance.choice(SCALES)
        version, unit = chance.choice(("R2000", "R2010", "R2018")), chance.choice((0, 1, 4))
        doc = sheets.new(version, unit)
        space = doc.modelspace()
        look, words = self.look(chance, doc, any(dashed for strokes in its.values() for dashed, _ in strokes))
        # Parts that are drawn this small are asked about, unless their unit is said.
        words += ["--unit", {1: "in", 4: "mm"}[unit]] if unit else []
        if chance.random() < 0.5:
            its = in_pieces(chance, its)
        if chance.random() < 0.3:
            self.blocks(doc, its, places, look, scale)
        else:
            sheets.draw(space, its, places, look, scale)
        scaled = {view: (scale * x, scale * y) for view, (x, y) in places.items()}
        sized = {view: [(dashed, moved_ends(ends, lambda at: scale * at)) for dashed, ends in strokes] for view, strokes in views.items()}
        if chance.random() < 0.5:
            sheets.dimensions(space, sized, scaled, chance.random() < 0.5, scale=scale)
        if chance.random() < 0.5:
            reach = scale * max(abs(x) + abs(y) for x, y in places.values()) + sum(max(sheets.size_of(its)) for its in sized.values()) + 150
            for margin in (0, 10):
                sheets.rectangle(space, -reach + margin, -reach + margin, reach - margin, reach - margin)
        file = folder / "sheet.dxf"
        doc.saveas(file)
        return file, words

    def look(self, chance: random.Random, doc: Any, any_hidden: bool) -> tuple["sheets.Look", list[str]]:
        kind = chance.randrange(4)
        if kind == 0:
            return sheets.by_linetype, []
        if kind == 1:
            return lambda view, dashed: {"layer": "HIDDEN" if dashed else "EDGES"}, []
        if kind == 2:
            return lambda view, dashed: {"color": 5 if dashed else 2}, ["--hidden", "color=5"]
        return lambda view, dashed: {"linetype": "ACAD_ISO02W100" if dashed else "CONTINUOUS", "layer": "A"}, []

    def blocks(self, doc: Any, views: "sheets.Views", places: dict[str, tuple[float, float]], look: "sheets.Look", scale: float) -> None:
        for number, (view, strokes) in enumerate(views.items()):
            block = doc.blocks.new(f"B{number}")
            for dashed, ends in strokes:
                block.add_line(*ends, dxfattribs=look(view, dashed))
            x, y = places[view]
            doc.modelspace().add_blockref(
                f"B{number}", (scale * x, scale * y), dxfattribs={"xscale": scale, "yscale": scale, "zscale": scale})


def plain_views(data: bytes, decimals: int) -> dict[str, list[pipeline.Whole]]:
    """The runs of a drawing's views in whole units, each from its least corner on; two drawings with the same ones have one answer."""
    views = {}
    for view, lines in views_of(lines_within(data)).items():
        whole = [(line.dashed, *(round(it * 10**decimals) for it in (*line.start, *line.end))) for line in lines]
        x, y = min(min(a, c) for _, a, _, c, _ in whole), min(min(b, d) for _, _, b, _, d in whole)
        runs: list[pipeline.Whole] = []
        for dashed, a, b, c, d in whole:
            at, low, high = (a - x, *sorted((b - y, d - y))) if a == c else (b - y, *sorted((a - x, c - x)))
            runs += [(bool(dashed), a == c, at, low, high)] if low < high else []
        views[view] = pipeline.plain(runs)
    return views


def moved_ends(ends: "sheets.Ends", move: Callable[[float], float]) -> "sheets.Ends":
    (a, b), (c, d) = ends
    return (move(a), move(b)), (move(c), move(d))


def in_pieces(chance: random.Random, views: "sheets.Views") -> "sheets.Views":
    """The same views with each line cut somewhere, and ends that are off by noise."""
    pieces: sheets.Views = {}
    for view, strokes in views.items():
        pieces[view] = []
        for dashed, (start, end) in strokes:
            at = chance.uniform(0.2, 0.8)
            middle = start[0] + at * (end[0] - start[0]), start[1] + at * (end[1] - start[1])
            for ends in ((start, middle), (end, middle)):
                pieces[view].append((dashed, moved_ends(ends, lambda at: at + chance.uniform(-1e-9, 1e-9))))
    return pieces
