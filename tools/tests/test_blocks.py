"""Where blocks are: what is read of recon's text, what is refused, and that recon tells those that the definitions give."""
import random
import unittest

from drafting.core.messages import Refused
from drafting.dxf.drawing import decimals_of, lines_within, missing_in, views_of
from drafting.projection.draw import grid_of, sheet_of
from drafting.projection.wireframe import thinned
from drafting.recon import blocks, process
from drafting.recon.answer import answer_of
from drafting.recon.blocks import OUTSIDE, Blocks, blocks_in

from . import logs, made
from .support import EXAMPLES, draft, needs_program

STEP = "blocks 2\nx 0.0 2.0 5.5\ny 0.0 1.0\nz 0.0 3.0 4.0\nrow 0 0\nrow 1 -\n"
DRAWINGS = 60


def told(data: bytes) -> Blocks:
    """What the program tells of a drawing."""
    lines = lines_within(data)
    words: list[object] = ["blocks", "--decimals", decimals_of(lines), *([process.TWO_VIEWS] if missing_in(views_of(lines)) else [])]
    return blocks_in(process.run(process.find(), words, data).text)


def by_cells(its: Blocks) -> dict[tuple[int, ...], int]:
    """The block of each cell that is in one."""
    return {cell: number for number, cells in enumerate(its.cells) for cell in its.grid.all_in(cells)}


class Texts(unittest.TestCase):
    def test_a_text_is_read(self) -> None:
        its = blocks_in(STEP)
        self.assertEqual(its.grid.cuts, [[0, 20, 55], [0, 10], [0, 30, 40]])
        self.assertEqual(by_cells(its), {(0, 0, 0): 0, (1, 0, 0): 0, (0, 0, 1): 1})
        self.assertEqual(its.full("10") | its.full("01"), its.full("11"))
        self.assertEqual(its.numbers.count(OUTSIDE), its.grid.count - 3)

    def test_a_mirror_turns_x_round(self) -> None:
        turned = blocks_in(STEP).turned_round()
        self.assertEqual(turned.grid.cuts, [[0, 35, 55], [0, 10], [0, 30, 40]])
        self.assertEqual(by_cells(turned), {(1, 0, 0): 0, (0, 0, 0): 0, (1, 0, 1): 1})

    def test_a_grid_without_cells(self) -> None:
        for text in ("blocks 0\nx 0\ny 0 1\nz 0 1\nrow\n", "blocks 0\nx 0 1\ny 0 1\nz 0\n"):
            its = blocks_in(text)
            self.assertEqual((its.count, its.cells, its.grid.has_cells()), (0, [], False))
        self.assertFalse(blocks.NONE.grid.has_cells())

    def test_other_texts_are_refused(self) -> None:
        for was, will in (("blocks 2", "blocks 3"), ("blocks 2", "block 2"), ("blocks 2", "blocks"), ("row 1 -", "row 1"), ("row 1 -", "row 2 -"),
                          ("row 1 -", "row 1 - -"), ("row 1 -\n", ""), ("row 1 -", "row 1 -\nrow 1 -"), ("x 0.0", "y 0.0"), ("5.5", "2.0"),
                          ("2.0", "two"), ("z 0.0 3.0 4.0\n", ""), ("row 0 0", "rows 0 0")):
            with self.subTest(will), self.assertRaisesRegex(Refused, "otherwise than it is known"):
                blocks_in(STEP.replace(was, will))
        with self.assertRaises(Refused):
            blocks_in("")

    def test_a_choice_has_a_bit_for_each_block(self) -> None:
        with self.assertRaisesRegex(Refused, "a choice of 3 blocks, and the drawing has 2"):
            blocks_in(STEP).full("101")


@needs_program()
class OfTheProgram(unittest.TestCase):
    def test_the_example(self) -> None:
        run = process.run(process.find(), ["blocks"], (EXAMPLES / "quartered_cube.dxf").read_bytes())
        self.assertEqual((run.status, run.text), (0, (EXAMPLES / "quartered_cube_blocks.txt").read_text()))

    def test_solids_fill_their_blocks(self) -> None:
        for name in ("quartered_cube", "eight_voids", "bracket", "row_of_three_pieces", "clevis", "pierced_plate", "two_cubes_along_an_edge"):
            its, answer = told((EXAMPLES / f"{name}.dxf").read_bytes()), answer_of((EXAMPLES / f"{name}.txt").read_text())
            self.assertEqual(its.count, int(answer.head.split()[-1]), name)
            for solid in answer.solids:
                self.assertTrue(its.are_of(solid), (name, solid.choice))
                self.assertFalse(its.are_of(solid._replace(choice=solid.choice.translate({48: 49, 49: 48}))))

    def test_they_are_those_of_the_definitions(self) -> None:
        chance = random.Random(80)
        for _ in range(DRAWINGS):
            cells = made.scattered(chance, (chance.randint(1, 4), chance.randint(1, 4), chance.randint(1, 4)), 0.6)
            data = made.file_of(made.drawn(cells, made.random_cuts(chance, cells))).encode()
            grid, its = thinned(grid_of(sheet_of(views_of(lines_within(data)), 0))), told(data)
            self.assertEqual((its.grid.cuts, by_cells(its)), (grid.cuts, logs.blocks_in(grid)), sorted(cells))

    def test_a_fault_is_told(self) -> None:
        ended = draft("stages", EXAMPLES / "bracket_cut.dxf", "blocks")
        self.assertEqual((ended.status, ended.out), (1, ""))
        self.assertIn("the drawing has a fault", ended.said)


if __name__ == "__main__":
    unittest.main()
