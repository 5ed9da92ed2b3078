"""A drawing's grid, and the block of each of its cells, as `recon blocks` tells them (docs/OUTPUT.md, "Blocks")."""
import argparse
import functools

from ..core.messages import Refused
from ..core.notes import Tell
from ..projection.cells import Grid
from ..solve import pipeline
from . import faults, process
from .answer import Solid, text_of

OUTSIDE = -1
# What is said of a text that the program doesn't write.
UNKNOWN = "recon tells blocks otherwise than it is known to"


class Blocks:
    """The grid, and for each of its places the number of the block that has the cell there, from 0, or OUTSIDE."""

    def __init__(self, grid: Grid, numbers: list[int], count: int) -> None:
        self.grid, self.numbers, self.count = grid, numbers, count

    @functools.cached_property
    def cells(self) -> list[int]:
        """The cells of each block, in their order, as numbers of bits of the grid."""
        places: list[list[int]] = [[] for _ in range(self.count)]
        for place, number in enumerate(self.numbers):
            if number != OUTSIDE:
                places[number].append(place)
        return list(map(bits_of, places))

    def full(self, choice: str) -> int:
        """The cells of a solid that is told by its choice."""
        if len(choice) != self.count:
            raise Refused(f"a choice of {len(choice)} blocks, and the drawing has {self.count}")
        full = 0
        for cells, bit in zip(self.cells, choice):
            full |= cells if bit == "1" else 0
        return full

    def are_of(self, solid: Solid) -> bool:
        """Whether a solid's faces enclose just the blocks of its choice."""
        corners = (corner for face in solid.faces for loop in face.loops for corner in loop)
        is_on_grid = all(at in ranks for corner in corners for at, ranks in zip(corner, self.grid.ranks))
        return is_on_grid and len(solid.choice) == self.count and self.grid.cells(solid) == self.full(solid.choice)

    def turned_round(self) -> "Blocks":
        """The blocks in a mirror, x turned round."""
        x, y, z = self.grid.cuts
        numbers: list[int] = []
        for start in range(0, len(self.numbers), len(x)):
            numbers += [*reversed(self.numbers[start:start + len(x) - 1]), OUTSIDE]
        return Blocks(Grid([[x[-1] - at for at in reversed(x)], y, z]), numbers, self.count)


# Those of a drawing without a cell.
NONE = Blocks(Grid([[0], [0], [0]]), [OUTSIDE], 0)


def bits_of(places: list[int]) -> int:
    """The number with these bits, of which the first is the least."""
    first = places[0] // 8
    data = bytearray(places[-1] // 8 - first + 1)
    for place in places:
        data[place // 8 - first] |= 1 << place % 8
    return int.from_bytes(data, "little") << 8 * first


# ---- the program's text

def blocks_in(text: str) -> Blocks:
    """What the program's text tells; refused where it is none."""
    try:
        head, x, y, z, *rows = text.removesuffix("\n").split("\n")
        word, count = head.split(" ")
        grid = Grid([cuts_in(line, letter) for line, letter in zip((x, y, z), "xyz")])
        numbers = numbers_in(rows, grid, int(count))
    except (KeyError, ValueError):
        raise Refused(UNKNOWN) from None
    if word != "blocks" or len(set(numbers) - {OUTSIDE}) != int(count):
        raise Refused(UNKNOWN)
    return Blocks(grid, numbers, int(count))


def cuts_in(line: str, letter: str) -> list[int]:
    """The coordinates of an axis, in units of their last decimal."""
    word, *told = line.split(" ")
    cuts = [int(at.replace(".", "")) for at in told]
    if word != letter or cuts != sorted(set(cuts)) or not cuts:
        raise ValueError
    return cuts


def numbers_in(rows: list[str], grid: Grid, count: int) -> list[int]:
    """The block of each place of the grid, by the rows of its cells."""
    wide, deep, high = map(len, grid.cuts)
    known = {"-": OUTSIDE, **{str(number): number for number in range(count)}}
    numbers = []
    if len(rows) != (high - 1) * (deep - 1):
        raise ValueError
    for at, row in enumerate(rows, 1):
        word, *told = row.split(" ")
        if word != "row" or len(told) != wide - 1:
            raise ValueError
        numbers += [*(known[number] for number in told), OUTSIDE]
        # Behind the last row of a layer there is one more, in which no cell is.
        numbers += [OUTSIDE] * wide if at % (deep - 1) == 0 else []
    return numbers + [OUTSIDE] * (wide * deep)


# ---- asking for it

def add_argument(parser: argparse.ArgumentParser) -> None:
    parser.add_argument("--blocks", metavar="BLOCKS", help="what recon blocks wrote for the drawing (else the program is run)")


def ask(arguments: argparse.Namespace, tell: Tell) -> pipeline.Asked:
    """Asks for the blocks of a drawing, or of what is drawn of a sheet; the limits are those of searches for its rounds. What is asked later on
    of a sheet that has sections reads these too."""
    without = {"nodes": None, "solids": None, "workers": None, "limits": pipeline.words_of(arguments)}
    its = argparse.Namespace(**{**vars(arguments), **without})
    try:
        return pipeline.ask(arguments.drawing, its, tell, ("blocks",))
    finally:
        arguments.sections = its.sections


def of(arguments: argparse.Namespace, data: bytes, lines: list[str], decimals: int) -> Blocks:
    """The blocks of a drawing: those that are given, or what the program says; refused where it has a fault."""
    if given := getattr(arguments, "blocks", None):
        return blocks_in(text_of(given))
    words = ["blocks", *pipeline.views_words(lines), *pipeline.decimals_words(("blocks",), decimals)]
    run = process.run(process.find(arguments.program), words, data, arguments.seconds)
    if run.status == process.FAULT:
        raise Refused("; ".join(faults.told(run.text.strip(), lines)))
    return blocks_in(run.text)
