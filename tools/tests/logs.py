"""Completeness logs by the plain definitions, for the tests of check_log.py: a writer of them, and what is wrong with one.

What two columns can draw is found from the edges by four cells and what hides them, step by step away from the viewer. The grid and its
faces are those of drafting/projection/wireframe.py, and its blocks what chains that pass no face reach.
"""
import functools
import itertools
import random
from collections.abc import Iterator
from typing import NamedTuple

from drafting.dxf.drawing import VIEWS, lines_within, views_of
from drafting.projection.draw import BLANK, DASHED, FRAMES, SOLID, Grid, axis_of, grid_of, sheet_of
from drafting.projection.wireframe import Box, places_of, pseudo_edges, thinned, virtual_faces

# What is known of a cell: it is empty, full, or still open.
Cell = int | None
# What was met on the way: the last two cells, whether both were full at some depth, and whether an edge was seen, and one hidden.
Way = tuple[int, int, bool, bool, bool]
MOST_LISTED = 65_536


class Demand(NamedTuple):
    """What lines of the grid demand: a style, of two columns of blocks, the nearest to the viewer first."""

    style: int
    one: tuple[int | None, ...]
    other: tuple[int | None, ...]


class Plain(NamedTuple):
    """A drawing's blocks, and the demand of each line of its grid, in their order."""

    blocks: int
    lines: dict[str, Demand]
    firsts: dict[Demand, str]


def blocks_in(grid: Grid) -> dict[tuple[int, ...], int]:
    """The block of each cell of a grid that is in one: numbered by their first cells, in the order z, y, x."""
    box = Box(grid.cuts)
    walls, inside = virtual_faces(box, pseudo_edges(grid, box)), box.inside(box.sizes)
    left = inside & ~box.reached(box.every & ~inside, box.every, walls)
    found: dict[tuple[int, ...], int] = {}
    _, row, layer = box.strides
    for number in itertools.count():
        if not left:
            return found
        block = box.reached(left & -left, left, walls)
        left &= ~block
        found |= {(at % row - 1, at % layer // row - 1, at // layer - 1): number for at in places_of(block)}
    return found


def plain_of(data: bytes) -> Plain:
    grid = thinned(grid_of(sheet_of(views_of(lines_within(data)), 0)))
    blocks, sizes = blocks_in(grid), [len(cut) - 1 for cut in grid.cuts]

    def column(view: str, right: int, up: int) -> tuple[int | None, ...]:
        frame = FRAMES[view]
        depths = range(sizes[frame.sight])
        if not (0 <= right < sizes[frame.right] and 0 <= up < sizes[frame.up]):
            return (None,) * len(depths)
        at = {frame.right: right, frame.up: up}
        found = [blocks.get(tuple({**at, frame.sight: depth}[axis] for axis in range(3))) for depth in depths]
        return tuple(found[::-1] if frame.sight_back else found)

    lines = {}
    for view, upright in itertools.product(VIEWS, (False, True)):
        for number in range(sizes[axis_of(view, not upright)] + 1):
            for cell in range(sizes[axis_of(view, upright)]):
                style = next(styles[cell] for row, styles in grid.panels.items() if row == (view, upright, number))
                sides = ((it, cell) if upright else (cell, it) for it in (number - 1, number))
                lines[f"{view.lower()} {'u' if upright else 'l'} {number} {cell}"] = Demand(style, *(column(view, *it) for it in sides))
    firsts: dict[Demand, str] = {}
    for name, demand in lines.items():
        firsts.setdefault(demand, name)
    return Plain(len(set(blocks.values())), lines, firsts)


# ---- what columns can draw

@functools.cache
def onwards(ways: frozenset[Way], one: Cell, other: Cell) -> frozenset[Way]:
    """The ways one step farther from the viewer, where two cells are so, or open: the edge before them is none where, across one of
    the two planes through it, both pairs of its four cells agree; it is hidden where nearer to the viewer both cells were full."""
    found = set()
    for last, least, covered, seen, hidden in ways:
        for a, b in itertools.product([0, 1] if one is None else [one], [0, 1] if other is None else [other]):
            is_edge = not (a == last and b == least) and not (a == b and last == least)
            found.add((a, b, covered or a == b == 1, seen or is_edge and not covered, hidden or is_edge and covered))
    return frozenset(found)


@functools.cache
def styles_of(one: tuple[Cell, ...], other: tuple[Cell, ...]) -> frozenset[int]:
    """The styles that some columns draw, whose cells are so or open."""
    ways = frozenset({(0, 0, False, False, False)})
    for a, b in zip(one, other):
        ways = onwards(ways, a, b)
    return frozenset(SOLID if seen else DASHED if hidden else BLANK for _, _, _, seen, hidden in onwards(ways, 0, 0))


Known = tuple[Cell, ...]


def cells_of(known: Known, column: tuple[int | None, ...]) -> tuple[Cell, ...]:
    return tuple(0 if block is None else known[block] for block in column)


def is_met(known: Known, demand: Demand) -> bool:
    return demand.style in styles_of(cells_of(known, demand.one), cells_of(known, demand.other))


def excluded(known: Known, demand: Demand) -> set[tuple[int, int]]:
    """The open blocks and the values that the demand leaves no columns for, in some cell beside it."""
    found: set[tuple[int, int]] = set()
    for column, cells, beside in (
        (demand.one, cells_of(known, demand.one), cells_of(known, demand.other)),
        (demand.other, cells_of(known, demand.other), cells_of(known, demand.one)),
    ):
        for depth, block in enumerate(column):
            if block is None or known[block] is not None:
                continue
            for value in (0, 1):
                if demand.style not in styles_of((*cells[:depth], value, *cells[depth + 1:]), beside):
                    found.add((block, value))
    return found


# ---- writing

def with_block(known: Known, block: int, value: int) -> Known:
    return (*known[:block], value, *known[block + 1:])


def tree(plain: Plain, known: Known, chance: random.Random | None) -> Iterator[str]:
    """The lines of a tree, as `recon prove` writes them, or by chance in some other order."""
    met = [demand for demand in plain.firsts if not is_met(known, demand)]
    if met and (chance is None or chance.random() < 0.8 or None not in known):
        yield f"fail {plain.firsts[met[0] if chance is None else chance.choice(met)]}"
        return
    if None not in known:
        yield "solid"
        return
    demands = list(plain.firsts)
    for demand in demands if chance is None else chance.sample(demands, min(len(demands), 4)):
        if values := sorted(excluded(known, demand)):
            block, value = values[0] if chance is None else chance.choice(values)
            yield f"force {block} {1 - value} {plain.firsts[demand]}"
            yield from tree(plain, with_block(known, block, 1 - value), chance)
            return
    open_ones = [block for block, value in enumerate(known) if value is None]
    block = open_ones[0] if chance is None else chance.choice(open_ones)
    yield f"split {block}"
    for value in (1, 0):
        yield from tree(plain, with_block(known, block, value), chance)


def log_of(plain: Plain, chance: random.Random | None = None) -> str:
    lines = list(tree(plain, (None,) * plain.blocks, chance))
    return "\n".join([f"log 1 blocks {plain.blocks}", *lines, f"end {lines.count('solid')}", ""])


def choices_of(plain: Plain) -> list[str]:
    """The choices of all matching solids, in the stated order: each block is tried full and then empty."""
    found: list[Known] = [()]
    for _ in range(plain.blocks):
        found = [(*known, value) for known in found for value in (1, 0)
                 if all(is_met((*known, value) + (None,) * (plain.blocks - len(known) - 1), demand) for demand in plain.firsts)]
    return ["".join(map(str, known)) for known in found if all(is_met(known, demand) for demand in plain.firsts)]


# ---- judging

def number_of(word: bytes) -> int:
    if not word.isdigit() or len(word) > 10 or str(int(word)).encode() != word:
        raise ValueError
    return int(word)


def entry_of(line: bytes) -> tuple[str, int, int, str]:
    """A line of a tree as its word, block, value and place."""
    word, *rest = line.split(b" ")
    if word in (b"fail", b"force"):
        view, way, at, cell = rest[-4:]
        if view not in (b"front", b"top", b"side") or way not in (b"l", b"u") or len(rest) != (4 if word == b"fail" else 6):
            raise ValueError
        place = f"{view.decode()} {way.decode()} {number_of(at)} {number_of(cell)}"
        if word == b"force" and rest[1] not in (b"0", b"1"):
            raise ValueError
        return word.decode(), *((number_of(rest[0]), int(rest[1])) if word == b"force" else (0, 0)), place
    if word == b"split" and len(rest) == 1:
        return "split", number_of(rest[0]), 1, ""
    if word == b"solid" and not rest:
        return "solid", 0, 0, ""
    raise ValueError


def wrong_with(plain: Plain, known: Known, listed: int, word: str, block: int, value: int, place: str) -> str:
    """What is wrong with an entry, or nothing."""
    demand = plain.lines.get(place)
    if word in ("split", "force") and (block >= plain.blocks or known[block] is not None):
        return "G2 BadBlock"
    if word == "fail" and (demand is None or is_met(known, demand)):
        return "G3 Unproved"
    if word == "force" and (demand is None or (block, 1 - value) not in excluded(known, demand)):
        return "G3 Unproved"
    if word == "solid" and (None in known or not all(is_met(known, it) for it in plain.firsts)):
        return "G4 Unsolid"
    return "G5 TooMany" if word == "solid" and listed == MOST_LISTED else ""


def verdict(plain: Plain, log: bytes) -> str:
    """What `recon check` writes of a log."""
    lines = log.split(b"\n")
    if lines[-1] == b"":
        lines.pop()
    found: list[str] = []
    coming: list[Known] = [(None,) * plain.blocks]
    for at, line in enumerate(lines, 1):
        if at == 1:
            if line != b"log 1 blocks %d" % plain.blocks:
                return "log G1 BadLine line 1\n"
        elif coming:
            known = coming.pop(0)
            try:
                word, block, value, place = entry_of(line)
            except ValueError:
                return f"log G1 BadLine line {at}\n"
            if why := wrong_with(plain, known, len(found), word, block, value, place):
                return f"log {why} line {at}\n"
            if word == "solid":
                found.append("".join(map(str, known)))
            values = {"split": (1, 0), "force": (value,)}.get(word, ())
            coming = [with_block(known, block, it) for it in values] + coming
        else:
            try:
                end, number = line.split(b" ")
                told = number_of(number)
            except ValueError:
                return f"log G1 BadLine line {at}\n"
            if end != b"end" or told != len(found):
                return f"log {'G1 BadLine' if end != b'end' else 'G6 BadCount'} line {at}\n"
            if at < len(lines):
                return f"log G8 Long line {at + 1}\n"
            return "".join([f"yes {told}\n", *(f"choice {it}\n" for it in sorted(found, reverse=True))])
    return f"log G7 Short line {len(lines) + 1}\n"
