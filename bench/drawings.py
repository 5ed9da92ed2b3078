"""The files that are measured: one of which nearly all is passed over, one of which all lines are kept, three drawings whose
grids are fine, and rows of pieces and scattered cells, of which much is searched."""
import itertools
import random
from collections.abc import Iterator, Sequence

MOST_BYTES = 16_777_216
MOST_LINES = 100_000
VIEWS = ("FRONT", "TOP", "SIDE")
# Three numbers along x, y and z: a place, a cell, or how many there are of something.
Cell = tuple[int, int, int]


def pairs(*members: tuple[int, object]) -> str:
    """The text of pairs: a code and a value each, on lines of their own."""
    return "".join(f"{code:>3}\n{value}\n" for code, value in members)


def line(layer: str, x0: int, y0: int, x1: int, y1: int, handle: str = "A0", linetype: str | None = None) -> str:
    """A LINE entity, with the marks that a drafting tool writes."""
    return pairs(
        (0, "LINE"), (5, handle), (330, "1F"), (100, "AcDbEntity"), (8, layer), *([(6, linetype)] if linetype else []),
        (100, "AcDbLine"), (10, f"{x0}.0"), (20, f"{y0}.0"), (30, "0.0"), (11, f"{x1}.0"), (21, f"{y1}.0"), (31, "0.0"),
    )


def rectangle(layer: str, x0: int, y0: int, x1: int, y1: int, linetype: str | None = None) -> str:
    """The four sides of a rectangle."""
    sides = [(x0, y0, x1, y0), (x0, y1, x1, y1), (x0, y0, x0, y1), (x1, y0, x1, y1)]
    return "".join(line(layer, *side, linetype=linetype) for side in sides)


def section(name: str, text: str) -> str:
    return pairs((0, "SECTION"), (2, name)) + text + pairs((0, "ENDSEC"))


def layer(name: str) -> str:
    return pairs(
        (0, "LAYER"), (5, "10"), (330, "2"), (100, "AcDbSymbolTableRecord"),
        (100, "AcDbLayerTableRecord"), (2, name), (70, 0), (62, 7), (6, "Continuous"),
    )


def note(number: int) -> str:
    """A TEXT entity on a layer of its own."""
    return pairs(
        (0, "TEXT"), (5, f"{number:X}"), (330, "1F"), (100, "AcDbEntity"), (8, "NOTES"), (100, "AcDbText"),
        (10, f"{number}.25"), (20, "80.5"), (30, "0.0"), (40, "2.5"), (1, f"NOTE {number}"), (100, "AcDbText"),
    )


def passed_over() -> str:
    """A file of the greatest size: sections, layers and entities that are passed over, and the unit cube."""
    header = section("HEADER", "".join(pairs((9, f"$VARIABLE{n}"), (40, f"{n}.5")) for n in range(100_000)))
    table = section("TABLES", pairs((0, "TABLE"), (2, "LAYER")) + "".join(layer(f"LAYER{n}") for n in range(20_000)) + pairs((0, "ENDTAB")))
    cube = "".join(rectangle(name, 0, 0, 1, 1) for name in VIEWS)
    ends = pairs((0, "SECTION"), (2, "ENTITIES")) + cube + pairs((0, "ENDSEC"), (0, "EOF"))
    room = MOST_BYTES - len(header) - len(table) - len(ends)
    entities = []
    number = 0
    while True:
        entity = note(number) if number % 2 else line("NOTES", number, number, number + 1, number, f"{number:X}")
        if len(entity) > room:
            break
        entities.append(entity)
        room -= len(entity)
        number += 1
    text = header + table + pairs((0, "SECTION"), (2, "ENTITIES")) + "".join(entities) + cube + pairs((0, "ENDSEC"), (0, "EOF"))
    return text + " " * (MOST_BYTES - len(text))


def kept() -> str:
    """As many lines as are kept, spread over the three views, level and upright, in no order; their box is too large."""
    lines = []
    for number in range(MOST_LINES):
        name = VIEWS[number % 3]
        at = number * 7_919 % 99_991
        start = number * 104_729 % 1_000_003
        stop = start + 1 + number % 17
        ends = (at, start, at, stop) if number % 2 else (start, at, stop, at)
        # A handle isn't 0.
        lines.append(line(name, *ends, f"{number + 1:X}"))
    return section("ENTITIES", "".join(lines)) + pairs((0, "EOF"))


def drawing(*views: str) -> str:
    """A file whose views these are."""
    return section("ENTITIES", "".join(views)) + pairs((0, "EOF"))


def lattices(*sizes: Cell) -> str:
    """Boxes along the diagonal of space, each 1 off the one before it. Each has so many voids in a row along each axis, unit
    cubes 1 off each other and off the box's faces. Those behind one another share a dashed square. Each void is a block, and so
    is what is left of a box."""

    def view(name: str, right: int, up: int) -> str:
        x, y, text = 0, 0, list[str]()
        for size in sizes:
            wide, tall = 2 * size[right] + 1, 2 * size[up] + 1
            text.append(rectangle(name, x, y, x + wide, y + tall))
            text += (
                rectangle(name, x + i, y + k, x + i + 1, y + k + 1, "DASHED") for k in range(1, tall, 2) for i in range(1, wide, 2)
            )
            x, y = x + wide + 1, y + tall + 1
        return "".join(text)

    return drawing(view("FRONT", 0, 2), view("TOP", 0, 1), view("SIDE", 1, 2))


def lattice(across: int, deep: int, high: int) -> str:
    """One such box."""
    return lattices((across, deep, high))


def combed(across: int, side: int, teeth: bool) -> str:
    """A box with so many voids in a row along each axis, cubes of this side that lie as far apart; and, if there are teeth, along
    each axis a row of unit cubes 1 off each other beside it, whose coordinates run through all of the box: each block then has
    many grid cells."""
    length = (2 * across + 1) * side
    solid: list[tuple[Sequence[int], Sequence[int]]] = [((0, 0, 0), (length,) * 3)]
    hidden: list[tuple[Sequence[int], Sequence[int]]] = [
        (at, [place + side for place in at]) for at in itertools.product(range(side, length, 2 * side), repeat=3)
    ]
    for axis in range(3) if teeth else ():
        for place in range(0, length, 2):
            least = [place if other == axis else length + 2 * axis + 1 for other in range(3)]
            solid.append((least, [one + 1 for one in least]))

    def view(name: str, right: int, up: int) -> str:
        return "".join(
            rectangle(name, least[right], least[up], most[right], most[up], linetype)
            for linetype, boxes in ((None, solid), ("DASHED", hidden))
            for least, most in boxes
        )

    return drawing(view("FRONT", 0, 2), view("TOP", 0, 1), view("SIDE", 1, 2))


def diagonal(cubes: int) -> str:
    """So many unit cubes on the diagonal of space, each 1 off the next."""

    def view(name: str) -> str:
        return "".join(rectangle(name, 2 * i, 2 * i, 2 * i + 1, 2 * i + 1) for i in range(cubes))

    return drawing(*map(view, VIEWS))


def one_box(side: int) -> str:
    """The outline of a cube in each view, two sides of which are solid and dashed by turns, unit by unit: each of them is a
    grid coordinate, while no edges are drawn but the cube's. No solid has these views, and the cube is the one block."""

    def units(name: str, i: int) -> str:
        linetype = "DASHED" if i % 2 else None
        return line(name, i, 0, i + 1, 0, linetype=linetype) + line(name, 0, i, 0, i + 1, linetype=linetype)

    def view(name: str) -> str:
        sides = line(name, 0, side, side, side) + line(name, side, 0, side, side)
        return "".join(units(name, i) for i in range(side)) + sides

    return drawing(*map(view, VIEWS))


def comb(side: int) -> str:
    """A spine along x = 0, from which slabs stand out at the odd heights, and on the diagonal of the topmost slab every other unit
    cube. The side is an odd number: so many grid cells it has along each axis. One solid has these views."""
    top = side - 1
    front = [line("FRONT", 0, 0, 1, 0), line("FRONT", 0, 0, 0, top), line("FRONT", 0, top, 1, top, linetype="DASHED")]
    above = [rectangle("TOP", 0, 0, side, side), line("TOP", 1, 0, 1, side, linetype="DASHED")]
    right = [line("SIDE", y, 0, y, top) for y in (0, side)] + [line("SIDE", top, top, side, top, linetype="DASHED")]
    for low in range(0, top, 2):
        front += (line("FRONT", 1, z, side, z) for z in (low + 1, low + 2))
        front += [line("FRONT", 1, low, 1, low + 1), line("FRONT", side, low + 1, side, low + 2)]
    right += (line("SIDE", 0, z, side, z) for z in range(top))
    right.append(line("SIDE", 0, top, top, top))
    for i in range(0, side, 2):
        # No edge is seen below the cube whose side goes on with the slab's, and one behind it.
        for name, view in (("FRONT", front), ("SIDE", right)):
            view += [line(name, at, top, at, side) for at in (i, i + 1)] + [line(name, i, side, i + 1, side)]
        above.append(rectangle("TOP", i, i, i + 1, i + 1))
    return drawing(*front, *above, *right)


# The pieces of a row, as `make` has them: the side of a full cube, and where its voids of 1 stand along each axis.
PIECES: dict[str, tuple[int, tuple[int, ...]]] = {"P": (1, ()), "V": (3, (1,)), "M": (5, (1, 3))}


def row(kinds: str) -> str:
    """Pieces along the diagonal of space, each 1 off the one before it. Their solids are those of each with those of each other:
    one for P and for V, 35 for M."""

    def view(name: str) -> str:
        at, text = 0, list[str]()
        for side, voids in map(PIECES.__getitem__, kinds):
            text.append(rectangle(name, at, at, at + side, at + side))
            text += (rectangle(name, at + i, at + k, at + i + 1, at + k + 1, "DASHED") for k in voids for i in voids)
            at += side + 1
        return "".join(text)

    return drawing(*map(view, VIEWS))


# For each view the axes to the right, upwards and away from the viewer, and whether depth counts along the last one.
FRAMES = {"FRONT": (0, 2, 1, True), "TOP": (0, 1, 2, False), "SIDE": (1, 2, 0, False)}


def styles_beside(after: Sequence[bool], before: Sequence[bool]) -> str | None:
    """The linetype of a line between two columns of cells, by whether each cell is full, from the nearest on; None of no line."""
    for depth, (one, other) in enumerate(zip(after, before)):
        if one != other:
            return "CONTINUOUS"
        if one:
            return "DASHED" if after[depth:] != before[depth:] else None
    return None


def solid(cells: set[Cell], side: int) -> str:
    """The drawing of unit cells within a cube of this side at 0, line by line, by the columns of cells that a view shows."""
    depths = range(side)

    def view(name: str) -> Iterator[str]:
        right, up, away, forward = FRAMES[name]

        def column(i: int, k: int) -> list[bool]:
            place = [0, 0, 0]
            place[right], place[up] = i, k
            full = []
            for place[away] in depths if forward else reversed(depths):
                full.append((place[0], place[1], place[2]) in cells)
            return full

        columns = {(i, k): column(i, k) for i, k in itertools.product(range(-1, side + 1), repeat=2)}
        for at, cell in itertools.product(range(side + 1), range(side)):
            upright = styles_beside(columns[at, cell], columns[at - 1, cell])
            level = styles_beside(columns[cell, at], columns[cell, at - 1])
            if upright:
                yield line(name, at, cell, at, cell + 1, linetype=upright)
            if level:
                yield line(name, cell, at, cell + 1, at, linetype=level)

    return drawing(*("".join(view(name)) for name in VIEWS))


def scattered(side: int, percent: int, seed: int) -> str:
    """The drawing of the cells of a cube of this side of which so many of a hundred are full, at random."""
    chance = random.Random(seed)
    along = range(side)
    cells = {cell for cell in itertools.product(along, along, along) if chance.randrange(100) < percent}
    return solid(cells, side)
