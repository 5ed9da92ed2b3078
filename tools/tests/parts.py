"""Random parts: boxes that are added and cut off, and their cells."""
import itertools
import random

Point = tuple[int, ...]
Box = tuple[str, Point, Point]


def boxes_of(chance: random.Random) -> list[Box]:
    """Boxes to be added and cut off, on a small grid; about half of the parts begin with one that fills it."""
    size = chance.randint(3, 6)
    side = chance.choice((1, 1, 2, 3))
    full = chance.random() < 1 / 2
    boxes: list[Box] = [("add", (0, 0, 0), (size, size, size))] if full else []
    for _ in range(chance.randint(6, 30) if side == 1 else chance.randint(3, 12)):
        low = tuple(chance.randrange(size) for _ in range(3))
        high = tuple(min(size, at + chance.randint(1, side)) for at in low)
        boxes.append(("add" if not boxes or not full and chance.random() < 3 / 4 else "cut", low, high))
    return boxes


def cells_of(boxes: list[Box]) -> set[Point]:
    cells: set[Point] = set()
    for word, low, high in boxes:
        box = set(itertools.product(*map(range, low, high)))
        cells = cells | box if word == "add" else cells - box
    return cells


def moved_to_zero(cells: set[Point]) -> set[Point]:
    least = [min(at) for at in zip(*cells)]
    return {tuple(at - low for at, low in zip(cell, least)) for cell in cells}
