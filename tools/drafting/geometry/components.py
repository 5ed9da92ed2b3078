"""Which boxes hang together: chains of boxes that meet. A box is its least x and y and its greatest x and y, in any one unit of length."""
from collections import defaultdict
from collections.abc import Sequence

Box = tuple[float, float, float, float]


class Components:
    """Numbers from 0 on in groups that are united step by step (a union-find)."""

    def __init__(self, count: int) -> None:
        self.parents = list(range(count))

    def root(self, at: int) -> int:
        while self.parents[at] != at:
            self.parents[at] = self.parents[self.parents[at]]
            at = self.parents[at]
        return at

    def unite(self, one: int, other: int) -> None:
        self.parents[self.root(one)] = self.root(other)

    def groups(self) -> list[list[int]]:
        """The groups in the order of their least numbers, the numbers of each rising."""
        found = defaultdict(list)
        for at in range(len(self.parents)):
            found[self.root(at)].append(at)
        return list(found.values())


def meet(a: Box, b: Box, tolerance: float) -> bool:
    """Whether two boxes have a point in common, or come nearer than the tolerance along each axis."""
    return a[0] <= b[2] + tolerance and b[0] <= a[2] + tolerance and a[1] <= b[3] + tolerance and b[1] <= a[3] + tolerance


def together(boxes: Sequence[Box], tolerance: float) -> list[list[int]]:
    """The numbers of boxes in groups, joined by chains of boxes that meet.

    A line upright sweeps the boxes from left to right. What it crosses is kept in as many rows as there are boxes under a root, so that a box
    is compared with what lies in its own rows alone: a column of 10,000 lines one above another takes as long as a row of them."""
    if not boxes:
        return []
    joined = Components(len(boxes))
    low, high = min(box[1] for box in boxes), max(box[3] for box in boxes)
    height = (high - low) / len(boxes) ** 0.5 or 1.0
    crossed: defaultdict[int, list[int]] = defaultdict(list)
    for at in sorted(range(len(boxes)), key=lambda number: boxes[number][0]):
        box = boxes[at]
        first, last = (int((y - low) // height) for y in (box[1] - abs(tolerance), box[3] + abs(tolerance)))
        for row in range(first, last + 1):
            crossed[row] = [other for other in crossed[row] if boxes[other][2] >= box[0] - tolerance]
            for other in crossed[row]:
                if meet(box, boxes[other], tolerance):
                    joined.unite(at, other)
            crossed[row].append(at)
    return joined.groups()
