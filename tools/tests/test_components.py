"""Groups of boxes that meet, compared with a search through all pairs, and how long many of them take."""
import itertools
import random
import time
import unittest

from drafting.geometry.components import Box, Components, meet, together


def by_pairs(boxes: list[Box], tolerance: float) -> list[list[int]]:
    """The same groups, by looking at each pair of boxes."""
    joined = Components(len(boxes))
    for one, other in itertools.combinations(range(len(boxes)), 2):
        if meet(boxes[one], boxes[other], tolerance):
            joined.unite(one, other)
    return joined.groups()


class Together(unittest.TestCase):
    def test_boxes_that_touch_are_one_group(self) -> None:
        rows: list[tuple[list[Box], float, list[list[int]]]] = [
            ([], 0, []),
            ([(0, 0, 1, 1)], 0, [[0]]),
            ([(0, 0, 1, 1), (1, 1, 2, 2), (3, 3, 4, 4)], 0, [[0, 1], [2]]),
            ([(0, 0, 1, 1), (1, 1, 2, 2)], -0.1, [[0], [1]]),
            ([(0, 0, 1, 1), (1.05, 0, 2, 1)], 0.1, [[0, 1]]),
            ([(0, 0, 9, 0), (0, 5, 9, 5), (0, 0, 0, 5)], 0, [[0, 1, 2]]),
            ([(0, 7, 9, 7), (0, 7.05, 9, 7.05)], 0.1, [[0, 1]]),
        ]
        for boxes, tolerance, wanted in rows:
            self.assertEqual(together(boxes, tolerance), wanted, boxes)

    def test_random_boxes_are_joined_as_by_pairs(self) -> None:
        chance = random.Random(7)
        for _ in range(300):
            places = [(chance.uniform(0, 40), chance.uniform(0, 40)) for _ in range(chance.randint(1, 60))]
            sizes = [(chance.choice([0, 1, 30]) * chance.random(), chance.choice([0, 1, 30]) * chance.random()) for _ in places]
            boxes = [(x, y, x + wide, y + high) for (x, y), (wide, high) in zip(places, sizes)]
            tolerance = chance.choice([0, 0.5, -0.2])
            self.assertEqual(together(boxes, tolerance), by_pairs(boxes, tolerance))

    def test_a_column_of_lines_takes_no_longer_than_a_row(self) -> None:
        lines: dict[str, list[Box]] = {
            "row": [(at, 0, at + 0.5, 0) for at in range(10_000)], "column": [(0, at, 9, at) for at in range(10_000)],
        }
        taken = {}
        for name, boxes in lines.items():
            begun = time.process_time()
            self.assertEqual(len(together(boxes, 0.1)), 10_000)
            taken[name] = time.process_time() - begun
        self.assertLess(taken["column"], 20 * taken["row"] + 1)
