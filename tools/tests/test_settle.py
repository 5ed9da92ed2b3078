"""What `draft settle` says of drawings that several solids have."""
import pathlib
import random
import tempfile
import unittest

from drafting.dxf.drawing import VIEWS, entries_of, lines_of, views_of, written
from drafting.projection.draw import panels_of
from drafting.recon import process

from .made import in_space
from .support import EXAMPLES, draft, needs_program

# The eight voids, not as deep: 35 solids, of which a view from behind tells some apart.
SHALLOW = {
    "FRONT": "S 0 0 5 5; D 1 1 2 2; D 3 1 4 2; D 1 3 2 4; D 3 3 4 4",
    "TOP": "S 0 0 5 4; D 1 1 2 2; D 3 1 4 2; D 1 3 2 4; D 3 3 4 4",
    "SIDE": "S 0 0 4 5; D 1 1 2 2; D 3 1 4 2; D 1 3 2 4; D 3 3 4 4",
}
# What a view from behind shows of its first solid, whose first choice is 110010110, and of three others.
REAR = "S 0 0 5 5; S 3 1 4 2; S 1 3 2 4; D 1 1 2 2; D 3 3 4 4"

Segment = tuple[bool, tuple[int, int], tuple[int, int]]


def rectangles(text: str) -> list[Segment]:
    """The sides of rectangles, each told by its style and two corners."""
    sides: list[Segment] = []
    for row in text.split(";"):
        style, *numbers = row.split()
        x0, y0, x1, y1 = map(int, numbers)
        for ends in (((x0, y0), (x1, y0)), ((x0, y1), (x1, y1)), ((x0, y0), (x0, y1)), ((x1, y0), (x1, y1))):
            sides.append((style == "D", *ends))
    return sides


def units(lines: list[Segment]) -> set[tuple[bool, tuple[int, int], tuple[int, int]]]:
    """The unit segments that lines cover, moved to least coordinates 0."""
    left, low = (min(end[axis] for _, *ends in lines for end in ends) for axis in (0, 1))
    found = set()
    for dashed, (x0, y0), (x1, y1) in lines:
        (x0, x1), (y0, y1) = sorted((x0 - left, x1 - left)), sorted((y0 - low, y1 - low))
        found |= {(dashed, (x, y0), (x + 1, y0)) for x in range(x0, x1)} | {(dashed, (x0, y), (x0, y + 1)) for y in range(y0, y1)}
    return found


class Views(unittest.TestCase):
    def test_a_view_from_the_other_side_shows_the_solid_turned_round(self) -> None:
        """LEFT, REAR and BOTTOM of a solid are SIDE, FRONT and TOP of the solid turned by half a turn, mirrored where the view is."""
        rng = random.Random(66)
        turned = {"LEFT": ("SIDE", (0, 1)), "REAR": ("FRONT", (0, 1)), "BOTTOM": ("TOP", (1, 2))}
        for _ in range(100):
            sizes = (rng.randint(1, 4), rng.randint(1, 4), rng.randint(1, 4))
            cells = [(x, y, z) for x in range(sizes[0]) for y in range(sizes[1]) for z in range(sizes[2]) if rng.random() < 0.5]
            for view, (other, axes) in turned.items():
                round_ = [in_space(sizes[at] - 1 - it if at in axes else it for at, it in enumerate(cell)) for cell in cells]
                wanted = {(row.upright, row.number): styles for row, styles in panels_of(round_, sizes, other).items()}
                found = {(row.upright, row.number): styles for row, styles in panels_of(cells, sizes, view).items()}
                self.assertEqual(found, wanted, (view, sizes, cells))


@needs_program()
class Settle(unittest.TestCase):
    def setUp(self) -> None:
        folder = tempfile.TemporaryDirectory()
        self.addCleanup(folder.cleanup)
        self.file = pathlib.Path(folder.name) / "shallow.dxf"
        self.out = pathlib.Path(folder.name) / "out.dxf"
        self.file.write_text(written({view: rectangles(text) for view, text in SHALLOW.items()}, 0))

    def test_a_view_from_behind_leaves_four_of_the_eight_voids(self) -> None:
        ended = draft("settle", self.file, "--meant", 1, "--by", "REAR", "--write", self.out)
        self.assertEqual(ended.status, 0, ended.said)
        self.assertRegex(ended.out, r"(?m)^REAR +7 +7 +4$")
        self.assertRegex(ended.out, r"(?m)^LEFT +1 +35 +35$")
        self.assertIn("No further views tell solid 1 alone: with REAR 4 solids are left.", ended.out)
        self.assertIn("The solids that are left: 1, 3, 25, 27.", ended.out)
        # Behind the two squares that REAR shows solid, x turned round, lie two voids, which are told by front and section alone.
        self.assertIn("  block 1, within x 1 to 2, y 1 to 2, z 1 to 2: full in 2 of 4\n", ended.out)
        self.assertIn("  block 6, within x 3 to 4, y 1 to 2, z 3 to 4: full in 2 of 4\n", ended.out)
        self.assertIn("It would be settled by a section across y between 1 and 2 (area).", ended.out)
        self.assertIn("Checked: of the drawing with these lines the program lists 4 solids, just those.", ended.out)
        rear = [
            (values[6] == "HIDDEN", (int(values[10]), int(values[20])), (int(values[11]), int(values[21])))
            for values in (entry.values for entry in entries_of(lines_of(str(self.out)))) if values.get(8) == "REAR"
        ]
        self.assertEqual(units(rear), units(rectangles(REAR)))

    def test_the_added_lines_leave_the_rest_as_it_is(self) -> None:
        draft("settle", self.file, "--meant", 1, "--write", self.out)
        for view in VIEWS:
            before, after = (views_of(lines_of(str(file)))[view] for file in (self.file, self.out))
            self.assertEqual(before, after)
        self.assertEqual(process.run(process.find(), ["solve"], self.out.read_bytes()).status, 0)

    def test_one_view_tells_the_first_of_three(self) -> None:
        ended = draft("settle", EXAMPLES / "quartered_cube.dxf", "--answer", EXAMPLES / "quartered_cube.txt", "--meant", 1)
        self.assertEqual(ended.status, 0, ended.said)
        self.assertIn("Solid 1 is told by LEFT alone.", ended.out)

    def test_nothing_to_settle_and_no_such_solid(self) -> None:
        ended = draft("settle", EXAMPLES / "bracket.dxf", "--answer", EXAMPLES / "bracket.txt")
        self.assertEqual((ended.status, ended.out), (0, "Nothing is to be settled: 1 solid listed.\n"))
        ended = draft("settle", EXAMPLES / "quartered_cube.dxf", "--answer", EXAMPLES / "quartered_cube.txt", "--meant", 4)
        self.assertEqual((ended.status, ended.out), (1, ""))


if __name__ == "__main__":
    unittest.main()
