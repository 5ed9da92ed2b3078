"""`draft stages`: what it draws of the quartered cube, whose views show every segment, counted by hand; that it draws just the stage
that is asked for; what it refuses."""
import pathlib
import re
import tempfile
import unittest

from .support import EXAMPLES, draft

CUBE = EXAMPLES / "quartered_cube.dxf"


class Stages(unittest.TestCase):
    def test_each_stage_of_the_quartered_cube_has_its_parts(self) -> None:
        """2 by 2 by 2 cells: 3 times 2 by 3 by 3 edges, 3 times 3 by 2 by 2 faces, 8 blocks with three sides that are seen."""
        told = {"grid": ("2 by 2 by 2 grid cells", {"grid": 54}), "wire": ("54 pseudo edges of 54 grid edges", {"grid": 54, "edge": 54}),
                "faces": ("36 virtual faces", {"grid": 54, "virtual": 36}), "blocks": ("8 blocks", {"top": 8, "front": 8, "left": 8})}
        for stage, (words, parts) in told.items():
            with self.subTest(stage):
                text = draft("stages", CUBE, stage).out
                self.assertIn(f">{words}</text>", text)
                found = re.findall(r'<path class="(\w+)"', text)
                self.assertEqual({kind: found.count(kind) for kind in found}, parts)

    def test_two_views_have_a_grid_and_one_has_none(self) -> None:
        """The step's front tells two cells along z, and its top two along y."""
        two = EXAMPLES / "sheets" / "step_of_two_views.dxf"
        self.assertIn(">1 by 2 by 2 grid cells</text>", draft("stages", two, "grid").out)
        with tempfile.TemporaryDirectory() as folder:
            one = pathlib.Path(folder, "one.dxf")
            one.write_text(two.read_text().replace("\nTOP\n", "\nNOTES\n"))
            ended = draft("stages", one, "grid")
        self.assertEqual(ended.status, 1)
        self.assertIn("no line on the layer", ended.said)


if __name__ == "__main__":
    unittest.main()
