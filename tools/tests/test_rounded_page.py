"""Solids that are rounded back, in space: on the served page and in the file of `draft page`, in Chromium; what is drawn of them encloses
the volume that is told."""
import re
import unittest
from typing import Any

from drafting.core.messages import Refused

from .opened import PATIENCE, Opened
from .support import draft, needs_command, needs_program
from .test_chamfers import drilled_bracket
from .test_serve import needs_packages

try:
    from . import rounded_parts as parts
    from .rounded_parts import box, cylinder
    missing = ""
except Refused:
    missing = "apt-get install freecad-python3"

# The volume between the triangles of the shape that a tile shows, in units of the answer; nothing where it shows cells.
ENCLOSED = """(() => {
    const { shape } = viewer.tiles[0];
    if (!shape) return null;
    const corner = (at) => shape.points.slice(3 * at, 3 * at + 3);
    let six = 0;
    for (let at = 0; at < shape.triangles.length; at += 3) {
        const [a, b, c] = [0, 1, 2].map((more) => corner(shape.triangles[at + more]));
        six += a[0] * (b[1] * c[2] - b[2] * c[1]) + a[1] * (b[2] * c[0] - b[0] * c[2]) + a[2] * (b[0] * c[1] - b[1] * c[0]);
    }
    return six / 6;
})()"""
# What is drawn, and what is told of it.
PICTURE = "viewer.tiles[0].canvas.toDataURL()"
VOLUME = "document.querySelector('.solids .volume').textContent"


def plate() -> Any:
    """A plate with a hole and a boss with a hole of its own: nothing of it is the same on two sides."""
    return box(0, 0, 0, 50, 40, 8).cut(cylinder(2, (12, 10), 0, 8, 5)).fuse(cylinder(2, (34, 22), 8, 20, 12)).cut(cylinder(2, (34, 22), 0, 20, 7))


@unittest.skipIf(missing, missing)
@needs_packages
@needs_program()
@needs_command("chromium", "chromium")
class Shown(Opened):
    """What is shown of a part: its shape, and its volume as it is told."""

    def drawn(self, shape: Any, volume: str) -> None:
        self.file, self.shape, self.volume = self.folder / "plate.dxf", shape, volume
        parts.sheet_of(self.shape, self.file)

    def check_shown(self, name: str) -> None:
        """The solid is round; squared off it looks otherwise, and its volume stays that of the round one."""
        self.browser.until("viewer.state.how === 'whole' && viewer.tiles[0].scene !== null", PATIENCE)
        told = self.value(VOLUME)
        self.assertEqual(told.partition(" = ")[0], self.volume)
        last = float(re.findall(r"= ([\d,.]+)", told)[0].replace(",", ""))
        self.assertAlmostEqual(last, self.shape.Volume, 1)
        units = self.value("Number(viewer.model.per[0]) / Number(viewer.model.per[1])")
        enclosed = self.value(ENCLOSED) / units**3
        self.assertAlmostEqual(enclosed / self.shape.Volume, 1, 2)
        self.assertNotEqual(enclosed, self.shape.Volume)
        self.browser.settle()
        self.picture(name)
        was = self.value(PICTURE)
        self.value("document.querySelector('#squared').click()")
        self.browser.settle()
        self.assertIsNone(self.value(ENCLOSED))
        self.assertNotEqual(self.value(PICTURE), was)
        self.assertEqual(self.value(VOLUME), told)
        self.value("document.querySelector('#squared').click()")
        self.browser.settle()
        self.assertIsNotNone(self.value(ENCLOSED))


class Round(Shown):
    def setUp(self) -> None:
        super().setUp()
        # 50 by 40 by 8 less a hole of 5; a boss of 12 above, 12 high; and a hole of 7 through both.
        self.drawn(plate(), f"volume 16,000 + {-25 * 8 + 144 * 12 - 49 * 20} pi")

    def test_at_the_drafting_table(self) -> None:
        self.drop(self.file)
        self.check_shown("rounds_at_the_table")
        self.value("viewer.change({ large: 0 })")
        self.browser.settle()
        self.assertTrue(self.value("viewer.large.shape !== null"))
        self.value("viewer.change({ section: { axis: 1, at: 1 } })")
        self.browser.settle()
        self.assertTrue(self.value("viewer.large.shape === null"))

    def test_in_a_file(self) -> None:
        page = self.folder / "plate.html"
        page.write_text(draft("page", self.file).out)
        self.browser.visit(page.as_uri())
        self.check_shown("rounds_in_a_file")

    def test_of_an_answer_that_is_given(self) -> None:
        squared, answer = self.folder / "squared.dxf", self.folder / "answer.txt"
        # Its likeliest reading has no solid; the second one has.
        squared.write_text(draft("sheet", self.file, "--reading", 2).out)
        ended = draft("solve", squared, "--answer", answer)
        self.assertEqual(ended.status, 14, ended.said)
        page = self.folder / "given.html"
        page.write_text(draft("page", squared, answer).out)
        self.browser.visit(page.as_uri())
        self.check_shown("rounds_of_an_answer")


class Chamfered(Shown):
    def test_a_gusset_at_the_drafting_table(self) -> None:
        # 60 * 40 * 8 + 60 * 8 * 42 + 8 * 20 * 28 / 2, and holes of 16 * 8 and 9 * 8.
        self.drawn(drilled_bracket(), "volume 41,600 - 200 pi")
        self.drop(self.file)
        self.check_shown("a_gusset_at_the_table")
