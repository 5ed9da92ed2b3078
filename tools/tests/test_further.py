"""Further views, LEFT, REAR and BOTTOM, through all that reads, shows and writes drawings: the program lists just the solids that show
them, and the commands go by its numbers."""
import itertools
import json
import pathlib
import random
import re
import tempfile
import unittest

from drafting.core.messages import Refused
from drafting.dxf.drawing import FURTHER, Origin, further_in, lines_of, lines_within, places_of, views_of, written
from drafting.explain import settle
from drafting.projection.cells import grid_round
from drafting.projection.draw import SOLID, Shown, further_of, shown_of, strokes_shown
from drafting.recon import process
from drafting.recon.answer import answer_of
from drafting.recon.many import entity, with_entities
from drafting.render import html
from drafting.render.html import Units

from .made import drawn, lines_of_runs, pierced, random_cuts, random_solid, runs
from .support import EXAMPLES, draft, needs_command, needs_module, needs_program
from .test_settle import REAR, SHALLOW, rectangles

FROM_LEFT = EXAMPLES / "quartered_cube_from_left.dxf"
DRAWINGS = 150
FREECAD = "/usr/lib/freecad-python3/lib"


def sifted(answer: str, further: dict[str, Shown]) -> list[str]:
    """The choices of those solids of an answer that show further views, by the definitions."""
    found = []
    for solid in answer_of(answer).solids:
        grid = grid_round([solid])
        cells = list(grid.all_in(grid.cells(solid)))
        if all(shown_of(cells, grid.cuts, view) == its for view, its in further.items()):
            found.append(solid.choice)
    return found


def choices_in(answer: str) -> list[str]:
    return re.findall(r"(?m)^solid \d+ choice ([01]+) ", answer)


def changed(text: str, before: str, after: str) -> bytes:
    """A drawing of which one line of LEFT, told by its ends, is drawn otherwise."""
    ends = "".join(f"{code}\n{value}\n" for code, value in zip((10, 20, 30, 11, 21, 31), before.split()))
    line = "0\nLINE\n8\nLEFT\n6\n{}\n" + ends
    style = next(style for style in ("HIDDEN", "CONTINUOUS") if line.format(style) in text)
    return text.replace(line.format(style), line.format(after), 1).encode()


class InAFolder(unittest.TestCase):
    def setUp(self) -> None:
        folder = tempfile.TemporaryDirectory()
        self.addCleanup(folder.cleanup)
        self.file, self.out = (pathlib.Path(folder.name) / name for name in ("drawing.dxf", "out.dxf"))

    def voids(self) -> None:
        """The eight voids, not as deep, with a view from behind: 4 solids of 35, which are 1, 3, 25 and 27 of those."""
        self.file.write_text(written({**{view: rectangles(text) for view, text in SHALLOW.items()}, "REAR": rectangles(REAR)}, 0))


class Read(InAFolder):
    def test_what_is_written_is_read(self) -> None:
        self.voids()
        lines = lines_of(str(self.file))
        self.assertEqual(further_in(lines), ["REAR"])
        self.assertEqual(further_in(lines_of(str(EXAMPLES / "bracket.dxf"))), [])
        self.assertIn("LAYER\n2\nREAR\n", self.file.read_text())
        # The same view anywhere on the sheet, and in pieces drawn twice, shows the same; one line dashed for solid doesn't.
        once = further_of(views_of(lines), 0)["REAR"]
        moved = [(dashed, (x + 7, y - 90), (z + 7, w - 90)) for dashed, (x, y), (z, w) in rectangles(REAR)] * 2
        other = [(not moved[5][0], *moved[5][1:]), *moved[:5], *moved[6:len(moved) // 2]]
        for strokes, is_same in ((moved, True), (moved[1:], True), (other, False)):
            views = views_of(lines_within(written({"REAR": strokes}, 0).encode()))
            self.assertEqual(further_of(views, 0)["REAR"] == once, is_same)

    def test_places_of_the_views(self) -> None:
        """On the picture TOP stands above FRONT and BOTTOM below it, LEFT, FRONT, SIDE and REAR in a row."""
        views = {view: rectangles(f"S 0 0 {width} {height}") for view, width, height in
                 (("FRONT", 6, 4), ("TOP", 6, 3), ("SIDE", 3, 4), ("LEFT", 3, 4), ("REAR", 6, 4), ("BOTTOM", 6, 3))}
        told = html.views_told(views_of(lines_within(written(views, 0).encode())), Units(0, Origin()))
        boxes = {}
        for view in views:
            points = [tuple(map(float, point)) for ends in re.findall(rf'd="M([^"]*)" data-told="{view},', told)
                      for point in re.findall(r"([\d.-]+),([\d.-]+)", ends)]
            boxes[view] = [pick(along) for pick in (min, max) for along in zip(*points)]
        for one, other in itertools.pairwise(("LEFT", "FRONT", "SIDE", "REAR")):
            self.assertLess(boxes[one][2], boxes[other][0])
            self.assertEqual(boxes[one][1::2], boxes[other][1::2])
        for one, other in itertools.pairwise(("TOP", "FRONT", "BOTTOM")):
            self.assertLess(boxes[one][3], boxes[other][1])
            self.assertEqual(boxes[one][0::2], boxes[other][0::2])
        self.assertTrue(all(0 < at < 342 for box in boxes.values() for at in box), boxes)


@needs_program()
class Solids(InAFolder):
    def test_random_drawings(self) -> None:
        """Of each random drawing, with some of its solid's further views or with those of another solid."""
        rng, counts = random.Random(18), [0, 0, 0]
        for number in range(DRAWINGS):
            if number % 2:
                cells, other = (random_solid(rng, rng.randint(2, 5), rng.randint(1, 8)) for _ in range(2))
            else:
                cells, other = pierced(rng), pierced(rng)
            cuts = random_cuts(rng, cells | other)
            grid = drawn(cells, cuts)
            main = lines_of_runs(grid, runs(grid))
            places = places_of(cuts[0][-1], cuts[1][-1], cuts[2][-1], 10)
            views = {view: strokes_shown(shown_of(other if rng.random() < 0.1 else cells, cuts, view), *places[view])
                     for view in rng.sample(FURTHER, rng.randint(1, 3))}
            words = ["solve", "--solids", 200]
            both = written({**main, **views}, 0).encode()
            alone, beside = (process.run(process.find(), words, data).text for data in (written(main, 0).encode(), both))
            self.assertEqual(beside.startswith("whole"), alone.startswith("whole"))
            if alone.startswith("whole"):
                wanted = sifted(alone, further_of(views_of(lines_within(both)), 0))
                with self.subTest(number=number):
                    self.assertEqual(choices_in(beside), wanted, both)
                    self.assertEqual(beside.split()[1:6], [str(len(wanted)), *alone.split()[2:6]])
                    if number % 5 == 0:
                        paged = process.run(process.find(), [*words, "--pages", "--workers", 3], both).text
                        self.assertEqual(sorted(re.findall(r"(?m)^choice ([01]+)$", paged)), sorted(wanted))
                        self.assertEqual(paged[paged.index("whole "):], beside)
                counts[0 if not wanted else 1 if len(wanted) < len(choices_in(alone)) else 2] += 1
        self.assertGreater(min(counts), DRAWINGS // 30, "no solids, some ruled out, none ruled out")

    def test_the_numbers_of_solids_are_those_with_the_further_views(self) -> None:
        self.voids()
        for number, volume in enumerate((96, 95, 95, 94), 1):
            ended = draft("stl", self.file, number)
            self.assertEqual((ended.status, draft("triangles", volume, data=ended.out.encode()).status), (0, 0), ended.said)
        ended = draft("stl", self.file, 5)
        self.assertEqual((ended.status, ended.out), (1, ""))
        self.assertIn("there is no solid 5: 4 solids of this drawing", ended.said)

    def test_clean_keeps_further_views(self) -> None:
        self.voids()
        ended = draft("clean", self.file, "--output", self.out)
        self.assertEqual(ended.status, 0, ended.said)
        self.assertEqual(*(further_of(views_of(lines_of(str(file))), 0) for file in (self.file, self.out)))
        self.assertEqual(*(process.run(process.find(), ["solve"], file.read_bytes()).text for file in (self.file, self.out)))

    def test_logs_are_of_the_three_main_views(self) -> None:
        ended = draft("prove", FROM_LEFT)
        self.assertEqual(ended.status, 0, ended.said)
        self.assertIn("warning: logs are of the three main views: what LEFT would rule out isn't asked", ended.said)
        self.assertEqual(draft("check", FROM_LEFT, "-", data=ended.out.encode()).out, "Yes: 3 solids have these views, and no others.\n")

    @needs_module("ezdxf", "python3-ezdxf")
    def test_layers_that_name_a_view_otherwise(self) -> None:
        self.file.write_text(FROM_LEFT.read_text().replace("\nLEFT\n", "\nLEFT_VIEW\n"))
        ended = draft("solve", self.file)
        self.assertIn("Unique: one solid matches this drawing.", ended.out)
        self.assertIn("the views by the names of layers or blocks: FRONT, LEFT, SIDE, TOP", ended.said)

    def test_events_and_page_have_the_view(self) -> None:
        events = [json.loads(line) for line in draft("follow", FROM_LEFT).out.splitlines()]
        self.assertIn('data-told="LEFT, ', next(event["html"] for event in events if event["kind"] == "drawing"))
        self.assertIn("One solid matches this drawing.", next(event["html"] for event in events if event["kind"] == "end"))

    def test_what_settle_says_is_checked(self) -> None:
        found = process.run(process.find(), ["solve"], (EXAMPLES / "quartered_cube.dxf").read_bytes()).text
        faces = {solid.choice: solid.faces for solid in answer_of(found).solids}
        with self.assertRaisesRegex(Refused, "lists other solids than the 1 that are left: whole 1 "):
            settle.checked(FROM_LEFT.read_text(), process.find(), [], [faces["10010110"]], 60)
        self.assertIn("just that.", settle.checked(FROM_LEFT.read_text(), process.find(), [], [faces["10110110"]], 60))


@needs_program()
class Why(InAFolder):
    def test_what_the_nearest_solid_shows_otherwise(self) -> None:
        self.file.write_bytes(changed(FROM_LEFT.read_text(), "-12 1 0 -11 1 0", "CONTINUOUS"))
        ended = draft("why", self.file)
        self.assertEqual(ended.status, 0, ended.said)
        rows = ended.out.splitlines()
        self.assertEqual(rows[0], "No solid has these views. 3 solids have the three main views; of these 0 have LEFT.")
        self.assertEqual(rows[1], "Nearest is solid 1 of them, for which there would have to be drawn otherwise:")
        self.assertRegex(rows[2], r"^  LEFT \(-12, 1\) to \(-11, 1\) \(line \d+ of the file\): drawn solid; the solid shows dashed$")
        self.assertEqual(rows[3:], ["  so drawn, the program lists 1 solid"])

    def test_a_further_view_of_another_part(self) -> None:
        corners = [("0", "0"), ("2", "0"), ("2", "2"), ("0", "2"), ("0", "0")]
        square = "".join(entity("REAR", SOLID, *ends) for ends in itertools.pairwise(corners))
        self.file.write_bytes(with_entities(FROM_LEFT.read_bytes(), [square]))
        rows = draft("why", self.file).out.splitlines()
        self.assertEqual(rows[0], "No solid has these views. 3 solids have the three main views; of these 1 has LEFT, 0 have REAR.")
        self.assertTrue(all(re.match(r"  REAR .*: not drawn; the solid shows (solid|dashed)$", row) for row in rows[2:-1]), rows)
        self.assertEqual(rows[-1], "  so drawn, the program lists 1 solid")

    def test_the_three_main_views_come_first(self) -> None:
        lines = FROM_LEFT.read_text().partition("0\nLINE\n8\nLEFT\n")
        left = (lines[1] + lines[2]).partition("0\nENDSEC\n")[0]
        self.file.write_bytes(with_entities((EXAMPLES / "quartered_cube_half_hidden.dxf").read_bytes(), [left]))
        ended = draft("why", self.file)
        self.assertIn("Its three main views alone have none: LEFT is left out here.\n", ended.out)
        self.assertIn("TOP (1, 1) to (1, 2) (line 221 of the file): drawn dashed; solid would give 3 solids\n", ended.out)


@needs_command("clingo", "gringo")
class Judged(InAFolder):
    def test_solids_without_the_further_view_are_refused(self) -> None:
        self.out.write_text((EXAMPLES / "quartered_cube.txt").read_text())
        ended = draft("judge", FROM_LEFT, self.out)
        self.assertEqual((ended.status, ended.out), (1, ""))
        self.assertIn("solid 2 doesn't have these views", ended.said)
        ended = draft("judge", EXAMPLES / "quartered_cube.dxf", FROM_LEFT.with_suffix(".txt"))
        self.assertIn("2 solids that clingo finds are not in the answer", ended.said)


@needs_module("FreeCAD", "freecad-python3", FREECAD)
class FromFreeCAD(InAFolder):
    def test_further_views_of_a_part(self) -> None:
        words = [word for view in FURTHER for word in ("--further", view)]
        ended = draft("views", EXAMPLES / "clevis.part", *words, "--output", self.file)
        self.assertEqual(ended.status, 0, ended.said)
        solid = answer_of((EXAMPLES / "clevis.txt").read_text()).solids[0]
        grid = grid_round([solid])
        wanted = {view: shown_of(list(grid.all_in(grid.cells(solid))), grid.cuts, view) for view in FURTHER}
        self.assertEqual(further_of(views_of(lines_of(str(self.file))), 0), wanted)


if __name__ == "__main__":
    unittest.main()
