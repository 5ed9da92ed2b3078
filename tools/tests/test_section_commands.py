"""Commands over drawings that have sections: the program reads these where it is asked to, and just the solids that show them are told."""
import json
import pathlib
import random
import re
import tempfile
import unittest

from drafting.dxf.drawing import VIEWS, Stroke, entries_of, lines_of, strokes_in, written
from drafting.recon import process

from .cut_solids import lines_of as strokes_of
from .made import drawn, file_of, pierced, random_cuts
from .support import EXAMPLES, draft, needs_command, needs_program
from .test_cut_solids import FALLING, RISING, shown_by
from .test_settle import SHALLOW, rectangles

# A square that lacks its lower right quarter, and one that lacks its upper left one.
LOWEST = "line 0 0 1 0, line 1 0 1 1, line 1 1 2 1, line 2 1 2 2, line 0 2 2 2, line 0 0 0 2"
MIRRORED = "line 0 0 2 0, line 0 0 0 1, line 0 1 1 1, line 1 1 1 2, line 1 2 2 2, line 2 0 2 2"
# How many random drawings are settled.
DRAWINGS = 5
# What a section of each of the three solids shows that leaves all of it: the square in quarters.
WHOLE = "rect 0 0 2 2, line 0 1 2 1, line 1 0 1 2"
# The eight voids, not as deep, cut through the four in front: of their 35 solids 7 have these voids.
AREA = "S 0 0 5 5; S 1 1 2 2; S 3 1 4 2; S 1 3 2 4; S 3 3 4 4"


class InAFolder(unittest.TestCase):
    def setUp(self) -> None:
        folder = tempfile.TemporaryDirectory()
        self.addCleanup(folder.cleanup)
        self.folder = pathlib.Path(folder.name)
        self.file = self.folder / "drawing.dxf"

    def quartered(self, layers: dict[str, str], decimals: int = 0) -> None:
        """The quartered cube, of whose three solids the choices are 10110110, 10010110 and 01101001, with layers beside it."""
        views = strokes_in(lines_of(str(EXAMPLES / "quartered_cube.dxf")), 0)
        for name, told in layers.items():
            views[name] = list(strokes_of(shown_by(told)))
        self.file.write_text(written({name: aside(its, 40 * at) for at, (name, its) in enumerate(views.items())}, decimals))

    def choices(self, *words: object) -> list[str]:
        ended = draft("solve", self.file, "--json", "--no-faces", *words)
        self.assertEqual(ended.status, 0, ended.said)
        return [solid["choice"] for solid in json.loads(ended.out)["solids"]]


def aside(strokes: list[Stroke], far: int) -> list[Stroke]:
    return [(dashed, (a + far, b), (c + far, d)) for dashed, (a, b), (c, d) in strokes]


@needs_program()
class Asked(InAFolder):
    def test_read_where_it_is_asked_to(self) -> None:
        for layers, wanted in (({"SECTION_FRONT_1": FALLING}, ["10010110"]), ({"AREA_LEFT_1": FALLING}, ["01101001"]),
                               ({"SECTION_LEFT_1": RISING, "SECTION_FRONT_1": FALLING}, ["10010110"])):
            with self.subTest(layers):
                self.quartered(layers)
                self.assertEqual(self.choices("--sections"), wanted)
                self.assertIn("Unique: one solid matches this drawing.", draft("solve", self.file, "--sections").out)
                ended = draft("solve", self.file)
                self.assertIn("Not decided: at least 3 solids match this drawing", ended.out)
                told = " and ".join(layers)
                self.assertIn(f"warning: {told} {'was' if len(layers) == 1 else 'were'} not read: --sections has sections read\n", ended.said)

    def test_with_decimals(self) -> None:
        """In tenths of a unit, where the plane has a decimal too."""
        self.quartered({"SECTION_FRONT_0.1": FALLING}, 1)
        self.assertEqual(self.choices("--sections"), ["10010110"])
        self.quartered({"SECTION_FRONT_0.5": WHOLE})
        self.assertEqual(len(self.choices("--sections")), 3)

    def test_faults(self) -> None:
        for name, words in (("SECTION_FRONT_2", "a section's plane doesn't lie within the part (fault F21 NoCut line"),):
            self.quartered({name: FALLING})
            ended = draft("solve", self.file, "--sections")
            self.assertEqual((ended.status, ended.out), (1, ""))
            self.assertIn(words, ended.said)
            # Without the option the section isn't read, and so it isn't decided which solids match.
            self.assertEqual(draft("solve", self.file).status, 14)

    def test_a_log_certifies_it(self) -> None:
        log = self.folder / "drawing.log"
        for decimals, name in ((0, "SECTION_FRONT_1"), (1, "SECTION_FRONT_0.1")):
            self.quartered({name: FALLING}, decimals)
            ended = draft("prove", self.file, "--sections", "--output", log)
            self.assertEqual(ended.status, 0, ended.said)
            self.assertIn("logs are of the three main views: `draft check --sections` says which", ended.said)
            ended = draft("check", self.file, log, "--sections")
            self.assertEqual(ended.out, "Yes: 3 solids have these views, and no others.\n"
                             f"Of these 1 shows {name} too.\nchoice 10010110\n", ended.said)
            self.assertEqual(draft("check", self.file, log).out, "Yes: 3 solids have these views, and no others.\n")

    def test_triangles_and_a_new_drawing_are_of_its_solid(self) -> None:
        """The one that a section leaves has four cells, the first of three has five."""
        self.quartered({"SECTION_FRONT_0.1": FALLING}, 1)
        out = self.folder / "out.dxf"
        for words, cells in ((("--sections",), 4), ((), 5)):
            ended = draft("stl", self.file, *words)
            self.assertEqual(ended.status, 0, ended.said)
            self.assertAlmostEqual(volume(ended.out), cells / 1000)
        ended = draft("clean", self.file, "--sections", "--output", out)
        self.assertEqual(ended.status, 0, ended.said)
        self.file = out
        self.assertEqual(self.choices("--sections"), ["10010110"])
        ended = draft("stl", self.file, "2", "--sections")
        self.assertEqual(ended.status, 1)
        self.assertIn("there is no solid 2: 1 solid of this drawing", ended.said)

    @needs_command("clingo", "gringo")
    def test_judged(self) -> None:
        self.quartered({"SECTION_FRONT_1": FALLING})
        self.assertIn("The same: 1 solid by clingo", draft("judge", self.file, "--sections").out)
        answer = self.folder / "answer"
        answer.write_text(process.run(process.find(), ["solve"], self.file.read_bytes()).text)
        ended = draft("judge", self.file, answer, "--sections")
        self.assertEqual(ended.status, 1)
        self.assertIn("solid 1 doesn't have these views", ended.said)

    @needs_command("parallel", "parallel")
    def test_a_table(self) -> None:
        self.quartered({"SECTION_FRONT_1": FALLING})
        for words, count in (((), 3), (("--sections",), 1)):
            ended = draft("table", self.file, "--json", "--memory", 0, "--state", self.folder / f"state_{count}", *words)
            self.assertEqual(ended.status, 0, ended.said)
            self.assertEqual(json.loads(ended.out)["listed"], count)


def volume(text: str) -> float:
    """What triangles enclose."""
    found = 0.0
    corners = [tuple(map(float, told.split())) for told in re.findall(r"(?m)^vertex (.*)$", text)]
    for a, b, c in zip(corners[::3], corners[1::3], corners[2::3]):
        found += (a[0] * (b[1] * c[2] - b[2] * c[1]) - a[1] * (b[0] * c[2] - b[2] * c[0]) + a[2] * (b[0] * c[1] - b[1] * c[0])) / 6
    return found


@needs_program()
class Why(InAFolder):
    def why(self, *words: object) -> list[str]:
        ended = draft("why", self.file, "--sections", *words)
        self.assertEqual(ended.status, 0, ended.said)
        return ended.out.splitlines()

    def test_a_section_that_rules_all_out(self) -> None:
        """Mirrored it is that of the first solid, from the other side that of none; without it all three are left."""
        self.quartered({"SECTION_FRONT_1": MIRRORED})
        rows = self.why()
        self.assertEqual(rows[:3], [
            "No solid has these views and sections. 3 solids have the three main views; of these 0 have SECTION_FRONT_1.",
            "Without SECTION_FRONT_1: the program lists 3 solids.",
            "With SECTION_FRONT_1 mirrored: the program lists 1 solid.",
        ])
        self.assertIn("  so drawn, the program lists 1 solid", rows)

    def test_two_of_which_one_is_seen_from_the_other_side(self) -> None:
        """The area is that of the first of three solids, and the lines are those of the second, or of the first from the other side."""
        self.quartered({"AREA_TOP_1": LOWEST, "SECTION_FRONT_1": FALLING})
        self.assertEqual(self.why()[1:4], [
            "Without AREA_TOP_1: the program lists 1 solid.",
            "Without SECTION_FRONT_1: the program lists 1 solid.",
            "With SECTION_FRONT_1 seen from the other side, as REAR: the program lists 1 solid.",
        ])

    def test_nothing_helps(self) -> None:
        self.quartered({"SECTION_FRONT_1": "rect 0 0 2 2", "SECTION_TOP_1": "rect 0 0 2 2"})
        self.assertIn("None has them without one of the sections, or with it seen from the other side or mirrored.", self.why())

    def test_nothing_is_wrong(self) -> None:
        self.quartered({"SECTION_FRONT_1": FALLING})
        self.assertEqual(self.why(), ["Nothing is wrong: 1 solid has these views and sections."])


@needs_program()
class Settle(InAFolder):
    def setUp(self) -> None:
        super().setUp()
        self.out = self.folder / "out.dxf"

    def voids(self, *words: object, **layers: str) -> str:
        """What is said of the eight voids, not as deep, whose 35 solids no further views tell apart."""
        views = {**SHALLOW, **layers}
        self.file.write_text(written({view: aside(rectangles(text), 20 * at) for at, (view, text) in enumerate(views.items())}, 0))
        ended = draft("settle", self.file, "--meant", 1, *words)
        self.assertEqual(ended.status, 0, ended.said)
        return ended.out + ended.said

    def test_sections_settle_what_views_leave_open(self) -> None:
        said = self.voids("--write", self.out)
        self.assertRegex(said, r"(?m)^section across y between 1 and 2 \(area\) +7 +7 +4$")
        self.assertRegex(said, r"Solid 1 is told by .*section across . between . and . \(area\).* alone")
        self.assertIn("Checked: of the drawing with these lines the program lists 1 solid, just that.", said)
        self.assertRegex(said, r"its sections are read by `draft solve --sections`, or `recon solve --sections( --decimals 1)?`\n")
        asked = re.search(r"`recon (solve .*)`", said)
        assert asked
        first = process.run(process.find(), ["solve"], self.file.read_bytes()).text
        words: list[object] = [*asked[1].split()]
        run = process.run(process.find(), words, self.out.read_bytes())
        self.assertTrue(run.text.startswith("whole 1 "))
        self.assertEqual(re.search(r"choice (\d+)", run.text)[1], re.search(r"choice (\d+)", first)[1])  # type: ignore[index]

    def test_each_section_has_a_label(self) -> None:
        self.voids("--write", self.out)
        entities = [entry for entry in entries_of(lines_of(str(self.out))) if entry.section == "ENTITIES" and 8 in entry.values]
        layers = {entry.values[8] for entry in entities} - set(VIEWS)
        labels = {entry.values[8]: entry.values[1] for entry in entities if entry.name == "TEXT"}
        self.assertEqual(labels.keys(), layers)
        self.assertEqual(sorted(labels.values()), ["AREA A-A", "AREA B-B"])
        # This release takes no points in names.
        self.assertTrue(all(re.fullmatch(r"AREA_[A-Z]+_[0-9]+E-1", layer) for layer in layers), layers)

    def test_views_that_are_named_are_taken_alone(self) -> None:
        said = self.voids("--by", "REAR")
        self.assertIn("No further views tell solid 1 alone: with REAR 4 solids are left.", said)
        self.assertRegex(said, r"It would be settled by a section across . between . and . \(.*\)\.")

    def test_sections_that_are_drawn_are_read_first(self) -> None:
        """With a section drawn that isn't read none is added."""
        self.voids()
        ended = draft("settle", self.folder / "none.dxf")
        self.assertEqual(ended.status, 1)
        said = self.voids("--sections", "--write", self.out, AREA_REAR_2=AREA)
        self.assertIn("7 solids have these views and sections.", said)
        self.assertIn("Checked: of the drawing with these lines the program lists 1 solid, just that.", said)
        ended = draft("settle", self.file, "--meant", 1)
        self.assertEqual((ended.status, ended.out), (1, ""))
        self.assertIn("the drawing has sections which weren't read, AREA_REAR_2: settle it with --sections", ended.said)

    def test_random_drawings(self) -> None:
        """Of each random drawing of several solids the program lists just what is said to be left, by its own check, mostly one alone."""
        rng, alone, tried = random.Random(792), 0, 0
        while tried < DRAWINGS:
            cells = pierced(rng)
            grid = drawn(cells, random_cuts(rng, cells))
            self.file.write_text(file_of(grid))
            count = int(process.run(process.find(), ["solve"], self.file.read_bytes()).text.split()[1])
            if 1 < count < 200:
                tried += 1
                ended = draft("settle", self.file, "--meant", rng.randint(1, count), "--write", self.out)
                self.assertEqual(ended.status, 0, (ended.said, file_of(grid)))
                self.assertIn("Checked: of the drawing with these lines the program lists", ended.out)
                alone += "Checked: of the drawing with these lines the program lists 1 solid, just that." in ended.out
        self.assertGreater(alone, DRAWINGS // 2)

    def test_where_all_further_views_are_alike(self) -> None:
        ended = draft("settle", EXAMPLES / "eight_voids.dxf", "--meant", 12, "--write", self.out)
        self.assertEqual(len(re.findall(r"(?m)^(?:LEFT|REAR|BOTTOM) +1 +35 +35$", ended.out)), 3, ended.out)
        self.assertIn("Checked: of the drawing with these lines the program lists 1 solid, just that.", ended.out)

    def test_a_view_that_settles_is_taken_first(self) -> None:
        ended = draft("settle", EXAMPLES / "quartered_cube.dxf", "--meant", 1, "--write", self.out)
        self.assertIn("Solid 1 is told by LEFT alone.", ended.out)
        self.assertNotRegex(self.out.read_text(), "SECTION_|AREA_")


if __name__ == "__main__":
    unittest.main()
