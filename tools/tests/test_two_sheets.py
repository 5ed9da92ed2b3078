"""Sheets of two views, and sheets without hidden lines: which view is missing, what is refused, and what `draft` makes of them."""
import pathlib
import re
import tempfile
import unittest

from drafting.core import notes
from drafting.core.messages import Refused, Usage
from drafting.dxf.drawing import VIEWS, lines_within, missing_in, strokes_in, views_of, written
from drafting.explain import visible_edges as visible
from drafting.projection.draw import grid_of, sheet_of
from drafting.recon import process
from drafting.recon.answer import answer_of
from drafting.sheet import two_views
from drafting.sheet import pipeline as sheet
from drafting.solve import pipeline

from .support import EXAMPLES, draft, in_words, needs_command, needs_module, needs_program
from .test_sheet import arguments

try:
    from . import sheets
except ImportError:
    sheets = None  # type: ignore[assignment]

CUBE = EXAMPLES / "quartered_cube.dxf"
# A block of 4 by 3 by 2 with a step of 1 by 1 in front: three solids have these views, by the four bars along x that the lines part; and
# three in first angle too.
FRONT = [(0, 0, 4, 0), (4, 0, 4, 2), (4, 2, 0, 2), (0, 2, 0, 0), (0, 1, 4, 1)]
TOP = [(0, 0, 4, 0), (4, 0, 4, 3), (4, 3, 0, 3), (0, 3, 0, 0), (0, 1, 4, 1)]


class InAFolder(unittest.TestCase):
    def setUp(self) -> None:
        folder = tempfile.TemporaryDirectory()
        self.addCleanup(folder.cleanup)
        self.folder = pathlib.Path(folder.name)
        self.file = self.folder / "drawing.dxf"

    def without(self, view: str, source: pathlib.Path = CUBE) -> pathlib.Path:
        strokes = strokes_in(lines_within(source.read_bytes()), 0)
        self.file.write_text(written({name: its for name, its in strokes.items() if name != view}, 0))
        return self.file

    def saved(self, views: "sheets.Views", places: dict[str, tuple[float, float]], *boxes: tuple[float, float, float, float], layers: bool = False,
              texts: tuple[tuple[float, float], ...] = (), name: str = "sheet") -> pathlib.Path:
        """A sheet with these views, rectangles and texts; each view on a layer of its name, or all on layer 0."""
        doc = sheets.new()
        look = (lambda view, dashed: {**sheets.by_linetype(view, dashed), "layer": view}) if layers else sheets.by_linetype
        sheets.draw(doc.modelspace(), views, places, look)
        for box in boxes:
            sheets.rectangle(doc.modelspace(), *box)
        for place in texts:
            doc.modelspace().add_text("SCALE 1:1", dxfattribs={"height": 3}).set_placement(place)
        file = self.folder / f"{name}.dxf"
        doc.saveas(file)
        return file

    def drawn(self, file: pathlib.Path, *words: object) -> tuple[sheet.Drawn, str]:
        said: list[str] = []
        drawn = sheet.draw(str(file), arguments("sheet", file, *words), in_words(said))
        return drawn, "\n".join(said)

    def refusal(self, file: pathlib.Path, *words: object) -> str:
        with self.assertRaises(Refused) as caught:
            self.drawn(file, *words)
        return str(caught.exception)


@needs_module("ezdxf", "python3-ezdxf")
class Placed(InAFolder):
    def setUp(self) -> None:
        super().setUp()
        self.views = sheets.views_in(EXAMPLES / "clevis.dxf")
        self.places = sheets.places_of(self.views)
        self.strokes = {view: strokes_in(lines_within((EXAMPLES / "clevis.dxf").read_bytes()), 0)[view] for view in VIEWS}

    def two(self, missing: str) -> "sheets.Views":
        return {view: its for view, its in self.views.items() if view != missing}

    def test_by_places_in_an_angle(self) -> None:
        for missing, told in (("SIDE", "TOP above FRONT"), ("TOP", "the right side view to the right of FRONT")):
            drawn, said = self.drawn(self.saved(self.two(missing), self.places), "--angle", "third")
            self.assertIn(f"found: third-angle views, {told}; two views, without {missing}", said)
            self.assertEqual(missing_in(views_of(lines_within(drawn.text.encode()))), missing)
            self.assertFalse(drawn.origin.mirrored)

    def test_first_angle(self) -> None:
        """TOP stands below FRONT; and to the right of FRONT the left view, so that the part is drawn in a mirror."""
        places = {**self.places, "TOP": (self.places["FRONT"][0], self.places["FRONT"][1] - 30)}
        drawn, said = self.drawn(self.saved(self.two("SIDE"), places), "--angle", "first")
        self.assertIn("found: first-angle views, TOP below FRONT; two views, without SIDE", said)
        drawn, said = self.drawn(self.saved(self.two("TOP"), self.places), "--angle", "first")
        self.assertIn("found: first-angle views, the left side view to the right of FRONT; two views, without TOP", said)
        self.assertTrue(drawn.origin.mirrored)

    def test_two_readings_are_refused(self) -> None:
        for missing, first, second in (("SIDE", "TOP above FRONT: FRONT is group 1", "TOP below FRONT: FRONT is group 2"),
                                       ("TOP", "the right side view to the right of FRONT", "the left side view to the right of FRONT")):
            text = self.refusal(self.saved(self.two(missing), self.places))
            self.assertIn("two views in line may be read in two ways", text)
            self.assertIn(f"--angle third, {first}", text)
            self.assertIn(f"--angle first, {second}", text)

    def test_by_names(self) -> None:
        for missing in VIEWS:
            drawn, said = self.drawn(self.saved(self.two(missing), self.places, layers=True))
            self.assertIn(f"; two views, without {missing}", said)
            self.assertEqual(missing_in(views_of(lines_within(drawn.text.encode()))), missing)

    def test_names_tell_the_angle_within_a_frame(self) -> None:
        file = self.saved(self.two("SIDE"), self.places, (0, 0, 420, 297), (10, 10, 410, 287), layers=True)
        self.assertIn("found: third-angle views, TOP above FRONT; two views, without SIDE", self.drawn(file)[1])

    def test_a_frame_or_a_view_with_two_holes(self) -> None:
        """A rectangle with two groups in it may be either; with a text beside them, or another rectangle in it, it is a frame."""
        frame = (0, 0, 420, 297)
        self.assertIn("may be a frame round two views, or a view", self.refusal(self.saved(self.two("SIDE"), self.places, frame), "--angle", "third"))
        for boxes, texts in (((frame,), ((300.0, 20.0),)), ((frame, (10, 10, 410, 287)), ())):
            file = self.saved(self.two("SIDE"), self.places, *boxes, texts=texts)
            self.assertIn("a frame round all the rest", self.drawn(file, "--angle", "third")[1])

    def test_what_may_be_the_third_view(self) -> None:
        """A circle or a view with a text in it, in line with the two."""
        x, y = self.places["SIDE"]
        with_circle = self.saved(self.two("SIDE"), self.places)
        import ezdxf
        doc = ezdxf.readfile(with_circle)
        doc.modelspace().add_ellipse((x + 2, y + 2), (2, 0), 0.5)
        doc.saveas(with_circle)
        self.assertRegex(self.refusal(with_circle, "--angle", "third"), r"what may be the third one .*--leave-out group=\d")
        self.assertIn("without SIDE", self.drawn(with_circle, "--angle", "third", "--leave-out", "group=3")[1])
        written_in = self.saved(self.two("SIDE"), self.places, (x, y, x + 9, y + 4), texts=((x + 1, y + 1),))
        self.assertRegex(self.refusal(written_in, "--angle", "third"), r"what may be the third one .*--leave-out group=\d")

    def test_a_view_of_curves_alone_is_none_that_lacks(self) -> None:
        """Of two views by names the third one has nothing but a curve that isn't read."""
        import ezdxf
        for view in VIEWS:
            file = self.saved(self.two(view), self.places, layers=True)
            x, y = self.places[view]
            doc = ezdxf.readfile(file)
            doc.modelspace().add_ellipse((x + 1, y + 1), (1, 0), 0.5, dxfattribs={"layer": view})
            doc.saveas(file)
            self.assertRegex(self.refusal(file), rf"a ELLIPSE .* on layer {view}.* stands in line with .*, where the view that lacks may be")

    def test_two_views_out_of_line(self) -> None:
        file = self.saved(self.two("SIDE"), {**self.places, "TOP": (self.places["TOP"][0] + 1, self.places["TOP"][1])})
        self.assertIn("fewer than three, and the two don't stand in line", self.refusal(file))

    def test_views_in_files_of_their_own(self) -> None:
        for missing in VIEWS:
            words: list[object] = []
            for view in (it for it in VIEWS if it != missing):
                words += [f"--{view.lower()}", self.saved({view: self.views[view]}, {view: (0, 0)}, name=view.lower())]
            said: list[str] = []
            sheet.draw(None, arguments("sheet", *words), in_words(said))
            self.assertIn(f"the names of files: {', '.join(sorted(it for it in VIEWS if it != missing))}; two views, without {missing}", "\n".join(said))
        with self.assertRaises(Usage):
            sheet.draw(None, arguments("sheet", *words[:2]), notes.tell_none)


@needs_program()
class Asked(InAFolder):
    def test_words_of_a_count(self) -> None:
        ended = draft("solve", self.without("SIDE", EXAMPLES / "clevis.dxf"))
        self.assertEqual(ended.status, 0, ended.said)
        self.assertTrue(ended.out.startswith("Unique: one solid matches this drawing.\nsolid 1: 6 by 4 by 4, volume 41, "), ended.out)
        self.assertIn("found: two views, without SIDE", ended.said)
        ended = draft("solve", self.without("FRONT"))
        self.assertTrue(ended.out.startswith("Ambiguous: 4 solids match this drawing. All are listed.\n"), ended.out)
        self.assertIn("`draft settle` says what FRONT would show of each", ended.said)

    def test_what_the_third_view_would_show(self) -> None:
        """Without SIDE the quartered cube has four solids, of three of which SIDE is a square in quarters."""
        ended = draft("settle", self.without("SIDE"))
        self.assertEqual(ended.status, 0, ended.said)
        self.assertRegex(ended.out, r"(?m)^SIDE +2 +3$")
        told = ended.out.partition("What SIDE, the view that isn't drawn, would show")[2]
        every, *groups = re.split(r"(?m)^of solids? .* also$", told)
        self.assertEqual(sorted(every.splitlines()[1:]), [f"  {row}: solid" for row in sorted(
            ("(0, 0) to (2, 0)", "(0, 2) to (2, 2)", "(0, 0) to (0, 2)", "(2, 0) to (2, 2)"))])
        self.assertEqual(groups[0].split("\n")[1:3], ["  (0, 1) to (2, 1): solid", "  (1, 0) to (1, 2): solid"])
        self.assertEqual(groups[1].count("dashed"), 2)

    def test_the_solid_that_is_meant_completes_the_drawing(self) -> None:
        """Of each solid: the completed drawing has three views, and the program lists it, and no more than is said to be left."""
        for view in VIEWS:
            file, out = self.without(view), self.folder / "completed.dxf"
            solids = answer_of(process.run(process.find(), ["solve", process.TWO_VIEWS], file.read_bytes()).text).solids
            for number in (1, len(solids)):
                ended = draft("settle", file, "--meant", number, "--write", out)
                self.assertEqual(ended.status, 0, ended.said)
                self.assertIn("Checked: of the drawing with these lines the program lists", ended.out)
                self.assertEqual(missing_in(views_of(lines_within(out.read_bytes()))), "")
                listed = answer_of(process.run(process.find(), ["solve"], out.read_bytes()).text).solids
                self.assertIn(solids[number - 1].faces, [solid.faces for solid in listed])

    def test_other_commands(self) -> None:
        file, log, drawn = self.without("TOP"), self.folder / "log", self.folder / "drawn.dxf"
        ended = draft("prove", file, "--output", log, "--drawing", drawn)
        self.assertEqual(ended.status, 0, ended.said)
        self.assertEqual(draft("check", drawn, log).out, "Yes: 4 solids have these two views, and no others.\n")
        ended = draft("clean", file, 2)
        self.assertEqual(missing_in(views_of(lines_within(ended.out.encode()))), "", ended.said)
        # Solid 2 of the two views is the quartered cube itself, of 4 cells.
        volumes = [solid.volume for solid in answer_of(process.run(process.find(), ["solve", process.TWO_VIEWS], file.read_bytes()).text).solids]
        for number, volume in enumerate(volumes, 1):
            ended = draft("stl", file, number)
            self.assertEqual(draft("triangles", volume, data=ended.out.encode()).status, 0, (number, ended.said))
        ended = draft("page", file)
        self.assertIn("4 solids match this drawing. All are listed.", ended.out)

    @needs_command("clingo", "gringo")
    def test_judge_and_why(self) -> None:
        self.assertEqual(draft("judge", self.without("FRONT")).out, "The same: 4 solids by clingo and in the answer, each once, in the stated order.\n")
        # Half an edge is hidden that has to be visible: no solid has the views, and it is named.
        strokes = strokes_in(lines_within((EXAMPLES / "quartered_cube_half_hidden.dxf").read_bytes()), 0)
        self.file.write_text(written({view: its for view, its in strokes.items() if view != "SIDE"}, 0))
        ended = draft("why", self.file)
        self.assertEqual(ended.status, 0, ended.said)
        self.assertRegex(ended.out, r"drawn dashed; solid would give \d+ solids")

    @needs_module("ezdxf", "python3-ezdxf")
    def test_an_angle_in_which_no_solid_has_the_views(self) -> None:
        """It isn't that one; where some solid has them in either, they are refused."""
        views: sheets.Views = {view: [(False, ((a, b), (c, d))) for a, b, c, d in lines] for view, lines in (("FRONT", FRONT), ("TOP", TOP))}
        file = self.saved(views, {"FRONT": (0, 0), "TOP": (0, 10)})
        with self.assertRaisesRegex(Refused, "recon lists in third angle 3 solids; in first angle 3 solids"):
            pipeline.ask(str(file), arguments("solve", file), notes.tell_none)
        with self.assertRaises(two_views.TwoReadings):
            self.drawn(file)
        part = sheets.views_in(EXAMPLES / "clevis.dxf")
        file = self.saved({view: part[view] for view in ("FRONT", "TOP")}, sheets.places_of(part))
        said: list[str] = []
        asked = pipeline.ask(str(file), arguments("solve", file), in_words(said))
        self.assertIn("found: two views, in third angle, since in the other no solid has them", said)
        self.assertEqual([solid.volume for solid in asked.answer().solids], [41])


@needs_command("clingo", "gringo")
@needs_program()
class VisibleAlone(InAFolder):
    def visible(self, name: str) -> pathlib.Path:
        strokes = strokes_in(lines_within((EXAMPLES / f"{name}.dxf").read_bytes()), 0)
        self.file.write_text(written({view: [it for it in its if not it[0]] for view, its in strokes.items()}, 0))
        return self.file

    def test_the_part_is_among_them(self) -> None:
        """A cube of 3 with a void has the visible edges of the full cube."""
        cube = [(False, start, end) for start, end in (((0, 0), (3, 0)), ((3, 0), (3, 3)), ((3, 3), (0, 3)), ((0, 3), (0, 0)))]
        self.file.write_text(written(dict.fromkeys(VIEWS, cube), 0))
        ended = draft("solve", "--visible-edges-alone", self.file)
        self.assertEqual(ended.status, visible.UNPROVED, ended.said)
        self.assertTrue(ended.out.startswith("At least 1 solid has these visible edges; that there is no other isn't proved.\n"), ended.out)
        self.assertIn("clingo looked for 100 solids, for 60 seconds, whose corners lie where visible lines do: it knows no more of them.", ended.out)

    def test_hidden_lines_that_would_settle_it(self) -> None:
        file = self.visible("clevis")
        ended = draft("solve", "--visible-edges-alone", "--most", 5, "--list", 2, file)
        self.assertEqual(ended.status, visible.UNPROVED, ended.said)
        self.assertIn("At least 5 solids have these visible edges", ended.out)
        self.assertIn("clingo looked for 5 solids", ended.out)
        self.assertIn("it was cut there", ended.out)
        self.assertRegex(ended.out, r"(?m)^solid 1: 6 by 4 by 4, volume \d+, \d+ hidden lines$")
        self.assertRegex(ended.out, r"(?m)^(further )?hidden lines of solids? 1\b.*; with them drawn the program lists \d+ solids?$\n  (FRONT|TOP|SIDE|none)")
        self.assertIn(".. and 3 more", ended.out)

    def test_every_one_has_the_visible_edges(self) -> None:
        lines = lines_within(self.visible("clevis").read_bytes())
        grid = grid_of(sheet_of(views_of(lines), 0))
        found, is_done = visible.some_solids(grid, 1_000, 60)
        self.assertGreater(len({it.cells for it in found}), 100 if not is_done else 0)
        self.assertEqual(sorted(len(it.hidden) for it in found), [len(it.hidden) for it in found])

    def test_what_is_refused(self) -> None:
        ended = draft("solve", "--visible-edges-alone", EXAMPLES / "clevis.dxf")
        self.assertEqual((ended.status, ended.out), (2, ""))
        self.assertRegex(ended.said, r"\d+ hidden lines of the drawing: --visible-edges-alone is of drawings without them")
        ended = draft("solve", "--visible-edges-alone", "--expect", 1, EXAMPLES / "bracket.dxf")
        self.assertEqual((ended.status, ended.out), (2, ""))

    @needs_module("ezdxf", "python3-ezdxf")
    def test_it_is_the_second_advice(self) -> None:
        views = {view: [it for it in its if not it[0]] for view, its in sheets.views_in(EXAMPLES / "clevis.dxf").items()}
        said = self.drawn(self.saved(views, sheets.places_of(views)))[1]
        self.assertRegex(said, "warning: no line is hidden, .* by --hidden; where they aren't drawn, `draft solve --visible-edges-alone` lists some")


if __name__ == "__main__":
    unittest.main()
