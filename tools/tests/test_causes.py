"""Each refusal of a sheet has its true cause, and what it advises gets further; frames are found; what is told is of the sheet itself."""
import math
import pathlib
import re
import tempfile
import unittest
from collections.abc import Callable, Sequence
from typing import Any, NamedTuple

from drafting.core import notes
from drafting.core.messages import Refused
from drafting.dxf.drawing import Stroke, lines_within, strokes_in
from drafting.sheet import pipeline

from . import sheets
from .support import EXAMPLES, draft, in_words, needs_command, needs_module, needs_program
from .test_sheet import arguments

Box = tuple[float, float, float, float]
VIEWS = sheets.views_in(EXAMPLES / "clevis.dxf")
PLACES = sheets.places_of(VIEWS)


class Row(NamedTuple):
    """A sheet: how it is drawn, what is said of it, and what has to come: the part, with these words, or a refusal."""

    name: str
    draw: Callable[[Any], object]
    words: Sequence[str] = ()
    told: str = ""
    refused: str = ""


def box(space: Any, at: Box, **look: Any) -> None:
    sheets.rectangle(space, *at) if not look else space.add_lwpolyline(
        [(at[0], at[1]), (at[2], at[1]), (at[2], at[3]), (at[0], at[3])], close=True, dxfattribs=look)


def rounded(view: str, radius: float = 1.0, kind: str = "arc") -> Callable[[Any], object]:
    """The views of a box of 6 by 4 by 5, one of which has a round in place of its corner above to the left."""
    def draw(space: Any) -> None:
        for name, (width, height), (x, y) in (("FRONT", (6, 5), (0, 0)), ("TOP", (6, 4), (0, 10)), ("SIDE", (4, 5), (10, 0))):
            if name != view:
                box(space, (x, y, x + width, y + height))
                continue
            for start, end in (((0, 0), (width, 0)), ((width, 0), (width, height)), ((width, height), (radius, height)), ((0, height - radius), (0, 0))):
                space.add_line((x + start[0], y + start[1]), (x + end[0], y + end[1]))
            if kind == "arc":
                space.add_arc((x + radius, y + height - radius), radius, 90, 180, dxfattribs={"layer": "ROUNDS"})
            else:
                space.add_ellipse((x + radius, y + height - radius), (0, 2 * radius), 0.5, 0, 1.5, dxfattribs={"layer": "ROUNDS"})
    return draw


def views(space: Any, places: dict[str, tuple[float, float]] = PLACES) -> None:
    sheets.draw(space, VIEWS, places)


def with_views(*more: Callable[[Any], object]) -> Callable[[Any], object]:
    def draw(space: Any) -> None:
        views(space)
        for one in more:
            one(space)
    return draw


def boxes(count: int) -> Callable[[Any], object]:
    def draw(space: Any) -> None:
        for number in range(count):
            box(space, (200 + 3 * number, 3 * number, 202 + 3 * number, 1 + 3 * number))
    return draw


def zoned_frame(space: Any) -> None:
    """Two rectangles, marks of zones between them that touch neither, and a title block in the inner one's corner with a logo in a cell."""
    box(space, (0, 0, 297, 210))
    box(space, (10, 10, 287, 200))
    for x in range(50, 297, 50):
        space.add_line((x, 2), (x, 8))
        space.add_line((x, 202), (x, 208))
    for line in (((187, 10), (187, 40)), ((187, 40), (287, 40)), ((187, 25), (287, 25)), ((237, 10), (237, 25))):
        space.add_line(*line)
    for number in range(4):
        box(space, (190 + 5 * number, 12, 193 + 5 * number, 20))


def rounded_ends(space: Any) -> None:
    """TOP is two lines and two curves that close its outline at both ends: the lines alone are groups apart."""
    box(space, (0, 0, 6, 5))
    box(space, (10, 0, 14, 5))
    for start, end in (((1, 10), (5, 10)), ((1, 14), (5, 14))):
        space.add_line(start, end)
    for x, way in ((1, 2), (5, -2)):
        space.add_ellipse((x, 12), (0, way), 0.5, 0, math.pi, dxfattribs={"layer": "ROUNDS"})


def half(view: str, upright: bool) -> Callable[[Any], object]:
    """The views of a box of 6 by 4 by 5, one of which is drawn up to its middle alone."""
    def draw(space: Any) -> None:
        for name, (width, height), (x, y) in (("FRONT", (6, 5), (0, 0)), ("TOP", (6, 4), (0, 10)), ("SIDE", (4, 5), (10, 0))):
            if name != view:
                box(space, (x, y, x + width, y + height))
            elif upright:
                open_box(space, (x, y + height / 2), (x, y), (x + width, y), (x + width, y + height / 2))
            else:
                open_box(space, (x + width / 2, y), (x, y), (x, y + height), (x + width / 2, y + height))
    return draw


def open_box(space: Any, *corners: tuple[float, float]) -> None:
    for start, end in zip(corners, corners[1:]):
        space.add_line(start, end)


def in_front(add: Callable[[Any, float, float], object]) -> Callable[[Any], object]:
    return lambda space: add(space, *PLACES["FRONT"])


ROWS = (
    Row("round_closes_front", rounded("FRONT", 1, "ellipse"), refused=r"in FRONT a ELLIPSE \w+ on layer ROUNDS, line [\d,]+ of .*; recon "
        r"reads level and upright lines and arcs alone; lines of the view end at it$"),
    Row("round_closes_top", rounded("TOP", 1.5, "ellipse"), refused=r"in TOP a ELLIPSE \w+ on layer ROUNDS.*; lines of the view end at it$"),
    Row("rounds_close_top_at_both_ends", rounded_ends, refused=r"in TOP a ELLIPSE \w+ on layer ROUNDS.*; lines of the view end at it$"),
    Row("curve_on_a_layer_of_its_own", with_views(in_front(lambda space, x, y: space.add_ellipse((x + 3, y + 2), (0.7, 0), 0.5, dxfattribs={"layer": "HOLES"}))),
        refused="in FRONT a ELLIPSE .* leave it out by --leave-out layer=HOLES$"),
    Row("curve_left_out", with_views(in_front(lambda space, x, y: space.add_ellipse((x + 3, y + 2), (0.7, 0), 0.5, dxfattribs={"layer": "HOLES"}))),
        ("--leave-out", "layer=HOLES"), told="a part 6 wide, 4 deep and 4 high"),
    Row("curve_on_the_layer_of_edges", with_views(in_front(lambda space, x, y: space.add_ellipse((x + 3, y + 2), (0.7, 0), 0.5))),
        refused="in FRONT a ELLIPSE .* recon reads level and upright lines and arcs alone$"),
    Row("linetype_that_tells_nothing", with_views(in_front(lambda space, x, y: space.add_line((x, y + 2), (x + 6, y + 2), dxfattribs={"linetype": "ODD"}))),
        refused="in FRONT a LINE .*: say --visible, --hidden or --leave-out linetype=ODD$"),
    Row("one_group_beside", with_views(boxes(1)), refused=r"beside the views stands .* --leave-out group=4: group 4, 4 lines"),
    Row("twenty_groups_beside", with_views(boxes(20)), refused=r"beside the views stand .* --leave-out group=4-23: group 4, .* and 8 more"),
    Row("twenty_groups_left_out", with_views(boxes(20)), ("--leave-out", "group=4-23"), told="a part 6 wide"),
    Row("groups_left_out_one_by_one", with_views(boxes(3)), ("--leave-out", "group=4,5", "--leave-out", "group=6"), told="a part 6 wide"),
    Row("no_numbers_of_groups", with_views(boxes(3)), ("--leave-out", "group=4-"), refused="not group=NUMBER"),
    Row("a_line_alone_beside", with_views(lambda space: space.add_line((200, 0), (230, 0))), told="left out: 1 line, .*a line alone is no view"),
    Row("frame_with_zones_and_a_logo", with_views(zoned_frame), told="a part 6 wide.*a frame round all the rest, .*between frames, 1 line.*in a title block"),
    Row("two_views_of_three", lambda space: sheets.draw(space, {view: VIEWS[view] for view in ("FRONT", "TOP")}, PLACES), refused="two views in line may be read in two ways"),
    Row("half_of_front", half("FRONT", False), refused="FRONT is wide 3, and TOP is wide 6; FRONT may be a half view.*draw it whole"),
    Row("half_of_top", half("TOP", True), refused="TOP is high 2, and SIDE is wide 4; TOP may be a half view"),
    Row("half_of_side", half("SIDE", False), refused="TOP is high 4, and SIDE is wide 2; SIDE may be a half view"),
    Row("front_alone", lambda space: sheets.draw(space, {"FRONT": VIEWS["FRONT"]}, PLACES), refused="fewer than three"),
)


@needs_module("ezdxf", "python3-ezdxf")
class Causes(unittest.TestCase):
    def made(self, draw: Callable[[Any], object], folder: str, name: str) -> pathlib.Path:
        doc = sheets.new()
        doc.linetypes.add("ODD", [0.2, 0.0, -0.2])
        draw(doc.modelspace())
        file = pathlib.Path(folder) / f"{name}.dxf"
        doc.saveas(file)
        return file

    def test_rows(self) -> None:
        for row in ROWS:
            with self.subTest(row.name), tempfile.TemporaryDirectory() as folder:
                self.one(row, self.made(row.draw, folder, row.name))

    def one(self, row: Row, file: pathlib.Path) -> None:
        said: list[str] = []
        try:
            pipeline.draw(str(file), arguments("sheet", file, *row.words), in_words(said))
        except Refused as refusal:
            self.assertTrue(row.refused, f"refused: {refusal}")
            self.assertRegex(" ".join(str(refusal).split()), row.refused)
            return
        self.assertFalse(row.refused, said)
        self.assertRegex(" ".join(said), row.told)

    def test_pieces_of_views_that_touch_are_their_own(self) -> None:
        """A second export without hidden lines, of views named by layers that stand right beside one another."""
        width, height = sheets.size_of(VIEWS["FRONT"])
        places = {"FRONT": (0.0, 0.0), "TOP": (0.0, height), "SIDE": (width, 0.0)}
        with tempfile.TemporaryDirectory() as folder:
            files = []
            for name, hidden in (("whole", True), ("visible", False)):
                drawn = {view: [it for it in its if hidden or not it[0]] for view, its in VIEWS.items()}
                files.append(self.made(lambda space: sheets.draw(space, drawn, places, lambda view, dashed: {"layer": view}), folder, name))
            made = pipeline.draw(str(files[0]), arguments("sheet", files[0], "--visible-only", files[1]), notes.tell_none)
            pair = pathlib.Path(folder) / "whole.visible.dxf"
            files[1].rename(pair)
            again = pipeline.draw(str(files[0]), arguments("sheet", files[0], "--pairs"), notes.tell_none)
            plain = self.made(views, folder, "plain")
            own = pipeline.draw(str(plain), arguments("sheet", plain), notes.tell_none)
        self.assertEqual(made.text, again.text)
        self.assertEqual(strokes(made), strokes(own))


def strokes(drawn: pipeline.Drawn) -> dict[str, list[Stroke]]:
    return strokes_in(lines_within(drawn.text.encode()), drawn.decimals)


@needs_module("ezdxf", "python3-ezdxf")
@needs_program()
class OnTheSheet(unittest.TestCase):
    """What `why` and `settle` tell is of the sheet: its coordinates, and its entities by handle, layer and line of the file."""

    def cubes(self, folder: str, scale: float, flipped: bool = False) -> pathlib.Path:
        """The quartered cube, where no layer names a view, at a scale; one half edge is hidden where that is asked for."""
        name = "quartered_cube_half_hidden" if flipped else "quartered_cube"
        part = sheets.views_in(EXAMPLES / f"{name}.dxf")
        doc = sheets.new()
        sheets.draw(doc.modelspace(), part, {"FRONT": (100, 50), "TOP": (100, 60), "SIDE": (110, 50)}, scale=scale)
        file = pathlib.Path(folder) / "sheet.dxf"
        doc.saveas(file)
        return file

    @needs_command("clingo", "gringo")
    def test_why(self) -> None:
        with tempfile.TemporaryDirectory() as folder:
            file = self.cubes(folder, 2.5, flipped=True)
            ended = draft("why", file)
            self.assertEqual(ended.status, 0, ended.said)
            found = re.search(r"TOP \(252.5, 152.5\) to \(252.5, 155\) \(LINE (\w+) on layer 0, line ([\d,]+) of sheet.dxf\): drawn dashed; solid would",
                              ended.out)
            assert found, ended.out
            lines = file.read_text().splitlines()
            self.assertIn(found[1], lines[int(found[2].replace(",", "")):][:12])

    def test_settle(self) -> None:
        with tempfile.TemporaryDirectory() as folder:
            ended = draft("settle", self.cubes(folder, 2.5), "--scale", "1:2", "--meant", 1)
            self.assertEqual(ended.status, 0, ended.said)
            self.assertRegex(ended.out, r"section across x between 0 and 5 ")

    def test_lines_that_settle_it_are_the_sheets_own(self) -> None:
        """Drawn on the sheet where they are told, they leave as many solids as is said: also of a sheet with a left view, whose drawing is one of
        the mirror image."""
        part = sheets.views_in(EXAMPLES / "quartered_cube.dxf")
        for angle, left, numbers in (("third", False, (1,)), ("first", False, (2,)), ("third", True, (3,)), ("first", True, (1,))):
            views = sheets.mirrored(part) if left else part
            for number in numbers:
                doc = sheets.new()
                sheets.draw(doc.modelspace(), views, sheets.places_of(views, angle, left == (angle == "third")), scale=2.5)
                with self.subTest(angle=angle, left=left, number=number), tempfile.TemporaryDirectory() as folder:
                    file = pathlib.Path(folder) / "sheet.dxf"
                    doc.saveas(file)
                    by_section = draft("settle", file, "--angle", angle, "--meant", number).out
                    self.assertEqual("section" in by_section.partition("alone.")[0].splitlines()[-1], "its lower left corner:" in by_section, by_section)
                    ended = draft("settle", file, "--angle", angle, "--meant", number, "--by", "SIDE" if left else "LEFT")
                    self.assertEqual((ended.status, "mirror image" in ended.said), (0, False), ended.said)
                    lines = re.findall(r"^  (\w+) \((\S+), (\S+)\) to \((\S+), (\S+)\): (\w+)$", ended.out, re.M)
                    self.assertEqual(len(lines), ended.out.count(") to ("), ended.out)
                    self.assertIn("SIDE" if left else "LEFT", ended.out)
                    for _, *ends, style in lines:
                        a, b, c, d = map(float, ends)
                        doc.modelspace().add_line((a, b), (c, d), dxfattribs=sheets.by_linetype("", style == "dashed"))
                    doc.saveas(file)
                    left_told = re.search(r"with .* (\d+) solids are left|(told by)", ended.out)
                    assert left_told
                    self.assertIn("one solid matches" if left_told[2] else f"{left_told[1]} solids match", draft("solve", file, "--angle", angle).out)
