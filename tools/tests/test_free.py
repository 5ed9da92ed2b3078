"""Rounds that don't stand quite free: bosses that touch walls, shafts with keyways, eyes, levers and slots come to the parts; where no solid is kept,
all commands name the curves that the other views don't confirm."""
from typing import Any

from drafting.rounds.features import Given, comments, given_in

from . import test_rounds
from .support import draft

if not test_rounds.missing:
    from drafting.cad.compare import SHARP
    from . import rounded_parts as parts
    from .rounded_parts import box, cylinder

# All edges that TechDraw draws by its settings at first, smooth ones too.
SMOOTH = (0, 1, 3, 5, 8)


def tray(*centres: tuple[float, float]) -> Any:
    """A tray with hollow bosses of a radius of 6 on its floor, within walls 4 thick."""
    shape = box(0, 0, 0, 80, 50, 30).cut(box(4, 4, 4, 76, 46, 30))
    for centre in centres:
        shape = shape.fuse(cylinder(2, centre, 4, 20, 6)).cut(cylinder(2, centre, 8, 20, 2.5))
    return shape.removeSplitter()


def undercut() -> Any:
    """A hole as wide as the slot under it."""
    return box(0, 0, 0, 60, 40, 20).cut(box(0, 14, 0, 60, 26, 8)).cut(cylinder(2, (30, 20), 0, 20, 6))


def walled(height: float) -> Any:
    """A base with a wall, and a boss 15 high that touches it."""
    return box(0, 0, 0, 60, 40, 10).fuse(box(0, 30, 10, 60, 40, height)).fuse(cylinder(2, (20, 22), 10, 25, 8))


def lever(low: float = 0, high: float = 10, eyes: tuple[float, float] = (20, 20)) -> Any:
    """Two eyes of radii 15 and 10, so high, each with a hole, and a bar 12 wide between them."""
    shape = box(15, 9, low, 75, 21, high)
    for plan, radius, height in (((15, 15), 15, eyes[0]), ((75, 15), 10, eyes[1])):
        shape = shape.fuse(cylinder(2, plan, 0, height, radius))
    return shape.removeSplitter().cut(cylinder(2, (15, 15), 0, eyes[0], 6)).cut(cylinder(2, (75, 15), 0, eyes[1], 4))


class Kept(test_rounds.InAFolder):
    def one(self, shape: Any, volume: str = "") -> None:
        parts.sheet_of(shape, self.file)
        asked = self.asked()
        self.exact(shape, asked)
        if volume:
            self.assertEqual(asked.rounded_volume(asked.kept[0]), volume)

    def test_bosses_that_touch_walls(self) -> None:
        # 80 * 50 * 30 - 72 * 42 * 26, and of each boss 36 * 16 - 6.25 * 12.
        self.one(tray((10, 25)), "41,376 + 501 pi = 42,949.94 mm³")
        self.one(tray((10, 10)), "41,376 + 501 pi = 42,949.94 mm³")
        self.one(tray((10, 25), (70, 40)), "41,376 + 1,002 pi = 44,523.88 mm³")
        # The wall is no higher than the boss' lower half.
        self.one(box(0, 0, 0, 60, 40, 10).fuse(box(0, 30, 10, 60, 40, 18)).fuse(cylinder(2, (20, 22), 10, 25, 8)))

    def test_bosses_that_touch_walls_of_their_own_height(self) -> None:
        words = "changed: in TOP the level line from 112, 175 to 128, 175 taken as where a round touches a wall of its own height"
        self.one(walled(25))
        self.assertIn(words, self.said)
        self.one(walled(20))
        self.assertNotIn(words, self.said)
        # In a corner of two walls: 80 * 50 * 30 - 72 * 42 * 26 + 36 * 26 pi.
        self.one(box(0, 0, 0, 80, 50, 30).cut(box(4, 4, 4, 76, 46, 30)).fuse(cylinder(2, (10, 10), 4, 30, 6)).removeSplitter(), "41,376 + 936 pi = 44,316.53 mm³")

    def test_their_lines_of_contact_drawn_as_smooth_edges(self) -> None:
        parts.sheet_of(tray((10, 25)), self.file, groups=(0, 1, 3, 5, 6, 8))
        asked = self.asked()
        self.exact(tray((10, 25)), asked)
        self.assertEqual(asked.kept[0].doubt, "")

    def test_a_keyway_through_and_an_eye(self) -> None:
        self.one(cylinder(0, (15, 15), 0, 60, 15).fuse(cylinder(0, (15, 15), 60, 90, 10)).cut(box(-1, 12, 25, 30, 18, 40)))
        eye = cylinder(1, (20, 20), 0, 16, 20).fuse(box(20, 0, 10, 90, 16, 30)).removeSplitter()
        self.one(eye.cut(cylinder(1, (20, 20), 0, 16, 9)))

    def test_arcs_that_end_less_exactly_than_lines(self) -> None:
        def rough(space: Any, places: Any) -> None:
            for line in space.query("LINE"):
                line.dxf.start, line.dxf.end = ((round(it.x, 3), round(it.y, 3)) for it in (line.dxf.start, line.dxf.end))

        eye = cylinder(1, (20, 20), 0, 16, 20).fuse(box(20, 0, 10, 90, 16, 30)).removeSplitter()
        parts.sheet_of(eye, self.file, rough)
        self.exact(eye)


class Levers(test_rounds.InAFolder):
    """Lines end at their eyes, which no wall cuts: these are moved to the eyes' squares in the first readings."""

    def test_the_right_reading_comes_early(self) -> None:
        for shape in (lever(), lever(5, 15), lever(0, 8, (20, 14))):
            for groups, most in ((SHARP, 1), (SMOOTH, 1), (range(10), 5)):
                parts.sheet_of(shape, self.file, groups=groups)
                asked = self.asked()
                with self.subTest(volume=shape.Volume, groups=groups):
                    self.exact(shape, asked)
                    assert asked.rounds
                    self.assertLessEqual(asked.rounds.kept[0].given.reading[0], most)


def without_a_step(space: Any, places: dict[str, tuple[float, float]]) -> None:
    """Leaves out of SIDE the level line 10 above its foot."""
    y = places["SIDE"][1] + 10
    for line in [it for it in space.query("LINE") if it.dxf.start.y == it.dxf.end.y == y]:
        space.delete_entity(line)


class Causes(test_rounds.InAFolder):
    CURVE = r"The likely cause is a curve that doesn't stand free: the circle of radius 6 at 130, 160 \(CIRCLE \w+ on layer 0\) in TOP, whose outline "

    def test_all_commands_name_the_curve(self) -> None:
        parts.sheet_of(undercut(), self.file)
        words = self.CURVE + "in FRONT at x 124 and FRONT at x 136 goes along it over 12 of 20 alone"
        squared = self.file.with_name("squared.dxf")
        self.assertEqual(draft("sheet", self.file, "-o", squared).status, 0)
        for command, file in (("solve", self.file), ("solve", squared), ("why", self.file), ("judge", self.file), ("stl", self.file)):
            with self.subTest(command=command, file=file.name):
                ended = draft(command, *(("--runs", 1, "--search", 0.1, "--processes", 1) if command == "why" else ()), file)
                self.assertRegex(ended.out + ended.said, words)
        step = draft("step", self.file, self.file.with_suffix(".step"))
        self.assertEqual(step.status, 1)
        self.assertRegex(step.said, words)
        self.assertRegex(draft("table", self.file.parent, "--csv", "--memory", 0).out.replace('""', '"'), words)

    def test_a_curve_without_an_outline_comes_first(self) -> None:
        def lacking(space: Any, places: dict[str, tuple[float, float]]) -> None:
            x, _ = places["FRONT"]
            for line in [it for it in space.query("LINE") if it.dxf.start.x == it.dxf.end.x == x + 35]:
                space.delete_entity(line)

        parts.sheet_of(box(0, 0, 0, 50, 40, 10).cut(cylinder(2, (12, 20), 4, 10, 3)).cut(cylinder(2, (30, 20), 0, 10, 5)), self.file, lacking)
        ended = draft("solve", self.file)
        self.assertRegex(ended.out, r"stand free: the circle of radius 5 at 130, 150 \(CIRCLE \w+ on layer 0\) in TOP, whose outline in FRONT at x "
                                    "135 isn't drawn: something cuts it off, or it goes over into what is wider")

    def test_a_curve_beside_which_a_line_goes_is_named(self) -> None:
        parts.sheet_of(walled(25), self.file, without_a_step)
        self.assertRegex(draft("solve", self.file).out, r"stand free: the circle of radius 8 at 120, 167 \(\w+ \w+ on layer 0\) in TOP, beside which a "
                                                        "line goes from 112, 175 to 128, 175: it may touch a wall there")

    def test_where_no_curve_is_suspected_that_is_said(self) -> None:
        wall = box(0, 30, 10, 60, 40, 25)
        # The corners of a rounded wall are as wide as the base in TOP, where that is the border.
        for upright in (wall, parts.filleted(wall, 6, 1, lambda it: it.z > 24)):
            parts.sheet_of(box(0, 0, 0, 60, 40, 10).fuse(upright).cut(cylinder(2, (20, 15), 0, 10, 4)), self.file, without_a_step)
            ended = draft("solve", self.file)
            self.assertIn("Not decided: no solid was found", ended.out)
            self.assertIn("Each curve is confirmed by the other views.", ended.out)

    def test_a_suspect_is_written_and_read(self) -> None:
        given = given_in(comments(Given([], {}, {}, [], [], [], suspects=("a", "b c"))).splitlines() + ["999", "draft hole TOP 40 25 6 0 8"])
        assert given
        self.assertEqual(given.suspects, ("a", "b c"))
