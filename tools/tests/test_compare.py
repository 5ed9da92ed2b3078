"""A restored solid is drawn again and compared with its sheet: in all views, those of circles alone too; where hidden line removal errs, rays through
the solid tell what is visible."""
import itertools
import math
import unittest
from collections.abc import Iterator, Sequence
from typing import Any
from unittest import mock

from drafting.core.messages import Refused
from drafting.dxf.drawing import Place
from drafting.dxf.reader import Edge
from drafting.rounds import verify
from drafting.rounds.features import Given

from . import test_rounds

if not test_rounds.missing:
    from drafting.cad import compare, rays
    from drafting.cad.freecad import FreeCAD, Part
    from drafting.cad.rounded_shapes import read_back
    from . import rounded_parts as parts
    from .rounded_parts import box, cylinder

VIEWS = ("FRONT", "TOP", "SIDE")


def sheet_of(shape: Any) -> Given:
    """What a sheet of a shape says, as FreeCAD draws its three views."""
    made = {view: compare.drawn(shape, view) for view in VIEWS}
    return Given([], {view: it.lines for view, it in made.items() if it.lines}, {view: it.arcs for view, it in made.items() if it.arcs}, [], [], [],
                 bends=tuple(bend for it in made.values() for bend in it.bends))


def flange(holes: int) -> Any:
    """A round flange with a hub, a bore, and so many holes round it, of which the first lies at half a step."""
    shape = cylinder(2, (30, 30), 0, 8, 30).fuse(cylinder(2, (30, 30), 8, 20, 12)).cut(cylinder(2, (30, 30), 0, 20, 7))
    for number in range(holes):
        turn = (2 * number + 1) * math.pi / holes
        shape = shape.cut(cylinder(2, (30 + 20 * math.cos(turn), 30 + 20 * math.sin(turn)), 0, 8, 3))
    return shape.removeSplitter()


def bush(square: bool) -> Any:
    """A bush with a flange over half its length, whose bore is round, or square over the flange's half."""
    shape = cylinder(2, (22, 22), 0, 20, 15).fuse(cylinder(2, (22, 22), 0, 10, 22)).cut(cylinder(2, (22, 22), 0, 20, 6))
    return read_back((shape.cut(box(16, 16, 0, 28, 28, 10)) if square else shape).removeSplitter())


@unittest.skipIf(test_rounds.missing, test_rounds.missing)
class ViewsOfCirclesAlone(unittest.TestCase):
    def test_a_dashed_circle_of_a_through_hole(self) -> None:
        shape = read_back(flange(4))
        given = sheet_of(shape)
        self.assertNotIn("TOP", given.lines)
        self.assertEqual(list(compare.differences(shape, given)), [])
        seen = next(it for it in given.arcs["TOP"] if it.radius == 3 and not it.hidden)
        wrong = given._replace(arcs={"TOP": [it for it in given.arcs["TOP"] if it != seen]})
        told = "\n".join(compare.differences(shape, wrong))
        self.assertRegex(told, r"^TOP, from 0 to 360 degrees of the circle at .* of radius 3: the sheet has dashed")

    def test_a_bore_that_is_square_over_half_its_length(self) -> None:
        given = sheet_of(bush(square=False))
        self.assertNotIn("TOP", given.lines)
        self.assertEqual(list(compare.differences(bush(square=False), given)), [])
        self.assertRegex("\n".join(compare.differences(bush(square=True), given)), r"^TOP, \(16, 16\) to .*: the sheet has nothing, the solid dashed")

    def test_a_view_of_other_curves_alone(self) -> None:
        outline = Part.Ellipse(FreeCAD.Vector(15, 10, 0), 15, 10).toShape()
        shape = read_back(Part.Face(Part.Wire([outline])).extrude(FreeCAD.Vector(0, 0, 8)))
        given = sheet_of(shape)
        self.assertEqual((list(given.lines), given.arcs), (["FRONT", "SIDE"], {}))
        self.assertEqual(list(compare.differences(shape, given)), [])
        wrong = [it._replace(places=tuple((x, 0.9 * y + 1) for x, y in it.places)) for it in given.bends]
        self.assertRegex("".join(compare.differences(shape, given._replace(bends=tuple(wrong)))), "^TOP, on a curve at ")


def turned(line: Edge) -> Edge:
    """A line in the other style."""
    return line._replace(hidden=not line.hidden)


def stepped() -> Any:
    """A block with a step to the right, a slot under it, and a bore along x."""
    return read_back(box(0, 0, 0, 40, 30, 20).cut(box(25, 0, 12, 40, 30, 20)).cut(box(8, 0, 0, 14, 30, 4)).cut(cylinder(0, (22, 12), 0, 40, 3)))


def every_stretch(shape: Any, view: str, least: Place = (0.0, 0.0)) -> list[tuple[tuple[float, ...], float, str]]:
    """The lines and circles of a view of a shape, the middle of each stretch, and its style as FreeCAD draws it."""
    made = compare.moved(compare.drawn(shape, view), least)
    rows = compare.rows_of(made.lines, made.arcs, compare.slants_of(made.lines))
    its = [(key, (low + high) / 2, row) for key, row in rows.items() for low, high in compare.stretches([row])]
    return [(key, at, style) for key, at, row in its if (style := compare.style_at(row, at)) != "nothing"]


@unittest.skipIf(test_rounds.missing, test_rounds.missing)
class Rays(unittest.TestCase):
    def test_each_stretch_of_some_parts(self) -> None:
        chamfered = read_back(parts.chamfered(box(0, 0, 0, 40, 30, 20), 5, 2, lambda it: it.x < 1))
        shaft = read_back(cylinder(1, (20, 20), 0, 30, 15).fuse(cylinder(1, (20, 20), 30, 50, 20)).cut(cylinder(1, (20, 20), 0, 50, 6)))
        count = {"solid": 0, "dashed": 0}
        for shape, view in itertools.product((stepped(), chamfered, shaft), VIEWS):
            seen = rays.Rays(shape, view, (0.0, 0.0))
            for key, at, style in every_stretch(shape, view):
                with self.subTest(view=view, key=key, at=at):
                    self.assertIs(seen.is_visible(key, at), style == "solid")
                    count[style] += 1
        self.assertGreater(min(count.values()), 10)

    def test_views_along_axes_gone_backwards(self) -> None:
        shape = stepped()
        for view, least in (("LEFT", (-30.0, 0.0)), ("REAR", (-40.0, 0.0)), ("BOTTOM", (0.0, -30.0))):
            seen = rays.Rays(shape, view, least)
            for key, at, style in every_stretch(shape, view, least):
                with self.subTest(view=view, key=key, at=at):
                    self.assertIs(seen.is_visible(key, at), style == "solid")

    def test_what_is_too_near_to_be_told_apart_is_left_undecided(self) -> None:
        for height, told in ((0.5, True), (0.02, None)):
            shape = box(0, 0, 0, 40, 30, 20).fuse(box(0, 0, 20, 15, 30, 20 + height)).removeSplitter()
            with self.subTest(height=height):
                self.assertIs(rays.Rays(shape, "TOP", (0.0, 0.0)).is_visible((1, 15.0), 10.0), told)


@unittest.skipIf(test_rounds.missing, test_rounds.missing)
class Styles(unittest.TestCase):
    """A stretch in one style on the sheet, and in the other one as hidden line removal draws it."""

    def differing(self, given: Given, redrawn: Sequence[tuple[str, Edge]] = ()) -> list[str]:
        """Where the block with a step differs from a sheet, once hidden line removal draws some of its lines in the other style."""
        drawn = compare.drawn

        def erring(shape: Any, view: str, groups: Any = compare.SHARP) -> Any:
            made = drawn(shape, view, groups)
            return made._replace(lines=[turned(it) if (view, it) in redrawn else it for it in made.lines])

        with mock.patch.object(compare, "drawn", erring):
            return list(compare.differences(stepped(), given))

    def lines(self, hidden: bool) -> Iterator[tuple[str, Edge]]:
        """The lines of the sheet that are drawn in one style alone."""
        for view, its in sheet_of(stepped()).lines.items():
            rows = compare.rows_of(its, [])
            for line in (it for it in its if it.hidden == hidden):
                (key, ((low, high, _),)), = compare.rows_of([line], []).items()
                styles = {compare.style_at(rows[key], at) for at in (low + 0.01, (low + high) / 2, high - 0.01)}
                if styles == {"dashed" if hidden else "solid"}:
                    yield view, line

    def test_hidden_line_removal_that_errs(self) -> None:
        given = sheet_of(stepped())
        self.assertEqual(self.differing(given), [])
        for hidden in (False, True):
            its = list(self.lines(hidden))
            self.assertGreater(len(its), 3)
            for one in its:
                with self.subTest(one=one):
                    self.assertEqual(self.differing(given, [one]), [])

    def test_a_wrong_style_on_the_sheet_is_told(self) -> None:
        given = sheet_of(stepped())
        for hidden, words in ((False, "the sheet has dashed, the solid solid"), (True, "the sheet has solid, the solid dashed")):
            for view, line in self.lines(hidden):
                with self.subTest(view=view, line=line):
                    its = [turned(it) if it == line else it for it in given.lines[view]]
                    told = "\n".join(self.differing(given._replace(lines={**given.lines, view: its})))
                    self.assertIn(words, told)
                    self.assertTrue(told.startswith(view))


class Attempts(unittest.TestCase):
    def test_the_reason_of_the_nearest_attempt_is_told(self) -> None:
        far, near, failed = verify.Differs("far", 5), verify.Differs("near", 2), Refused("no valid solid")
        cases: list[tuple[list[Refused], str]] = [([], ""), ([failed], "no valid solid"), ([failed, far], "far"), ([far, near, failed], "near"),
                                                  ([near, verify.Differs("as near", 2)], "near")]
        for refusals, told in cases:
            self.assertEqual(verify.nearest(refusals), told)


class Sheets(test_rounds.InAFolder):
    def dashed(self, radius: float) -> Any:
        """Leaves the visible circle of one hole out of TOP."""
        def more(space: Any, places: dict[str, tuple[float, float]]) -> None:
            space.delete_entity(next(it for it in space.query("CIRCLE") if it.dxf.radius == radius and it.dxf.linetype == "CONTINUOUS"))

        return more

    def test_a_flange_with_one_dashed_hole_is_no_solid(self) -> None:
        parts.sheet_of(flange(4), self.file)
        self.exact(flange(4))
        parts.sheet_of(flange(4), self.file, self.dashed(3))
        asked = self.asked()
        self.assertEqual(asked.kept, [])
        assert asked.rounds and asked.rounds.first
        self.assertIn("of radius 3: the sheet has dashed, the solid solid", "".join(asked.rounds.first.outcome.others))

    def test_a_bush_whose_bore_is_square_over_half_its_length_is_no_round_one(self) -> None:
        parts.sheet_of(bush(square=True), self.file)
        for one in self.asked().kept:
            self.assertTrue(parts.are_same(one.shape, bush(square=True)))


def lever(way: float) -> Any:
    """Two eyes along x, each with a hole, and a bar between them that ends on both, 2 lower; on its side, turned one way or the other."""
    shape = cylinder(2, (14, 14), 0, 12, 12).fuse(cylinder(2, (64, 14), 0, 12, 14)).fuse(box(14, 5, 0, 64, 23, 10)).removeSplitter()
    shape = shape.cut(cylinder(2, (14, 14), 0, 12, 4)).cut(cylinder(2, (64, 14), 0, 12, 4)).removeSplitter()
    shape.rotate(FreeCAD.Vector(0, 0, 0), FreeCAD.Vector(0, 1, 0), 90)
    shape.rotate(FreeCAD.Vector(0, 0, 0), FreeCAD.Vector(1, 0, 0), way)
    around = shape.BoundBox
    shape.translate(FreeCAD.Vector(-round(around.XMin), -round(around.YMin), -round(around.ZMin)))
    return shape


class Levers(test_rounds.InAFolder):
    def test_a_lever_of_which_hidden_line_removal_draws_a_visible_edge_dashed(self) -> None:
        for way in (90, -90):
            with self.subTest(way=way):
                parts.sheet_of(lever(way), self.file)
                self.exact(lever(way))
