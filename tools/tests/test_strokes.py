"""Hidden lines and centre lines that are drawn as strokes: they are found and told, real short edges stay, and what isn't clear is refused."""
import itertools
import math
import pathlib
import tempfile
import time
import unittest
from collections.abc import Iterable, Iterator, Sequence
from typing import Any

from drafting.core.messages import Refused
from drafting.core.notes import Note
from drafting.core.verdict import Doubt
from drafting.dxf.reader import Edge, Sheet, Source
from drafting.dxf.styles import Look
from drafting.sheet import pipeline, strokes

from .support import EXAMPLES, draft, needs_module, needs_program
from .test_sheet import arguments, plain_answer, solved

try:
    from . import sheets
except ImportError:
    sheets = None  # type: ignore[assignment]

Ends = tuple[tuple[float, float], tuple[float, float]]


def parts_of(ends: Ends, pattern: Sequence[float]) -> Iterator[Ends]:
    """The strokes of a line, dashes and gaps in turn from its start on, the last one as long as is left."""
    (a, b), (c, d) = ends
    length, at = math.dist(*ends), 0.0
    for number in itertools.count():
        step = pattern[number % len(pattern)]
        if number % 2 == 0:
            low, high = at / length, min(at + step, length) / length
            yield (a + low * (c - a), b + low * (d - b)), (a + high * (c - a), b + high * (d - b))
        at += step
        if at >= length - 1e-9:
            return


def evenly(ends: Ends, dash: float, gap: float) -> Iterator[Ends]:
    """The strokes of a line as CAD programs plot it: it begins and ends with a stroke, both as long as is left over."""
    (a, b), (c, d) = ends
    length = math.dist(*ends)
    count = max(0, math.floor((length - gap - dash) / (dash + gap)))
    outer = (length - count * dash - (count + 1) * gap) / 2
    if count == 0 or outer <= 0:
        yield ends
        return
    stops = [0.0, outer]
    for _ in range(count):
        stops += [stops[-1] + gap, stops[-1] + gap + dash]
    stops += [stops[-1] + gap, length]
    for low, high in zip(stops[::2], stops[1::2]):
        yield ((a + low / length * (c - a), b + low / length * (d - b)), (a + high / length * (c - a), b + high / length * (d - b)))


def edges_of(lines: Iterable[Ends], hidden: bool = False, layer: str = "0", linetype: str = "CONTINUOUS", colour: int = 7) -> list[Edge]:
    source = Source("LINE", layer, "", look=Look(layer, linetype, colour))
    return [Edge(hidden, start, end, colour, source) for start, end in lines]


def found_in(edges: list[Edge], said: str | None = None, tolerance: float = 1e-4) -> strokes.Found:
    sheet = Sheet("mm")
    sheet.edges = edges
    return strokes.found_in(sheet, tolerance, said)


def box_of(x: float, y: float, right: float, up: float) -> list[Ends]:
    corners = [(x, y), (right, y), (right, up), (x, up), (x, y)]
    return list(zip(corners, corners[1:]))


def rounded(place: tuple[float, float]) -> tuple[float, float]:
    return round(place[0], 6) + 0.0, round(place[1], 6) + 0.0


BOX = box_of(0, 0, 40, 30)


class Joined(unittest.TestCase):
    def hidden(self, lines: list[Ends], **more: Any) -> list[Ends]:
        found = found_in(edges_of([*BOX, *lines]), **more)
        self.assertEqual(found.unclear, [])
        return sorted((rounded(edge.start), rounded(edge.end)) for edge in found.hidden)

    def test_equal_strokes_are_one_hidden_line(self) -> None:
        self.assertEqual(self.hidden(list(parts_of(((0, 11), (40, 11)), (3, 1.5)))), [((0, 11), (40, 11))])
        self.assertEqual(self.hidden(list(parts_of(((11, 0), (11, 30)), (3, 1.5)))), [((11, 0), (11, 30))])

    def test_strokes_at_the_ends_may_be_shorter_or_longer(self) -> None:
        for high in (17, 18, 19.3, 30):
            with self.subTest(high=high):
                lines = list(evenly(((11, 0), (11, high)), 3, 1.5))
                self.assertGreaterEqual(len(lines), 3)
                self.assertEqual(self.hidden([*lines, ((0, high), (40, high))]), [((11, 0), (11, high))])

    def test_a_line_that_ends_in_a_gap_goes_on_to_the_line_that_it_comes_to(self) -> None:
        lines = list(parts_of(((0, 11), (40, 11)), (3, 1.6)))
        self.assertLess(lines[-1][1][0], 39.9)
        self.assertEqual(self.hidden(lines), [((0, 11), (40, 11))])

    def test_two_that_meet_in_their_gaps_reach_each_other(self) -> None:
        level, upright = list(parts_of(((0, 9.8), (14.5, 9.8)), (3, 2))), list(parts_of(((14.5, 0), (14.5, 9.8)), (3, 2)))
        self.assertEqual((level[-1][1][0], upright[-1][1][1]), (13, 8))
        self.assertEqual(self.hidden([*level, *upright]), [((0, 9.8), (14.5, 9.8)), ((14.5, 0), (14.5, 9.8))])

    def test_strokes_of_a_hidden_layer_are_joined_however_few(self) -> None:
        lines = list(parts_of(((0, 11), (7, 11)), (3, 1.5)))
        self.assertEqual(len(lines), 2)
        found = found_in([*edges_of([*BOX, ((7, 0), (7, 30))]), *edges_of(lines, True, "HIDDEN")])
        self.assertEqual([(edge.start, edge.end) for edge in found.hidden], [((0, 11), (7, 11))])

    def test_two_strokes_are_one_line_as_others_of_the_sheet(self) -> None:
        lines = [*parts_of(((0, 11), (40, 11)), (3, 1.5)), *parts_of(((0, 20), (7, 20)), (3, 1.5))]
        self.assertEqual(self.hidden([*lines, ((7, 0), (7, 30))]), [((0, 11), (40, 11)), ((0, 20), (7, 20))])

    def test_an_edge_in_line_with_strokes_stays_visible(self) -> None:
        lines = [((0, 11), (10, 11)), *parts_of(((10, 11), (40, 11)), (3, 1.5)), ((10, 0), (10, 30))]
        found = found_in(edges_of([*BOX, *lines]))
        self.assertEqual([(edge.start, edge.end) for edge in found.hidden], [((10, 11), (40, 11))])
        self.assertIn(((0, 11), (10, 11)), [(edge.start, edge.end) for edge in found.edges if not edge.hidden])

    def test_strokes_whose_ends_lie_on_other_lines_here_and_there(self) -> None:
        grid = [((x, 0.0), (x, 30.0)) for x in (3.0, 12.0, 30.0)]
        self.assertEqual(self.hidden([*grid, *parts_of(((0, 11), (40, 11)), (3, 1.5))]), [((0, 11), (40, 11))])

    def test_strokes_drawn_twice(self) -> None:
        lines = list(parts_of(((0, 11), (40, 11)), (3, 1.5)))
        found = found_in(edges_of([*BOX, *lines, *lines]))
        self.assertEqual(len(found.hidden), 1)
        self.assertEqual(len(found.edges), len(BOX) + 1)

    def test_oblique_hidden_lines(self) -> None:
        self.assertEqual(self.hidden(list(parts_of(((0, 0), (40, 30)), (3, 1.5)))), [((0, 0), (40, 30))])

    def test_lines_of_a_dashed_linetype_are_no_strokes(self) -> None:
        found = found_in([*edges_of(BOX), *edges_of(parts_of(((0, 11), (40, 11)), (3, 1.5)), True, linetype="DASHED")])
        self.assertEqual(found.hidden, [])


class Centre(unittest.TestCase):
    def test_long_and_short_strokes_are_a_centre_line(self) -> None:
        for pattern in ((12, 1.5, 2, 1.5), (12, 1.5, 2, 1.5, 2, 1.5), (12, 2, 0.4, 2)):
            for length in (26.0, 33.0, 50.0, 80.0):
                with self.subTest(pattern=pattern, length=length):
                    found = found_in(edges_of([*BOX, *parts_of(((20, -5), (20, length - 5)), pattern)]))
                    self.assertEqual((len(found.centre), found.hidden, found.unclear), (1, [], []))
                    self.assertEqual(len(found.edges), len(BOX))

    def test_the_cross_in_the_middle_of_a_round_is_one(self) -> None:
        lines = [((20.0, y), (20.0, up)) for y, up in ((2, 12), (14, 16), (18, 28))]
        self.assertEqual(len(found_in(edges_of([*BOX, *lines])).centre), 1)


class Edges(unittest.TestCase):
    def comb(self, y: float = 0.0) -> list[Ends]:
        """The outline of a comb, whose teeth are as far apart as they are wide."""
        corners = [(0.0, y), (0.0, y + 10)]
        for x in range(0, 18, 3):
            corners += [(x, y + 14), (x + 2, y + 14), (x + 2, y + 10), (x + 3, y + 10)]
        corners += [(18, y), (0, y)]
        return list(zip(corners, corners[1:]))

    def test_the_teeth_of_a_comb_stay_visible(self) -> None:
        found = found_in(edges_of(self.comb()))
        self.assertEqual((found.hidden, found.centre, found.unclear, found.short), ([], [], [], []))
        self.assertEqual(len(found.edges), len(self.comb()))

    def test_short_edges_between_long_lines_stay_visible(self) -> None:
        uprights = [((float(x), 0.0), (float(x), 30.0)) for x in range(1, 30)]
        found = found_in(edges_of([*BOX, *uprights, *(((float(x), 15.0), (x + 1.0, 15.0)) for x in range(1, 29, 2))]))
        self.assertEqual((found.hidden, found.centre, found.unclear), ([], [], []))

    def test_a_comb_with_strokes_behind_it(self) -> None:
        lines = [*self.comb(), *parts_of(((0, 5), (18, 5)), (2, 1))]
        found = found_in(edges_of(lines))
        self.assertEqual([(edge.start, edge.end) for edge in found.hidden], [((0, 5), (18, 5))])
        self.assertEqual(len(found.short), 12, "teeth and gaps are no longer than a stroke")

    def test_lines_no_longer_than_a_stroke_leave_the_verdict_open(self) -> None:
        for said, doubts in ((None, [Doubt.STROKES_JOINED]), ("hidden", []), ("visible", [])):
            sheet = Sheet("mm")
            sheet.edges = edges_of([*self.comb(), *parts_of(((0, 5), (18, 5)), (2, 1))])
            list(strokes.without_strokes(sheet, 1e-4, said))
            reasons = strokes.reasons_of(sheet, [(0.0, 0.0, 18.0, 14.0)])
            self.assertEqual([it.doubt for it in reasons], doubts)
            for it in reasons:
                self.assertRegex(it.sentence, r"^Not checked: the line at \d+, 1\d, as 11 more are, is no longer than the strokes of hidden lines")
            self.assertEqual(strokes.reasons_of(sheet, [(50.0, 0.0, 60.0, 14.0)]), (), "elsewhere")

    def test_lines_that_look_as_strokes_do_are_hidden_where_all_of_these_are(self) -> None:
        behind = [*parts_of(((0, 5), (18, 5)), (2, 1)), ((9.0, 5.0), (9.0, 3.0))]
        found = found_in([*edges_of(self.comb()), *edges_of(behind, colour=3)])
        self.assertEqual((found.single, found.short), (1, []))
        self.assertEqual(sum(edge.hidden for edge in found.edges), 2)


class Unclear(unittest.TestCase):
    FEW = list(parts_of(((0, 11), (7, 11)), (3, 1.5)))
    UNEQUAL = [((0.0, 11.0), (3.0, 11.0)), ((4.0, 11.0), (7.0, 11.0)), ((9.5, 11.0), (12.5, 11.0)), ((14.0, 11.0), (17.0, 11.0))]

    def test_few_strokes_and_unequal_gaps_are_left_open(self) -> None:
        for lines in (self.FEW, self.UNEQUAL):
            found = found_in(edges_of([*BOX, *lines]))
            self.assertTrue(found.unclear)
            self.assertEqual(found.hidden, [])

    def test_as_hidden_lines_they_are_joined(self) -> None:
        for lines, high in ((self.FEW, 7.0), (self.UNEQUAL, 17.0)):
            found = found_in(edges_of([*BOX, *lines]), "hidden")
            self.assertEqual(found.unclear, [])
            self.assertEqual([(edge.start, edge.end) for edge in found.hidden], [((0, 11), (high, 11))])


class Fast(unittest.TestCase):
    def test_ten_thousand_lines_in_a_second(self) -> None:
        rows = [line for y in range(100) for line in parts_of(((0, y), (450, y)), (3, 1.5))]
        column = [line for x in range(10) for line in parts_of(((4.5 * x + 3, -2000), (4.5 * x + 3, 2500)), (3, 1.5))]
        combs = [((float(x), float(y)), (x + 1.0, float(y))) for y in range(-1000, -900) for x in range(0, 200, 2)]
        for lines in (rows, column, combs, [((0.0, float(y)), (9.0, float(y))) for y in range(10_000)]):
            self.assertGreaterEqual(len(lines), 9_900)
            edges = edges_of(lines)
            begun = time.process_time()
            found_in(edges)
            self.assertLess(time.process_time() - begun, 1)


CLEVIS = EXAMPLES / "clevis.dxf"


@needs_program()
@needs_module("ezdxf", "python3-ezdxf")
class Sheets(unittest.TestCase):
    def setUp(self) -> None:
        self.room = pathlib.Path(self.enterContext(tempfile.TemporaryDirectory()))
        self.views = sheets.views_in(CLEVIS)

    def made(self, split: Any, version: str = "R12", more: Iterable[Ends] = (), **look: Any) -> pathlib.Path:
        """A sheet of the clevis at ten times its size, its hidden lines as strokes."""
        doc, places = sheets.new(version), sheets.places_of(self.views)
        for view, its in self.views.items():
            for dashed, (start, end) in its:
                ends = tuple((10 * (x + places[view][0]), 10 * (y + places[view][1])) for x, y in (start, end))
                for one in split(ends) if dashed else [ends]:
                    doc.modelspace().add_line(*one, dxfattribs=look if dashed else {})
        x, y = places["FRONT"]
        for (a, b), (c, d) in more:
            doc.modelspace().add_line((10 * x + a, 10 * y + b), (10 * x + c, 10 * y + d))
        file = self.room / "sheet.dxf"
        doc.saveas(file)
        return file

    def read(self, file: pathlib.Path, *words: str) -> tuple[pipeline.Drawn, list[Note]]:
        told: list[Note] = []
        return pipeline.draw(str(file), arguments("sheet", file, *words), told.append), told

    def assert_clevis(self, drawn: pipeline.Drawn) -> None:
        self.assertEqual(plain_answer(solved(drawn.text.encode(), drawn.decimals)), plain_answer(solved(CLEVIS.read_bytes()), 10))

    def test_the_clevis_with_hidden_lines_as_strokes(self) -> None:
        lines = sum(dashed for its in self.views.values() for dashed, _ in its)
        for name, split in (("equal", lambda ends: parts_of(ends, (2.5, 1.25))), ("the last shorter", lambda ends: parts_of(ends, (3, 1.1))),
                            ("in a gap", lambda ends: parts_of(ends, (3, 1.6))), ("evenly", lambda ends: evenly(ends, 2, 1))):
            with self.subTest(name):
                drawn, told = self.read(self.made(split, "R2010" if name == "equal" else "R12"))
                self.assert_clevis(drawn)
                self.assertEqual(drawn.reasons, ())
                self.assertRegex(" ".join(map(str, told)), f"strokes joined to {lines} hidden lines")

    def test_strokes_on_a_layer_or_of_a_colour(self) -> None:
        looks: list[dict[str, Any]] = [{"layer": "HIDDEN"}, {"color": 3}]
        for look in looks:
            with self.subTest(look=look):
                self.assert_clevis(self.read(self.made(lambda ends: parts_of(ends, (3, 1.1)), **look))[0])

    def test_centre_lines_as_strokes(self) -> None:
        more = [*parts_of(((30, -5), (30, 45)), (8, 1.5, 2, 1.5)), *parts_of(((-5, 15), (65, 15)), (8, 1.5, 2, 1.5))]
        drawn, told = self.read(self.made(lambda ends: parts_of(ends, (3, 1.1)), more=more))
        self.assert_clevis(drawn)
        self.assertIn("left out: 2 centre lines drawn as strokes", map(str, told))

    def test_what_is_open_is_refused_with_options_that_help(self) -> None:
        file = self.made(lambda ends: [*parts_of(ends, (math.dist(*ends) / 2.2, math.dist(*ends) / 10))][:2])
        with self.assertRaisesRegex(Refused, "--strokes hidden where they are a hidden line, --strokes visible where they are edges") as caught:
            self.read(file)
        self.assertEqual((caught.exception.option, caught.exception.ways), ("strokes", ["hidden", "visible"]))
        self.assert_clevis(self.read(file, "--strokes", "hidden")[0])

    def test_strokes_stay_where_they_are_said_to_be_edges(self) -> None:
        _, told = self.read(self.made(lambda ends: parts_of(ends, (3, 1.1))), "--strokes", "visible")
        self.assertRegex(" ".join(map(str, told)), "lines, 0 of them hidden")

    def test_the_command_says_what_was_joined(self) -> None:
        ended = draft("solve", self.made(lambda ends: parts_of(ends, (3, 1.1))))
        self.assertEqual(ended.status, 0)
        self.assertRegex(ended.said, "strokes joined to .* hidden lines")


if __name__ == "__main__":
    unittest.main()
