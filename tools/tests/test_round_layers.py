"""What two columns draw, and which choices of round layers a corner's view allows: on columns made by hand, without FreeCAD."""
import unittest

from drafting.core.verdict import Doubt
from drafting.dxf.reader import Arc, Edge
from drafting.rounds.features import NOWHERE, Chamfer, Given, Squared
from drafting.rounds.restore import Drawn, Layer, Strip
from drafting.rounds.round_layers import Choices, Looking, choices_of, is_turned
from drafting.rounds.rounds import Quarter, Slant
from drafting.rounds.styles import Along, Style, style_between, styles_at


class Styles(unittest.TestCase):
    def test_between_columns(self) -> None:
        for one, other, style in (("0110", "0110", Style.NOTHING), ("0110", "0010", Style.SOLID), ("0110", "0100", Style.DASHED),
                                  ("0000", "0001", Style.SOLID), ("1001", "1101", Style.DASHED), ("0000", "0000", Style.NOTHING)):
            with self.subTest(one=one, other=other):
                self.assertIs(style_between(*([it == "1" for it in column] for column in (one, other))), style)

    def test_on_a_sheet(self) -> None:
        given = Given([], {"TOP": [Edge(True, (0, 0), (10, 0), 7, NOWHERE), Edge(False, (4, 0), (6, 0), 7, NOWHERE)]},
                      {"TOP": [Arc(True, (0, 0), 5, 0, 90, NOWHERE)]}, [], [], [])
        for place, along, style in (((2, 0), Along.LEVEL, Style.DASHED), ((5, 0), Along.LEVEL, Style.SOLID), ((2, 0), Along.UPRIGHT, Style.NOTHING),
                                    ((2, 1), Along.LEVEL, Style.NOTHING), ((3, 4), Along.ARC, Style.DASHED), ((-3, 4), Along.ARC, Style.NOTHING)):
            with self.subTest(place=place, along=along):
                self.assertEqual(styles_at(given, "TOP", place, along), {style})


class Shelves(unittest.TestCase):
    """A corner at (10, 10) of TOP, rounded by 4 or cut off, in the layers from 0 to 2 and from 4 to 6, under a cover from 8 to 9 that goes on beyond
    it; in tenths. The solid may have other coordinates too."""

    def choices(self, arc: bool, sides: bool, is_cut_off: bool = False, level: tuple[int, ...] = (), across: float = 0) -> Choices:
        layers = Layer(0, 20, True), Layer(40, 60, True)
        quarter, slant = Quarter((6, 6), 4, 1, 1), Slant((6, 6), (10, 10))
        as_round = Drawn(Squared("TOP", (6, 6), 4, (quarter,), False), quarter, layers)
        lines = [Edge(True, (0, 10), (10 if sides else 6, 10), 7, NOWHERE), Edge(True, (10, 0), (10, 10 if sides else 6), 7, NOWHERE)]
        lines += [Edge(True, (10, 6), (6, 10), 7, NOWHERE)] if is_cut_off and arc else []
        beside = [Edge(True, (across, 2), (10, 2), 7, NOWHERE)]
        arcs = [Arc(True, (6, 6), 4, 0, 90, NOWHERE)] if arc and not is_cut_off else []
        given = Given([], {"TOP": lines, "FRONT": beside, "SIDE": beside}, {"TOP": arcs}, [], [], [])
        found = [Drawn(Chamfer("TOP", slant), slant, layers) if is_cut_off else as_round]

        def is_full(at: tuple[float, float, float]) -> bool:
            x, y, z = at
            return 80 < z < 90 or (z < 20 or 40 < z < 60) and x < 100 and y < 100

        return choices_of([0], found, Looking(given, 10, "TOP", [[0, 100, 200], [0, *level, 100, 200], [0, 20, 40, 60, 80, 90]], is_full, []))

    def layers(self, found: Choices) -> list[list[tuple[int, int]]]:
        return [[(it.low, it.high) for it in choice[0]] for choice in found.its]

    def test_with_lines_along_the_corner_one_of_both_is_round(self) -> None:
        for is_cut_off in (False, True):
            with self.subTest(is_cut_off=is_cut_off):
                found = self.choices(arc=True, sides=True, is_cut_off=is_cut_off)
                self.assertEqual((self.layers(found), found.reasons, found.if_kept), ([[(0, 20)], [(40, 60)]], (), ()))

    def test_without_lines_along_the_corner_both_are_round(self) -> None:
        for is_cut_off in (False, True):
            with self.subTest(is_cut_off=is_cut_off):
                found = self.choices(arc=True, sides=False, is_cut_off=is_cut_off)
                self.assertEqual((self.layers(found), found.reasons, found.if_kept), ([[(0, 20), (40, 60)]], (), ()))

    def test_coordinates_near_the_end_of_a_round(self) -> None:
        found = self.choices(arc=True, sides=False, level=(62,))
        self.assertEqual((self.layers(found), found.reasons, found.if_kept), ([[(0, 20), (40, 60)]], (), ()))

    def test_what_the_view_does_not_explain_leaves_it_open_where_it_is_kept(self) -> None:
        found = self.choices(arc=False, sides=True)
        self.assertEqual((found.reasons, [dict(it.data) for it in found.if_kept]), ((), [{"count": 4, "tried": 1}]))

    def test_a_round_may_go_over_into_a_corner_where_a_line_is_as_long(self) -> None:
        # At 2 both views from the side draw a line over the corner's box, from 6 to 10, or a longer one.
        self.assertEqual([it.doubt for it in self.choices(arc=True, sides=True, across=6).if_kept], [Doubt.LAYERS_NOT_TRIED])
        self.assertEqual(self.choices(arc=True, sides=True, across=3).if_kept, ())
        self.assertEqual(self.choices(arc=True, sides=False, across=6).if_kept, ())


class Turned(unittest.TestCase):
    def test_places_beyond_rounds(self) -> None:
        outer, inner = Quarter((6, 6), 4, 1, 1), Quarter((10, 10), 4, -1, -1, True)
        layer, strip = Layer(0, 20, True), Layer(0, 20, True, (Strip(0, (90,), (100,)),))
        for quarter, its, place, is_there in ((outer, layer, (9.9, 9.8), True), (outer, layer, (8, 8), False), (outer, strip, (9.9, 9.8), False),
                                              (outer, strip, (9.9, 8.9), True), (inner, layer, (7, 7), True), (inner, layer, (9.5, 9.5), False)):
            with self.subTest(quarter=quarter, place=place):
                one = Squared("TOP", quarter.centre, 4, (quarter,), False)
                self.assertEqual(is_turned(place, Drawn(one, quarter, (its,)), its, 10), is_there)
