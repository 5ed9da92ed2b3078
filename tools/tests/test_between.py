"""Rounds whose centres or ends lie between the coordinates of the drawing come to the parts, and to their volumes; and a difference in volume is
seen where it is no noise."""
import math
from typing import Any

from drafting.core.messages import Refused
from drafting.rounds import features
from drafting.rounds.restore import beside
from drafting.rounds.rounds import Quarter

from . import test_rounds

if not test_rounds.missing:
    from drafting.cad import rounded_shapes
    from . import rounded_parts as parts
    from .rounded_parts import box, cylinder, filleted


def without_hidden(space: Any, places: dict[str, tuple[float, float]]) -> None:
    for line in [it for it in space.query("LINE ARC") if it.dxf.linetype == "HIDDEN"]:
        space.delete_entity(line)


class Between(test_rounds.InAFolder):
    """Rounds whose centres, or ends, lie between the coordinates of the drawing."""

    def test_all_of_a_side_is_looked_at(self) -> None:
        cuts = [[0, 8, 10, 11, 13, 20]] * 3
        for centre, corner, right, ends in ((10.5, 8.0, -1, [8, 10, 10.5]), (10.5, 13.0, 1, [10.5, 11, 13]), (11.5, 12.0, 1, [11.5, 12])):
            its = list(beside(cuts, "TOP", Quarter((centre, centre), abs(centre - corner), right, right), 1, 0.0))
            for across in (0, 1):
                spans = [it.where[1:] for it in its if it.where and it.where[0] == across]
                self.assertEqual([*dict.fromkeys(end for span in spans for end in span)], ends)
            self.assertTrue(all(min(centre, corner) < at < max(centre, corner) for it in its if it.where for at in [it.within[1 - it.where[0]]]))
        # A coordinate that is rounded is a centre's where it is as near as that.
        its = list(beside([[0, 3_333, 10_000]] * 3, "TOP", Quarter((0.33334, 0.33334), 0.33334, -1, -1), 10_000, 0.00005))
        self.assertEqual(len(its), 3)

    def test_small_and_odd_rounds(self) -> None:
        plate = box(0, 0, 0, 50, 40, 10)
        for shape, volume in ((plate.cut(cylinder(2, (11.5, 11.5), 0, 10, 0.5)), "20,000 - 2.5 pi = 19,992.15 mm³"),
                              (filleted(plate, 0.4, 2, lambda it: it.x > 49 and it.y > 39), "19,998.4 + 0.4 pi = 19,999.66 mm³"),
                              (filleted(plate, 2.3, 2, lambda it: it.x < 1 and it.y < 1), "19,947.1 + 13.225 pi = 19,988.65 mm³"),
                              (filleted(plate, 10 / 3, 2, lambda it: it.x < 1 and it.y < 1), "about 19888.8889 + about 27.7777778 pi = 19,976.16 mm³")):
            parts.sheet_of(shape, self.file, without_hidden if "20,000" not in volume else None)
            asked = self.asked()
            with self.subTest(volume=volume):
                self.exact(shape, asked)
                self.assertEqual(asked.rounded_volume(asked.kept[0]), volume)
                self.assertAlmostEqual(asked.kept[0].size(), shape.Volume, 5)


class Noise(test_rounds.InAFolder):
    """How far FreeCAD's volume may be from the formula's."""

    def test_a_feature_of_less_than_a_ten_thousandth_is_seen(self) -> None:
        plate = box(0, 0, 0, 200, 200, 10)
        without = plate.cut(cylinder(2, (50, 50), 0, 10, 5))
        shape = without.cut(cylinder(2, (150, 150), 0, 1, 1))
        volume = 400_000 - 251 * math.pi
        self.assertLess(without.Volume - volume, 1e-5 * volume)
        self.assertEqual(rounded_shapes.checked(shape, volume, 0.0), shape)
        for wrong in (without, shape.cut(box(0, 0, 0, 1, 1, 0.01))):
            with self.assertRaisesRegex(Refused, "FreeCAD's volume of it is .* was to come"):
                rounded_shapes.checked(wrong, volume, 0.0)

    def test_how_far_coordinates_are_moved_is_noise(self) -> None:
        parts.sheet_of(box(0, 0, 0, 50, 40, 10).cut(cylinder(2, (20, 20), 0, 10, 5)), self.file)
        asked = self.asked()
        assert asked.rounds and asked.rounds.first
        self.assertEqual(asked.rounds.first.given.moved, 0.0)
        bolts = cylinder(2, (30, 30), 0, 8, 30)
        for turn in (0.7, 2.9):
            bolts = bolts.cut(cylinder(2, (30 + 20 * math.cos(turn), 30 + 20 * math.sin(turn)), 0, 8, 3))
        parts.sheet_of(bolts, self.file)
        asked = self.asked()
        self.exact(bolts, asked)
        assert asked.rounds and asked.rounds.first
        self.assertEqual(asked.rounds.first.given.moved, 0.00005)

    def test_it_is_written_and_read(self) -> None:
        told = features.Given([], {}, {}, [], [], [], holes=(features.Hole("TOP", (9.0, 9.0), 3.0, 0.0, 9.0),), moved=0.00005)
        read = features.given_in(features.comments(told).splitlines())
        assert read
        self.assertEqual((read.moved, features.times(read, 10).moved), (0.00005, 0.0005))
        self.assertNotIn("moved", features.comments(told._replace(moved=0.0)))
        with self.assertRaises(Refused):
            features.given_in(["999", "draft moved -1"])
