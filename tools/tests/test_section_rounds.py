"""Sections of sheets with rounds: the part is kept, or the section is refused since what it shows of a round isn't what it shows of its square."""
import math
import random
import unittest
from collections import Counter
from typing import Any

from drafting.core.messages import Refused

from .support import needs_long
from .test_rounds import InAFolder

try:
    from . import rounded_parts as parts
    from . import rounded_sections as made
    from .rounded_parts import box, cylinder, drilled, filleted
    from .section_sheets import form_of
except (ImportError, Refused):
    pass

# How many random parts have a section, in the gate and with --long.
PARTS, MANY = 6, 60


def plate() -> Any:
    return box(0, 0, 0, 40, 30, 20).cut(cylinder(2, (12, 15), 8, 20, 5)).cut(cylinder(1, (30, 14), 0, 10, 4)).cut(box(0, 0, 14, 4, 30, 20))


def boss() -> Any:
    return box(0, 0, 0, 40, 30, 8).fuse(cylinder(2, (20, 14), 8, 20, 8)).cut(cylinder(2, (20, 14), 3, 20, 5)).removeSplitter()


def rounded() -> Any:
    return filleted(box(0, 0, 0, 40, 30, 10), 5, 2).cut(cylinder(2, (20, 14), 3, 10, 4))


class Rounded(InAFolder):
    def drawn(self, shape: Any, *forms: str) -> "made.RoundMaker":
        maker = made.RoundMaker(shape)
        maker.draw_views()
        for form in map(form_of, forms):
            maker.cutting_line(form)
            maker.section(form)
        maker.doc.saveas(self.file)
        return maker

    def refused(self, why: str) -> None:
        with self.assertRaisesRegex(Refused, why):
            self.asked()

    def test_read(self) -> None:
        for shape, layers, *forms in (
            (plate(), "SECTION_FRONT_15, AREA_FRONT_15", "looks=FRONT plane=15"), (plate(), "SECTION_LEFT_30, AREA_LEFT_30", "looks=LEFT plane=30 where=TOP"),
            (boss(), "SECTION_TOP_12, AREA_TOP_12", "looks=TOP plane=12 where=FRONT"), (rounded(), "SECTION_REAR_14, AREA_REAR_14", "looks=REAR plane=14"),
            (boss(), "SECTION_SIDE_20", "looks=SIDE plane=20 where=TOP hatch=none"), (rounded(), "AREA_BOTTOM_2", "looks=BOTTOM plane=2 where=FRONT"),
        ):
            with self.subTest(layers):
                self.drawn(shape, *forms)
                self.exact(shape)
                self.assertIn(f": layer{'s' * (', ' in layers)} {layers}\n", "\n".join([*self.said, ""]))

    def test_a_section_settles(self) -> None:
        """Four holes of two depths, which the views leave open."""
        shape = box(0, 0, 0, 40, 40, 20)
        for x, y, depth in ((10, 10, 8), (30, 30, 8), (10, 30, 14), (30, 10, 14)):
            shape = shape.cut(cylinder(2, (x, y), 20 - depth, 20, 4))
        made.RoundMaker(shape).saved(self.file)
        self.assertEqual(len(self.asked().kept), 2)
        self.drawn(shape, "looks=FRONT plane=10")
        self.exact(shape)

    def test_refused(self) -> None:
        for shape, form, why in (
            (plate(), "looks=FRONT plane=13", r"its plane, at y = 13, cuts in TOP a circle of radius 5 at .*\(CIRCLE .*\) beside its centre"),
            (rounded(), "looks=SIDE plane=2 where=TOP", r"its plane, at x = 2, cuts in TOP a round of radius 5 at .*\(ARC .*\) beside its centre"),
            (box(0, 0, 0, 40, 30, 20).cut(drilled(2, (12, 15), 20, 8, 4)), "looks=FRONT plane=15", "the LINE .* is oblique, and what a section shows"),
            (box(0, 0, 0, 60, 60, 10).cut(cylinder(2, (30, 30), 0, 10, 16)).cut(cylinder(2, (15, 15), 0, 10, 3)), "looks=FRONT plane=30",
             "the square of a circle of radius 3 .* meets others, and what a section shows"),
        ):
            with self.subTest(why):
                self.drawn(shape, form)
                self.refused(why)

    def test_curves_that_no_view_shows(self) -> None:
        maker = self.drawn(plate(), "looks=FRONT plane=15")
        x, y = maker.right, maker.places["FRONT"][1]
        maker.space.add_circle((x + 12, y + 14), 2)
        maker.doc.saveas(self.file)
        self.refused("no view shows its circle of radius 2")
        maker = self.drawn(plate(), "looks=FRONT plane=15")
        maker.space.add_circle((x + 12, y + 14), 4)
        maker.doc.saveas(self.file)
        self.refused("its coordinates aren't the part's")
        maker = self.drawn(plate().cut(cylinder(1, (33, 5), 20, 30, 5)), "looks=FRONT plane=15")
        maker.space.add_circle((x + 12, y + 13), 5)
        maker.doc.saveas(self.file)
        self.refused("no view shows its circle of radius 5 .* where that lies")
        maker = self.drawn(plate(), "looks=FRONT plane=15")
        maker.space.add_ellipse((x + 12, y + 14), (3, 0), 0.5)
        maker.doc.saveas(self.file)
        self.refused("section A-A.* its ELLIPSE .* is neither a level or upright line nor an arc")
        straight = box(0, 0, 0, 40, 30, 20).cut(box(10, 10, 10, 30, 20, 20))
        maker = self.drawn(straight, "looks=FRONT plane=15")
        maker.space.add_arc((x + 20, y + 15), 2, 0, 180)
        maker.doc.saveas(self.file)
        self.refused("section A-A.* no view shows its round of radius 2")

    def random_parts(self, count: int, first: int) -> "Counter[str]":
        """What comes of so many random parts with a section each, of a plane through a round or anywhere."""
        found: Counter[str] = Counter()
        for seed in range(first, first + 4 * count):
            shape = parts.random_part(seed)
            if shape is None or found.total() == count:
                continue
            rng = random.Random(seed)
            form = random_form(shape, rng)
            self.drawn(shape, form)
            try:
                asked = self.asked()
            except Refused as cause:
                found["refused"] += 1
                self.assertRegex(str(cause), "^section A-A, group", (seed, form))
                continue
            same = [parts.are_same(it.shape, shape) for it in asked.kept]
            self.assertEqual(sum(same), 1, (seed, form, self.said))
            found["right" if len(same) == 1 else "among several"] += 1
        return found

    def test_random_parts(self) -> None:
        self.assertGreater(self.random_parts(PARTS, 7900)["right"], PARTS // 3)

    @needs_long()
    def test_many_random_parts(self) -> None:
        found = self.random_parts(MANY, 8000)
        print(dict(found))
        self.assertGreater(found["right"], MANY // 3)


def random_form(shape: Any, rng: random.Random) -> str:
    """A section of a plane through the centre of some round, or anywhere else."""
    around = shape.BoundBox
    least, size = (around.XMin, around.YMin, around.ZMin), (around.XLength, around.YLength, around.ZLength)
    axis = rng.randrange(3)
    middles = {tuple(face.Surface.Center)[axis] - least[axis] for face in shape.Faces if face.Surface.TypeId == "Part::GeomCylinder"
               and abs(tuple(face.Surface.Axis)[axis]) < 0.5}
    whole = sorted(it for it in middles if math.isclose(it, round(it)) and 0 < it < size[axis])
    plane = round(rng.choice(whole)) if whole and rng.random() < 0.8 else rng.randint(1, math.floor(size[axis] - 1e-9) - 1)
    looks, where = (("SIDE", "LEFT"), ("FRONT", "REAR"), ("TOP", "BOTTOM"))[axis], (("TOP", "FRONT"), ("TOP", "SIDE"), ("FRONT", "SIDE"))[axis]
    return f"looks={rng.choice(looks)} plane={plane} where={rng.choice(where)} hatch={rng.choice(('one', 'one', 'none'))}"


if __name__ == "__main__":
    unittest.main()
