"""Parts in millimetres on sheets in inches, whose lengths have no end there: rounds are restored where they touch the rounded coordinates."""
from typing import Any

from . import test_rounds

if not test_rounds.missing:
    from . import rounded_parts as parts
    from .rounded_parts import box, cylinder, filleted

MILLIMETRES = 25.4
# What coordinates of four decimals are moved by, at most, in inches.
MOVED = 5e-5


class Inches(test_rounds.InAFolder):
    def one(self, shape: Any) -> None:
        """The sheet in inches has one solid: of the part's volume, but for how far its faces are moved, and with as many faces."""
        import ezdxf
        from ezdxf.math import Matrix44
        parts.sheet_of(shape, self.file)
        doc = ezdxf.readfile(self.file)
        for entity in doc.modelspace():
            entity.transform(Matrix44.scale(1 / MILLIMETRES))
        doc.header["$INSUNITS"] = 1
        doc.saveas(self.file)
        asked = self.asked()
        assert asked.rounds and asked.rounds.likeliest
        self.assertEqual(len(asked.kept), 1, asked.rounds.reasons())
        made = asked.kept[0].shape
        self.assertLess(abs(made.Volume * MILLIMETRES**3 - shape.Volume), shape.Area * 2 * MOVED * MILLIMETRES)
        self.assertEqual(len(made.Faces), len(shape.Faces))

    def test_a_plate_with_two_fillets(self) -> None:
        self.one(filleted(box(0, 0, 0, 40, 30, 8), 6, 2, lambda it: it.x > 39).cut(cylinder(2, (12, 15), 0, 8, 4)))

    def test_a_plate_with_rounded_corners(self) -> None:
        self.one(filleted(box(0, 0, 0, 40, 30, 8), 5, 2))

    def test_a_stepped_block_with_a_rounded_pocket(self) -> None:
        pocket = filleted(box(5, 5, 12, 16, 25, 20), 3, 2)
        self.one(box(0, 0, 0, 40, 30, 20).cut(box(20, 0, 8, 40, 30, 20)).cut(pocket))

    def test_a_plate_with_a_plain_hole(self) -> None:
        self.one(box(0, 0, 0, 40, 30, 8).cut(cylinder(2, (12, 15), 0, 8, 4)))

    def test_a_fillet_between_walls(self) -> None:
        shape = box(0, 0, 0, 40, 30, 8).fuse(box(0, 22, 0, 40, 30, 30)).removeSplitter()
        self.one(filleted(shape, 5, 0, lambda it: abs(it.y - 22) < 1e-9 and abs(it.z - 8) < 1e-9))
