"""Of different solids with the same views each is listed, or the verdict says why it isn't decided; and parts of which there is one get no such
reason."""
import pathlib
import tempfile
import unittest
from typing import Any

from drafting.core.messages import Refused
from drafting.core.notes import tell_none
from drafting.core.verdict import Doubt, Kind, Verdict
from drafting.solve import pipeline
from drafting.solve.verdict import verdict_of

from . import test_rounds
from .support import needs_long, needs_module, needs_program

if not test_rounds.missing:
    from . import rounded_parts as parts
    from . import same_views
    from .rounded_parts import box, chamfered, cylinder, filleted, prism

# By family the axis along which it is looked at, and of how many plates, or holes in a row, it is made; and how many solids each of its groups has.
QUICK: tuple[tuple[str, int, int, list[int]], ...] = (
    ("shelves_under_a_cover", 2, 2, [2]), ("shelves_under_a_cover", 1, 2, [2]), ("shelves_under_a_cover", 0, 2, [2]),
    ("corners_of_pockets", 0, 2, [2]),
    ("fillets_in_corners", 2, 2, [2]), ("slots_with_one_round_end", 1, 2, [2]), ("openings_under_a_round_hole", 2, 2, [3]),
    ("pillars", 2, 2, [2]), ("sections_of_a_shaft", 0, 2, [2]),
)
# Families whose groups take three plates.
OF_THREE = ("shelves_in_sight", "lugs", "lugs_with_bores", "shelves_of_mixed_radii", "cheeks", "openings_upon_each_other")
LEAST_GROUPS, SEEDS = 40, range(20)


@unittest.skipIf(test_rounds.missing, test_rounds.missing)
@needs_module("ezdxf", "python3-ezdxf")
@needs_program()
class OfGroups(unittest.TestCase):
    def setUp(self) -> None:
        folder = tempfile.TemporaryDirectory()
        self.addCleanup(folder.cleanup)
        self.file = pathlib.Path(folder.name) / "group.dxf"

    def asked(self, group: "same_views.Group") -> tuple[Verdict, list[Any]]:
        """The verdict on the views of a group, and which of its solids aren't listed. All of a group have one sheet."""
        same_views.write(group.look, self.file)
        try:
            asked = pipeline.ask(str(self.file), test_rounds.arguments("solve", self.file, "--angle", "third"), tell_none)
        except Refused as refusal:
            self.fail(f"refused: {refusal}")
        return verdict_of(asked), [it for it in group.members if not any(parts.are_same(one.shape, it) for one in asked.kept)]

    def check(self, group: "same_views.Group") -> bool:
        """That each solid of a group is listed, or the verdict has a reason; whether all are listed."""
        verdict, lacking = self.asked(group)
        if lacking:
            self.assertEqual(verdict.kind, Kind.NOT_DECIDED, f"{len(lacking)} of {len(group.members)} aren't listed")
            self.assertTrue(verdict.reasons)
        else:
            self.assertIn(verdict.kind, (Kind.AMBIGUOUS, Kind.NOT_DECIDED))
        self.assertNotEqual(verdict.kind, Kind.UNIQUE)
        return not lacking


class Quick(OfGroups):
    def test_each_solid_is_listed(self) -> None:
        for name, axis, count, sizes in QUICK:
            groups = same_views.groups_of(same_views.FAMILIES[name](count), axis)
            self.assertEqual(sorted(len(it.members) for it in groups), sizes, name)
            for number, group in enumerate(groups):
                with self.subTest(family=name, axis=axis, number=number):
                    self.assertTrue(self.check(group))


class OfOneSolid(test_rounds.InAFolder):
    """Ordinary parts, of which each round can be in one choice of layers alone."""

    def some(self) -> list[Any]:
        block = box(0, 0, 0, 60, 40, 20)
        return [
            box(0, 0, 0, 50, 40, 10).cut(cylinder(2, (20, 20), 0, 10, 5)).cut(cylinder(2, (20, 20), 6, 10, 8)).cut(cylinder(2, (40, 10), 3, 10, 3)),
            cylinder(0, (20, 20), 0, 20, 10).fuse(cylinder(0, (20, 20), 20, 50, 15)).fuse(cylinder(0, (20, 20), 50, 60, 8)).removeSplitter(),
            filleted(block, 8, 2).cut(box(0, 10, 12, 60, 16, 20)),
            chamfered(chamfered(block, 5, 2, lambda it: it.x < 1 and it.y < 1), 4, 1, lambda it: it.x > 59 and it.z > 19),
            cylinder(0, (20, 20), 0, 60, 12).cut(box(30, 0, 26, 60, 40, 40)),
            # A hub whose bore is cut by a slot; and a ramp, in which a slot ends.
            cylinder(2, (25, 25), 0, 10, 25).fuse(cylinder(2, (25, 25), 10, 30, 14)).cut(cylinder(2, (25, 25), 0, 30, 8))
            .cut(box(23, 0, 20, 27, 50, 30)).removeSplitter(),
            prism(1, [(0, 0), (60, 0), (60, 10), (30, 25), (0, 25)], 0, 40).cut(box(20, 10, 18, 60, 30, 25)),
        ]

    def test_no_other_layers_are_told(self) -> None:
        for number, shape in enumerate(self.some()):
            parts.sheet_of(shape, self.file)
            asked = self.asked()
            with self.subTest(number=number):
                self.exact(shape, asked)
                self.assertEqual([it.sentence for it in verdict_of(asked).reasons if it.doubt is Doubt.LAYERS_NOT_TRIED], [])


class Many(OfGroups):
    @needs_long()
    def test_families_along_each_axis(self) -> None:
        count = 0
        for name, make in same_views.FAMILIES.items():
            for axis in range(3):
                for number, group in enumerate(same_views.groups_of(make(3 if name in OF_THREE else 2), axis)):
                    with self.subTest(family=name, axis=axis, number=number):
                        self.check(group)
                    count += 1
        self.assertGreaterEqual(count, LEAST_GROUPS)

    @needs_long()
    def test_random_ones(self) -> None:
        count = 0
        for seed in SEEDS:
            for number, group in enumerate(same_views.groups_of(same_views.random_family(seed), seed % 3)):
                with self.subTest(seed=seed, number=number):
                    self.check(group)
                count += 1
        self.assertGreater(count, 10)
