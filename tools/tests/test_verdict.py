"""The verdict on a drawing: never better than what was done for it."""
import itertools
import unittest

from drafting.core import verdict
from drafting.core.verdict import Basis, Doubt, Kind, Reason, decide, not_read, readings_not_tried, search_stopped

RESTORED_OR_NOT = (Basis.PROVED, Basis.READ, Basis.RESTORED)


class Decided(unittest.TestCase):
    """What a count is worth, with and without doubts."""

    def test_counts_without_a_doubt_are_verdicts(self) -> None:
        kinds = {0: Kind.IMPOSSIBLE, 1: Kind.UNIQUE, 2: Kind.AMBIGUOUS, 81: Kind.AMBIGUOUS}
        for basis, (count, kind) in itertools.product((Basis.PROVED, Basis.READ), kinds.items()):
            with self.subTest(basis=basis, count=count):
                found = decide(count, basis)
                self.assertEqual((found.kind, found.count, found.status, found.is_decided), (kind, count, 0, True))

    def test_one_doubt_of_any_kind_leaves_it_undecided(self) -> None:
        for basis, doubt, count in itertools.product(RESTORED_OR_NOT, Doubt, (1, 2)):
            with self.subTest(basis=basis, doubt=doubt, count=count):
                found = decide(count, basis, [Reason(doubt, "May miss: something.")])
                self.assertEqual((found.kind, found.is_decided), (Kind.NOT_DECIDED, False))
                self.assertNotEqual(found.status, 0)

    def test_impossible_needs_a_proof_of_the_whole_drawing(self) -> None:
        self.assertEqual(decide(0, Basis.PROVED).kind, Kind.IMPOSSIBLE)
        found = decide(0, Basis.RESTORED)
        self.assertEqual((found.kind, [it.doubt for it in found.reasons]), (Kind.NOT_DECIDED, [Doubt.FEATURE_UNSUPPORTED]))

    def test_impossible_stays_so_where_more_would_only_take_solids_away(self) -> None:
        for doubt in Doubt:
            narrows = doubt in (Doubt.SECTIONS_NOT_READ, Doubt.HIDDEN_NOT_DRAWN)
            with self.subTest(doubt=doubt):
                found = decide(0, Basis.PROVED, [Reason(doubt, "Not checked: something.")])
                self.assertIs(found.kind, Kind.IMPOSSIBLE if narrows else Kind.NOT_DECIDED)
                self.assertEqual(len(found.reasons), 1)

    def test_a_reason_is_told_once(self) -> None:
        self.assertEqual(len(decide(1, Basis.READ, [readings_not_tried(1, 3)] * 2).reasons), 1)


class Statuses(unittest.TestCase):
    """What a script sees."""

    def test_limits_of_the_search_keep_their_statuses(self) -> None:
        untried = readings_not_tried(1, 3, 20)
        for reasons, status in (([search_stopped("nodes", 10)], 3), ([search_stopped("solids", 10), untried], 4), ([untried], 14)):
            with self.subTest(status=status):
                self.assertEqual(decide(2, Basis.READ, reasons).status, status)

    def test_what_is_expected_has_to_be_decided(self) -> None:
        rows: list[tuple[int, list[Reason], int, int]] = [
            (0, [], 0, 0), (1, [], 1, 0), (3, [], 3, 0), (1, [], 2, 12), (2, [], 1, 12), (0, [], 1, 12),
            (1, [readings_not_tried(1, 3)], 1, 12), (10, [search_stopped("solids", 10)], 10, 12),
        ]
        for count, reasons, expected, status in rows:
            with self.subTest(count=count, expected=expected):
                self.assertEqual(decide(count, Basis.READ, reasons).status_expecting(expected), status)
        self.assertEqual(decide(1, Basis.READ, [readings_not_tried(1, 3)]).status_expecting(None), 14)

    def test_what_is_not_read_has_status_1_whatever_is_expected(self) -> None:
        found = not_read("no line of a view")
        self.assertEqual((found.kind, found.status, found.status_expecting(0), found.message), (Kind.NOT_READ, 1, 1, "no line of a view"))


class Names(unittest.TestCase):
    """What programs and people read."""

    def test_values_are_stable(self) -> None:
        self.assertEqual([it.value for it in Kind], ["unique", "ambiguous", "not_decided", "impossible", "not_read"])
        self.assertEqual(verdict.readings_not_tried(1, 3, 20).data, (("tried", 1), ("among", 3), ("seconds", 20)))
        self.assertEqual(verdict.search_stopped("solids", 10).value("most"), 10)

    def test_reasons_say_what_was_not_done(self) -> None:
        self.assertEqual(readings_not_tried(1, 3, 20).sentence,
                         "Not checked: some lines can be read in several ways, 3 in all; 1 was tried in 20 seconds.")
        self.assertEqual(search_stopped("nodes", 4000).sentence,
                         "Not checked: the search stopped at its limit of 4,000 nodes, so there may be more solids.")
