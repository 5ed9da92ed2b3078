"""The verdict that is made of an answer: each doubt leaves it open, and nothing else does; and its words, which are the same everywhere."""
import argparse
import itertools
import time
import unittest
from fractions import Fraction
from typing import Any
from unittest import mock

from drafting.core import page as documents
from drafting.core.messages import Refused
from drafting.core.verdict import Basis, Doubt, Kind, Reason, Verdict, decide, not_read, readings_not_tried, search_stopped
from drafting.dxf.drawing import Origin
from drafting.messages import verdict as in_words
from drafting.recon.answer import Solid
from drafting.recon.process import Run
from drafting.render import html
from drafting.rounds import verify
from drafting.rounds.features import Chamfer, Given
from drafting.rounds.rounds import Slant
from drafting.rounds.verify import Kept, Outcome
from drafting.sheet import pipeline as sheet
from drafting.solve import pipeline, readings
from drafting.solve.readings import Answered, Readings
from drafting.solve.verdict import stopped, verdict_of

CHAMFERS = (Chamfer("SIDE", Slant((32.0, 8.0), (12.0, 36.0))),)
ORIGIN = Origin("mm", Fraction(1), False)
OTHER = Reason(Doubt.LAYERS_NOT_TRIED, "Not checked: 2 ways to round a corner.")
# A face, without which an answer has no solid of so many.
FACES = "face -x at 0 loop 0,0,0 0,0,1 0,1,1 0,1,0\n"
CUBE = Solid("1", 1, [])


def text_of(count: int, head: str = "") -> str:
    """What recon writes of so many solids, each of one face, which is enough here."""
    return f"{head or f'whole {count} nodes 1 blocks 1'}\n" + "".join(
        f"solid {number} choice 1 volume 1 faces 1\n{FACES}" for number in range(1, count + 1))


def asked_of(text: str, lines: list[str] | None = None, **more: Any) -> pipeline.Asked:
    asked = pipeline.Asked(b"", lines or [], 0, ORIGIN, Run(0, text, 0.0))
    return asked._replace(**more)


def kept(number: int, doubt: str = "") -> Kept:
    return Kept(number, CUBE, (Fraction(number), Fraction(0)), None, doubt)


def reading(
    number: int, among: int, solids: int, head: str = "", reasons: tuple[Reason, ...] = (), doubts: tuple[str, ...] = (), suspects: tuple[str, ...] = (),
    **outcome: Any,
) -> Answered:
    """A reading of a sheet that keeps so many solids, of volumes of its own."""
    given = Given([], {}, {}, [], list(doubts), [], (number, among), CHAMFERS, (), suspects)
    its = Outcome(max(1, solids), 0, [], [kept(10 * number + it) for it in range(solids)], True, kinds="chamfers")._replace(**outcome)
    drawn = sheet.Drawn(f"SECTION {number}", 0, ORIGIN, reasons=reasons)
    return Answered(drawn, given, Run(0, f"{head or 'whole 1 nodes 1 blocks 1'}\n", 0.0), its)


def of_readings(*its: Answered, tried: int | None = None, **more: Any) -> Verdict:
    """The verdict on a sheet with these readings."""
    found = Readings([], None, 0, 1)
    for one in its:
        found = readings.with_one(found, one)
    found = found._replace(tried=found.among if tried is None else tried, **more)
    return verdict_of(asked_of(f"{its[0].head}\n", rounds=found))


class OfADrawing(unittest.TestCase):
    """Of a drawing of three layers, without rounds."""

    def test_recons_answer(self) -> None:
        rows = ((0, "", Kind.IMPOSSIBLE), (1, "", Kind.UNIQUE), (35, "", Kind.AMBIGUOUS), (0, "cut nodes 10", Kind.NOT_DECIDED),
                (1, "cut nodes 10", Kind.NOT_DECIDED), (2, "cut solids 2", Kind.NOT_DECIDED))
        for count, head, kind in rows:
            with self.subTest(count=count, head=head):
                its = verdict_of(asked_of(text_of(count, head)))
                self.assertEqual((its.kind, its.count, its.basis), (kind, count, Basis.PROVED))
                self.assertEqual([it.doubt for it in its.reasons], [Doubt.SEARCH_STOPPED] if head else [])

    def test_a_fault_is_not_read(self) -> None:
        its = verdict_of(asked_of("fault F14 EmptyView view FRONT\n"))
        self.assertEqual((its.kind, its.count, its.status), (Kind.NOT_READ, 0, 1))
        self.assertIn("a view has no line", its.message)

    def test_what_was_told_page_by_page(self) -> None:
        its = verdict_of(asked_of("blocks 3\n"), "whole 2 nodes 9 blocks 3", 2)
        self.assertEqual((its.kind, its.count), (Kind.AMBIGUOUS, 2))

    def test_how_it_was_read(self) -> None:
        row = next(it for it in Doubt if it is Doubt.CONTENT_NOT_READ)
        its = verdict_of(asked_of(text_of(1), paper=mock.Mock(), reasons=(Reason(row, "Not checked: a block."),)))
        self.assertEqual((its.kind, its.basis, [it.doubt for it in its.reasons]), (Kind.NOT_DECIDED, Basis.READ, [row]))
        self.assertEqual(verdict_of(asked_of(text_of(1), paper=mock.Mock())).kind, Kind.UNIQUE)

    def test_sections_that_were_not_read(self) -> None:
        lines = "0 SECTION 2 ENTITIES 0 LINE 8 SECTION_FRONT_12 10 0 20 0 11 0 21 1 0 ENDSEC 0 EOF".split()
        for count, kind in ((1, Kind.NOT_DECIDED), (3, Kind.NOT_DECIDED), (0, Kind.IMPOSSIBLE)):
            its = verdict_of(asked_of(text_of(count), lines))
            self.assertEqual((its.kind, [it.doubt for it in its.reasons]), (kind, [Doubt.SECTIONS_NOT_READ]))
        self.assertEqual(verdict_of(asked_of(text_of(1), lines, with_sections=True)).kind, Kind.UNIQUE)

    def test_what_lies_within_the_views(self) -> None:
        words = "0 SECTION 2 ENTITIES 0 LINE 8 FRONT 10 0 20 0 11 9 21 9 0 CIRCLE 8 NOTES 10 4 20 4 40 1 0 ENDSEC 0 EOF"
        its = verdict_of(asked_of(text_of(1), words.split()))
        self.assertEqual((its.kind, [it.doubt for it in its.reasons]), (Kind.NOT_DECIDED, [Doubt.CONTENT_NOT_READ]))
        self.assertEqual(its.reasons[0].data, (("kind", "CIRCLE"), ("layer", "NOTES"), ("count", 1)))

    def test_a_page_without_hidden_lines(self) -> None:
        page = mock.Mock(spec=documents.Page, lacking=[mock.Mock(label="Front"), mock.Mock(label="Top")])
        its = verdict_of(asked_of(text_of(1), page=page))
        self.assertEqual((its.kind, [it.doubt for it in its.reasons]), (Kind.NOT_DECIDED, [Doubt.HIDDEN_NOT_DRAWN]))
        self.assertIn("Front, Top", its.reasons[0].sentence)

    def test_a_search_that_was_stopped_by_hand(self) -> None:
        for asked, why in itertools.product((None, asked_of(text_of(0))), ("", "recon took longer than 5 seconds")):
            its = stopped(asked, 2, why)
            self.assertEqual((its.kind, its.count, its.status), (Kind.NOT_DECIDED, 2, 14))
            self.assertIn(why, its.reasons[0].sentence)


class OfASheetWithRounds(unittest.TestCase):
    """Of a sheet that was squared off, in several readings."""

    def test_all_readings_tried_and_no_doubt(self) -> None:
        for solids, kind in ((1, Kind.UNIQUE), (2, Kind.AMBIGUOUS)):
            its = of_readings(reading(1, 3, solids), reading(2, 3, 0))
            self.assertEqual((its.kind, its.count, its.basis, its.reasons), (kind, solids, Basis.RESTORED, ()))

    def test_solids_of_several_readings_count(self) -> None:
        self.assertEqual(of_readings(reading(1, 2, 1), reading(2, 2, 1)).kind, Kind.AMBIGUOUS)

    def test_each_doubt_leaves_it_open(self) -> None:
        whole = reading(1, 3, 1)
        rows: dict[Doubt, Verdict] = {
            Doubt.SEARCH_STOPPED: of_readings(reading(1, 3, 1, "cut solids 10")),
            Doubt.READINGS_NOT_TRIED: of_readings(whole, tried=2, seconds=20.0),
            Doubt.READING_UNLIKELY: of_readings(reading(1, 3, 0), reading(4, 3, 1)),
            Doubt.SOLIDS_NOT_RESTORED: of_readings(reading(1, 3, 1, unseen=7)),
            Doubt.LAYERS_NOT_TRIED: of_readings(reading(1, 3, 1, reasons=(OTHER,))),
            Doubt.NOT_COMPARED: of_readings(reading(1, 3, 1, is_compared=False)),
            Doubt.TANGENT_EDGES_DIFFER: of_readings(reading(1, 3, 1, kept=[kept(1, "5 lines left out")])),
            Doubt.FEATURES_MEET: of_readings(reading(1, 3, 1, doubts=("a round of radius 3 is cut by walls",))),
            Doubt.FEATURE_UNSUPPORTED: of_readings(reading(1, 3, 0)),
        }
        for doubt, its in rows.items():
            with self.subTest(doubt):
                self.assertEqual((its.kind, [it.doubt for it in its.reasons]), (Kind.NOT_DECIDED, [doubt]))
                self.assertRegex(its.reasons[0].sentence, r"^(Not checked|May miss): .*\.$")

    def test_doubts_of_a_reading_that_keeps_nothing_count_too(self) -> None:
        """What its search left out may be the part; what its squaring off may lose is of the readings that keep solids."""
        self.assertEqual(of_readings(reading(1, 2, 1), reading(2, 2, 0, "cut nodes 9")).kind, Kind.NOT_DECIDED)
        self.assertEqual(of_readings(reading(1, 2, 1), reading(2, 2, 0, unseen=1)).kind, Kind.NOT_DECIDED)
        self.assertEqual(of_readings(reading(1, 2, 1), reading(2, 2, 0, reasons=(OTHER,))).kind, Kind.NOT_DECIDED)
        self.assertEqual(of_readings(reading(1, 2, 1), reading(2, 2, 0, doubts=("a line ends in a corner",))).kind, Kind.UNIQUE)

    def test_solids_that_cannot_be_rounded_again_leave_nothing_open(self) -> None:
        self.assertEqual(of_readings(reading(1, 1, 1, listed=3, lost=2)).kind, Kind.UNIQUE)

    def test_drawings_with_a_fault_were_not_tried(self) -> None:
        its = of_readings(reading(1, 3, 1), faults=1)
        self.assertEqual([dict(it.data) for it in its.reasons], [{"tried": 2, "among": 3, "seconds": None}])

    def test_likely_causes_are_named_where_no_solid_is_kept(self) -> None:
        its = of_readings(reading(1, 1, 0, suspects=tuple(f"curve {number}" for number in range(6))))
        self.assertIn("an oblique edge that doesn't stand free: curve 0; curve 1; curve 2; curve 3; and 2 more.", its.reasons[0].sentence)


class Tried(unittest.TestCase):
    """Which readings are tried, and for how long."""

    def tried(self, groups: int, kept_in: tuple[int, ...] = (0,), text: str = "", **words: Any) -> tuple[Readings, int, int]:
        """The readings of a sheet with so many, the runs of recon and how many solids were looked at; one second passes at each look
        at the clock, which is before all but the first."""
        arguments = argparse.Namespace(**{"reading": None, "reading_seconds": None, "all_readings": False, **words})
        moments, runs, looks = itertools.count(), list[int](), list[int]()

        def drawn(number: int) -> sheet.Drawn:
            return sheet.Drawn(f"{number} SECTION {text or number}", 0, ORIGIN)

        def given_of(lines: list[str]) -> Given:
            return reading(int(lines[0].split()[0]) + 1, groups, 0).given

        def ask(data: bytes, decimals: int) -> Run:
            runs.append(int(data.split()[0]))
            return Run(0, text_of(1), 0.0)

        def outcome(answer: object, given: Given, decimals: int) -> Outcome:
            looks.append(given.reading[0])
            return reading(given.reading[0], groups, int(given.reading[0] - 1 in kept_in)).outcome

        its = drawn(0)._replace(others=iter([sheet.Alike([drawn(number)], number + 1) for number in range(groups)]))
        with (mock.patch.object(time, "monotonic", side_effect=lambda: float(next(moments))), mock.patch.object(readings, "given_in", given_of),
              mock.patch.object(verify, "outcome", outcome)):
            return readings.readings(its, ask, arguments), len(runs), len(looks)

    def test_all_are_tried_within_20_seconds_once_a_solid_is_kept(self) -> None:
        found, runs, _ = self.tried(9)
        self.assertEqual((found.tried, found.among, found.seconds, runs), (9, 9, None, 9))
        found, runs, _ = self.tried(60)
        self.assertEqual((found.tried, found.among, found.seconds), (21, 60, 20.0))
        self.assertEqual(found.reasons()[0].doubt, Doubt.READINGS_NOT_TRIED)

    def test_as_long_as_none_is_kept_they_go_on(self) -> None:
        found, _, _ = self.tried(60, (50,))
        self.assertEqual((len(found.kept), found.tried), (1, 51))

    def test_options_say_for_how_long(self) -> None:
        self.assertEqual(self.tried(60, all_readings=True)[0].tried, 60)
        self.assertEqual(self.tried(60, reading_seconds=5.0)[0].tried, 6)
        self.assertEqual(self.tried(60, (), reading_seconds=5.0)[0].tried, 6)

    def test_the_same_drawing_is_neither_asked_nor_built_again(self) -> None:
        found, runs, looks = self.tried(9, (0,), "the same lines")
        self.assertEqual((found.tried, runs, looks, len(found.kept)), (9, 1, 1, 1))
        # Where no solid is kept the sheet's lines may be others in the next reading: recon isn't run again, and its solids are looked at.
        found, runs, looks = self.tried(9, (5,), "the same lines")
        self.assertEqual((found.tried, runs, looks, len(found.kept)), (9, 1, 6, 1))


class Words(unittest.TestCase):
    """What people read of a verdict."""

    def test_headlines(self) -> None:
        rows = (
            (decide(1, Basis.PROVED), "Unique: one solid matches this drawing."),
            (decide(3, Basis.READ), "Ambiguous: 3 solids match this drawing. All are listed."),
            (decide(0, Basis.PROVED), "Impossible: no solid matches this drawing."),
            (decide(10, Basis.READ, [search_stopped("solids", 10)]), "Not decided: the search stopped at --solids 10. At least 10 solids match."),
            (decide(1, Basis.READ, [search_stopped("nodes", 7)]), "Not decided: the search stopped at --nodes 7. At least 1 solid matches."),
            (decide(0, Basis.READ, [search_stopped("nodes", 7)]), "Not decided: the search stopped at --nodes 7. No solid was found."),
            (decide(1, Basis.RESTORED, [readings_not_tried(1, 3)]), "Not decided: at least one solid matches this drawing, and there may be more."),
            (decide(0, Basis.RESTORED), "Not decided: no solid was found, and some may match this drawing."),
            (not_read("no line of a view"), "Not read: no line of a view"),
        )
        for its, headline in rows:
            with self.subTest(headline):
                self.assertEqual(in_words.headline(its), headline)
                self.assertEqual(in_words.told(its)[0].startswith(headline), True)
                word, _, text = headline.partition(": ")
                # Why nothing was read may begin with the name of a file.
                begin = text[0] if word == "Not read" else text[0].upper()
                self.assertIn(f'<p class="word">{word}</p><p class="count">{begin}{text[1:].rstrip(".")}.</p>', html.verdict_told(its))

    def test_reasons_come_next_and_then_what_to_do(self) -> None:
        its = decide(1, Basis.RESTORED, [readings_not_tried(1, 3, 20), Reason(Doubt.NOT_COMPARED, "Not checked: the solids.")])
        self.assertEqual(in_words.told(its)[1:], [
            "Not checked: some lines can be read in several ways, 3 in all; 1 was tried in 20 seconds.", "Not checked: the solids.",
            "--all-readings tries all readings, however long it takes.",
            "FreeCAD compares them: apt-get install --no-install-recommends freecad-python3"])

    def test_an_impossible_drawing_says_what_looks_for_the_line(self) -> None:
        self.assertEqual(in_words.told(decide(0, Basis.PROVED)),
                         ["Impossible: no solid matches this drawing. `draft why SHEET.dxf` looks for the wrong line."])

    def test_a_limit_is_raised_as_far_as_it_goes(self) -> None:
        self.assertEqual(in_words.advice_on(search_stopped("solids", 10)), "Raise the limit by --solids, to 65,536 at most.")
        self.assertEqual(in_words.advice_on(search_stopped("solids", 65_536)), "Draw what tells the solids apart, or less of the part.")

    def test_what_is_not_unique_never_says_so(self) -> None:
        """No place says of a drawing that isn't decided that one solid has it."""
        for doubt in Doubt:
            its = decide(1, Basis.RESTORED, [Reason(doubt, "May miss: others.")])
            for text in ("\n".join(in_words.told(its)), html.head_told(its, "whole 1 nodes 1 blocks 1")):
                self.assertNotRegex(text, r"(?i)unique|one solid (has|matches) th(ese|is) (views|drawing)\.")

    def test_a_refusal_of_several_lines(self) -> None:
        self.assertIn('<p class="count">in FRONT a LINE.</p>', html.refused_told("in FRONT a LINE\n  recon lists 3"))
        self.assertIn("recon lists 3", html.refused_told("in FRONT a LINE\n  recon lists 3"))
        self.assertEqual(str(Refused("in FRONT")), "in FRONT")
