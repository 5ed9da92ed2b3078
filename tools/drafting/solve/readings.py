"""The readings of a sheet with rounds: all are tried, the likeliest first, for some seconds, and the solids of each are rounded back and kept where
they have the sheet. What is found before isn't asked about or built again."""
import argparse
import math
import time
from collections.abc import Callable
from typing import NamedTuple

from ..core.messages import Progress
from ..core.verdict import Doubt, Reason, readings_not_tried
from ..dxf.drawing import lines_within
from ..recon import process
from ..recon.answer import WHOLE, answer_of
from ..rounds import verify as kept
from ..rounds.features import Given, given_in
from ..rounds.verify import Outcome
from ..sheet import pipeline
from . import left_open

# For how many seconds readings are tried once some solid is kept, and as long as none is, unless the caller says otherwise.
SECONDS, PATIENCE = 20.0, 300.0
# What is told where no solid is kept: of curves that don't stand free as far as the sheet shows it, so many, or of none.
CAUSE, MOST_TOLD = "The likely cause is {} that doesn't stand free:", 4
UNKNOWN = "The cause isn't known, since the other views confirm each curve: a line lacks or is too much (draft why), or something doesn't stand free."
# What runs the program over a drawing of so many decimals.
Asker = Callable[[bytes, int], process.Run]


class Answered(NamedTuple):
    """A reading, the program's run over it, and what came of its solids."""

    drawn: pipeline.Drawn
    given: Given
    run: process.Run
    outcome: Outcome

    @property
    def head(self) -> str:
        """The first line of what recon wrote."""
        return self.run.text.partition("\n")[0]

    @property
    def is_whole(self) -> bool:
        return bool(WHOLE.fullmatch(self.head))


class Readings(NamedTuple):
    """What came of the readings of a sheet that were tried: those of which solids are kept, or else the first one; how many were tried, of how
    many; where no more were tried for want of time, within how many seconds; where none is kept the first one that has solids; what those that were
    tried leave open; and how many of these drawings recon didn't take."""

    kept: list[Answered]
    first: Answered | None
    tried: int
    among: int
    seconds: float | None = None
    nearest: Answered | None = None
    open: tuple[Reason, ...] = ()
    faults: int = 0

    @property
    def likeliest(self) -> Answered | None:
        """The first reading of which some solid is kept, else the first one."""
        return next(iter(self.kept), self.first)

    @property
    def shown(self) -> Answered | None:
        """The reading of whose solids it is told what came: one that has some, where none is kept."""
        return self.kept[0] if self.kept else self.nearest or self.first

    @property
    def elsewhere(self) -> int:
        """How many solids are kept in other readings than the likeliest one."""
        return sum(len(it.outcome.kept) for it in self.kept[1:])

    @property
    def choices(self) -> set[str]:
        """The choices of the solids that are kept in it."""
        return {one.solid.choice for one in self.likeliest.outcome.kept} if self.likeliest else set()

    @property
    def is_plain(self) -> bool:
        """Whether the reading in use changes nothing but which lines are left out as tangent edges."""
        return not self.kept or self.kept[0].given.reading[0] <= self.among

    @property
    def cause(self) -> list[str]:
        """Why no solid is kept, as far as the sheet tells it."""
        if self.kept or self.first is None:
            return []
        given = self.first.given
        its = [*given.suspects, *given.doubts]
        if not its:
            return [UNKNOWN]
        more = f"; and {len(its) - MOST_TOLD} more" if len(its) > MOST_TOLD else ""
        cause = CAUSE.format("a curve or an oblique edge" if given.chamfers else "a curve")
        return [f"{cause} {'; '.join(its[:MOST_TOLD])}{more}."]

    def reasons(self) -> list[Reason]:
        """What the readings leave open."""
        tried = self.tried - self.faults
        return [*([readings_not_tried(max(0, tried), self.among, self.seconds)] if tried < self.among else []),
                *([] if self.is_plain else [Reason(Doubt.READING_UNLIKELY, left_open.MOVED, (("reading", self.kept[0].given.reading[0]),))]), *self.open]


class Known:
    """What was found of squared-off drawings by now: recon's runs by their text, and which, with what was squared off of them, have no solid, or
    none but those that are kept, so that they give nothing new in another reading of the sheet."""

    def __init__(self) -> None:
        self.runs: dict[str, process.Run] = {}
        self.done: set[object] = set()

    def run(self, drawn: pipeline.Drawn, ask: "Asker") -> process.Run:
        """The program's run over a drawing, which isn't run over the same lines again."""
        key = lines_in(drawn)
        if key not in self.runs:
            self.runs[key] = ask(drawn.text.encode(errors="surrogateescape"), drawn.decimals)
        return self.runs[key]

    def is_done(self, drawn: pipeline.Drawn, given: Given) -> bool:
        return lines_in(drawn) in self.done or built_of(drawn, given) in self.done

    def note(self, found: Answered) -> None:
        """Notes what came of a reading. Of one whose solids are compared with other lines of the sheet in the next reading nothing is noted where
        some solid differs from the sheet."""
        if not found.outcome.listed and found.is_whole:
            self.done.add(lines_in(found.drawn))
        elif found.outcome.kept and not found.outcome.others and not any(one.doubt for one in found.outcome.kept):
            self.done.add(built_of(found.drawn, found.given))


def built_of(drawn: pipeline.Drawn, given: Given) -> object:
    """What the shapes of a drawing's solids are made of: its lines, and all that was squared off or taken off."""
    return lines_in(drawn), repr((given.rounds, given.chamfers, given.holes, given.cones, given.moved))


def answered(drawn: pipeline.Drawn, given: Given, run: process.Run) -> Answered:
    """What comes of one reading, of which recon had this to say."""
    return Answered(drawn, given, run, kept.outcome(answer_of(run.text), given, drawn.decimals))


def open_in(one: Answered) -> tuple[Reason, ...]:
    """What a reading that was tried leaves open."""
    return tuple(left_open.of_reading(one.head, one.given, one.outcome, one.drawn.reasons))


def of_drawing(drawn: pipeline.Drawn, given: Given, run: process.Run) -> Readings:
    """What comes of a drawing that was squared off before, of which recon had this to say."""
    if run.status == process.FAULT:
        return Readings([], None, 0, 1)
    one = answered(drawn, given, run)
    return Readings([one] if one.outcome.kept else [], one, 1, given.reading[1], None, None, open_in(one))


def seconds_for(arguments: argparse.Namespace, has_solids: bool) -> float:
    """For how many seconds readings are tried."""
    if arguments.reading_seconds is not None:
        return float(arguments.reading_seconds)
    return math.inf if arguments.all_readings else SECONDS if has_solids else PATIENCE


def readings(drawn: pipeline.Drawn, ask: Asker, arguments: argparse.Namespace) -> Readings:
    """Tries the readings of a sheet, the likeliest first: all plain ones, and the others where no solid of these is kept; of one whose oblique
    edges may be squared to several corners each of these."""
    result, known, began = Readings([], None, 0, 1), Known(), time.monotonic()
    for group in drawn.others:
        seconds = seconds_for(arguments, bool(result.kept))
        if result.tried and time.monotonic() > began + seconds:
            result = result._replace(seconds=seconds)
            break
        its = [one for one in group.its if isinstance(one, pipeline.Drawn)]
        if result.kept and not all(one.is_plain for one in its):
            result = result._replace(tried=result.among)
            break
        Progress.show(f"reading {result.tried + 1} of {result.among} is tried")
        for one in its:
            result = tried_too(result, one, ask, known)
        if result.first:
            result = result._replace(tried=min(group.last, result.among))
    else:
        result = result._replace(tried=result.among)
    Progress.clear()
    return result if arguments.reading is None else result._replace(tried=1)


def tried_too(result: Readings, one: pipeline.Drawn, ask: Asker, known: Known) -> Readings:
    """What came of the readings, and of one more; unless it gives nothing that isn't known."""
    given = given_in(lines_within(one.text.encode(errors="surrogateescape")))
    if given is None or known.is_done(one, given):
        return result
    run = known.run(one, ask)
    if run.status == process.FAULT:
        return result._replace(faults=result.faults + one.is_plain)
    found = answered(one, given, run)
    known.note(found)
    return with_one(result, found)


def with_one(result: Readings, found: Answered) -> Readings:
    """What came of the readings, and of one more, of which those solids are kept that are new."""
    number, count = found.given.reading
    others = [one for it in result.kept for one in it.outcome.kept]
    new = [one for one in found.outcome.kept if not any(are_alike(one, other) for other in others)]
    some = [found._replace(outcome=found.outcome._replace(kept=new))] if new else []
    nearest = result.nearest or (found if found.outcome.listed else None)
    return result._replace(kept=[*result.kept, *some], first=result.first or found, tried=min(number, count), among=count, nearest=nearest,
                           open=tuple(dict.fromkeys((*result.open, *open_in(found)))))


def lines_in(drawn: pipeline.Drawn) -> str:
    """The text of a drawing behind its comments."""
    return drawn.text[drawn.text.index("SECTION"):]


def are_alike(one: kept.Kept, other: kept.Kept) -> bool:
    """Whether two solids are one, by their volumes and what they don't share."""
    if abs(one.size() - other.size()) > 1e-6 * one.size():
        return False
    if one.shape is None or other.shape is None:
        return one.solid.faces == other.solid.faces
    return bool(one.shape.cut(other.shape).Volume + other.shape.cut(one.shape).Volume < 1e-6 * one.size())
