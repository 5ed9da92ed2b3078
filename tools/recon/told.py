"""What `why` and `settle` answer: the words of `draft`, and the same as records. Lengths are exact, in the drawing's unit, and places are
those of the drawing, or of the sheet that it was made of."""
from collections.abc import Iterator
from dataclasses import dataclass
from fractions import Fraction

from drafting.explain import distinguishing as telling, why
from drafting.explain.added_views import Added
from drafting.projection.draw import STYLES, Row

Place = tuple[Fraction, Fraction]


@dataclass(frozen=True)
class Change:
    """A stretch of a view that is drawn otherwise: its ends, how it was drawn and how it would be, each `solid`, `dashed` or `nothing
    there`."""

    view: str
    start: Place
    end: Place
    drawn: str
    would: str


@dataclass(frozen=True)
class Suggestion:
    """Changes by which some solid has the drawing: in words, one by one, and how many solids it then has, as recon says, or at least has,
    where `is_more`."""

    words: tuple[str, ...]
    changes: tuple[Change, ...]
    count: int
    is_more: bool


@dataclass(frozen=True)
class Why:
    """What would have to be drawn otherwise, the likeliest first; nothing of a drawing that some solid has. The words tell also what wasn't
    looked at."""

    words: tuple[str, ...]
    suggestions: tuple[Suggestion, ...]


@dataclass(frozen=True)
class Groups:
    """A view or a section that isn't drawn, into how many groups it splits the solids, and how many the largest keeps."""

    name: str
    count: int
    largest: int


@dataclass(frozen=True)
class Line:
    """A line to be added: its view or the layer of its section, whether it is dashed, and its ends in the drawing that recon read."""

    view: str
    is_dashed: bool
    start: Place
    end: Place


@dataclass(frozen=True)
class Settling:
    """What tells solids apart: views and sections, the best first; and of the solid that is meant the lines that leave as few others as
    views, or else sections, can, which ones are left, by their numbers, the drawing's text with these lines, and all in words."""

    groups: tuple[Groups, ...]
    lines: tuple[Line, ...] = ()
    left: tuple[int, ...] = ()
    dxf: str = ""
    words: tuple[str, ...] = ()


def changes_of(suggestion: why.Suggestion) -> Iterator[Change]:
    """The stretches of a suggestion."""
    for row, styles in suggestion.rows:
        for low, high, was, will in why.segments_of(suggestion.placed, row, styles):
            start, end = ends_of(suggestion.placed, row, low, high)
            yield Change(row.view, start, end, STYLES[was], STYLES[will])


def ends_of(placed: why.Placed, row: Row, low: int, high: int) -> tuple[Place, Place]:
    """A stretch of a row in the coordinates of the sheet."""
    start, end = (placed.sheet.place(row.view, *it) for it in why.ends_of(placed, row, low, high))
    return place_of(start), place_of(end)


def place_of(told: tuple[str, str]) -> Place:
    return Fraction(told[0]), Fraction(told[1])


def suggestion_of(suggestion: why.Suggestion) -> Suggestion:
    outcome = suggestion.outcome
    return Suggestion(tuple(suggestion.words), tuple(changes_of(suggestion)), outcome.count or 0, outcome.more)


def groups_of(means: list[telling.Means]) -> tuple[Groups, ...]:
    return tuple(Groups(it.name, len(it.sizes), it.sizes[0]) for it in telling.best_first(means))


def line_of(added: Added, decimals: int) -> Line:
    start, end = ((Fraction(x, 10**decimals), Fraction(y, 10**decimals)) for x, y in (added.start, added.end))
    return Line(added.view, added.dashed, start, end)
