"""The verdict on a drawing: what the command line, JSON, the table, the page and FreeCAD's panel say of it is made here and nowhere else.

A verdict is never better than what was done for it. UNIQUE and AMBIGUOUS need every reading tried and no doubt left; IMPOSSIBLE also needs
that recon's proof speaks of the whole drawing. What wasn't tried, or may be missing, is a reason, and the verdict is NOT_DECIDED.
"""
import enum
from collections.abc import Iterable
from dataclasses import dataclass, field


class Kind(enum.Enum):
    """The five verdicts. The values are stable: they stand in JSON."""

    UNIQUE = "unique"
    AMBIGUOUS = "ambiguous"
    NOT_DECIDED = "not_decided"
    IMPOSSIBLE = "impossible"
    NOT_READ = "not_read"


class Basis(enum.Enum):
    """What a verdict rests on: recon's proved search of the drawing as it is, or of the drawing that `draft` made of a sheet, whose reading is
    tested; or, where curves and oblique edges were squared off, also restoring these, which is tested and speaks of boxes, cylinders, cones and
    chamfers that don't run into each other; or nothing, where nothing was read."""

    PROVED = "proved"
    READ = "read"
    RESTORED = "restored"
    NOTHING = "nothing"


class Doubt(enum.Enum):
    """Why a drawing isn't decided. The values are stable: they stand in JSON."""

    SEARCH_STOPPED = "search_stopped"
    READINGS_NOT_TRIED = "readings_not_tried"
    READING_UNLIKELY = "reading_unlikely"
    SOLIDS_NOT_RESTORED = "solids_not_restored"
    LAYERS_NOT_TRIED = "layers_not_tried"
    NOT_COMPARED = "not_compared"
    TANGENT_EDGES_DIFFER = "tangent_edges_differ"
    FEATURES_MEET = "features_meet"
    FEATURE_UNSUPPORTED = "feature_unsupported"
    CONTENT_NOT_READ = "content_not_read"
    SECTIONS_NOT_READ = "sections_not_read"
    HIDDEN_NOT_DRAWN = "hidden_not_drawn"
    ANGLE_NOT_CHECKED = "angle_not_checked"
    STROKES_JOINED = "strokes_joined"


# Doubts that can only take solids away: without a solid there is none with them either.
NARROWING = frozenset({Doubt.SECTIONS_NOT_READ, Doubt.HIDDEN_NOT_DRAWN})
# Statuses of `draft solve`: where it isn't decided and no limit of recon's search is why; and where --expect says otherwise.
DECIDED, UNREAD, STOPPED_AT_NODES, STOPPED_AT_SOLIDS, UNEXPECTED, UNDECIDED = 0, 1, 3, 4, 12, 14


@dataclass(frozen=True, slots=True)
class Reason:
    """Why a drawing isn't decided: the doubt, a sentence that begins with "Not checked:" or "May miss:" and names no option, and its data by
    name, which JSON has (of SEARCH_STOPPED `limit`, nodes or solids, and `most`; of READINGS_NOT_TRIED `tried`, `among` and `seconds`)."""

    doubt: Doubt
    sentence: str
    data: tuple[tuple[str, int | float | str | None], ...] = ()

    def value(self, name: str) -> int | float | str | None:
        """One of its data; none where it has none of this name."""
        return dict(self.data).get(name)


@dataclass(frozen=True, slots=True)
class Verdict:
    """A verdict: its kind, how many solids are known, at least where it isn't decided, what it rests on, and the reasons that leave it open.
    `message` is why nothing was read."""

    kind: Kind
    count: int
    basis: Basis
    reasons: tuple[Reason, ...] = ()
    message: str = field(default="")

    @property
    def is_decided(self) -> bool:
        """Whether the count is that of all solids."""
        return self.kind in (Kind.UNIQUE, Kind.AMBIGUOUS, Kind.IMPOSSIBLE)

    @property
    def status(self) -> int:
        """The exit status of `draft solve`."""
        if self.kind is Kind.NOT_READ:
            return UNREAD
        if self.is_decided:
            return DECIDED
        limits = {reason.value("limit") for reason in self.reasons if reason.doubt is Doubt.SEARCH_STOPPED}
        return STOPPED_AT_NODES if "nodes" in limits else STOPPED_AT_SOLIDS if "solids" in limits else UNDECIDED

    def status_expecting(self, count: int | None) -> int:
        """The exit status where so many solids are expected: UNEXPECTED where the drawing was read, and it isn't decided that it has as many."""
        if count is None or self.kind is Kind.NOT_READ or self.is_decided and self.count == count:
            return self.status
        return UNEXPECTED


def decide(count: int, basis: Basis, reasons: Iterable[Reason] = ()) -> Verdict:
    """The verdict on a drawing of which so many solids are known, all of them but for what the reasons leave open. Without a solid what was
    squared off leaves it open too: curves that run into each other aren't restored, and a part may have them."""
    its = tuple(dict.fromkeys(reasons))
    if not count and basis is Basis.RESTORED and not any(reason.doubt is Doubt.FEATURE_UNSUPPORTED for reason in its):
        its = (*its, Reason(Doubt.FEATURE_UNSUPPORTED, "May miss: parts whose curves or oblique edges run into each other, or aren't supported yet."))
    open_ones = [reason for reason in its if count or reason.doubt not in NARROWING]
    if open_ones:
        return Verdict(Kind.NOT_DECIDED, count, basis, its)
    return Verdict({0: Kind.IMPOSSIBLE, 1: Kind.UNIQUE}.get(count, Kind.AMBIGUOUS), count, basis, its)


def not_read(message: str) -> Verdict:
    """The verdict on what couldn't be read, and why."""
    return Verdict(Kind.NOT_READ, 0, Basis.NOTHING, (), message)


# ---- reasons that have data

def search_stopped(limit: str, most: int) -> Reason:
    """Recon's search stopped at its limit of nodes or solids."""
    return Reason(Doubt.SEARCH_STOPPED, f"Not checked: the search stopped at its limit of {most:,} {limit}, so there may be more solids.",
                  (("limit", limit), ("most", most)))


def readings_not_tried(tried: int, among: int, seconds: float | None = None) -> Reason:
    """Some lines can be read in several ways, and not all were tried: within so many seconds, or as fewer were asked for."""
    within = f" in {seconds:g} seconds" if seconds is not None else ""
    return Reason(Doubt.READINGS_NOT_TRIED, f"Not checked: some lines can be read in several ways, {among:,} in all; {tried:,} "
                  f"{'was' if tried == 1 else 'were'} tried{within}.", (("tried", tried), ("among", among), ("seconds", seconds)))
