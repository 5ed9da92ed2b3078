"""What one reading of a squared-off sheet leaves open, as reasons: of these, and of what concerns all readings, the verdict is made."""
from collections.abc import Iterator, Sequence

from ..core.messages import many
from ..core.verdict import Doubt, Reason, search_stopped
from ..recon.answer import CUT
from ..rounds.features import Given
from ..rounds.verify import MOST, Outcome

# Of how many doubts of one kind a sentence is made, for each reading; the others are counted in its data.
MOST_NAMED = 3
# What the reading of a squared-off sheet says where a reading that isn't plain is in use.
MOVED = ("May miss: solids of other readings. None of the likelier readings gives a solid that is kept, so in this one ends of lines were moved, "
         "or fillets squared off to their centres.")


def of_search(head: str) -> Iterator[Reason]:
    """What an answer's first line leaves open."""
    if cut := CUT.fullmatch(head):
        yield search_stopped(cut[1], int(cut[2]))


def of_outcome(outcome: Outcome) -> Iterator[Reason]:
    """What the look at a squared-off drawing's solids leaves open: those that weren't looked at, or not compared, or that have other tangent edges
    than the sheet. Solids that can't be rounded back in any way leave nothing open: the corner of a round that the sheet draws is sharp in each of
    their layers, so that no solid with this round has them for its squared one."""
    yield from outcome.reasons
    if outcome.unseen:
        yield Reason(Doubt.SOLIDS_NOT_RESTORED, f"Not checked: {many(outcome.unseen, 'solid')} of the drawing with its {outcome.kinds} squared off, which "
                     f"has more than {MOST}.", (("solids", outcome.unseen),))
    if not outcome.is_compared and (outcome.kept or outcome.others):
        yield Reason(Doubt.NOT_COMPARED, "Not checked: whether the solids have the sheet's lines and arcs, since FreeCAD isn't installed.")
    if words := next((one.doubt for one in outcome.kept if one.doubt), ""):
        count = sum(bool(one.doubt) for one in outcome.kept)
        yield Reason(Doubt.TANGENT_EDGES_DIFFER, f"May miss: solids with just the tangent edges that the sheet draws; of the one that is listed, {words}.",
                     (("solids", count),))


def of_doubts(given: Given) -> Iterator[Reason]:
    """Where squaring a sheet off may lose solids, as the drawing says."""
    its = list(dict.fromkeys(given.doubts))
    if its:
        more = f"; and {len(its) - MOST_NAMED} more" if len(its) > MOST_NAMED else ""
        yield Reason(Doubt.FEATURES_MEET, f"May miss: other solids, since {'; '.join(its[:MOST_NAMED])}{more}.", (("places", len(its)),))


def of_reading(head: str, given: Given, outcome: Outcome, reasons: Sequence[Reason]) -> Iterator[Reason]:
    """What a reading that was tried leaves open: reasons are those of how the sheet was drawn. What squaring off may lose is of a reading that
    keeps solids: where none is kept the verdict says so of the whole."""
    yield from reasons
    yield from of_search(head)
    yield from of_outcome(outcome)
    if outcome.kept:
        yield from of_doubts(given)
