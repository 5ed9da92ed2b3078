"""The verdict on what was asked, made in this one place for the command line, JSON, the table, the page and FreeCAD's panel, of: what recon
answered; what the reading of the sheet leaves open; and, where curves were squared off, which readings were tried and what came of their solids."""
from collections.abc import Iterator

from ..core.messages import many
from ..core.verdict import Basis, Doubt, Reason, Verdict, decide, not_read
from ..dxf.drawing import passed_over
from ..projection.sections import layers_in
from ..recon import faults
from ..recon.answer import FAULT, answer_of
from . import left_open
from .pipeline import Asked
from .readings import MOST_TOLD


def verdict_of(asked: Asked, head: str | None = None, listed: int | None = None) -> Verdict:
    """The verdict. Where the program told its solids page by page, or another of its commands was asked first, `head` is the last line of the search
    and `listed` how many solids it told."""
    head = asked.run.text.partition("\n")[0] if head is None else head
    if FAULT.fullmatch(head):
        return not_read("; ".join(faults.told(head, asked.lines)))
    if asked.rounds:
        count = len(asked.kept)
    else:
        count = answer_of(asked.run.text, 0).listed if listed is None else listed
    return decide(count, basis_of(asked), reasons_of(asked, head))


def stopped(asked: Asked | None, count: int, why: str) -> Verdict:
    """The verdict where a search was ended before it came to an end by itself: by hand, or why."""
    sentence = f"Not checked: the search was stopped{f', since {why}' if why else ''}, so there may be more solids."
    its = (Reason(Doubt.SEARCH_STOPPED, sentence, (("limit", None),)), *(of_sheet(asked) if asked else ()))
    return decide(count, basis_of(asked) if asked else Basis.READ, its)


def basis_of(asked: Asked) -> Basis:
    """What the verdict rests on."""
    return Basis.RESTORED if asked.rounds else Basis.READ if asked.paper else Basis.PROVED


def reasons_of(asked: Asked, head: str) -> Iterator[Reason]:
    """What is left open of what was asked."""
    yield from of_sheet(asked)
    yield from left_open.of_search(head)
    if asked.rounds:
        yield from asked.rounds.reasons()
        if not asked.kept:
            yield unsupported(asked)


def of_sheet(asked: Asked) -> Iterator[Reason]:
    """What the reading of the file leaves open."""
    yield from asked.reasons
    unread = [] if asked.with_sections else layers_in(asked.lines)
    if unread:
        yield Reason(Doubt.SECTIONS_NOT_READ, f"Not checked: whether the solids have what {' and '.join(unread)} "
                     f"{'shows' if len(unread) == 1 else 'show'}, which {'was' if len(unread) == 1 else 'were'} not read.", (("layers", len(unread)),))
    if asked.paper is None:
        for (layer, kind), count in passed_over(asked.lines).items():
            yield Reason(Doubt.CONTENT_NOT_READ, f"Not checked: {count:,} {kind} on layer {layer}, which {'lies' if count == 1 else 'lie'} within the views and "
                         f"{'was' if count == 1 else 'were'} not read.", (("kind", kind), ("layer", layer), ("count", count)))
    if asked.page and asked.page.lacking:
        names = ", ".join(view.label for view in asked.page.lacking)
        yield Reason(Doubt.HIDDEN_NOT_DRAWN, f"Not checked: the page as it is. It doesn't show hidden lines in {names}, and this is said of the page with them.",
                     (("views", names),))


def unsupported(asked: Asked) -> Reason:
    """That no solid is kept, and which curves the other views don't confirm."""
    assert asked.rounds
    given = asked.rounds.first.given if asked.rounds.first else None
    its = [*given.suspects, *given.doubts] if given else []
    what = "a curve or an oblique edge" if given and given.chamfers else "a curve"
    if not its:
        return Reason(Doubt.FEATURE_UNSUPPORTED, "May miss: parts whose curves or oblique edges run into each other, or aren't supported yet. Each curve is "
                      "confirmed by the other views.", (("suspects", 0),))
    more = f"; and {many(len(its) - MOST_TOLD, 'more', 'more')}" if len(its) > MOST_TOLD else ""
    return Reason(Doubt.FEATURE_UNSUPPORTED, f"May miss: parts whose curves or oblique edges run into each other, or aren't supported yet. The likely cause is "
                  f"{what} that doesn't stand free: {'; '.join(its[:MOST_TOLD])}{more}.", (("suspects", len(its)),))
