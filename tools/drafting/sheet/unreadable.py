"""What of a sheet gives no edges: refused where it lies in a view, or may be of one, with what to do about it."""
from collections import Counter
from collections.abc import Callable, Collection, Sequence

from ..core.advice import Advisable, InTheWay, Noisy, Styleless
from ..core.messages import Refused, many
from ..core.notes import Things
from ..dxf.drawing import VIEWS, Place
from ..dxf.reader import Box, Edge, Unread, thing_of, where
from ..dxf.styles import Choice
from ..messages.controls import option
from ..geometry.components import meet
from . import outlines
from .groups import Group
from .placement import Placed, main_named

# How far off a line may be noise, as a part of its view.
NOISE = 0.01
# What comes before the option by which something is left out that the file doesn't hold.
OR_LEAVE_OUT = "; where it is no part of the drawing, leave it out by"


def way_of_style(it: Unread) -> str:
    """How the style of what has a linetype that tells none is said."""
    return f"say {option('visible')}, {option('hidden')} or {option('leave-out', f'linetype={it.linetype}')}"


def refuse_unread(path: str | None, placed: Placed, unread: Sequence[Unread], tolerance: float) -> Things:
    """Refuses what lies within a view and gives no edges; what lies beside the views."""
    left: Things = Counter()
    for it in unread:
        if not it.box:
            raise InTheWay(f"a {where(it.source, path)} {it.why}, and where it lies can't be told: draw it otherwise", [it.source],
                           ", or leave it out by")
        # A line whose linetype tells no style may be a side of the view; other things may touch it from outside.
        reach = tolerance if it.linetype else -tolerance
        views = [view for view, group in placed.views.items() if it.source.view in ("", view) and meet(group.box, it.box, reach)]
        if views:
            raise refused(f"in {views[0]} a {where(it.source, path)} {it.why}", it, placed.views[views[0]], placed, tolerance)
        if near := view_in_line(it, placed, tolerance):
            raise refused(f"a {where(it.source, path)} {it.why}, and stands in line with {near}, where the view that lacks may be", it,
                          placed.views[near], placed, tolerance)
        left[thing_of(it.source, f"outside the views, which {it.why}")] += 1
    return left


def refuse_missing(path: str | None, missing: Sequence[Unread]) -> None:
    """Refuses a sheet with blocks that aren't in its file: where their lines would lie isn't known, and a view may be of them alone."""
    if missing:
        first, more = missing[0], len(missing) - 1
        also = f"; {many(more, 'more INSERT is', 'more INSERTs are')} of such a block" if more else ""
        raise InTheWay(f"a {where(first.source, path)} {first.why}{also}", [it.source for it in missing], OR_LEAVE_OUT)


def refuse_covered(path: str | None, placed: Placed, covers: Sequence[Unread], tolerance: float) -> Things:
    """Refuses what covers a part of a view, or may, and touches its box; what lies beside the views."""
    left: Things = Counter()
    for it in covers:
        views = [view for view, group in placed.views.items() if it.source.view in ("", view) and (not it.box or meet(group.box, it.box, tolerance))]
        if views:
            place = f"in {views[0]} a" if it.box else "a"
            unknown = "" if it.box else "; where it lies can't be told, and it may be in a view"
            raise InTheWay(f"{place} {where(it.source, path)} {it.why}{unknown}", [it.source], OR_LEAVE_OUT)
        left[thing_of(it.source, "outside the views")] += 1
    return left


def refuse_strokes(path: str | None, placed: Placed, unclear: Sequence[Unread]) -> None:
    """Refuses strokes within a view of which it isn't clear whether they are a hidden line."""
    within = [(it, it.box) for it in unclear if it.box and any(meet(it.box, group.box, 0.0) for group in placed.views.values())]
    if within:
        it, (x, y, *_) = within[0]
        more = f", and {many(len(within) - 1, 'more row')} of them" if len(within) > 1 else ""
        raise Refused(f"at {x:.6g}, {y:.6g} a {where(it.source, path)} {it.why}{more}: too few, or with unequal gaps, to tell what they are. Say "
                      f"{option('strokes', 'hidden')} where they are a hidden line, {option('strokes', 'visible')} where they are edges, or "
                      f"{option('leave-out', 'layer=NAME')} where they are neither", "strokes", ["hidden", "visible"])


def view_in_line(it: Unread, placed: Placed, tolerance: float) -> str:
    """Where names tell the views and a main one lacks, the view beside which something that can't be read may be of it: it reaches no farther
    to both sides, or upwards and downwards. So no view is lost that has nothing else; of views by their places `placement.py` sees to that."""
    if not it.box or not placed.by_names or len(main_named(placed.views)) == len(VIEWS):
        return ""
    return next((view for view, group in placed.views.items() for axis in (0, 1)
                 if group.box[axis] - tolerance <= it.box[axis] and it.box[axis + 2] <= group.box[axis + 2] + tolerance), "")


def refused(text: str, it: Unread, group: Group, placed: Placed, tolerance: float) -> Advisable:
    """The refusal of what can't be read in a group."""
    if it.linetype:
        return Styleless(f"{text}: {way_of_style(it)}", it.source)
    text += "; recon reads level and upright lines and arcs alone"
    if it.box and any(on_border(it.box, end, tolerance) for run in group.runs for end in (run.edge.start, run.edge.end)):
        return Styleless(f"{text}; lines of the view end at it", it.source)
    kept = [run.edge.source for one in placed.views.values() for run in one.runs]
    return InTheWay(text, [it.source], "; where it is no edge of the part, leave it out by", kept)


def on_border(box: Box, place: Place, tolerance: float) -> bool:
    """Whether a place lies on a box, at its sides."""
    x, y = place
    x0, y0, x1, y1 = box
    inside = x0 - tolerance <= x <= x1 + tolerance and y0 - tolerance <= y <= y1 + tolerance
    return inside and min(abs(x - x0), abs(x - x1), abs(y - y0), abs(y - y1)) <= tolerance


def refuse_oblique(path: str | None, placed: Placed, taken: Collection[Edge] = (), why: Callable[[Edge], str] = lambda edge: "") -> None:
    """Refuses a view with an oblique edge, but for those that are taken, and says what else it isn't."""
    for view, group in placed.views.items():
        run = next((run for run in group.runs if run.oblique and run.edge not in taken), None)
        if run is not None:
            x, y, behind = (*group.box[:2], ", from its lower left corner on") if run.edge.source.is_drawn else (0.0, 0.0, "")
            a, b, c, d = (round(it - least, 9) + 0.0 for it, least in zip((*run.edge.start, *run.edge.end), (x, y, x, y)))
            off = min(abs(a - c), abs(b - d))
            text = (f"in {view} a {where(run.edge.source, path)} goes from {a:.9g}, {b:.9g} to {c:.9g}, {d:.9g}{behind}: it is oblique, off by "
                    f"{off:.3g}, and recon reads level and upright edges alone")
            raise Noisy(text, off) if off < NOISE * max(group.width, group.height) else Refused(text + why(run.edge))


def refuse_hidden_outline(placed: Placed, choices: Sequence[Choice], tolerance: float) -> None:
    """Refuses a layer that is named for hidden lines and has the outline of a view."""
    if found := outlines.hidden_outline(placed.views, choices, tolerance):
        way = f"layer={found.layer}"
        raise Refused(f"layer {found.layer} is named for hidden lines (by “{found.word}”), and {many(found.sides, 'side')} of {found.view} "
                      f"{'is' if found.sides == 1 else 'are'} drawn on it alone: an outline is never hidden. Say {option('visible', way)} where its "
                      f"lines are visible, or {option('hidden', way)} where they are hidden", "visible", [way])


def with_layers(refusal: Refused, layers: Sequence[str]) -> Refused:
    """A refusal with the layers that were left out by their names, by each of which the sheet was drawn when it was tried as visible."""
    words = " or ".join(option("visible", f"layer={it}") for it in layers)
    if not words:
        return refusal
    return refusal.with_words(f"\n  a layer was left out by its name, and with it the views are there: where it is one of edges, say {words}")
