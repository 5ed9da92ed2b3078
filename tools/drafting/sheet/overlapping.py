"""Views that lie over one another on the sheet, though their layers or blocks name them: they are moved apart, each with all that its name says is of
it. What follows goes by the boxes of views, and a place on the sheet then lies in one of them."""
import itertools
from collections.abc import Iterator
from typing import Any

from ..core import notes
from ..core.messages import Refused
from ..core.notes import Tell
from ..dxf.drawing import Place
from ..dxf.reader import HATCHES, Arc, Arrow, Box, Edge, Kept, Sheet, Unread, box_of as box_of_entity
from ..geometry.components import meet
from .groups import holds
from .placement import named_views, view_named

# Between views that were moved apart, as a part of all that is on the sheet.
GAP = 0.1

Boxes = dict[str, Box]


def moved_apart(sheet: Sheet, tolerance: float, tell: Tell) -> None:
    """Moves the views of a sheet apart where names tell them, some of them lie over one another, and something of it goes by their boxes: circles,
    arcs and oblique edges. What no name tells the view of is moved with the one view in whose box it lies; refused where it lies in two."""
    is_straight = all(min(abs(a - b) for a, b in zip(edge.start, edge.end)) <= tolerance for edge in sheet.edges)
    if sheet.page or not sheet.arcs and is_straight or any(edge.source.file for edge in sheet.edges) or not named_views(sheet.edges, tolerance):
        return
    boxes = boxes_of(sheet)
    if not any(meet(one, other, tolerance) for one, other in itertools.combinations(boxes.values(), 2)):
        return
    ways = ways_apart(boxes, every_box(sheet))
    for view, (right, up) in ways.items():
        tell(notes.changed(f"{view} moved by {right:.6g}, {up:.6g} from here on, since views lie over one another on the sheet, and names tell them"))
    for part in (sheet, *([sheet.seen] if sheet.seen else [])):
        move_all(part, boxes, ways, tolerance)


def parts_of(sheet: Sheet) -> Iterator[tuple[Any, Box]]:
    """The lines, arcs and curves of a sheet with their boxes."""
    for edge in sheet.edges:
        yield edge, box_round([edge.start, edge.end])
    for arc in sheet.arcs:
        yield arc, arc_box(arc)
    for it in sheet.unread:
        if it.box:
            yield it, it.box


def box_round(places: list[Place]) -> Box:
    xs, ys = zip(*places)
    return min(xs), min(ys), max(xs), max(ys)


def arc_box(arc: Arc) -> Box:
    turns = [arc.start, arc.start + arc.sweep, *(at for at in range(0, 720, 90) if arc.start <= at <= arc.start + arc.sweep)]
    return box_round([arc.at(it) for it in turns])


def united(boxes: list[Box]) -> Box:
    return (min(it[0] for it in boxes), min(it[1] for it in boxes), max(it[2] for it in boxes), max(it[3] for it in boxes))


def boxes_of(sheet: Sheet) -> Boxes:
    """The box round all that a name says is of a view."""
    found: dict[str, list[Box]] = {}
    for it, box in parts_of(sheet):
        if view := view_named(it.source):
            found.setdefault(view, []).append(box)
    return {view: united(its) for view, its in found.items()}


def every_box(sheet: Sheet) -> Box:
    return united([box for _, box in parts_of(sheet)])


def ways_apart(boxes: Boxes, every: Box) -> dict[str, Place]:
    """By how much each view is moved: to the right of all that is on the sheet, one after the other. A view that lies over none stays."""
    gap = GAP * max(every[2] - every[0], every[3] - every[1])
    at = every[2] + gap
    ways: dict[str, Place] = {}
    for view, box in boxes.items():
        if any(meet(box, other, gap / 1000) for name, other in boxes.items() if name != view):
            ways[view] = (at - box[0], 0.0)
            at += box[2] - box[0] + gap
    return ways


def view_of(it: Any, box: Box, boxes: Boxes, tolerance: float) -> str:
    """The view that something is of: by its name, else the one in whose box it lies; none where it lies in none."""
    if view := view_named(it.source):
        return view
    holding = [view for view, other in boxes.items() if holds(other, box, tolerance)]
    if len(holding) > 1:
        raise Refused(f"{it.source} lies within the boxes of {' and '.join(holding)}, and its layer names none of them")
    return holding[0] if holding else ""


def move_all(sheet: Sheet, boxes: Boxes, ways: dict[str, Place], tolerance: float) -> None:
    """Moves all that is of the views."""
    def moved(it: Any, box: Box | None) -> Any:
        view = view_of(it, box, boxes, tolerance) if box else view_named(it.source)
        return shifted(it, ways[view]) if view in ways else it

    sheet.edges, sheet.whole, sheet.chains = ([moved(edge, box_round([edge.start, edge.end])) for edge in its]
                                              for its in (sheet.edges, sheet.whole, sheet.chains))
    sheet.arcs = [moved(arc, arc_box(arc)) for arc in sheet.arcs]
    sheet.unread, sheet.covers = ([moved(it, it.box) for it in its] for its in (sheet.unread, sheet.covers))
    sheet.arrows = [moved(arrow, None) for arrow in sheet.arrows]
    for kept in sheet.kept:
        move_kept(kept, boxes, ways)


def move_kept(kept: Kept, boxes: Boxes, ways: dict[str, Place]) -> None:
    """Moves a text, a dimension or a hatch of a view; refused where a hatch lies over views and no name says of which one it is."""
    view = view_named(kept.source)
    if view in ways:
        kept.entity.translate(*ways[view], 0)
    elif not view and kept.source.kind in HATCHES and (box := box_of_entity(kept.entity)):
        under = [view for view in ways if meet(boxes[view], box, 0)]
        if under:
            raise Refused(f"{kept.source} lies over {' and '.join(under)}, which lie over one another, and its layer names no view: put it on the "
                          "layer of its view, or move the views apart")


def shifted(it: Any, way: Place) -> Any:
    """A line, an arc, a curve or an arrow head, moved."""
    def place(at: Place) -> Place:
        return at[0] + way[0], at[1] + way[1]

    if isinstance(it, Edge):
        return it._replace(start=place(it.start), end=place(it.end))
    if isinstance(it, Arc):
        return it._replace(centre=place(it.centre))
    if isinstance(it, Arrow):
        return it._replace(tips=[place(at) for at in it.tips], points=it.points and (place(it.points[0]), place(it.points[1])))
    assert isinstance(it, Unread)
    box = (*place(it.box[:2]), *place(it.box[2:])) if it.box else None
    return it._replace(box=box, places=tuple(place(at) for at in it.places))
