"""The views as witnesses against the names of layers: the outline of a view is never hidden, and views that lack may be on a layer that was left
out by its name alone."""
from collections.abc import Iterator, Mapping, Sequence
from typing import NamedTuple

from ..dxf.layer_words import role_of, said_by
from ..dxf.reader import POLYLINES, Sheet
from ..dxf.styles import ASIDE, STYLES, Choice, Style, is_hidden_by_name
from ..geometry.segments import Run
from .groups import Group

# How many sides of a view have to be hidden before a layer's name is doubted, and how many lines a layer has to have that may be a view.
SIDES, FEWEST = 2, 4
# How many layers that were left out by their names are tried as visible.
MOST_TRIED = 3
EDGES = ("LINE", *POLYLINES, "ARC", "CIRCLE")


class Outline(NamedTuple):
    """A layer that is named for hidden lines by a word, and alone has so many sides of the box round a view."""

    layer: str
    word: str
    view: str
    sides: int


def sides_of(group: Group, tolerance: float) -> Iterator[list[Run]]:
    """The runs on each side of the box round a view."""
    for side, upright in zip(group.box, (True, False, True, False)):
        yield [run for run in group.runs if not run.oblique and run.upright == upright and abs(run.at - side) <= tolerance]


def hidden_sides(group: Group, tolerance: float) -> list[Run]:
    """A run of each side of a view on which all lines are hidden by the names of their layers."""
    sides = (its for its in sides_of(group, tolerance) if its)
    return [its[0] for its in sides if all(it.hidden and it.edge.source.look and is_hidden_by_name(it.edge.source.look) for it in its)]


def hidden_outline(views: Mapping[str, Group], choices: Sequence[Choice], tolerance: float) -> Outline | None:
    """A layer that is named for hidden lines and has the outline of a view, unless the user says that it is hidden; none where no layer has."""
    for view, group in views.items():
        sides = hidden_sides(group, tolerance)
        look = sides[0].edge.source.look if len(sides) >= SIDES else None
        said = said_by(look.layer) if look else None
        if look and said and not any(choice.style is Style.HIDDEN and choice.meets(look) for choice in choices):
            return Outline(look.layer, said.word, view, len(sides))
    return None


def left_by_names(sheet: Sheet, choices: Sequence[Choice]) -> list[str]:
    """The layers that were left out by their names alone and may have views, those of most lines first."""
    counts: dict[str, int] = {}
    for thing, count in sheet.left.items():
        role = role_of(thing.layer) if thing.layer and thing.entity in EDGES else None
        if thing.layer and role and (role in ASIDE or STYLES.get(role) is Style.CENTRE):
            counts[thing.layer] = counts.get(thing.layer, 0) + count
    said = {choice.value.upper() for choice in choices if choice.kind == "layer"}
    return sorted((it for it in counts if counts[it] >= FEWEST and it.upper() not in said), key=lambda it: -counts[it])[:MOST_TRIED]
