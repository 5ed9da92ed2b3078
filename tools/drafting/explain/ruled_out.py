"""Which section rules all solids out, where some have the views alone: drawn otherwise than it is meant, as no reading of a sheet by itself sees. And
where no solid has three views, which of them may be a section that nothing tells: it has no hidden line, and some solid has the other two and it
as a section.
"""
import argparse
import itertools
from collections.abc import Collection, Iterator, Mapping
from fractions import Fraction

from ..dxf.drawing import VIEWS, pairs_of, strokes_in, views_of
from ..projection.draw import FRAMES
from ..projection.sections import Section, layers_in, sections_of
from ..recon import process, many
from ..recon.answer import WHOLE
from ..recon.many import Outcome
from ..solve import pipeline

# What does that to a section.
CAUSES = ("A rib that is drawn uncut, arrows that point the wrong way, a section that stands upside down and one of another part do that; "
          "`draft why` tries what it may be.")
# A layer that is passed over.
NOWHERE = "LEFT_OUT"
# How many planes are tried of views that may be sections.
MOST_PLANES = 40


def renamed(lines: list[str], layers: Mapping[str, str]) -> list[str]:
    """A drawing with some layers called otherwise."""
    told = list(lines)
    for number, code, value in pairs_of(lines):
        if code == 8 and value.upper() in layers:
            told[number] = layers[value.upper()]
    return told


def outcome_of(asked: pipeline.Asked, arguments: argparse.Namespace, layers: Mapping[str, str]) -> Outcome:
    """What the program says of a drawing with some layers called otherwise."""
    lines = renamed(asked.lines, layers)
    words = ["solve", *pipeline.views_words(lines), process.SECTIONS, *pipeline.decimals_words(("solve",), asked.decimals)]
    return many.outcome(process.find(arguments.program), words, ("\n".join(lines) + "\n").encode())


def outcome(asked: pipeline.Asked, arguments: argparse.Namespace, layers: Collection[str]) -> Outcome:
    """What the program says of a drawing without some layers."""
    return outcome_of(asked, arguments, dict.fromkeys(layers, NOWHERE))


def planes_in(asked: pipeline.Asked) -> list[set[str]]:
    """The layers of each plane of a drawing, its lines and its area."""
    planes: dict[tuple[str, object], set[str]] = {}
    for section in sections_of(asked.lines, asked.decimals):
        names = {Section(*section[:2], section.is_area).layer(asked.decimals, it) for it in (True, False)}
        planes.setdefault(section[:2], set()).update(names)
    return list(planes.values())


def told(asked: pipeline.Asked, arguments: argparse.Namespace) -> list[str]:
    """What is said where no solid has a drawing's sections too, though some have its views: without which section alone some are left."""
    head = WHOLE.fullmatch(asked.run.text.partition("\n")[0])
    planes = planes_in(asked) if arguments.sections and head and not int(head[1]) else []
    alone = outcome(asked, arguments, set().union(*planes)) if planes else None
    if alone is None or not alone.count:
        return []
    rows = [f"The views alone have {alone.words}: what the sections show rules {'it' if alone.words == '1 solid' else 'them'} out."]
    for layers in planes if len(planes) > 1 else ():
        one, names = outcome(asked, arguments, layers), sorted(layers & set(layers_in(asked.lines)))
        rows += [f"Without {' and '.join(names)} there {'is' if one.count == 1 else 'are'} {one.words}."] if one.count else []
    return [*rows, CAUSES]


# ---- a section in a view's place

def planes_of(asked: pipeline.Asked) -> Iterator[tuple[str, Section]]:
    """The main views without hidden lines, each with the sections that it may be: of a plane within each gap of the other views' coordinates."""
    strokes = strokes_in(asked.lines, asked.decimals)
    for view in VIEWS:
        axis, found = FRAMES[view].sight, set[int]()
        for other in VIEWS if not any(dashed for dashed, *_ in strokes[view]) else ():
            for way, shown, is_back in ((0, FRAMES[other].right, FRAMES[other].right_back), (1, FRAMES[other].up, FRAMES[other].up_back)):
                its = {end[way] for _, *ends in strokes[other] for end in ends} if shown == axis else set()
                found |= {max(its) - at if is_back else at - min(its) for at in its}
        for low, high in itertools.pairwise(sorted(found)):
            at = (low + high) // 2 if high - low > 1 or not FRAMES[view].sight_back else high
            if 0 < at < max(found):
                yield view, Section(view, Fraction(at))


def place_told(asked: pipeline.Asked, view: str, section: Section) -> str:
    """A view and a plane of the drawing as the sheet has them."""
    axis = FRAMES[view].sight
    name = asked.paper.name(view) if asked.paper else view
    ats = [end[0] for _, *ends in strokes_in(asked.lines, asked.decimals)["FRONT"] for end in ends] if axis == 0 and asked.origin.mirrored else []
    at = max(ats) - min(ats) - section.at if ats else section.at
    return f"{name} may be a section, behind {'xyz'[axis]} = {asked.length(int(at))}"


def may_be_sections(asked: pipeline.Asked, arguments: argparse.Namespace) -> list[str]:
    """What is said where no solid has three views: which of them may be a section that no hatch, label or line tells, and of which plane."""
    head = WHOLE.fullmatch(asked.run.text.partition("\n")[0])
    if not head or int(head[1]) or asked.missing or asked.page or layers_in(asked.lines) or set(views_of(asked.lines)) != set(VIEWS):
        return []
    told: dict[str, str] = {}
    for view, section in itertools.islice(planes_of(asked), MOST_PLANES):
        if view not in told:
            its = outcome_of(asked, arguments, {view: section.layer(asked.decimals, with_point=False)})
            if its.count:
                told[view] = f"{place_told(asked, view, section)}: with the other two views so it has {its.words}. A section is no view: draw it uncut."
    return list(told.values())
