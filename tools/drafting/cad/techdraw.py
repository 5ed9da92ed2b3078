"""Reading a page of TechDraw in a document of FreeCAD: its views by the directions in which they look, not by their places.

Each view of a projection group, and each single view of the same part, tells its direction and what is to its right. Whichever sides
they show, each gets the name that it has in a right-handed frame, the one in which most are main views; so nothing is ever mirrored, third
and first angle are alike, and what looks against another view is a further one. Scale, turns on the page and coarse lines lose nothing,
since what a view shows is drawn anew. The document is only read.
"""
import contextlib
import itertools
from collections import Counter, defaultdict
from collections.abc import Iterator, Sequence
from typing import Any, NamedTuple

from ..core import notes
from ..core.messages import Refused, many
from ..core.notes import Tell
from ..core.page import Cut, Page, View, check_file
from ..dxf.drawing import FURTHER, VIEWS
from ..messages.controls import option
from .freecad import FreeCAD, Part

# How far from square directions may be, and from one another.
NEAR = 1e-6
VIEW_TYPES = ("TechDraw::DrawViewPart", "TechDraw::DrawViewPartPython", "TechDraw::DrawProjGroupItem")
GROUP, PAGE, SECTION = "TechDraw::DrawProjGroup", "TechDraw::DrawPage", "TechDraw::DrawViewSection"
# What else stands on pages, in words.
OTHERS = {
    "DrawComplexSection": "section of several planes, which isn't read", "DrawViewDetail": "detail",
    "DrawViewDimension": "dimension", "DrawViewBalloon": "balloon", "DrawViewAnnotation": "annotation", "DrawViewClip": "clip group",
}
# The direction towards the viewer of each view: along which axis of the frame, and which way.
TOWARDS = {"FRONT": (1, -1), "TOP": (2, 1), "SIDE": (0, 1), "LEFT": (0, -1), "REAR": (1, 1), "BOTTOM": (2, -1)}

Frame = tuple[Any, Any, Any]


class Looking(NamedTuple):
    """A view of the document, the direction towards its viewer, and its right and upward direction."""

    of: Any
    towards: Any
    right: Any
    up: Any

    def __str__(self) -> str:
        return str(self.of.Label)


# ---- the document

@contextlib.contextmanager
def opened(path: str) -> Iterator[Any]:
    """A document, which is closed in the end with those that its links opened."""
    check_file(path)
    before = set(FreeCAD.listDocuments())
    try:
        yield FreeCAD.openDocument(path, True)
    except OSError as failure:
        raise Refused(f"FreeCAD can't open {path}: {failure}") from None
    finally:
        for name in FreeCAD.listDocuments().keys() - before:
            FreeCAD.closeDocument(name)


def page_of(doc: Any, named: str | None) -> Any:
    """The page that is named by its name or label, or the only one."""
    every = [it for it in doc.Objects if it.TypeId == PAGE]
    pages = [it for it in every if named is None or named in (it.Name, it.Label)]
    if len(pages) == 1:
        return pages[0]
    if not every:
        raise Refused("there is no page of TechDraw in the document")
    names = names_apart([(it.Label, it.Name) for it in every])
    told = ", ".join(names)
    text = f"{'no page' if not pages else 'more than one page'} is called {named}: there {'is' if len(every) == 1 else 'are'} {told}"
    if named is None:
        text = f"there are {len(every)} pages in the document: name one of {told} by {option('sheet-page')}"
    raise Refused(text, "sheet-page", names)


def names_apart(known: Sequence[Sequence[str]]) -> list[str]:
    """Of the names that each of some things has the first one that can be typed and that no other thing has."""
    counts = Counter(name for names in known for name in set(names))
    return [next((it for it in names if counts[it] == 1 and it == it.strip() and it.isprintable()), names[-1]) for names in known]


# ---- the views of one part

def sources_of(view: Any) -> list[Any]:
    """What a view shows."""
    return [*view.Source, *view.XSource]


def views_on(page: Any) -> list[Any]:
    """All that stands on a page, the views of groups each by itself."""
    return [one for it in page.Views for one in (it.Views if it.TypeId == GROUP else [it])]


def by_parts(page: Any, tell: Tell) -> dict[tuple[str, ...], list[Any]]:
    """The views of a page by what they show."""
    parts: dict[tuple[str, ...], list[Any]] = defaultdict(list)
    left: Counter[str] = Counter()
    for view in views_on(page):
        if view.TypeId == SECTION:
            continue
        if view.TypeId not in VIEW_TYPES:
            kind = view.TypeId.rpartition("::")[2]
            left[OTHERS.get(kind, kind)] += 1
            if getattr(view, "Arbitrary", False):
                tell(notes.warning(f"{view.Label} says {view.FormatSpec} in words of its own, which aren't compared with the part"))
        elif not sources_of(view):
            raise Refused(f"{view.Label} of page {page.Label} shows nothing: what it showed isn't in the document any more")
        else:
            parts[tuple(f"{it.Document.Name}#{it.Name}" for it in sources_of(view))].append(view)
    for what, count in left.items():
        tell(notes.left_out(f"{count} {what} of page {page.Label}", count))
    return parts


def labels_of(sources: Sequence[Any]) -> str:
    return ", ".join(str(it.Label) for it in sources)


def views_of_part(page: Any, named: str | None, tell: Tell) -> list[Any]:
    """The views of the part that is named, or of the only one of which there are two or more."""
    parts = by_parts(page, tell)
    known = {key: [labels_of(sources_of(views[0])), *(it.Name for it in sources_of(views[0]))] for key, views in parts.items()}
    fit = [key for key, views in parts.items() if (named in known[key] if named is not None else len(views) > 1)]
    told = {key: f"{many(len(views), 'view')} of {labels_of(sources_of(views[0]))}" for key, views in parts.items()}
    seen = f"page {page.Label} has {'; '.join(told.values()) or 'no view of a part'}"
    names = dict(zip(known, names_apart(list(known.values()))))
    if len(fit) > 1:
        raise Refused(f"{seen}: which part is meant has to be said, by {option('part')}", "part", [names[key] for key in fit])
    if not fit and named is not None:
        raise Refused(f"{seen}: none of a part called {named}", "part", [names[key] for key, views in parts.items() if len(views) > 1])
    if not fit:
        raise Refused(f"{seen}: two views of one part are needed, or three")
    for key in parts.keys() - fit:
        tell(notes.left_out(told[key], len(parts[key])))
    return parts[fit[0]]


def looking(view: Any) -> Looking:
    """How a view looks; refused where it doesn't tell."""
    if view.Perspective:
        raise Refused(f"{view.Label} is in perspective, and views in parallel are read alone")
    # Copies: what is done to a property's own vector FreeCAD writes back into the document.
    towards, right = FreeCAD.Vector(view.Direction), FreeCAD.Vector(view.XDirection)
    if towards.Length < NEAR:
        raise Refused(f"{view.Label} doesn't tell in which direction it looks")
    towards = towards.normalize()
    right = right - towards * right.dot(towards)
    if right.Length < NEAR:
        raise Refused(f"{view.Label} doesn't tell what is to its right: its XDirection is {tuple(view.XDirection)}")
    right = right.normalize()
    return Looking(view, towards, right, towards.cross(right))


def square_ones(views: Sequence[Any], tell: Tell) -> list[Looking]:
    """The views that look along the axes of the first one, or of one that is called Front, each direction once; that one first."""
    every = [looking(it) for it in views]
    first = next((it for it in every if getattr(it.of, "Type", "") == "Front"), every[0])
    square: list[Looking] = []
    for it in sorted(every, key=lambda it: it is not first):
        is_square = all(any(abs(abs(way.dot(axis)) - 1) < NEAR for axis in first[1:]) for way in (it.towards, it.right))
        same = next((other for other in square if other.towards.dot(it.towards) > 1 - NEAR), None)
        if not is_square:
            tell(notes.left_out(f"{it}, which looks aslant"))
        elif same:
            tell(notes.left_out(f"{it}, which looks as {same} does"))
        else:
            square.append(it)
    return square


# ---- their names

def frames_round(first: Looking) -> Iterator[Frame]:
    """All right-handed frames along the axes of a view, its own one first: x to the right, y away from the viewer, z upwards."""
    own = (first.right, first.towards * -1, first.up)
    for order in itertools.permutations(range(3)):
        for signs in itertools.product((1, -1), repeat=3):
            x, y, z = (own[at] * sign for at, sign in zip(order, signs))
            if x.cross(y).dot(z) > 0:
                yield x, y, z


def name_in(frame: Frame, view: Looking) -> str:
    return next(name for name, (axis, sign) in TOWARDS.items() if (frame[axis] * sign).dot(view.towards) > 0.5)


def named(square: Sequence[Looking]) -> tuple[Frame, dict[str, Looking]]:
    """The frame in which most views are main ones, and of such the first one that has the first view as FRONT, upright, where there is one;
    and the views by their names in it."""
    def rank(frame: Frame) -> tuple[int, bool, float, float]:
        names = {name_in(frame, it) for it in square}
        return len(names & set(VIEWS)), name_in(frame, square[0]) == "FRONT", frame[2].dot(square[0].up), frame[0].dot(square[0].right)

    frame = max(frames_round(square[0]), key=rank)
    names = {name_in(frame, it): it for it in square}
    if rank(frame)[0] < 2:
        raise Refused(f"views along two axes are needed, or along three, and {', '.join(map(str, square))} {'shows' if len(square) == 1 else 'show'} one")
    return frame, {name: names[name] for name in (*VIEWS, *FURTHER) if name in names}


# ---- the sections

def cuts_of(page: Any, sources: Sequence[Any], frame: Frame, tell: Tell) -> tuple[Cut, ...]:
    """The sections of a part on a page. What is left out is told."""
    found = []
    for it in views_on(page):
        try:
            found += [cut_of(it, sources, frame)] if it.TypeId == SECTION else []
        except Refused as why:
            tell(notes.left_out(f"section {it.Label} of page {page.Label}, {why}"))
    return tuple(found)


def cut_of(section: Any, sources: Sequence[Any], frame: Frame) -> Cut:
    """A section; refused with why it isn't read. TechDraw cuts off what lies where the normal of the plane points."""
    normal, towards, origin = (FreeCAD.Vector(it) for it in (section.SectionNormal, section.Direction, section.SectionOrigin))
    if {it.Name for it in sources_of(section)} != {it.Name for it in sources}:
        raise Refused("which is of something else")
    if normal.Length < NEAR or towards.Length < NEAR or normal.normalize().dot(towards.normalize()) < 1 - NEAR:
        raise Refused("which doesn't look straight at its plane from what is cut off")
    if not are_same(outer_of(sources, notes.tell_none), FreeCAD.Placement()):
        raise Refused("whose part something else holds")
    looks = next((name for name, (axis, sign) in TOWARDS.items() if (frame[axis] * sign).dot(normal) > 1 - NEAR), None)
    if looks is None:
        raise Refused("which looks aslant")
    return Cut(str(section.SectionSymbol or section.Label), str(section.Label), looks, frame[TOWARDS[looks][0]].dot(origin),
               section.CutSurfaceDisplay != "Hide")


# ---- the part

def outer_of(sources: Sequence[Any], tell: Tell) -> Any:
    """What places the shapes of some objects, as they have them, in the document: what holds them."""
    outers = [it.getGlobalPlacement() * it.Placement.inverse() if hasattr(it, "getGlobalPlacement") and hasattr(it, "Placement")
              else FreeCAD.Placement() for it in sources]
    if not all(are_same(it, outers[0]) for it in outers):
        tell(notes.warning(f"{labels_of(sources)} are held in different places, without which they are drawn here"))
        return FreeCAD.Placement()
    return outers[0]


def are_same(one: Any, other: Any) -> bool:
    return all(abs(a - b) < NEAR for a, b in zip(one.toMatrix().A, other.toMatrix().A))


def turns_with_holder() -> bool:
    """Whether TechDraw draws a part as what holds it turns it, in which FreeCAD's releases differ: seen of a known one, in a document that
    nobody sees."""
    active = FreeCAD.ActiveDocument
    doc = FreeCAD.newDocument("Probe", hidden=True, temp=True)
    try:
        holder, part, page, template, view = (doc.addObject(it, "It") for it in (
            "App::Part", "Part::Feature", PAGE, "TechDraw::DrawSVGTemplate", VIEW_TYPES[0]))
        holder.addObject(part)
        holder.Placement = FreeCAD.Placement(FreeCAD.Vector(), FreeCAD.Rotation(FreeCAD.Vector(0, 0, 1), 90))
        part.Shape, page.Template = Part.makeBox(2, 1, 1), template
        page.addView(view)
        view.Source, view.Direction, view.XDirection = [part], FreeCAD.Vector(0, -1, 0), FreeCAD.Vector(1, 0, 0)
        view.ScaleType, view.Scale = "Custom", 1
        doc.recompute()
        ends = [end for edge in view.getVisibleEdges() for end in (edge.BoundBox.XMin, edge.BoundBox.XMax)]
        return bool(max(ends) - min(ends) < 1.5) if ends else tuple(map(int, FreeCAD.Version()[:2])) > (0, 20)
    finally:
        FreeCAD.closeDocument(doc.Name)
        if active:
            FreeCAD.setActiveDocument(active.Name)


def solids_of(sources: Sequence[Any], tell: Tell) -> tuple[Any, Any]:
    """What the views show, as TechDraw draws it: the solids, in one compound; and what places that in the document."""
    shapes, outer = [Part.getShape(it) for it in sources], outer_of(sources, tell)
    solids = [solid for shape in shapes for solid in shape.Solids]
    if not solids:
        raise Refused(f"{labels_of(sources)} has no solid in it")
    faces, edges = (sum(map(count, shapes)) - sum(map(count, solids)) for count in (lambda it: len(it.Faces), lambda it: len(it.Edges)))
    for count, what in ((faces, "face"), (edges, "edge")):
        if count > 0:
            tell(notes.left_out(f"{many(count, what)} of {labels_of(sources)}, of no solid", count))
    whole = Part.makeCompound(solids)
    if not are_same(outer, FreeCAD.Placement()) and turns_with_holder():
        whole.Placement, outer = outer * whole.Placement, FreeCAD.Placement()
    return whole, outer


# ---- the page

def taken(page: Any, part: str | None, tell: Tell) -> tuple[Page, dict[str, Looking]]:
    """What is taken of a page, and its views in the document by their names in the drawing. What is left out or changed is told."""
    views = views_of_part(page, part, tell)
    frame, names = named(square_ones(views, tell))
    tell(notes.found(", ".join(f"{name} is {it}" for name, it in names.items()) + f" of page {page.Label}"))
    if not page.KeepUpdated:
        tell(notes.changed(f"page {page.Label} isn't kept up to date; the part is drawn as it is now"))
    its = []
    for name, it in names.items():
        if count := len(it.of.CosmeticEdges) + len(it.of.CenterLines):
            tell(notes.left_out(f"{many(count, 'line')} that somebody added to {it}", count, name))
        its.append(View(name, str(it), bool(it.of.HardHidden), bool(it.of.SmoothVisible)))
    sources = sources_of(views[0])
    result = Page(str(page.Label), tuple(its), frame, *solids_of(sources, tell), cuts=cuts_of(page, sources, frame, tell))
    if result.lacking:
        tell(notes.warning(f"page {page.Label} doesn't show hidden lines in {', '.join(it.label for it in result.lacking)}: what is said "
                           "is of the page with them"))
    return result, names


def read(path: str, sheet_page: str | None, part: str | None, tell: Tell) -> Page:
    """What is taken of a page of a document in a file."""
    with opened(path) as doc:
        page, _ = taken(page_of(doc, sheet_page), part, tell)
        return page._replace(part=page.part.copy())
