"""What a click changes in a page: further views, or hidden lines. Each is one step to be undone."""
from collections.abc import Mapping, Sequence
from typing import Any

import FreeCAD

from .words import translate

GROUP = "TechDraw::DrawProjGroup"
# How near directions are that are one.
NEAR = 1e-6
# Between a view that is added and what stands on the page, in millimetres of the page.
GAP = 20.0


def group_of(page: Any, view: Any) -> Any:
    """The projection group that a view is in, if it is in one."""
    return next((it for it in page.Views if it.TypeId == GROUP and any(one.Name == view.Name for one in it.Views)), None)


def names_of(group: Any) -> dict[str, Any]:
    """What a group calls its views, by the directions towards their viewers. Copies: vectors of a property write back into it."""
    towards, right = FreeCAD.Vector(group.Anchor.Direction).normalize(), FreeCAD.Vector(group.Anchor.XDirection)
    right = (right - towards * right.dot(towards)).normalize()
    up = towards.cross(right)
    return {"Front": towards, "Rear": towards * -1, "Right": right, "Left": right * -1, "Top": up, "Bottom": up * -1}


def name_of(way: Mapping[str, Any], page: Any, like: Any) -> str:
    """What a view in some direction is called: as the group of another view calls it, else as the drawing does."""
    group, towards = group_of(page, like), FreeCAD.Vector(*way["towards"])
    names = names_of(group) if group else {}
    return next((name for name, its in names.items() if (its - towards).Length < NEAR), str(way["name"]))


def add(page: Any, like: Any, ways: Sequence[Mapping[str, Any]]) -> list[Any]:
    """Adds views in some directions, with hidden lines, of what a view shows: to its group, or beside it."""
    group = group_of(page, like)
    page.Document.openTransaction(translate("Recon", "Add the view that settles"))
    added = []
    for way in ways:
        towards = FreeCAD.Vector(*way["towards"])
        name = next((it for it, its in names_of(group).items() if (its - towards).Length < NEAR), "") if group else ""
        view = group.addProjection(name) if name else single(page, like, towards, FreeCAD.Vector(*way["right"]))
        view.HardHidden = True
        added.append(view)
    page.Document.recompute()
    page.Document.commitTransaction()
    return added


def single(page: Any, like: Any, towards: Any, right: Any) -> Any:
    """A view by itself, right of all others."""
    view = page.Document.addObject("TechDraw::DrawViewPart", "View")
    page.addView(view)
    view.Source, view.XSource, view.Direction, view.XDirection = like.Source, like.XSource, towards, right
    view.ScaleType, view.Scale = "Custom", like.Scale
    boxes = [float(it.X) + reach(it) for it in page.Views if hasattr(it, "X") and it.Name != view.Name]
    view.X, view.Y = max(boxes, default=0.0) + GAP + reach(like), like.Y
    return view


def reach(view: Any) -> float:
    """How far a view reaches from its middle to the right, on the page."""
    edges = view.getVisibleEdges() if hasattr(view, "getVisibleEdges") else []
    return max((abs(edge.BoundBox.XMax) for edge in edges), default=0.0)


def show_hidden(views: Sequence[Any]) -> None:
    """Has views show their hidden lines."""
    doc = views[0].Document
    doc.openTransaction(translate("Recon", "Show hidden lines"))
    for view in views:
        view.HardHidden = True
    doc.recompute()
    doc.commitTransaction()
