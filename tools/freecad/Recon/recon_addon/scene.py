"""The solids of an answer in the 3D view: each by itself, what it has more and less than the document's part in two colours."""
from collections.abc import Mapping
from typing import Any

import FreeCAD
import FreeCADGui as Gui
import Part
from PySide import QtGui

from .words import translate

# Colours that the colour-blind tell apart (Okabe and Ito 2008), and that of what a solid shares with the part.
MORE, LESS, SHARED = (0.0, 0.447, 0.698), (0.902, 0.624, 0.0), (0.8, 0.8, 0.8)
# How much of what lies behind is seen through what is shared.
THROUGH = 70


def html(colour: tuple[float, float, float]) -> str:
    return "#" + "".join(f"{round(255 * share):02x}" for share in colour)


def legend() -> str:
    """What the colours mean, as rich text."""
    rows = ((MORE, translate("Recon", "only in this solid")), (LESS, translate("Recon", "only in the document's part")),
            (SHARED, translate("Recon", "this solid")))
    return "&nbsp;&nbsp; ".join(f'<span style="color:{html(colour)}">&#9608;</span> {text}' for colour, text in rows)


def to_front(doc: Any) -> None:
    """Brings the 3D view of a document to the front, with all that it shows, seen from above a corner."""
    views = Gui.getDocument(doc.Name).mdiViewsOfType("Gui::View3DInventor")
    if not views:
        return
    area = Gui.getMainWindow().findChild(QtGui.QMdiArea)
    window = next((it for it in area.subWindowList() if it.widget() and it.widget().windowTitle().startswith(f"{doc.Label} : ")), None)
    if window:
        area.setActiveSubWindow(window)
    views[0].viewIsometric()
    views[0].fitAll()


class Scene:
    """Solids in a document of their own, which goes with the panel and asks for no saving."""

    def __init__(self) -> None:
        self.doc: Any = None
        self.name = ""
        self.before = FreeCAD.ActiveDocument.Name if FreeCAD.ActiveDocument else ""
        self.shown: dict[int, list[Any]] = {}

    def is_open(self) -> bool:
        """Whether its document is there; whoever closes that doesn't want to see it."""
        return self.name in FreeCAD.listDocuments()

    def put(self, number: int, files: Mapping[str, str]) -> None:
        """Takes in a solid, by the files of its shapes."""
        if not self.is_open():
            self.doc, self.shown = FreeCAD.newDocument("Recon", temp=True), {}
            self.name = self.doc.Name
            self.doc.Label = translate("Recon", "Solids that recon lists")
        names = {"shape": translate("Recon", "Solid {}", number), "more": translate("Recon", "more than the part"),
                 "less": translate("Recon", "less than the part")}
        objects = self.shown.setdefault(number, [])
        for name, path in files.items():
            feature = self.doc.addObject("Part::Feature", "Solid")
            feature.Label, feature.Shape = names[name], Part.read(path)
            view = feature.ViewObject
            view.ShapeColor = {"shape": SHARED, "more": MORE, "less": LESS}[name]
            view.Transparency = THROUGH if name == "shape" and len(files) > 1 else 0
            view.Visibility = False
            objects.append(feature)

    def show(self, number: int) -> None:
        """Shows one solid alone."""
        for other, objects in self.shown.items() if self.is_open() else ():
            for it in objects:
                it.ViewObject.Visibility = other == number

    def fit(self) -> None:
        """Brings them to the front, and has all of them fit into the window, seen from above a corner."""
        if self.is_open():
            to_front(self.doc)

    def close(self) -> None:
        """Closes the document, and goes back to the one before."""
        if self.is_open():
            FreeCAD.closeDocument(self.name)
        self.doc, self.name, self.shown = None, "", {}
        if self.before in FreeCAD.listDocuments():
            FreeCAD.setActiveDocument(self.before)


def as_features(name: str, shapes: list[Any], unit: str) -> Any:
    """Solids as features in a group of the document at hand, or of a new one: one step to be undone."""
    doc = FreeCAD.ActiveDocument or FreeCAD.newDocument(name)
    doc.openTransaction(translate("Recon", "Solids from a drawing"))
    group = doc.addObject("App::DocumentObjectGroup", "Solids")
    group.Label = translate("Recon", "Solids of {}", name)
    group.addProperty("App::PropertyString", "DrawingUnit", "Recon", translate("Recon", "The drawing's unit of length"))
    group.DrawingUnit = unit
    for number, shape in enumerate(shapes, 1):
        feature = doc.addObject("Part::Feature", "Solid")
        feature.Label, feature.Shape = translate("Recon", "Solid {}", number), shape
        feature.ViewObject.Visibility = number == 1
        group.addObject(feature)
    doc.commitTransaction()
    doc.recompute()
    to_front(doc)
    return group
