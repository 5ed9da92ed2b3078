"""The two commands."""
from typing import Any

import FreeCAD
import FreeCADGui as Gui
from PySide import QtGui

from . import RESOURCES
from .panel import DrawingPanel, PagePanel, Panel
from .words import translate

PAGE = "TechDraw::DrawPage"


def page_at_hand() -> Any:
    """The page that is seen, or that is chosen, or on which something is chosen, else the only one of the document."""
    doc = FreeCAD.ActiveDocument
    view = Gui.ActiveDocument.ActiveView if Gui.ActiveDocument else None
    if hasattr(view, "getPage"):
        return view.getPage()
    pages = [it for it in doc.Objects if it.TypeId == PAGE] if doc else []
    chosen = {it.Name for it in Gui.Selection.getSelection()} if doc else set()
    marked = [page for page in pages if page.Name in chosen or any(view.Name in chosen for view in page.Views)]
    return marked[0] if len(marked) == 1 else pages[0] if len(pages) == 1 else None


class Command:
    """A command that opens a panel."""

    name, menu, tip = "", "", ""
    panel: Panel | None = None

    def GetResources(self) -> dict[str, str]:
        return {"MenuText": translate("Recon", self.menu), "ToolTip": translate("Recon", self.tip),
                "Pixmap": str(RESOURCES / "icons" / f"{self.name}.svg")}

    def IsActive(self) -> bool:
        return not Gui.Control.activeDialog()

    def open(self, panel: Panel) -> None:
        type(self).panel = panel
        Gui.Control.showDialog(panel)
        panel.begin()


class Ambiguous(Command):
    name, menu = "Recon_Ambiguous", "Is this page ambiguous?"
    tip = "Lists every solid that has the views of the page, and says which view would settle which one is meant"

    def IsActive(self) -> bool:
        return super().IsActive() and page_at_hand() is not None

    def Activated(self) -> None:
        page = page_at_hand()
        if page is not None:
            self.open(PagePanel(page))


class Solids(Command):
    name, menu, tip = "Recon_Solids", "Solids from a drawing", "Makes every solid that has the views of a DXF file"

    def Activated(self, index: int = 0, path: str = "") -> None:
        path = path or QtGui.QFileDialog.getOpenFileName(Gui.getMainWindow(), translate("Recon", "A drawing"), "", "DXF (*.dxf *.DXF)")[0]
        if path:
            self.open(DrawingPanel(path))


def add() -> list[str]:
    """Adds the commands, and answers their names."""
    for command in (Ambiguous(), Solids()):
        Gui.addCommand(command.name, command)
    return [Ambiguous.name, Solids.name]
