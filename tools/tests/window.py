"""What test_window.py has FreeCAD's window do, step by step: FreeCAD runs this file as a macro. The folder that RECON_TRIED names has the
documents and drawings, and gets `told.json`: of each step nothing, or why it failed. With RECON_PICTURES the window is saved as pictures.
"""
import json
import os
import pathlib
import shutil
import sys
import time
import traceback
import zipfile
from collections.abc import Callable
from typing import Any

import FreeCAD
import FreeCADGui as Gui
from PySide import QtCore, QtGui

FOLDER = pathlib.Path(os.environ["RECON_TRIED"])
PICTURES = os.environ.get("RECON_PICTURES", "")
PREFERENCES = FreeCAD.ParamGet("User parameter:BaseApp/Preferences/Mod/Recon")
PROGRAM = os.environ["RECON"]
# For how many seconds something is waited for: it comes in one, and on a machine that does much else in many.
MOST = 900.0


# Where nothing is drawn, a 3D view can't be taken away: Coin asks OpenGL then. So documents are closed in name alone.
IS_DRAWN = QtGui.QApplication.platformName() != "offscreen"
all_documents, gone = FreeCAD.listDocuments, set[str]()
if not IS_DRAWN:
    FreeCAD.closeDocument = gone.add
    FreeCAD.listDocuments = lambda: {name: doc for name, doc in all_documents().items() if name not in gone}


def until(is_so: Callable[[], object], what: str) -> None:
    end = time.monotonic() + MOST
    while not is_so():
        if time.monotonic() > end:
            raise AssertionError(f"{what} doesn't come")
        QtGui.QApplication.processEvents(QtCore.QEventLoop.AllEvents, 50)
        time.sleep(0.01)


def with_room() -> None:
    """Makes room for what is pictured."""
    main = Gui.getMainWindow()
    docks = {dock.objectName(): dock for dock in main.findChildren(QtGui.QDockWidget)}
    for name in ("Report view", "Python console"):
        docks[name].hide()
    main.resizeDocks([docks["Combo View"]], [360], QtCore.Qt.Horizontal)


def pictured(name: str) -> None:
    if PICTURES:
        with_room()
        for _ in range(20):
            QtGui.QApplication.processEvents()
            time.sleep(0.05)
        os.system(f"import -window root {PICTURES}/{name}.png")


def same(told: object, wanted: object) -> None:
    if told != wanted:
        raise AssertionError(f"{told!r}, and {wanted!r} was to come")


def holds(part: str, whole: str) -> None:
    if part not in whole:
        raise AssertionError(f"{part!r} isn't in {whole!r}")


def ended(panel: Any) -> Any:
    until(lambda: panel.state != "running", "the end")
    return panel


def opened(name: str) -> Any:
    """A document, by a name that none was opened by."""
    copy = FOLDER / f"{name}_{len(all_documents())}_{time.monotonic_ns()}.FCStd"
    shutil.copy(FOLDER / f"{name}.FCStd", copy)
    return FreeCAD.openDocument(str(copy))


def asked(doc: Any) -> Any:
    """The panel of a document's page, once it is over."""
    from recon_addon import commands
    FreeCAD.setActiveDocument(doc.Name)
    Gui.runCommand("Recon_Ambiguous")
    return ended(commands.Ambiguous.panel)


def closed(doc: Any) -> None:
    if Gui.Control.activeDialog():
        from recon_addon import commands
        for command in (commands.Ambiguous, commands.Solids):
            if command.panel:
                command.panel.reject()
    FreeCAD.closeDocument(doc.Name)
    same(sorted(FreeCAD.listDocuments()), [])
    same([it.name for it in pathlib.Path(os.environ["TMPDIR"]).glob("recon_*")], [])


def buttons(panel: Any) -> list[Any]:
    return [panel.buttons.itemAt(at).widget() for at in range(panel.buttons.count())]


def names(doc: Any) -> list[str]:
    return [view.Type for it in doc.Objects if it.TypeId == "TechDraw::DrawProjGroup" for view in it.Views]


def listed(panel: Any) -> list[str]:
    return [panel.solids.item(at).text() for at in range(panel.solids.count())]


# ---- the steps

def loads() -> None:
    Gui.activateWorkbench("ReconWorkbench")
    same(Gui.activeWorkbench().name(), "ReconWorkbench")
    same(sorted(name for name in Gui.listCommands() if name.startswith("Recon_")), ["Recon_Ambiguous", "Recon_Solids"])
    metadata = FreeCAD.Metadata(str(pathlib.Path(sys.modules["recon_addon"].__file__ or "").parent.parent / "package.xml"))
    same(metadata.Name, "Recon")


def three_solids_and_the_click() -> None:
    doc = opened("quartered")
    panel = asked(doc)
    same((panel.state, panel.verdict.text(), panel.part), ("done", "Ambiguous", 1))
    same(listed(panel), ["Solid 1: 5,000 mm³ - the document's part", "Solid 2: 4,000 mm³", "Solid 3: 4,000 mm³"])
    same((panel.solids.currentRow(), panel.solids.item(0).font().bold(), panel.solids.item(1).font().bold()), (0, True, False))
    same(Gui.getDocument(doc.Name).Modified, False)
    own = doc.getObject("Shape").Shape
    for number, colours in ((1, 1), (2, 2), (3, 3)):
        its = panel.scene.shown[number]
        same(len({tuple(it.ViewObject.ShapeColor) for it in its}), colours)
        same(its[0].Shape.cut(own).Volume + own.cut(its[0].Shape).Volume > 1, number > 1)
    panel.solids.setCurrentRow(2)
    same([it.ViewObject.Visibility for number in (1, 3) for it in panel.scene.shown[number][:1]], [False, True])
    pictured("ambiguous")
    same([it.text() for it in buttons(panel)], ["Add the view that settles:\nLeft"])
    buttons(panel)[0].click()
    ended(panel)
    same((names(doc), panel.verdict.text(), listed(panel)), (["Front", "Top", "Right", "Left"], "Unique", ["Solid 1: 5,000 mm³ - the document's part"]))
    same(doc.UndoNames[0], "Add the view that settles")
    pictured("settled")
    doc.undo()
    same(names(doc), ["Front", "Top", "Right"])
    closed(doc)


def single_views_get_a_further_one() -> None:
    doc = opened("singles")
    panel = asked(doc)
    same((panel.verdict.text(), panel.part), ("Ambiguous", 1))
    buttons(panel)[0].click()
    ended(panel)
    same(panel.verdict.text(), "Unique")
    same(len(doc.getObject("Page").Views), 4)
    doc.undo()
    same(len(doc.getObject("Page").Views), 3)
    closed(doc)


def without_hidden_lines() -> None:
    doc = opened("no_hidden")
    panel = asked(doc)
    same((panel.state, panel.verdict.text()), ("done", "Not decided"))
    holds("It doesn't show hidden lines in Front, Top, Right, and this is said of the page with them.", panel.sentence.text())
    holds("As it is the page leaves open which solid is meant", panel.sentence.text())
    same([it.text() for it in buttons(panel)], ["Show the hidden lines"])
    pictured("without_hidden_lines")
    buttons(panel)[0].click()
    ended(panel)
    same(panel.verdict.text(), "Unique")
    doc.undo()
    same({bool(view.HardHidden) for it in doc.Objects if it.TypeId == "TechDraw::DrawProjGroup" for view in it.Views}, {False})
    closed(doc)


def a_hole_and_a_link() -> None:
    for name, verdict in (("hole", "Unique"), ("linking", "Unique")):
        doc = opened(name)
        panel = asked(doc)
        same((panel.state, panel.verdict.text(), panel.part), ("done", verdict, 1))
        for other in [it for it in FreeCAD.listDocuments() if it not in (doc.Name, panel.scene.doc.Name)]:
            panel.reject()
            FreeCAD.closeDocument(other)
        closed(doc)


def refusals() -> None:
    for name, cause in (("perspective", "is in perspective"), ("cut_corner", "it is oblique"), ("two_parts", "which part is meant")):
        doc = opened(name)
        panel = asked(doc)
        same((panel.state, panel.verdict.text(), listed(panel)), ("refused", "NOT READ", []))
        holds(cause, panel.sentence.text())
        if name == "cut_corner":
            pictured("refused")
        if name == "two_parts":
            same([it.text() for it in buttons(panel)], ["Views of Corner", "Views of Block"])
            buttons(panel)[1].click()
            same((ended(panel).verdict.text(), listed(panel)), ("Unique", ["Solid 1: 6,000 mm³ - the document's part"]))
        closed(doc)


def what_it_stands_on_is_missing() -> None:
    doc = opened("quartered")
    for name, value, cause in (("Program", "/nowhere/recon", "no program that may be run"), ("Python", "/nowhere/python3", "isn't there: name a Python"),
                               ("Tools", "/nowhere/tools", "modules of draft aren't in /nowhere/tools"), ("Program", "/bin/true", "the answer is empty")):
        before = PREFERENCES.GetString(name, "")
        PREFERENCES.SetString(name, value)
        panel = asked(doc)
        PREFERENCES.SetString(name, before)
        same(panel.state, "refused")
        holds(cause, panel.sentence.text())
        panel.reject()
    closed(doc)


def cancelled() -> None:
    """A program that waits is begun by the process that asks, in a group of its own: it ends with that."""
    from recon_addon import commands
    doc, begun = opened("quartered"), FOLDER / "begun"
    PREFERENCES.SetString("Program", str(FOLDER / "waits"))
    Gui.runCommand("Recon_Ambiguous")
    panel: Any = commands.Ambiguous.panel
    until(lambda: begun.exists() and begun.read_text().endswith("\n"), "the program")
    pictured("running")
    process = int(begun.read_text())
    os.kill(process, 0)
    moment = time.monotonic()
    panel.cancel.click()
    same((panel.state, panel.verdict.text(), time.monotonic() - moment < 60), ("cancelled", "CANCELLED", True))
    until(lambda: not pathlib.Path(f"/proc/{process}").exists() or " Z " in pathlib.Path(f"/proc/{process}/stat").read_text(), "the program's end")
    PREFERENCES.SetString("Program", PROGRAM)
    closed(doc)


def faults_of_recon() -> None:
    for program in ("none", "another"):
        doc = opened("quartered")
        PREFERENCES.SetString("Program", str(FOLDER / program))
        panel = asked(doc)
        PREFERENCES.SetString("Program", PROGRAM)
        same((panel.state, panel.verdict.text()), ("done", "A FAULT OF RECON"))
        panel.save_fault(str(FOLDER / "fault.zip"))
        with zipfile.ZipFile(FOLDER / "fault.zip") as packed:
            same(sorted(packed.namelist()), ["answer.txt", "drawing.dxf", "part.brep", "taken_page.json", "told.txt"])
        closed(doc)


def solids_from_drawings() -> None:
    from recon_addon import commands
    for name, verdict, count, length in (("quartered_cube", "Ambiguous", 3, 0), ("inches", "Unique", 1, 50.8), ("quartered_cube_half_hidden", "Impossible", 0, 0)):
        doc = FreeCAD.newDocument(name)
        commands.Solids().Activated(path=str(FOLDER / f"{name}.dxf"))
        panel = ended(commands.Solids.panel)
        same((panel.state, panel.verdict.text(), panel.solids.count()), ("done", verdict, count))
        same([it.TypeId for it in doc.Objects], ["App::DocumentObjectGroup"] * (count > 0) + ["Part::Feature"] * count)
        if length:
            same((round(panel.group.Group[0].Shape.BoundBox.XLength, 6), panel.group.DrawingUnit), (length, "in"))
        if count == 3:
            pictured("solids")
            panel.solids.setCurrentRow(2)
            same([it.ViewObject.Visibility for it in panel.group.Group], [False, False, True])
            doc.undo()
            same(list(doc.Objects), [])
        closed(doc)


def gone_meanwhile() -> None:
    """The solids' document is closed by hand, and then the page's: the panel says so."""
    doc = opened("quartered")
    panel = asked(doc)
    FreeCAD.closeDocument(panel.scene.name)
    panel.solids.setCurrentRow(1)
    FreeCAD.closeDocument(doc.Name)
    buttons(panel)[0].click()
    ended(panel)
    same((panel.state, panel.sentence.text()), ("refused", "The page isn't there any more."))
    panel.reject()


def preferences() -> None:
    """The page of preferences, as FreeCAD makes it of its form."""
    from recon_addon import RESOURCES
    form = Gui.PySideUic.loadUi(str(RESOURCES / "ui" / "preferences.ui"))
    same(sorted(str(it.property("prefEntry").data(), "utf-8") for it in form.children() if it.property("prefEntry")), ["Program", "Python", "Solids", "Tools"])

    def pictured_then_closed() -> None:
        pictured("preferences")
        QtGui.QApplication.activeModalWidget().reject()

    if IS_DRAWN:
        QtCore.QTimer.singleShot(3000, pictured_then_closed)
        Gui.showPreferences("Recon")


def in_german() -> None:
    """The window is in German once FreeCAD's is."""
    Gui.setLocale("German")
    doc = opened("quartered")
    panel = asked(doc)
    pictured("german")
    Gui.setLocale("English")
    # What `draft` says is in English, the verdict too, so that it is the same everywhere.
    same(panel.verdict.text(), "Ambiguous")
    holds("Teil des Dokuments", listed(panel)[0])
    closed(doc)


STEPS = (loads, three_solids_and_the_click, single_views_get_a_further_one, without_hidden_lines, a_hole_and_a_link, refusals,
         what_it_stands_on_is_missing, cancelled, faults_of_recon, gone_meanwhile, solids_from_drawings, preferences, in_german)


def run() -> None:
    """All steps, each by itself; the process ends here, whatever FreeCAD would still ask."""
    told: dict[str, str] = {}
    PREFERENCES.SetString("Program", PROGRAM)
    for step in STEPS:
        if step.__name__ in os.environ.get("RECON_STEPS", step.__name__).split(","):
            began = time.monotonic()
            print(step.__name__, file=sys.stderr, flush=True)
            try:
                step()
                told[step.__name__] = ""
            except BaseException:
                told[step.__name__] = traceback.format_exc()
                for name in FreeCAD.listDocuments():
                    FreeCAD.closeDocument(name)
                Gui.Control.closeDialog()
            print(f"{step.__name__} {time.monotonic() - began:.1f} s", file=sys.stderr, flush=True)
    (FOLDER / "told.json").write_text(json.dumps(told))
    os._exit(0)


QtCore.QTimer.singleShot(0, run)
