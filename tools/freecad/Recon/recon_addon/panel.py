"""The task panel: the verdict in large words, how far it is, the list of solids, what was changed or assumed, and what can be done."""
import functools
import pathlib
import zipfile
from collections.abc import Callable
from typing import Any

import FreeCAD
import FreeCADGui as Gui
import Part
from PySide import QtCore, QtGui

from . import RESOURCES, page_views, scene, settings
from .child import Child, Event
from .words import translate

# The large words, by how it ended.
GOOD, DOUBTFUL, BAD, PLAIN = "#0072b2", "#d55e00", "#b3261e", "palette(text)"
COLOURS = {"unique": GOOD, "ambiguous": DOUBTFUL, "impossible": BAD}
# The least height of lists, in pixels.
LEAST = 90


class Panel:
    """Asks, and shows what comes. Its state is running, done, cancelled, refused or failed."""

    def __init__(self, title: str) -> None:
        self.form = QtGui.QWidget()
        self.form.setWindowTitle(title)
        self.form.setWindowIcon(QtGui.QIcon(str(RESOURCES / "icons" / "Recon.svg")))
        self.verdict, self.sentence, self.legend = (QtGui.QLabel() for _ in range(3))
        self.bar, self.cancel = QtGui.QProgressBar(), QtGui.QPushButton(translate("Recon", "Cancel"))
        self.solids, self.told = QtGui.QListWidget(), QtGui.QPlainTextEdit()
        self.buttons = QtGui.QVBoxLayout()
        heading = QtGui.QLabel(translate("Recon", "What was found, changed, assumed and left out:"))
        self.told.setReadOnly(True)
        self.solids.setWordWrap(True)
        self.solids.setHorizontalScrollBarPolicy(QtCore.Qt.ScrollBarAlwaysOff)
        for label in (self.verdict, self.sentence, self.legend, heading):
            label.setWordWrap(True)
        for it in (self.solids, self.told):
            it.setMinimumHeight(LEAST)
        column = QtGui.QVBoxLayout(self.form)
        for it in (self.verdict, self.sentence, self.bar, self.cancel, self.solids, self.legend):
            column.addWidget(it)
        column.addLayout(self.buttons)
        column.addWidget(heading)
        column.addWidget(self.told)
        self.cancel.clicked.connect(self.stop)
        self.solids.currentRowChanged.connect(lambda row: self.chosen(row + 1))
        self.state, self.is_told = "", False
        self.child: Child | None = None

    # ---- asking

    def begin(self) -> None:
        """Begins to ask, anew where it was asked before."""
        self.state, self.is_told = "running", False
        self.head(translate("Recon", "Asking .."), "", PLAIN)
        self.solids.clear()
        self.told.clear()
        self.legend.hide()
        while self.buttons.count():
            button = self.buttons.takeAt(0).widget()
            button.hide()
            button.deleteLater()
        self.bar.setRange(0, 0)
        self.bar.show()
        self.cancel.show()
        child = self.child = Child()
        child.came.connect(lambda event: self.take(event) if child is self.child else None)
        child.ended.connect(lambda why: self.ended(why) if child is self.child else None)
        try:
            self.ask(child)
        except Exception as refusal:
            child.cancel()
            if not self.is_refusal(refusal):
                raise
            self.refuse(str(refusal))

    def ask(self, child: Child) -> None:
        raise NotImplementedError

    @staticmethod
    def is_refusal(failure: Exception) -> bool:
        """Whether something is refused in words, and is no fault of the addon."""
        return isinstance(failure, settings.Lacking) or any(it.__name__ == "Refused" for it in type(failure).__mro__)

    def head(self, verdict: str, sentence: str, colour: str) -> None:
        self.verdict.setText(verdict)
        self.verdict.setStyleSheet(f"font-size: 20pt; font-weight: bold; color: {colour}")
        self.sentence.setText(sentence)

    def say(self, text: str) -> None:
        if text:
            self.told.appendPlainText(text)

    # ---- what comes

    def take(self, event: Event) -> None:
        """Does what an event asks for, by its first name."""
        if self.state == "running":
            getattr(self, f"take_{next(iter(event))}")(event)

    def take_told(self, event: Event) -> None:
        self.say(event["told"])

    def take_stage(self, event: Event) -> None:
        stages = {"searched": translate("Recon", "The views are drawn, and recon lists the solids .."),
                  "open": translate("Recon", "What the page leaves open as it is, is looked for ..")}
        self.bar.setFormat(stages[event["stage"]])
        if event["stage"] == "searched":
            self.sentence.setText(stages["searched"])

    def take_verdict(self, event: Event) -> None:
        """The verdict, in the words that `draft` has for it everywhere."""
        self.kind, self.count, self.is_whole, self.has_rounds = event["verdict"], event["count"], event["is_whole"], event["has_rounds"]
        self.lacking, self.unit = event["lacking"], event["unit"]
        self.head(event["word"], event["sentence"], COLOURS.get(self.kind, PLAIN))
        self.bar.setRange(0, max(1, self.count))

    def take_solid(self, event: Event) -> None:
        self.put(event)
        self.bar.setFormat(translate("Recon", "Solid {} of {}", event["solid"], event["of"]))
        self.bar.setValue(event["solid"])
        told = event["solid"], event["volume"]
        item = QtGui.QListWidgetItem(translate("Recon", "Solid {}: {} - the document's part", *told) if event["is_part"] else
                                     translate("Recon", "Solid {}: {}", *told))
        font = item.font()
        font.setBold(event["is_part"])
        item.setFont(font)
        self.solids.addItem(item)

    def put(self, event: Event) -> None:
        """Shows a solid, or keeps it."""
        raise NotImplementedError

    def take_views(self, event: Event) -> None:
        self.say(event["words"])

    def take_open(self, event: Event) -> None:
        self.sentence.setText(" ".join([self.sentence.text(), *event["open"]]))

    def take_refused(self, event: Event) -> None:
        self.refuse(event["refused"])

    def take_done(self, event: Event) -> None:
        """All is told."""
        self.is_told = True

    def refuse(self, why: str) -> None:
        self.state = "refused"
        self.head(translate("Recon", "NOT READ"), why, BAD)
        self.over()

    # ---- the end

    def ended(self, why: str) -> None:
        """The process is over."""
        self.over()
        if self.state == "running" and self.is_told:
            self.finish()
            self.state = "done"
        elif self.state == "running":
            self.state = "failed"
            self.head(translate("Recon", "FAILED"), why or translate("Recon", "The process that asks told no end."), BAD)

    def finish(self) -> None:
        """What is done once all has come."""
        if self.solids.count():
            self.solids.setCurrentRow(0)

    def over(self) -> None:
        self.bar.hide()
        self.cancel.hide()

    def stop(self) -> None:
        """Cancel: at once, with nothing left behind."""
        if self.child and not self.child.is_over:
            self.child.cancel()
        if self.state == "running":
            self.state = "cancelled"
            self.head(translate("Recon", "CANCELLED"), "", PLAIN)
            self.solids.clear()
            self.forget()
            self.over()

    def forget(self) -> None:
        """Takes away what was shown."""

    def chosen(self, number: int) -> None:
        """A solid of the list is chosen."""

    def button(self, text: str, do: Callable[[], Any]) -> Any:
        made = QtGui.QPushButton(text)
        made.clicked.connect(lambda checked=False: do())
        self.buttons.addWidget(made)
        return made

    # ---- as FreeCAD calls it

    def accept(self) -> None:
        self.reject()

    def reject(self) -> None:
        self.stop()
        self.forget()
        Gui.Control.closeDialog()

    def getStandardButtons(self) -> int:
        return int(QtGui.QDialogButtonBox.Close)


class PagePanel(Panel):
    """Asks about a page of a document."""

    def __init__(self, page: Any) -> None:
        super().__init__(translate("Recon", "Recon: {}", page.Label))
        self.doc, self.name = page.Document.Name, page.Name
        self.scene = scene.Scene()
        self.views: dict[str, Any] = {}
        self.ways: list[Event] = []
        self.part = 0
        # Of several parts the one that is meant.
        self.meant: str | None = None

    @property
    def page(self) -> Any:
        """The page; refused where it is gone."""
        doc = FreeCAD.listDocuments().get(self.doc)
        page = doc.getObject(self.name) if doc else None
        if page is None:
            raise settings.Lacking(translate("Recon", "The page isn't there any more."))
        return page

    def ask(self, child: Child) -> None:
        """Takes the page here, since links to other documents are known here alone; it is drawn by the other process."""
        settings.with_tools()
        from drafting.cad import redraw, techdraw
        from drafting.core import notes as noted
        from drafting.core.messages import Refused
        self.forget()
        self.ways, self.part, notes = [], 0, list[noted.Note]()
        try:
            page, views = techdraw.taken(self.page, self.meant, notes.append)
        except Refused as refusal:
            for label in refusal.ways if refusal.option == "part" else ():
                self.button(translate("Recon", "Views of {}", label), functools.partial(self.choose, label))
            raise
        self.views = {name: view.of for name, view in views.items()}
        child.begin(redraw.saved(page, notes, child.folder), [])

    def choose(self, label: str) -> None:
        """Asks about one of several parts."""
        self.meant = label
        self.begin()

    def put(self, event: Event) -> None:
        self.scene.put(event["solid"], event["files"])
        self.part = event["solid"] if event["is_part"] and not self.part else self.part
        self.legend.setText(scene.legend())
        self.legend.show()

    def chosen(self, number: int) -> None:
        self.scene.show(number)

    def take_views(self, event: Event) -> None:
        super().take_views(event)
        self.ways = event["views"]
        if self.ways:
            names = ", ".join(sorted(page_views.name_of(it, self.page, next(iter(self.views.values()))) for it in self.ways))
            self.button(translate("Recon", "Add the view that settles:\n{}", names) if event["left"] == 1 else
                        translate("Recon", "Add the view that leaves\n{} solids: {}", event["left"], names), self.add_views)

    def finish(self) -> None:
        if self.solids.count():
            self.solids.setCurrentRow(max(0, self.part - 1))
        self.scene.fit()
        if self.lacking:
            self.button(translate("Recon", "Show the hidden lines"), self.show_hidden)
        if self.is_whole and not self.part:
            self.tell_fault()

    def tell_fault(self) -> None:
        """A whole list that lacks the part: the part has the page's views, so that is a fault of recon; of a part whose rounds are of another
        kind it isn't."""
        if self.has_rounds:
            self.say(translate("Recon", "The document's part isn't among them: it has rounds that don't stand free, or curves of another kind. "
                                        "It has the page's views too."))
            if self.kind in ("unique", "ambiguous"):
                self.head(translate("Recon", "NOT DECIDED"), self.told.toPlainText().splitlines()[-1], PLAIN)
            return
        self.head(translate("Recon", "A FAULT OF RECON"), translate("Recon",
                  "The document's part has these views, and isn't listed: that is a fault of recon and not of the page. Please send the file that "
                  "the button saves: it has the part, the drawing, recon's answer and the versions."), BAD)
        self.button(translate("Recon", "Save what is to be sent .."), self.save_fault)

    # ---- what is clicked

    def add_views(self) -> None:
        """Adds the views to the page, and asks again."""
        self.change(lambda: page_views.add(self.page, next(iter(self.views.values())), self.ways))

    def show_hidden(self) -> None:
        """Has the page show its hidden lines, and asks again."""
        self.change(lambda: page_views.show_hidden([view for view in self.views.values() if not view.HardHidden]))

    def change(self, do: Callable[[], Any]) -> None:
        """Changes the page; what was taken away of it meanwhile is told when it is asked again."""
        try:
            do()
        except (settings.Lacking, ReferenceError):
            pass
        self.begin()

    def save_fault(self, path: str = "") -> None:
        """Saves what is to be sent of a fault."""
        path = path or QtGui.QFileDialog.getSaveFileName(Gui.getMainWindow(), translate("Recon", "What is to be sent"), "recon_fault.zip")[0]
        if path:
            with zipfile.ZipFile(path, "w", zipfile.ZIP_DEFLATED) as packed:
                for name, data in self.kept.items():
                    packed.writestr(name, data)
                versions = ".".join(FreeCAD.Version()[:3])
                packed.writestr("told.txt", f"FreeCAD {versions}\n{self.sentence.text()}\n{self.told.toPlainText()}\n")

    def take_done(self, event: Event) -> None:
        super().take_done(event)
        files = pathlib.Path(self.child.folder) if self.child else pathlib.Path()
        its = [file for file in files.glob("*") if file.suffix in (".json", ".dxf", ".txt") or file.name == "part.brep"]
        self.kept = {file.name: file.read_bytes() for file in its} if self.is_whole and not self.part else {}

    def forget(self) -> None:
        self.scene.close()


class DrawingPanel(Panel):
    """Asks about a drawing in a file, and makes its solids features."""

    def __init__(self, path: str) -> None:
        super().__init__(translate("Recon", "Recon: {}", pathlib.Path(path).name))
        self.path = path
        self.group: Any = None
        self.shapes: list[Any] = []

    def ask(self, child: Child) -> None:
        self.shapes = []
        child.begin(self.path, [])

    def put(self, event: Event) -> None:
        self.shapes.append(Part.read(event["files"]["shape"]))

    def finish(self) -> None:
        if self.shapes:
            self.group = scene.as_features(pathlib.Path(self.path).stem, self.shapes, self.unit)
            self.say(translate("Recon", "The solids are in the group {}; a step back takes them away.", self.group.Label))
        super().finish()

    def chosen(self, number: int) -> None:
        for at, feature in enumerate(self.group.Group if self.group else [], 1):
            feature.ViewObject.Visibility = at == number
