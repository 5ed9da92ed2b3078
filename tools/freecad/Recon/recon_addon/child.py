"""The process that asks, as FreeCAD's window sees it: it begins, tells events, and ends by itself or by Cancel, with all that it began. Its
folder is gone with it."""
import json
import shutil
import tempfile
from collections.abc import Sequence
from typing import Any

import FreeCADGui as Gui
from PySide import QtCore

from . import FOLDER, settings
from .words import translate

Event = dict[str, Any]


class Child(QtCore.QObject):  # type: ignore[misc]
    """One process; `came` hands over an event, `ended` says that no more come, and why, where it didn't end well."""

    came = QtCore.Signal(object)
    ended = QtCore.Signal(str)

    def __init__(self) -> None:
        super().__init__(Gui.getMainWindow())
        self.folder = tempfile.mkdtemp(prefix="recon_")
        self.rest, self.is_over = b"", False
        self.process = QtCore.QProcess(self)
        self.process.readyReadStandardOutput.connect(self.read)
        self.process.finished.connect(self.finished)
        self.process.errorOccurred.connect(self.failed)

    def begin(self, path: str, words: Sequence[str]) -> None:
        """Begins to ask about a file. FreeCAD's own Python path isn't the other one's."""
        around = QtCore.QProcessEnvironment.systemEnvironment()
        for name in ("PYTHONHOME", "PYTHONPATH"):
            around.remove(name)
        around.insert(settings.TOLD_ON, "panel")
        self.process.setProcessEnvironment(around)
        words = [str(FOLDER / "asked.py"), settings.tools(), path, self.folder, *settings.program(), "--solids", str(settings.solids()), *words]
        self.process.start(settings.python(), list(words))

    def read(self) -> None:
        if self.is_over:
            return
        *lines, self.rest = (self.rest + bytes(self.process.readAllStandardOutput())).split(b"\n")
        for line in lines:
            if line.startswith(b"{") and not self.is_over:
                self.came.emit(json.loads(line))

    def failed(self, error: object) -> None:
        if error == QtCore.QProcess.FailedToStart:
            self.over(translate("Recon", "{} can't be run: {}", self.process.program(), self.process.errorString()))

    def finished(self, status: int, how: object) -> None:
        self.read()
        said = bytes(self.process.readAllStandardError()).decode(errors="replace").split("\n")
        last = next((line for line in reversed(said) if line.strip()), "")
        self.over(translate("Recon", "The process that asks ended with status {}: {}", status, last))
        self.clear()
        self.deleteLater()

    def over(self, why: str) -> None:
        """Says once that no more comes; why is of use where the end wasn't told."""
        if not self.is_over:
            self.is_over = True
            self.ended.emit(why)
            self.clear()

    def cancel(self) -> None:
        """Ends it at once; that its input ends has it end all that it began."""
        self.is_over = True
        self.process.closeWriteChannel()
        self.clear()

    def clear(self) -> None:
        """Takes its folder away."""
        shutil.rmtree(self.folder, ignore_errors=True)
