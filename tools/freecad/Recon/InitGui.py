"""The workbench: its two commands, in a menu and a toolbar, and its page of preferences."""
import FreeCADGui as Gui


class ReconWorkbench(Gui.Workbench):  # type: ignore[misc]
    """A workbench with the two commands. FreeCAD runs this file with no names of its own around: whatever is used is imported where it is."""

    def __init__(self) -> None:
        from recon_addon import RESOURCES
        from recon_addon.words import translate
        told = type(self)
        told.MenuText, told.ToolTip = "Recon", translate("Workbench", "Is a drawing ambiguous? Every solid that has its views")
        told.Icon = str(RESOURCES / "icons" / "Recon.svg")

    def Initialize(self) -> None:
        from recon_addon import commands
        names = commands.add()
        self.appendToolbar("Recon", names)
        self.appendMenu("Recon", names)

    def GetClassName(self) -> str:
        return "Gui::PythonWorkbench"


def _prepare() -> None:
    from recon_addon import RESOURCES
    Gui.addLanguagePath(str(RESOURCES / "translations"))
    Gui.addIconPath(str(RESOURCES / "icons"))
    Gui.addPreferencePage(str(RESOURCES / "ui" / "preferences.ui"), "Recon")


_prepare()
Gui.addWorkbench(ReconWorkbench())
