"""Which solids have the views of a drawing or a sheet, as a library: the program recon, which is proved, lists them, and what is said here of
sheets, shapes and suggestions isn't proved. It goes by ezdxf's habits, and docs/LIBRARY.md shows its use:

    import recon
    answer = recon.readfile("clevis.dxf")
    for solid in answer:
        print(solid.number, solid.volume, solid.extents)
"""
from drafting import __version__
from drafting.core.verdict import Verdict

from .answer import Answer, Solid
from .calls import readfile, settle, solve, why
from .errors import DrawingFault, NotThere, OptionError, ProgramFailed, ReconError, SearchCut, SheetRefused
from .told import Change, Groups, Line, Settling, Suggestion, Why

__all__ = [
    "Answer", "Change", "DrawingFault", "Groups", "Line", "NotThere", "OptionError", "ProgramFailed", "ReconError", "SearchCut", "Settling",
    "SheetRefused", "Solid", "Suggestion", "Verdict", "Why", "__version__", "readfile", "settle", "solve", "why",
]
