"""Sheets of which each view is a file of its own, as SolveSpace and OpenSCAD export them; and standard input as a file."""
import argparse
import contextlib
import pathlib
import sys
import tempfile
from collections import Counter
from collections.abc import Iterator, Mapping, Sequence
from typing import Any

from ..core.messages import Refused, Usage
from ..dxf.drawing import FURTHER, VIEWS
from ..dxf.reader import MOST_BYTES, Sheet, read_sheet
from ..dxf.styles import Choice
from ..messages.controls import option, without
from .placement import main_named

# The arguments that name a file which is read, and may be `-`.
INPUTS = ("drawing", "sheet", "visible_only", *(view.lower() for view in (*VIEWS, *FURTHER)))
VISIBLE = ".visible"
STANDARD_INPUT = "standard input"
MAIN_OPTIONS = f"{option('front')}, {option('top')} and {option('side')}"


def add_options(parser: argparse.ArgumentParser) -> None:
    group = parser.add_argument_group("of views in files of their own")
    for view in (*VIEWS, *FURTHER):
        group.add_argument(f"--{view.lower()}", metavar=f"{view}.dxf", help=f"a file that has {view} alone")


def files_of(arguments: argparse.Namespace, path: str | None) -> dict[str, str]:
    """The files of the views, where each has one; then there is no other sheet."""
    if not hasattr(arguments, "front"):
        return {}
    named = {view: getattr(arguments, view.lower(), None) for view in (*VIEWS, *FURTHER)}
    files = {view: str(file) for view, file in named.items() if file}
    if not files and path is None:
        raise Usage(f"a drawing is needed, or a file for each view: {MAIN_OPTIONS}")
    if files and path is not None:
        raise Usage(f"{pathlib.Path(path).name} is a sheet, and {option(next(iter(files)).lower())} says that each view has a file of its own")
    if files and len(main_named(files)) < 2:
        raise Usage(f"of views in files of their own {MAIN_OPTIONS} (or {option('left')}) are needed, or two of these")
    if files and (arguments.visible_only or arguments.pairs):
        raise Usage(f"{option('visible-only')} is of one sheet, and each view has a file of its own")
    return files


def visible_only(arguments: argparse.Namespace, path: str | None) -> str:
    """The file of a sheet without its hidden lines: the one that is named, or NAME.visible.dxf beside NAME.dxf; nothing where there is none."""
    if arguments.visible_only or not arguments.pairs:
        return arguments.visible_only or ""
    whole = pathlib.Path(str(path))
    file = whole.with_name(f"{whole.stem}{VISIBLE}{whole.suffix}")
    if not file.exists():
        raise Refused(f"{file.name} isn't there, {whole.name} without its hidden lines: export it, or {without('pairs')}")
    return str(file)


def is_visible_one(path: pathlib.Path) -> bool:
    """Whether a file is the one without hidden lines of a pair."""
    return path.stem.endswith(VISIBLE)


def read_views(files: Mapping[str, str], choices: Sequence[Choice]) -> dict[str, Sheet]:
    """The sheets of the views, each of which knows its file and view; refused where they are of different units."""
    sheets = {}
    for view, file in files.items():
        sheets[view] = placed_in(read_sheet(file, choices), file, view)
    units = {sheet.unit for sheet in sheets.values()}
    if len(units) > 1:
        raise Refused(f"the files of the views have lengths in different units: {', '.join(sorted(it or 'none' for it in units))}")
    return sheets


def placed_in(sheet: Sheet, file: str, view: str) -> Sheet:
    """A sheet whose entities say that they are of a file and a view."""
    for name, its in vars(sheet).items():
        if isinstance(its, list):
            setattr(sheet, name, [of_file(it, file, view) for it in its])
    return sheet


def of_file(it: Any, file: str, view: str) -> Any:
    """What was read of a file, which says so where it tells its entity."""
    return it._replace(source=it.source._replace(file=file, view=view)) if hasattr(it, "source") else it


def together(sheets: Sequence[Sheet]) -> Sheet:
    """All sheets as one; only a sheet alone has another one without hidden lines."""
    whole = Sheet(sheets[0].unit)
    whole.seen = sheets[0].seen
    for sheet in sheets:
        for name, its in vars(sheet).items():
            mine: Any = getattr(whole, name)
            if isinstance(its, list):
                mine.extend(its)
            elif isinstance(its, (set, Counter)):
                mine.update(its)
    return whole


# ---- standard input

@contextlib.contextmanager
def with_standard_input(arguments: argparse.Namespace) -> Iterator[None]:
    """Where an argument's file is `-`, reads standard input into a file for it, which is gone afterwards."""
    names = [name for name in INPUTS if getattr(arguments, name, None) == "-"]
    others = [name for name in ("answer", "log") if getattr(arguments, name, None) == "-"]
    if len(names) + len(others) > 1:
        raise Usage("standard input is one file, and two are - here")
    if not names:
        yield
        return
    with tempfile.TemporaryDirectory(prefix="draft_") as folder:
        file = pathlib.Path(folder) / STANDARD_INPUT
        data = sys.stdin.buffer.read(MOST_BYTES + 1)
        file.write_bytes(data)
        setattr(arguments, names[0], str(file))
        yield
