"""What is asked: of files, and of ezdxf's documents."""
import argparse
import os
import pathlib
import tempfile
from typing import Any, NoReturn

from drafting.core.messages import Usage
from drafting.core.notes import Note
from drafting.messages import verdict as in_words
from drafting.sheet import view_files
from drafting.solve import pipeline

from .answer import Answer
from .errors import SearchCut, SheetRefused, raised_as
from .told import Settling, Why

Path = str | os.PathLike[str]


class Options(argparse.ArgumentParser):
    """The options of `draft solve`, which are keywords here."""

    def error(self, message: str) -> NoReturn:
        raise Usage(message)


def arguments_of(options: dict[str, Any]) -> argparse.Namespace:
    """Keywords as the options that they name: `nodes=1000`, `as_is=True`, `hidden="color=1"` or a list of such."""
    parser = Options(prog="recon", add_help=False, allow_abbrev=False)
    pipeline.add_arguments(parser)
    view_files.add_options(parser)
    words: list[str] = []
    for name, value in options.items():
        option = f"--{name.replace('_', '-')}"
        if value is True:
            words.append(option)
        elif value is not None and value is not False:
            words += [f"{option}={one}" for one in (value if isinstance(value, (list, tuple)) else [value])]
    return parser.parse_args(words)


def readfile(path: Path | None = None, strict: bool = False, **options: Any) -> Answer:
    """What recon says of a file: a drawing of three layers as it is, any other sheet as `draft sheet` draws it; or with front=, top= and
    side= of a file for each view. The options are those of `draft solve`. Where it is strict, an answer that isn't decided raises
    SearchCut."""
    return answered(path, None if path is None else os.fspath(path), strict, options)


def solve(source: Any, strict: bool = False, **options: Any) -> Answer:
    """The same of a document or a layout of ezdxf, or of the bytes of a file."""
    with tempfile.TemporaryDirectory(prefix="recon_") as folder:
        file = pathlib.Path(folder) / "drawing.dxf"
        document = None if isinstance(source, (bytes, bytearray)) else getattr(source, "doc", None) or source
        if document is None:
            file.write_bytes(source)
        else:
            with open(file, "w", encoding=document.output_encoding, errors="dxfreplace", newline="\n") as stream:
                document.write(stream)
        return answered(file, getattr(document, "filename", None), strict, options)


def answered(path: Path | None, name: str | None, strict: bool, options: dict[str, Any]) -> Answer:
    """The answer about a file, which has a name of its own in its record."""
    with raised_as(SheetRefused):
        arguments = arguments_of(options)
        arguments.drawing = None if path is None else os.fspath(path)
        notes: list[Note] = []
        asked = pipeline.ask(arguments.drawing, arguments, notes.append)
    answer = Answer(asked, arguments, notes, name)
    if strict and not answer.is_whole:
        raise SearchCut(" ".join([in_words.headline(answer.verdict), *in_words.reasons(answer.verdict)]), answer)
    return answer


def why(source: Any, **options: Any) -> Why:
    """What would have to be drawn otherwise in a drawing that no solid has: a path, a document or an answer."""
    return answer_to(source, options).why()


def settle(source: Any, meant: int | None = None, **options: Any) -> Settling:
    """What tells the solids of a drawing apart: of a path, a document or an answer."""
    return answer_to(source, options).settle(meant)


def answer_to(source: Any, options: dict[str, Any]) -> Answer:
    if isinstance(source, Answer):
        return source
    return readfile(source, **options) if isinstance(source, (str, os.PathLike)) else solve(source, **options)
