"""The drawings that a table is of, and the table as it is written."""
import csv
import itertools
import json
import os
import stat
from collections.abc import Iterable, Iterator
from typing import Any, BinaryIO, NamedTuple

from ..core.messages import Refused, say
from ..report import record
from .rows import Row

COLUMNS = ("file", "status", "verdict", "solids", "rounds", "seconds", "message")
FORMS = ("csv", "json")
# What a spreadsheet takes for the beginning of a formula; such a cell gets a quotation mark before it, by which it is a text.
FORMULAS = ("=", "+", "-", "@", "\t", "\r")
# How a line of CSV ends as it is made: so cells that have one of these characters are quoted.
END = "\r\n"
# Kinds of files that aren't read, since whoever reads them may wait for ever.
ODD_FILES = ((stat.S_ISFIFO, "a pipe"), (stat.S_ISSOCK, "a socket"), (stat.S_ISCHR, "a device"), (stat.S_ISBLK, "a device"), (stat.S_ISDIR, "a folder"))


class Place(NamedTuple):
    """A drawing: the name that the table has for it, its file, the size and time of this, why it can't be looked at now, and why it is no file that
    may be read at all."""

    name: str
    path: str
    size: int = 0
    time: int = 0
    trouble: str = ""
    unfit: str = ""


def places_of(given: list[str], named: BinaryIO | None, by_null: bool) -> list[Place]:
    """The drawings of folders and files, each once; of a folder that is given alone they have their names within it."""
    found: dict[str, Place] = {}
    for name, path in names_of(given, named, by_null):
        if path not in found:
            found[path] = place_of(name, path)
    if not found:
        raise Refused(f"no DXF file in {', '.join(given)}")
    return list(found.values())


def place_of(name: str, path: str) -> Place:
    """A drawing by the name that the table has for it, and its path."""
    try:
        told = os.stat(path)
    except (OSError, ValueError) as failure:
        if is_dangling(path):
            return Place(name, path, unfit=f"not read: a link to {os.readlink(path)}, which isn't there")
        return Place(name, path, trouble=f"can't be read: {getattr(failure, 'strerror', failure)}")
    if kind := next((kind for is_of, kind in ODD_FILES if is_of(told.st_mode)), ""):
        return Place(name, path, unfit=f"not read: {kind}, and no file")
    return Place(name, path, told.st_size, told.st_mtime_ns)


def is_dangling(path: str) -> bool:
    """Whether a path is that of a link to what isn't there."""
    try:
        return os.path.islink(path) and not os.path.exists(path)
    except ValueError:
        return False


def names_of(given: list[str], named: BinaryIO | None, by_null: bool) -> Iterator[tuple[str, str]]:
    """The name and the path of each drawing."""
    for word in given:
        if word == "-" and named is not None:
            listed = named.read().split(b"\0" if by_null else b"\n")
            yield from ((name, os.path.abspath(name)) for name in map(os.fsdecode, listed) if name)
        elif os.path.isdir(word):
            folder, before = os.path.abspath(word), "" if len(given) == 1 else word
            yield from ((os.path.join(before, file), os.path.join(folder, file)) for file in sorted(files_in(folder)))
        elif os.path.lexists(word):
            yield word, os.path.abspath(word)
        else:
            raise Refused(f"{word} is no folder and no file")


def files_in(folder: str) -> Iterator[str]:
    """What is named as a DXF file or a document of FreeCAD in a folder and below it, by the names within it: links, pipes and the like too, which get a
    row. What can't be looked into is told."""
    for within, _, files in os.walk(folder, onerror=left_out):
        for file in files:
            path = os.path.join(within, file)
            if file.lower().endswith((".dxf", ".fcstd")):
                yield os.path.relpath(path, folder)


def left_out(failure: OSError) -> None:
    say(f"draft table: left out: what is in {failure.filename}: {failure.strerror}")


# ---- what is written

def written(rows: Iterable[Row], form: str | None) -> Iterator[bytes]:
    """The table, a line after the other, of rows that can be gone through twice. A name that is no text has its own bytes in it."""
    if form == "json":
        return (json.dumps(record_of(row)).encode() + b"\n" for row in rows)
    return in_lines(rows) if form == "csv" else in_columns(rows)


def cells_of(row: Row) -> list[str]:
    return ["" if row.get(column) is None else told(column, row[column]) for column in COLUMNS]


class Line:
    """Where what writes CSV writes to: it answers what it is given."""

    @staticmethod
    def write(text: str) -> bytes:
        return text.removesuffix(END).encode("utf-8", "surrogateescape") + b"\n"


def in_lines(rows: Iterable[Row]) -> Iterator[bytes]:
    lines: Any = csv.writer(Line, lineterminator=END)
    return (lines.writerow(map(harmless, cells)) for cells in itertools.chain([COLUMNS], map(cells_of, rows)))


def harmless(cell: str) -> str:
    """A cell of CSV that no spreadsheet takes for a formula, whatever a drawing is named."""
    return f"'{cell}" if cell.startswith(FORMULAS) else cell


def in_columns(rows: Iterable[Row]) -> Iterator[bytes]:
    def cells() -> Iterator[list[str]]:
        return itertools.chain([[*COLUMNS]], (list(map(in_line, cells_of(row))) for row in rows))

    widths = [0] * (len(COLUMNS) - 1)
    for row in cells():
        widths = [max(width, len(cell)) for width, cell in zip(widths, row)]
    for row in cells():
        yield " ".join([*(cell.ljust(width) for cell, width in zip(row, widths)), row[-1]]).rstrip().encode() + b"\n"


def record_of(row: Row) -> record.Record:
    """What `draft solve --json` says of a drawing, by the name that the table has for it."""
    told = row.get("record") or {**record.of_none(row["status"], row["message"]), "seconds": row.get("seconds")}
    return {**told, "drawing": {**told["drawing"], "file": row["file"]}}


def told(column: str, value: object) -> str:
    return f"{value:.2f}" if column == "seconds" else str(value)


def in_line(text: str) -> str:
    """A text within a line: what can't be shown in one is told by its number."""
    return "".join(it if it.isprintable() else it.encode("unicode_escape").decode() for it in text)
