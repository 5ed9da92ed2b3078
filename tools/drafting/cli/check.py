"""Sees whether a log shows that the solids it lists are all that have the views of a drawing or a sheet, whoever wrote it, without a
search: it has recon's `check` read the drawing, or what `draft sheet` draws of it, with the log behind it. Standard output says yes, and
how many solids there are; with --sections also which of them show further views and sections, by their choices. Else the status is 9, and
standard error says which line of the log is the first that is wrong, and why.
"""
import argparse
import pathlib
import re
import sys

from ..core.messages import Refused, many, say, write_result
from ..explain import proof
from ..projection.draw import Cuts, Row, Sheet, axis_of
from ..projection.sections import layer_of, shown_in
from ..recon import blocks, process
from ..rounds.features import given_in
from ..solve import pipeline

NAME = "check"
HELP = "see whether a log shows that the solids it lists are all"

# The most bytes of a drawing and its log together.
MOST_BYTES = 134_217_728
REFUSED = re.compile(r"log (G\d \w+) line (\d+)")
PLACE = re.compile(r"(?:fail|force \d+ [01]) (front|top|side) ([lu]) (\d{1,10}) (\d{1,10})")
# How much of a line of the log is told.
WIDTH = 80

# What is wrong with a line of the log, by the kind of its refusal.
WORDS = {
    "G1 BadLine": "it has none of the forms that may stand there: `solid`, `fail LINE`, `force BLOCK VALUE LINE` or `split BLOCK`, and behind "
                  "the last of them `end COUNT`; with single spaces and no carriage returns",
    "G2 BadBlock": "it names a block that the drawing doesn't have, or one that is decided there already",
    "G3 Unproved": "it names a line of the grid that isn't there, or that doesn't show what is claimed",
    "G4 Unsolid": "it says that there is a solid where some block isn't decided, or some line of the drawing can't be met",
    "G5 TooMany": "it is one solid more than the 65,536 that a log may list",
    "G6 BadCount": "it counts another number of solids than the log lists",
    "G7 Short": "there it is missing: the log ends before its `end`",
    "G8 Long": "it stands behind the log's end",
}
FIRST = "the first line has to be `log 1 blocks COUNT` with the number of this drawing's blocks: it may be the log of another drawing"


def add_arguments(parser: argparse.ArgumentParser) -> None:
    parser.add_argument("drawing", metavar="IN.dxf")
    parser.add_argument("log", metavar="LOG", help="what `draft prove` or `recon prove` wrote for it; - for standard input")
    pipeline.add_reading(parser)


def log_in(path: str) -> bytes:
    return sys.stdin.buffer.read() if path == "-" else pathlib.Path(path).read_bytes()


def place_told(line: str, sheet: Sheet, cuts: Cuts) -> str:
    """Where on the drawing the line of the grid lies that a line of the log names, where there is one."""
    named = PLACE.fullmatch(line)
    if not named:
        return ""
    row, cell = Row(named[1].upper(), named[2] == "u", int(named[3])), int(named[4])
    across, along = (cuts[axis_of(row.view, way)] for way in (not row.upright, row.upright))
    if row.number >= len(across) or cell >= len(along) - 1:
        return ""
    ends = [(across[row.number], along[at]) if row.upright else (along[at], across[row.number]) for at in (cell, cell + 1)]
    return f"{row.view} " + " to ".join(f"({right}, {up})" for right, up in (sheet.place(row.view, *end) for end in ends))


def told(said: str, log: bytes, asked: pipeline.Asked, cuts: Cuts) -> list[str]:
    """What is wrong with a log, in sentences."""
    refused = REFUSED.fullmatch(said)
    if not refused:
        raise Refused(f"recon says otherwise of the log than it is known to: {said[:80]}")
    kind, number = refused[1], int(refused[2])
    lines = log.split(b"\n")[number - 1:number]
    line = lines[0].decode(errors="replace") if lines else ""
    rows = [f"line {number:,} of the log is refused ({said})" + (f": {line[:WIDTH]!r}" if line else ""),
            FIRST if (kind, number) == ("G1 BadLine", 1) else WORDS.get(kind, "the line isn't right")]
    place = place_told(line, asked.sheet(), cuts)
    return [*rows, f"the line of the grid is {place}"] if place else rows


def run(arguments: argparse.Namespace) -> int:
    log = log_in(arguments.log)
    asked, data = proof.whole_drawing(arguments, lambda note: say(f"draft check: {note}"))
    if len(data) + len(log) > MOST_BYTES:
        raise Refused(f"the drawing and its log have {len(data) + len(log):,} bytes, more than {MOST_BYTES:,}")
    words = ["check", *pipeline.views_words(asked.lines), *pipeline.sections_words(("check",), arguments)]
    judged = process.run(process.find(arguments.program), words, data + log, arguments.seconds)
    head, _, choices = judged.text.partition("\n")
    if judged.status == process.NO_LOG:
        grid = blocks.of(arguments, asked.data, asked.lines, asked.decimals).grid
        for text in told(head, log, asked, grid.cuts):
            say(f"draft check: {text}")
        return process.NO_LOG
    yes = re.fullmatch(r"yes (?:(\d+) of )?(\d+)", head)
    if judged.status != process.WHOLE or not yes:
        raise Refused(f"recon says neither yes nor what is wrong: {head[:80]}")
    count, views = int(yes[2]), "these two views" if asked.missing else "these views"
    given = given_in(asked.lines)
    views += f", its {given.kinds} squared off" if given else ""
    more = fitting_told(asked, yes[1], choices) if yes[1] and count else ""
    write_result({0: f"Yes: no solid has {views}.\n", 1: f"Yes: one solid has {views}, and no other.\n"}.get(
        count, f"Yes: {many(count, 'solid')} have {views}, and no others.\n") + more, None)
    return process.WHOLE


def fitting_told(asked: pipeline.Asked, count: str, choices: str) -> str:
    """How many of the listed solids show the further views and sections too, and their choices."""
    further = [layer_of(it, asked.decimals) for it in shown_in(asked.lines, asked.decimals, True)]
    shows = "shows" if count == "1" else "show"
    return f"Of these {'none' if count == '0' else count} {shows} {' and '.join(further)} too.\n{choices}" if further else ""
