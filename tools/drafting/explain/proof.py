"""Writes a log that shows that the solids of a drawing or a sheet are all: by it whoever doubts the answer checks it without a search,
by `draft check`, `recon check` or tools/check_log.py. The log goes to standard output, and the drawing that it is of into the file of
--drawing: the file up to its end where recon reads that as it is, else what `draft sheet` draws of it, in whole units.

Nothing is written where the search was cut; the status is then recon's, 3 or 4.
"""
import argparse
import pathlib

from ..core import notes
from ..core.messages import Refused, many, say, write_result
from ..core.notes import Tell
from ..dxf.drawing import lines_within, up_to_end, written
from ..messages.controls import command, option
from ..projection.sections import layer_of, shown_in, strokes_in_all
from ..recon import faults, process
from ..recon.answer import CUT
from ..rounds.features import comments as given_comments, given_in, times
from ..solve import pipeline

NAME = "prove"
HELP = "write a log by which others see that the solids listed are all"


def add_arguments(parser: argparse.ArgumentParser) -> None:
    parser.add_argument("drawing", metavar="IN.dxf")
    parser.add_argument("-o", "--output", metavar="OUT.log", help="the file for the log, else standard output")
    parser.add_argument("--drawing", dest="drawn", metavar="OUT.dxf", help="a file for the drawing that the log is of")
    pipeline.add_arguments(parser)


def whole_drawing(arguments: argparse.Namespace, tell: Tell) -> tuple[pipeline.Asked, bytes]:
    """What the least search says of a file or of its sheet, and the drawing as `prove` and `check` read it: in whole units, up to its
    end. Refused where it has a fault."""
    least = argparse.Namespace(**{**vars(arguments), "limits": pipeline.words_of(arguments), "nodes": 1, "solids": 1, "workers": None})
    asked = pipeline.ask(arguments.drawing, least, tell)
    if asked.run.status == process.FAULT:
        raise Refused("; ".join(faults.told(asked.run.text.strip(), asked.lines)))
    main = f"logs are of the {'two' if asked.missing else 'three'} main views: "
    further = [layer_of(it, asked.decimals) for it in shown_in(asked.lines, asked.decimals, arguments.sections)]
    if further and not arguments.sections:
        tell(notes.warning(f"{main}what {' and '.join(further)} would rule out isn't asked"))
    elif further:
        tell(notes.found(f"{main}{command('check', 'sections')} says which of the solids that one lists show {' and '.join(further)}"))
    given = given_in(asked.lines)
    if given:
        tell(notes.changed(f"the log is of the drawing with its {given.kinds} squared off, whose solids are sharp there"))
    if not asked.decimals:
        return asked, up_to_end(asked.data)
    tell(notes.changed(f"lengths multiplied by {10**asked.decimals:,}, since logs are of drawings in whole units"))
    origin = asked.origin._replace(times=asked.origin.times * 10**asked.decimals)
    comments = given_comments(times(given, 10**asked.decimals)) if given else ""
    strokes = strokes_in_all(asked.lines, asked.decimals, arguments.sections)
    return asked, (comments + written(strokes, 0, origin)).encode()


def run(arguments: argparse.Namespace) -> int:
    asked, data = whole_drawing(arguments, lambda note: say(f"draft prove: {note}"))
    words = ["prove", *pipeline.views_words(asked.lines), *pipeline.words_of(arguments)]
    made = process.run(process.find(arguments.program), words, data, arguments.seconds)
    lines = lines_within(made.text.encode())
    if cut := CUT.fullmatch(lines[0]):
        say(f"draft prove: no log is written, since the search was cut at its limit of {int(cut[2]):,} {cut[1]}: {pipeline.way_out(cut)}")
        return made.status
    if made.status != process.WHOLE:
        raise Refused(f"recon writes no log of this drawing: {lines[0][:80]}")
    if arguments.drawn:
        write_result(data, arguments.drawn)
    elif data != pathlib.Path(arguments.drawing).read_bytes():
        say(f"draft prove: the log is of a drawing that {option('drawing')} would write, and that `draft check` makes of this file again")
    write_result(made.text, arguments.output)
    say(f"draft prove: a log of {many(len(lines), 'line')}, which lists {many(int(lines[-1].split()[-1]), 'solid')}")
    return process.WHOLE
