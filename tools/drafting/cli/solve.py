"""Says how many solids match a drawing: a drawing of three layers as recon reads it, or any sheet that `draft sheet` can draw for it. Standard
output begins with the verdict: unique, ambiguous, not decided, impossible or not read. Then come the reasons that leave it open, what to do, and of
each solid its size and volume in the drawing's unit. --answer saves what recon wrote, where its list is whole. Standard error says what was changed,
ignored or not read.

The status is 0 where it is decided how many solids match, and 1 where the drawing isn't read. It is 3 or 4 where the search stopped at --nodes or
--solids, and 14 where it isn't decided for another reason. With --expect it is 12 unless it is decided that just so many match. It is 13 where
--visible-edges-alone lists some by clingo.

With --json standard output is one record for programs instead, decided or not, at a fault and where the sheet is refused too: its schema is
`recon.solve/1`, which docs/LIBRARY.md tells, with the verdict, all solids and their faces; `table --json` has a line of the same for each drawing.

Of a sheet with circles, arcs and oblique edges it says which solids made of boxes and these have the views: how, `draft sheet --help` names.
"""
import argparse
import json

from ..core.messages import Refused, Usage, many, say, write_result
from ..core.notes import Note
from ..core.verdict import UNEXPECTED, Verdict
from ..explain import hidden_unknown, ruled_out, visible_edges
from ..messages import verdict as in_words
from ..messages.controls import command, option
from ..recon import faults, process
from ..recon.answer import FAULT, sizes_of
from ..report import record as records
from ..sheet import view_files
from ..solve import pipeline
from ..solve.readings import Readings
from ..solve.verdict import verdict_of

NAME = "solve"
HELP = "say how many solids have the views of a drawing or a sheet"

LISTED = 20


def add_arguments(parser: argparse.ArgumentParser) -> None:
    parser.add_argument("drawing", metavar="IN.dxf", nargs="?", help="the drawing, a sheet or a document of FreeCAD; - for standard input")
    parser.add_argument("--answer", metavar="OUT.txt", help="a file for what recon writes of the drawing")
    parser.add_argument("--list", type=int, metavar="N", help=f"how many solids are told one by one (else {LISTED}, with --json all)")
    parser.add_argument("--json", action="store_true", help="a record for programs, instead of words")
    parser.add_argument("--no-faces", action="store_true", help="with --json: without the solids' faces")
    parser.add_argument("--expect", type=int, metavar="N", help=f"end with status {UNEXPECTED} unless it is decided that N solids match")
    visible_edges.add_arguments(parser)
    pipeline.add_arguments(parser)
    view_files.add_options(parser)


def told(asked: pipeline.Asked, listed: int) -> list[str]:
    """The solids of a drawing one by one, so many of them."""
    answer = asked.answer(listed)
    rows = []
    for number, solid in enumerate(answer.solids, 1):
        sizes = " by ".join(asked.length(size) for size in sizes_of(solid))
        rows.append(f"solid {number}: {sizes}, volume {asked.volume(solid.volume)}, {many(len(solid.faces), 'face')}")
    return rows + more_told(answer.listed, len(answer.solids))


def rounded_told(asked: pipeline.Asked, rounds: Readings, listed: int) -> list[str]:
    """The solids of a sheet with rounds one by one, so many of them, and what came of its squared-off drawing."""
    rows = []
    for number, one in enumerate(asked.kept[:listed], 1):
        sizes = " by ".join(asked.length(size) for size in sizes_of(one.solid))
        rows.append(f"solid {number}: {sizes}, volume {asked.rounded_volume(one)}" + (f"; but {one.doubt}" if one.doubt else ""))
    return [*rows, *more_told(len(asked.kept), min(listed, len(asked.kept))), *in_words.details(rounds)]


def more_told(count: int, listed: int) -> list[str]:
    """How many more solids there are than are told, and the option that tells all."""
    return [f".. and {count - listed:,} more ({option('list', str(count))} lists all)"] if count > listed else []


def answer_told(asked: pipeline.Asked, its: Verdict, listed: int) -> list[str]:
    """The verdict, and so many solids one by one."""
    return [*in_words.told(its), *(rounded_told(asked, asked.rounds, listed) if asked.rounds else told(asked, listed))]


def run(arguments: argparse.Namespace) -> int:
    if arguments.visible_edges_alone:
        if arguments.json:
            raise Usage(f"{option('visible-edges-alone')} lists some solids, and {option('json')} all")
        return visible_edges.run(arguments, LISTED if arguments.list is None else max(0, arguments.list))
    notes: list[Note] = []

    def tell(note: Note) -> None:
        notes.append(note)
        say(f"draft solve: {note}")

    try:
        asked = pipeline.ask(arguments.drawing, arguments, tell)
    except Refused as refusal:
        if arguments.json and not isinstance(refusal, Usage):
            write_json(records.without_answer(arguments, refusal, notes))
        raise
    most = None if arguments.list is None else max(0, arguments.list)
    if arguments.json:
        write_json(records.record(asked, arguments, notes, most, not arguments.no_faces))
    return answered(asked, arguments, LISTED if most is None else most)


def write_json(record: records.Record) -> None:
    write_result(json.dumps(record) + "\n", None)


def answered(asked: pipeline.Asked, arguments: argparse.Namespace, listed: int) -> int:
    """Tells an answer in words, unless they have it as JSON, and answers the status."""
    head = asked.run.text.partition("\n")[0]
    if FAULT.fullmatch(head):
        for text in faults.told(head, asked.lines):
            say(f"draft solve: {text}")
        return asked.run.status
    if arguments.answer and asked.run.status == process.WHOLE:
        write_result(asked.run.text, arguments.answer)
    elif arguments.answer:
        say(f"draft solve: {arguments.answer} isn't written, since the list isn't whole")
    if asked.origin.mirrored and arguments.answer:
        say(f"draft solve: {arguments.answer} has the solids in a mirror, x turned round, as recon read them")
    its = verdict_of(asked)
    if not arguments.json:
        rows = answer_told(asked, its, listed)
        rows += [*ruled_out.told(asked, arguments), *ruled_out.may_be_sections(asked, arguments), *hidden_unknown.told(asked, arguments)]
        write_result("".join(f"{row}\n" for row in rows), None)
    if asked.missing and its.count > 1:
        say(f"draft solve: warning: the two views are ambiguous: {asked.missing} isn't drawn, and one solid alone is the part; {command('settle')} says "
            f"what {asked.missing} would show of each, and with {option('meant', 'K')} completes the drawing")
    status = its.status_expecting(arguments.expect)
    if status == UNEXPECTED:
        say(f"draft solve: not as expected: {option('expect', str(arguments.expect))} asks for {many(arguments.expect, 'solid')}. {in_words.headline(its)}")
    return status
