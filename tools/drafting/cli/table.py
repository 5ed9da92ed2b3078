"""Asks recon about many drawings at once: all DXF files in folders and those below them, files that are named, or with `-` those that
standard input names, one a line. They go in batches to all processors of this machine, or to those of several by --sshlogin, by GNU
parallel. Another machine needs ssh, perl, the same recon and `draft` at the same paths, and the same ezdxf, which is looked at before it
begins; drawings are sent with the batch, and nothing is written but in the folder of --state and in those for temporary files. A machine
that fails often is left out.

A first pass has low limits, and a second one higher limits for the drawings that passed those. Rows are kept in the folder of --state, so
that a table that was stopped goes on where it was; there are also GNU parallel's logs of jobs, joblog_PASS_ROUND.

Standard output is the table: file, status, verdict, solids, rounds that were squared off, seconds and a message, as text, with --csv as CSV or
with --json as an object a line. Verdicts are those of `draft solve`: unique, ambiguous, not_decided, impossible and not_read. Statuses are those
of recon; `refused` where `draft` reads no such drawing; `failed` where reading it didn't end within its limits; `lost` where no answer came
back, or its file can't be read or was changed meanwhile: the same command asks about these again.

The last line on standard error counts the verdicts. The command's own status is 0 where every drawing was read; 15 where some weren't, or reading
them failed; and 1 where rows were lost.
"""
import argparse
import pathlib
import shutil
import signal
import sys
from collections import Counter

from ..core.messages import Refused, many, on_stop, say, write_result
from ..core.verdict import Kind
from ..messages.controls import option
from ..recon import process
from ..sheet import view_files, pipeline
from ..table import worker, handover, machines
from ..table.inputs import FORMS, places_of, written
from ..table.passes import PASSES, Pass, Table
from ..table.rows import Rows

NAME = "table"
HELP = "ask recon about many drawings, and write a table"

SECONDS = 600.0
# The statuses of a table some of whose rows were lost, or of whose drawings some weren't read.
LOST_ROWS, ROWS_NOT_READ = 1, 15


def add_arguments(parser: argparse.ArgumentParser) -> None:
    parser.add_argument("places", metavar="FOLDER", nargs="+", help="a folder, or drawings; - for names on standard input")
    parser.add_argument("-o", "--output", metavar="OUT", help="the file to write, else standard output")
    form = parser.add_mutually_exclusive_group()
    for name in FORMS:
        form.add_argument(f"--{name}", action="store_const", const=name, dest="form", help=f"as {name.upper()}")
    parser.add_argument("-0", "--null", action="store_true", help="names on standard input end with a NUL, as those of find -print0")
    parser.add_argument("--state", metavar="FOLDER", help="where rows are kept (else .draft_table in FOLDER, or here)")
    parser.add_argument("--jobs", default="100%", help="how many batches at a time on each machine, as GNU parallel takes it (else 100%%)")
    parser.add_argument("--sshlogin", action="append", default=[], metavar="MACHINE",
                        help="machines, as GNU parallel takes them; `:` is this one")
    parser.add_argument("--memory", type=int, default=worker.MEMORY, metavar="MIB",
                        help=f"the most memory of a process, 0 for no limit (else {worker.MEMORY:,})")
    parser.add_argument("--as-is", action="store_true", help="recon reads the files as they are, and no sheets are drawn")
    parser.add_argument("--sections", action="store_true", help="sections are read, as `draft solve` reads them")
    process.add_arguments(parser)
    pipeline.add_options(parser)
    parser.set_defaults(seconds=SECONDS)


def words_of(arguments: argparse.Namespace) -> list[str]:
    """How each drawing is read: options of sheets, as `draft solve` takes them."""
    said = [f"--{name}" for name in ("as-is", "sections") if getattr(arguments, name.replace("-", "_"))]
    return [*said, *pipeline.words_of(arguments)]


def state_of(arguments: argparse.Namespace) -> pathlib.Path:
    """The folder where rows are kept."""
    if arguments.state:
        return pathlib.Path(arguments.state)
    first = pathlib.Path(arguments.places[0])
    return (first if len(arguments.places) == 1 and first.is_dir() else pathlib.Path()) / ".draft_table"


def run(arguments: argparse.Namespace) -> int:
    if not shutil.which("parallel"):
        raise Refused("GNU parallel isn't there: apt-get install parallel")
    if not (0 < arguments.seconds <= 86_400 and (not arguments.memory or 64 <= arguments.memory <= 1 << 20)):
        raise Refused("limits that aren't taken: up to 86,400 seconds, 64 MiB of memory or more")
    path = process.find(arguments.program)
    named = machines.machines_of(arguments.sshlogin)
    if arguments.pairs and any(machine.name != handover.HERE for machine in named):
        raise Refused(f"{option('pairs')} goes with this machine alone: what is sent to another one is a file a drawing")
    places = places_of(arguments.places, sys.stdin.buffer if "-" in arguments.places else None, arguments.null)
    places = [place for place in places if not (arguments.pairs and view_files.is_visible_one(pathlib.Path(place.path)))]
    on_stop(signal.default_int_handler)
    limits = ["--seconds", f"{arguments.seconds:g}", "--memory", str(arguments.memory)]
    table = Table(places, Rows(state_of(arguments)), path, words_of(arguments), limits)
    try:
        for at in range(len(PASSES)):
            Pass(table, at, named, arguments.jobs).ask()
    except KeyboardInterrupt:
        say(f"draft table: stopped; the rows that are there are kept in {table.rows.state}, and the same command goes on from here")
        raise
    write_result(written(table, arguments.form), arguments.output)
    lost, verdicts = table.lost_ones(), table.verdicts()
    if lost:
        first = f"{places[lost[0]].name}: {table.why_lost(lost[0])}"
        say(f"draft table: {many(len(lost), 'row')} lost, the first of {first}; the same command asks again")
    say(f"draft table: {counted(verdicts)}")
    return LOST_ROWS if lost else ROWS_NOT_READ if verdicts[Kind.NOT_READ.value] else 0


def counted(verdicts: Counter[str]) -> str:
    """How many drawings have each verdict, in words."""
    its = [f"{verdicts[kind.value]:,} {kind.value.replace('_', ' ')}" for kind in Kind if verdicts[kind.value]]
    return f"{many(sum(verdicts.values()), 'drawing')}: {', '.join(its)}"
