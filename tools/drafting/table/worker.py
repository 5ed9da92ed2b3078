"""Asks recon about a batch of drawings, as `draft table` has it run on this machine and on others. A worker, a fork with limits, reads and
asks one after another. One that crashes, or runs out of time or memory, costs itself alone: it takes no other's worker along, since the
next has a new one, and what fails behind others is asked again by a new one too.

Standard input is the batch: a line of JSON with the options of `draft solve` that hold for it, one for each drawing, and an empty line
without which it isn't whole. A drawing is in a file of this machine, or its bytes come along; what is written then goes to a
folder for temporary files, and is the only thing that is removed. Standard output is a line of JSON for each row, as it comes. With
--sums it tells, instead, what the answers here stand on.
"""
import argparse
import atexit
import base64
import contextlib
import gc
import json
import os
import pathlib
import resource
import secrets
import select
import shutil
import signal
import socket
import sys
import tempfile
import time
import zlib
from collections.abc import Generator, Iterator
from fractions import Fraction
from typing import Any, NamedTuple, NoReturn

from ..core import messages, provenance
from ..core.messages import Refused
from ..core.notes import Note
from ..core.verdict import Kind, Verdict
from ..dxf import reader
from ..messages import verdict as in_words
from ..recon import process as program
from ..report import record as records
from ..rounds.features import given_in
from ..solve import pipeline
from ..solve.verdict import verdict_of
from . import handover, prefork
from .rows import FAILED, LOST, NOT_READ, REFUSED, Row

NAME = "batch"
HELP = "rows of `draft table`, which runs it"

MEMORY = 4_096
# By how much a worker's memory may grow before the next drawing has a new one.
GROWN = 256 << 20
# How many more objects there may be before those are looked for that are left.
SELDOM = 1_000_000
# What a worker may take to end by itself, once the program has run out of its time.
GRACE = 5.0
MACHINE = os.environ.get(handover.MACHINE, handover.HERE)
CHANGED = "was changed meanwhile"


class Drawing(NamedTuple):
    """A drawing: its number in the table, its file, the size and time that this had, and its bytes where they come along."""

    number: int
    file: str
    size: int
    time: int
    data: bytes | None = None

    def line(self) -> bytes:
        told: dict[str, Any] = {"number": self.number, "file": self.file, "size": self.size, "time": self.time}
        if self.data is not None:
            told["data"] = base64.b64encode(zlib.compress(self.data, 1)).decode()
        return json.dumps(told).encode() + b"\n"

    def is_unchanged(self) -> bool:
        try:
            told = os.stat(self.file)
        except OSError:
            return False
        return (told.st_size, told.st_mtime_ns) == (self.size, self.time)


def drawing_of(line: bytes) -> Drawing:
    told = json.loads(line)
    data = zlib.decompress(base64.b64decode(told["data"])) if "data" in told else None
    return Drawing(told["number"], told["file"], told["size"], told["time"], data)


def text_of(words: list[str], drawings: list[Drawing]) -> bytes:
    """A batch as it is read here."""
    return b"".join([json.dumps({"words": words}).encode(), b"\n", *(drawing.line() for drawing in drawings), b"\n"])


def add_arguments(parser: argparse.ArgumentParser) -> None:
    parser.add_argument("--sums", action="store_true", help="tell the sums of what answers stand on, as JSON")
    parser.add_argument("--program", metavar="PATH", help="with --sums or --door: the built program")
    parser.add_argument("--door", metavar="NUMBER", type=int, help="take batches from who comes by this socket")


def options() -> argparse.ArgumentParser:
    """What the first line of a batch may say."""
    parser = argparse.ArgumentParser(prog="draft batch", allow_abbrev=False)
    parser.add_argument("--memory", type=int, default=MEMORY)
    pipeline.add_arguments(parser)
    return parser


# ---- one drawing

def message_of(asked: pipeline.Asked, its: Verdict, record: records.Record, warnings: list[str]) -> str:
    """What is said of an answer beside its verdict: the volume of one solid, and what leaves it open."""
    if its.kind is Kind.NOT_READ:
        return "; ".join([its.message, *warnings])
    volume = ""
    if its.count == 1:
        volume = asked.rounded_volume(asked.kept[0]) if asked.rounds else pipeline.measure(Fraction(record["solids"][0]["volume"]), asked.cubic())
    said = [f"volume {volume}"] if volume else []
    said += [f"two views, without {asked.missing}"] if asked.missing else []
    return "; ".join([*said, *(text.removesuffix(".") for text in in_words.reasons(its)), *warnings])


def row_of(folder: str, path: str, arguments: argparse.Namespace) -> Row:
    """The answer about a file, or why there is none. It is read in its folder, by its name alone, which messages then have."""
    notes: list[Note] = []
    named = argparse.Namespace(**vars(arguments), drawing=path)
    try:
        os.chdir(folder)
        asked = pipeline.ask(path, arguments, notes.append)
        given, record = given_in(asked.lines), records.record(asked, named, notes, records.LISTED, with_faces=False)
        its = verdict_of(asked)
        message = message_of(asked, its, record, [str(note) for note in notes if note.kind == "warning"])
        solids = None if record["fault"] else record["listed"]
        return {"status": asked.run.status, "verdict": its.kind.value, "solids": solids, "rounds": len(given.squared) if given else 0, "message": message,
                "record": record}
    except program.Failed as failure:
        return {"status": FAILED, "message": str(failure), "record": records.without_answer(named, failure, notes)}
    except Refused as refusal:
        return {"status": REFUSED, "message": " ".join(str(refusal).split()), "record": records.without_answer(named, refusal, notes)}
    except OSError as failure:
        return {"status": LOST, "message": f"can't be read: {failure.strerror}"}
    except MemoryError:
        return {"status": FAILED, "message": f"reading it took more than {arguments.memory:,} MiB"}
    except Exception as failure:  # whatever a spiteful file makes its reader stumble on
        return {"status": FAILED, "message": " ".join(f"reading it failed: {type(failure).__name__}: {failure}".split())[:300]}


# ---- a worker

def answer_all(channel: socket.socket, arguments: argparse.Namespace) -> NoReturn:
    """Writes the row of each drawing that is named, in a process of its own, which ends once no more can come."""
    status = 1
    try:
        os.setpgid(0, 0)
        for number in (signal.SIGTERM, signal.SIGHUP, signal.SIGINT):
            signal.signal(number, signal.SIG_DFL)
        resource.setrlimit(resource.RLIMIT_CORE, (0, 0))
        if arguments.memory:
            resource.setrlimit(resource.RLIMIT_AS, (arguments.memory << 20,) * 2)
        # What a drawing leaves is collected behind it, and seldom while it is read.
        gc.set_threshold(SELDOM)
        with channel.makefile("rw") as lines:
            for line in lines:
                folder, name = json.loads(line)
                print(json.dumps(row_of(folder, name, arguments)), file=lines, flush=True)
                gc.collect()
        status = 0
    finally:
        os._exit(status)


class Worker:
    """A process that reads drawings and asks about them, one at a time."""

    def __init__(self, arguments: argparse.Namespace) -> None:
        self.seconds = arguments.seconds
        self.code: int | None = None
        self.channel, its = socket.socketpair()
        self.process = os.fork()
        if not self.process:
            self.channel.close()
            answer_all(its, arguments)
        its.close()
        self.is_new, self.size = True, self.size_now()

    def size_now(self) -> int:
        """How many bytes of memory it holds."""
        return int(pathlib.Path(f"/proc/{self.process}/statm").read_text().split()[1]) * resource.getpagesize()

    def row(self, folder: str, name: str) -> Row:
        """The row of a drawing, whatever becomes of the worker."""
        self.is_new = False
        with contextlib.suppress(ConnectionError):
            self.channel.sendall(json.dumps([folder, name]).encode() + b"\n")
        told = line_within(self.channel, self.seconds + GRACE)
        if told is None:
            return {"status": FAILED, "message": f"reading it took longer than {self.seconds:g} seconds"}
        if told.endswith(b"\n"):
            row: Row = json.loads(told)
            return row
        code = self.end(is_done=True)
        how = f"was ended by {signal.Signals(-code).name}" if code < 0 else f"ended with status {code}"
        return {"status": FAILED, "message": f"reading it {how}"}

    def end(self, is_done: bool = False) -> int:
        """Ends it, unless it comes to its end by itself, and all that it began; with which status it ended, or by which signal, below 0."""
        if self.code is None:
            self.code = ended(self.process, is_done)
            self.channel.close()
        return self.code


def line_within(channel: socket.socket, seconds: float) -> bytes | None:
    """A line that comes, or what came up to an end; none where that takes longer."""
    until, told = time.monotonic() + seconds, b""
    while select.select([channel], [], [], max(0.0, until - time.monotonic()))[0]:
        try:
            new = channel.recv(1 << 16)
        except ConnectionError:
            new = b""
        told += new
        if not new or new.endswith(b"\n"):
            return told
    return None


def ended(process: int, is_done: bool) -> int:
    """Ends a process, unless it comes to its end by itself, and its group; with which status it ended, or by which signal, below 0."""
    if not is_done:
        os.kill(process, signal.SIGKILL)
    os.waitid(os.P_PID, process, os.WEXITED | os.WNOWAIT)
    with contextlib.suppress(ProcessLookupError, PermissionError):
        os.killpg(process, signal.SIGKILL)
    return os.waitstatus_to_exitcode(os.waitpid(process, 0)[1])


class Workers:
    """One worker at a time: the same as long as nothing fails in it and it doesn't grow."""

    def __init__(self, arguments: argparse.Namespace) -> None:
        self.arguments = arguments
        self.worker: Worker | None = None

    def row(self, drawing: Drawing, folder: str) -> Row:
        began = time.monotonic()
        worker = self.worker = self.worker or Worker(self.arguments)
        is_new, row = worker.is_new, worker.row(folder, os.path.basename(drawing.file))
        if row["status"] == FAILED or worker.size_now() > worker.size + GROWN:
            self.close()
        if row["status"] == FAILED and not is_new and time.monotonic() - began < self.arguments.seconds:
            return self.row(drawing, folder)
        told = {"number": drawing.number, "seconds": round(time.monotonic() - began, 2), "machine": MACHINE}
        return {"verdict": NOT_READ, "solids": None, "rounds": None, **row, **told}

    def close(self) -> None:
        """Ends the worker: the next drawing has a new one."""
        if self.worker:
            self.worker.end()
        self.worker = None


# ---- the batch

@contextlib.contextmanager
def folder_of(drawing: Drawing, room: str) -> Iterator[str]:
    """The folder in which a drawing is: its own, or, where its bytes came along, one for them."""
    if drawing.data is None:
        yield os.path.dirname(drawing.file)
        return
    file = os.path.join(room, os.path.basename(drawing.file))
    pathlib.Path(file).write_bytes(drawing.data)
    try:
        yield room
    finally:
        os.unlink(file)


def rows_of(lines: list[bytes], room: str) -> Generator[Row, None, None]:
    arguments = options().parse_args(json.loads(lines[0])["words"])
    begin(not arguments.as_is)
    with contextlib.closing(Workers(arguments)) as workers:
        for drawing in map(drawing_of, lines[1:-1]):
            with folder_of(drawing, room) as folder:
                row = workers.row(drawing, folder)
            if drawing.data is not None and row["status"] == LOST:
                raise Refused(f"what came along {row['message']}")
            if drawing.data is None and row["status"] != LOST and not drawing.is_unchanged():
                row.update(status=LOST, verdict=NOT_READ, solids=None, message=CHANGED)
            yield row


def pass_over_stops() -> None:
    """Has signals to stop no effect any more: what is cleaned up then isn't disturbed."""
    for one in (signal.SIGTERM, signal.SIGHUP, signal.SIGIO):
        signal.signal(one, signal.SIG_IGN)


def stopped(number: int, _: object) -> None:
    pass_over_stops()
    sys.exit(128 + number)


def begin(with_sheets: bool = True) -> None:
    """Begins ezdxf, where sheets are to be read, which each fork has then, and needn't begin for itself; and what is there by now needn't be
    looked at, and so copied, by a worker that collects what a drawing left."""
    # Where ezdxf begins what calculates by several threads, these would be stopped and begun for each fork.
    os.environ.setdefault("OPENBLAS_NUM_THREADS", "1")
    if with_sheets:
        with contextlib.suppress(Refused):
            reader.library()
    gc.freeze()


def run(arguments: argparse.Namespace) -> int:
    if arguments.sums:
        print(json.dumps(provenance.of(program.find(arguments.program))))
        return 0
    if arguments.door is not None:
        from ..cli.commands import main  # which this is a command of
        begin()
        with contextlib.suppress(OSError):
            records.program_record(program.find(arguments.program))
        return prefork.serve(arguments.door, lambda: main([NAME]), stopped)
    messages.on_stop(stopped)
    text = sys.stdin.buffer.read()
    if not text.endswith(b"\n\n"):
        raise Refused("the batch isn't whole")
    room = os.path.join(tempfile.gettempdir(), f"draft_batch_{secrets.token_hex(8)}")
    # At the very end, when no signal has an effect any more, wherever one came before.
    atexit.register(shutil.rmtree, room, ignore_errors=True)
    os.mkdir(room, 0o700)
    try:
        with contextlib.closing(rows_of(text.splitlines(), room)) as rows:
            for row in rows:
                print(json.dumps(row), flush=True)
    finally:
        pass_over_stops()
    return 0
