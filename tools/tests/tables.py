"""What the tests of tables share: tables that are made and read back, and what the program says of each drawing alone."""
import csv
import io
import os
import pathlib
import signal
import subprocess
import time
from collections.abc import Callable
from typing import NamedTuple

from drafting.core.messages import Refused
from drafting.dxf.drawing import decimals_of, lines_within
from drafting.recon import process

from .serving import takes_limits
from .support import TOOLS

# A test of minutes takes an hour on a machine that is busy with other things.
PATIENCE = 3600
Row = dict[str, str]


class Made(NamedTuple):
    """A table that was made: the status, its rows by name, and what was said."""

    status: int
    rows: dict[str, Row]
    said: str


def words_of(*words: object) -> list[str]:
    """The words of a table as CSV."""
    memory = () if takes_limits() else ("--memory", 0)
    return list(map(str, (TOOLS / "draft", "table", "--csv", *memory, *words)))


def made(*words: object, data: bytes = b"", variables: dict[str, str] | None = None) -> Made:
    ended = subprocess.run(words_of(*words), input=data, capture_output=True, timeout=PATIENCE, env=variables or dict(os.environ))
    return Made(ended.returncode, rows_of(ended.stdout), ended.stderr.decode())


def begun(*words: object, variables: dict[str, str] | None = None) -> "subprocess.Popen[bytes]":
    """A table that is being made, which an interrupt stops, as a shell's jobs in the background aren't."""
    return subprocess.Popen(words_of(*words), stdin=subprocess.DEVNULL, stdout=subprocess.PIPE, stderr=subprocess.PIPE,
                            env=variables or dict(os.environ), start_new_session=True, preexec_fn=heed_interrupts)


def heed_interrupts() -> None:
    signal.signal(signal.SIGINT, signal.SIG_DFL)


def rows_of(out: bytes) -> dict[str, Row]:
    """The rows of a table by their names; there is one of each."""
    rows = list(csv.DictReader(io.StringIO(out.decode("utf-8", "surrogateescape"), newline="")))
    found = {row["file"]: row for row in rows}
    if len(found) != len(rows):
        raise Refused("a drawing has several rows")
    return found


def count(state: pathlib.Path) -> int:
    """How many rows are kept."""
    try:
        return (state / "rows").read_bytes().count(b"\n")
    except OSError:
        return 0


def until(is_so: Callable[[], bool], running: "subprocess.Popen[bytes]") -> None:
    """Waits for something while a table is made; refused where that ends before."""
    end = time.monotonic() + PATIENCE
    while not is_so():
        if running.poll() is not None or time.monotonic() > end:
            raise Refused(f"it ended before: {running.communicate()}")
        time.sleep(0.02)


def kept(folder: pathlib.Path) -> dict[pathlib.Path, bytes]:
    """All files of a folder of drawings, but for the rows that are kept there."""
    return {file: file.read_bytes() for file in folder.rglob("*") if file.is_file() and ".draft_table" not in file.parts}


def answer_alone(data: bytes) -> tuple[str, str]:
    """The status of `recon solve` of a drawing, and how many solids it lists; none of a fault."""
    words = [str(process.find()), "solve", "--decimals", str(decimals_of(lines_within(data)))]
    ended = subprocess.run(words, input=data, capture_output=True)
    solids = sum(line.startswith(b"solid ") for line in ended.stdout.splitlines())
    return str(ended.returncode), str(solids) if ended.returncode != 1 else ""
