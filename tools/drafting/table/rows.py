"""The rows of a table that are kept: a line each in one file, which only grows; so a table that was stopped goes on where it was, and no
row is there twice. A line that wasn't written whole is none. Of each row its place in the file is held, and it is read when it is asked for."""
import fcntl
import hashlib
import json
import os
import pathlib
from typing import Any

from ..core.messages import Refused, say
from ..core.verdict import Kind
from ..messages.controls import option
from ..recon.process import CUT_NODES, CUT_SOLIDS

Row = dict[str, Any]
# What names a row: 16 bytes, which the file has as figures.
Key = bytes
# What the table needs of a row; the record is that of `draft solve --json`, and there is none of one without an answer.
KEPT = ("status", "verdict", "solids", "rounds", "seconds", "message", "record")
# The statuses of rows without an answer: `draft` takes no such drawing; its process didn't end well; its file couldn't be read, or was
# changed meanwhile, and that row is never kept.
REFUSED, FAILED, LOST = "refused", "failed", "lost"
# The verdict of such rows, as of those with a fault.
NOT_READ = Kind.NOT_READ.value


def key_of(*told: object) -> Key:
    """A name for what a row is the answer to."""
    return hashlib.sha256(json.dumps(told).encode()).digest()[:16]


def row_of(line: bytes) -> tuple[Key, Row]:
    """A row and its name, of a line of the file. KeyError, TypeError and ValueError come of what is no such line."""
    told = json.loads(line)
    return bytes.fromhex(told["key"]), {name: told[name] for name in KEPT}


class Rows:
    """The rows that are kept in a folder, which is this table's alone while it is made. Where they can't be kept any more, as on a full
    disk, that is told once, and the table goes on: those to come are held whole."""

    def __init__(self, state: pathlib.Path) -> None:
        try:
            state.mkdir(parents=True, exist_ok=True)
            self.file = open(state / "rows", "a+b", buffering=0)
            self.reader = open(state / "rows", "rb")
        except OSError as failure:
            raise Refused(f"rows can't be kept in {state} ({failure.strerror}): name another folder by {option('state')}") from None
        try:
            fcntl.flock(self.file, fcntl.LOCK_EX | fcntl.LOCK_NB)
        except BlockingIOError:
            raise Refused(f"another table is being made in {state}") from None
        self.state, self.is_kept, self.have_failed = state, True, False
        self.places: dict[Key, int] = {}
        self.held: dict[Key, Row] = {}
        self.cut: set[Key] = set()
        self.load()

    def load(self) -> None:
        """Finds what is there; what stands behind the last line's end is cut off."""
        whole = 0
        for line in self.reader:
            if not line.endswith(b"\n"):
                os.truncate(self.file.fileno(), whole)
                break
            try:
                key, row = row_of(line)
                self.note(key, row)
                self.places[key] = whole
            except (ValueError, KeyError, TypeError):
                pass
            whole += len(line)

    def note(self, key: Key, row: Row) -> None:
        """Notes what has to be known of a row without reading it."""
        self.have_failed |= row["status"] == FAILED
        if row["status"] in (CUT_NODES, CUT_SOLIDS):
            self.cut.add(key)

    def __contains__(self, key: Key) -> bool:
        return key in self.places or key in self.held

    def get(self, key: Key) -> Row | None:
        if key not in self.places:
            return self.held.get(key)
        self.reader.seek(self.places[key])
        return row_of(self.reader.readline())[1]

    def is_cut(self, key: Key) -> bool:
        """Whether there is a row of a search that came to a limit."""
        return key in self.cut

    def add(self, key: Key, row: Row) -> None:
        """Keeps a row, and has it written at once."""
        kept = {name: row.get(name) for name in KEPT}
        self.note(key, kept)
        at = self.write(json.dumps({"key": key.hex(), **row, **kept}).encode() + b"\n") if self.is_kept else None
        if at is None:
            self.held[key] = kept
        else:
            self.places[key] = at

    def place(self, name: str, room: str) -> pathlib.Path:
        """Where a file can be that is kept beside the rows: in the other folder, where it can't be begun beside them."""
        path = self.state / name
        try:
            path.write_bytes(b"")
        except OSError:
            return pathlib.Path(room, name)
        return path

    def write(self, line: bytes) -> int | None:
        """Writes a line; where it begins, or nothing where it can't be written."""
        at = self.file.seek(0, os.SEEK_END)
        try:
            if self.file.write(line) != len(line):
                raise OSError(0, "a line couldn't be written whole")
        except OSError as failure:
            self.is_kept = False
            say(f"draft table: rows can't be kept in {self.state} any more ({failure.strerror}): those to come are in this table alone")
            os.truncate(self.file.fileno(), at)
            return None
        return at
