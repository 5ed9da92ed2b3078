"""The drawings of a table, its rows, and passes over them. They are asked about in batches, in rounds. What a round left without an answer,
since its machine was gone or its batch came to no end, goes into smaller batches of the next one."""
import os
import pathlib
import tempfile
import time
from collections import Counter
from collections.abc import Iterator, Sequence
from typing import NamedTuple

from ..core import provenance
from ..core.messages import Progress, many, say
from ..dxf.reader import MOST_BYTES
from .handover import HERE
from .inputs import Place
from .machines import Carrier, Machine, fit, told_name
from .rows import FAILED, LOST, NOT_READ, REFUSED, Key, Row, Rows, key_of
from .worker import CHANGED, Drawing, text_of

# The most drawings of a batch in each pass; the batches that few drawings are cut into, and how many of them a processor here has at least,
# for each machine.
MOST, BATCHES, SHARES = (100, 10), 8, 2
# The most bytes of a batch that is sent; the most rounds, and how much smaller the batches of the next one are.
MOST_SENT, ROUNDS, SMALLER = 8 << 20, 4, 8
# How often it is told how far a table is, on no terminal.
MINUTE = 60.0


class Limits(NamedTuple):
    """The limits of a pass."""

    nodes: int
    solids: int


PASSES = (Limits(2_000, 100), Limits(1_000_000, 4_096))


class Table:
    """The drawings, and the rows that there are of them, which it gives in their order as often as it is asked."""

    def __init__(self, places: list[Place], rows: Rows, program: pathlib.Path, words: list[str], limits: list[str]) -> None:
        self.places, self.rows, self.program, self.words, self.limits = places, rows, program, words, limits
        self.stands_on = provenance.of(program)
        self.common = [key_of(limits, words, self.stands_on).hex() for limits in PASSES]
        self.lost: dict[int, str] = {number: place.trouble for number, place in enumerate(places) if place.trouble}

    def key(self, number: int, at: int) -> Key:
        """What names a drawing's row."""
        place = self.places[number]
        return key_of(self.common[at], place.path, place.size, place.time)

    def failed_key(self, number: int, at: int) -> Key:
        """The name of one that failed: it has failed within these limits alone."""
        return key_of(self.key(number, at).hex(), self.limits)

    def kept_key(self, number: int, at: int) -> Key | None:
        """The name of the row that there is, if there is one."""
        if (key := self.key(number, at)) in self.rows:
            return key
        return failed if self.rows.have_failed and (failed := self.failed_key(number, at)) in self.rows else None

    def take(self, number: int, at: int, row: Row) -> None:
        """Keeps a row, unless it is lost."""
        if row["status"] == LOST:
            self.lost[number] = row["message"]
        elif self.kept_key(number, at) is None:
            name = self.failed_key if row["status"] == FAILED else self.key
            self.rows.add(name(number, at), {**row, "file": self.places[number].path})

    def numbers(self, at: int) -> list[int]:
        """The drawings that a pass is for."""
        numbers = [number for number, place in enumerate(self.places) if number not in self.lost and not place.unfit]
        return [number for number in numbers if not at or self.is_cut(number)]

    def is_cut(self, number: int) -> bool:
        return self.rows.is_cut(self.key(number, 0))

    def last_key(self, number: int) -> Key | None:
        """The name of the row that the table shows, that of the last pass that is for the drawing; none where it is lost."""
        return None if number in self.lost else self.kept_key(number, 1 if self.is_cut(number) else 0)

    def __iter__(self) -> Iterator[Row]:
        for number, place in enumerate(self.places):
            if place.unfit:
                yield {"file": place.name, **unanswered(REFUSED, place.unfit)}
                continue
            key = self.last_key(number)
            yield {"file": place.name, **((self.rows.get(key) if key else None) or unanswered(LOST, self.why_lost(number)))}

    def lost_ones(self) -> list[int]:
        """The drawings whose rows are lost."""
        return [number for number, place in enumerate(self.places) if not place.unfit and self.last_key(number) is None]

    def verdicts(self) -> Counter[str]:
        """How many rows have each verdict."""
        return Counter(row["verdict"] for row in self)

    def why_lost(self, number: int) -> str:
        return self.lost.get(number, "no answer came back")


def unanswered(status: str, why: str) -> Row:
    """The row of a drawing that nothing was asked about, and why."""
    return {"status": status, "verdict": NOT_READ, "solids": None, "rounds": None, "seconds": 0.0, "message": why}


class Pass:
    """A pass over a table's drawings, within limits of nodes and of solids."""

    def __init__(self, table: Table, at: int, named: list[Machine], jobs: str) -> None:
        self.table, self.at, self.named, self.jobs = table, at, named, jobs
        nodes, solids = map(str, PASSES[at])
        self.words = ["--nodes", nodes, "--solids", solids, "--program", str(table.program), *table.limits, *table.words]

    def due(self) -> list[int]:
        """The drawings that have no row of this pass."""
        return [number for number in self.table.numbers(self.at) if self.table.kept_key(number, self.at) is None]

    def ask(self) -> None:
        """Asks in rounds, until all have a row, or a round brought none and the next one would be no other."""
        due = self.refuse_long(self.due())
        if not due:
            return
        say(f"draft table: pass {self.at + 1}, with at most {PASSES[self.at].nodes:,} nodes and {PASSES[self.at].solids:,} solids: "
            f"{many(len(due), 'drawing')} of {len(self.table.places):,}")
        self.tally = Tally(self.at, len(due))
        size = max(1, min(MOST[self.at], len(due) // max(BATCHES, SHARES * len(os.sched_getaffinity(0)) * len(self.named))))
        for number in range(ROUNDS):
            machines = fit(self.named, self.table.program, self.table.stands_on)
            if not machines:
                say("draft table: no machine is left")
                break
            if number:
                say(f"draft table: {many(len(due), 'drawing')} without an answer: asked again, {size} at most in a batch")
            left = self.round(machines, due, size, number)
            if not left or len(left) == len(due) and size == 1:
                break
            due, size = left, max(1, size // SMALLER)
        Progress.clear()

    def round(self, machines: list[Machine], due: list[int], size: int, number: int) -> list[int]:
        """One round; answers which drawings have no row after it."""
        is_sent = any(machine.name != HERE for machine in machines)
        with tempfile.TemporaryDirectory(prefix="draft_table_") as room:
            log = self.table.rows.place(f"joblog_{self.at + 1}_{number + 1}", room)
            Carrier(machines, self.jobs, self.table.program, log, room).carry(self.batches(due, size, is_sent), self.take, self.tally.tick)
        return self.due()

    def take(self, row: Row) -> None:
        if 0 <= row["number"] < len(self.table.places) and self.table.kept_key(row["number"], self.at) is None:
            self.tally.count(row)
            self.table.take(row["number"], self.at, row)

    # -- what is sent

    def refuse_long(self, due: list[int]) -> list[int]:
        """Refuses files that are longer than any that is read."""
        long = [number for number in due if self.table.places[number].size > MOST_BYTES]
        for number in long:
            message = f"the file has {self.table.places[number].size:,} bytes, more than {MOST_BYTES:,}"
            self.table.take(number, self.at, unanswered(REFUSED, message))
        passed = set(long)
        return [number for number in due if number not in passed]

    def batches(self, due: Sequence[int], size: int, is_sent: bool) -> Iterator[bytes]:
        drawings: list[Drawing] = []
        held = 0
        for number in due:
            drawing = self.drawing(number, is_sent)
            if drawing is not None:
                drawings.append(drawing)
                held += len(drawing.data or b"")
            if len(drawings) == size or held > MOST_SENT:
                yield text_of(self.words, drawings)
                drawings, held = [], 0
        if drawings:
            yield text_of(self.words, drawings)

    def drawing(self, number: int, is_sent: bool) -> Drawing | None:
        """A drawing for a batch; nothing, and it is lost, where its file can't be read, or is another one by now."""
        place = self.table.places[number]
        drawing = Drawing(number, place.path, place.size, place.time)
        if not is_sent:
            return drawing
        try:
            drawing = drawing._replace(data=pathlib.Path(place.path).read_bytes())
        except OSError as failure:
            self.table.lost[number] = f"can't be read: {failure.strerror}"
            return None
        if not drawing.is_unchanged():
            self.table.lost[number] = CHANGED
            return None
        return drawing


class Tally:
    """How far a pass is, in words."""

    def __init__(self, at: int, total: int) -> None:
        self.at, self.total, self.began = at, total, time.monotonic()
        self.told = self.began
        self.done = 0
        self.kinds: Counter[str] = Counter()
        self.machines: Counter[str] = Counter()

    def count(self, row: Row) -> None:
        self.done += 1
        self.machines[str(row.get("machine", HERE))] += 1
        if row["status"] in (REFUSED, FAILED, LOST):
            self.kinds[row["status"]] += 1

    def text(self) -> str:
        rate = self.done / max(0.001, time.monotonic() - self.began)
        kinds = "".join(f", {count:,} {kind}" for kind, count in self.kinds.items())
        left = f"; {rate:.3g} a second, {in_time((self.total - self.done) / rate)} left" if self.done else ""
        machines = "; " + ", ".join(f"{told_name(name)} {count:,}" for name, count in self.machines.most_common())
        return f"pass {self.at + 1}: {self.done:,} of {self.total:,} rows{kinds}{left}{machines if len(self.machines) > 1 else ''}"

    def tick(self) -> None:
        """Tells it on a terminal each second, else each minute."""
        Progress.show(self.text())
        if not Progress.is_seen() and time.monotonic() - self.told >= MINUTE:
            self.told = time.monotonic()
            say(f"draft table: {self.text()}")


def in_time(seconds: float) -> str:
    """A time in words, as people say it."""
    if seconds < 100:
        return f"{seconds:.0f} s"
    minutes = round(seconds / 60)
    return f"{minutes} min" if minutes < 100 else f"{minutes // 60} h {minutes % 60:02} min"
