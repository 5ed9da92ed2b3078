"""Processes with limits of time, memory and processors, so many at once; who comes later waits for a turn. A drawing comes before what is
looked for beyond the search of another one: that makes way for it."""
import contextlib
import json
import os
import pathlib
import re
import select
import signal
import subprocess
import tempfile
import threading
from collections.abc import Callable, Iterator
from typing import NamedTuple

from ..core import executable
from ..core.messages import Refused
from ..messages import controls

# After how many seconds the first solid of a drawing is likely to be shown: the next process isn't made ready meanwhile.
SHOWN = 1.0
# How many may wait for a turn, and after how many seconds without a word one is looked after.
MOST_WAITING, HEARTBEAT = 64, 0.25
PIECE = 1 << 16
# How many bytes of what a process says are looked at.
MOST_SAID = 1 << 20
# What a process is asked for on its standard input.
STOP, MAKE_WAY = "stop", "make way"


class Limits(NamedTuple):
    """What a process may take: seconds, MiB of memory (0 for as much as there is), processors; and how many run at once."""

    seconds: float
    memory: int
    processors: int
    at_once: int

    def told(self) -> str:
        memory = f"{self.memory:,} MiB" if self.memory else "any memory"
        return f"{self.at_once} at once, each {self.seconds:g} s, {memory}, {self.processors} processors"

    def words(self) -> list[str]:
        """What a process is begun with, so that it keeps to its time and memory."""
        spent = max(1, round(self.seconds * self.processors))
        memory = self.memory << 20 if self.memory else "unlimited"
        return ["prlimit", f"--as={memory}", f"--cpu={spent}", "--core=0"]

    def processors_of(self, slot: int) -> list[int]:
        """The processors that a process may use; each of the slots has its own, as far as there are."""
        every = sorted(os.sched_getaffinity(0))
        return [every[(slot * self.processors + at) % len(every)] for at in range(min(self.processors, len(every)))]


class Turns:
    """The slots for processes, and one that is ready; who waits for a slot, drawings first, else in the order in which they came; who looks
    beyond a search, and who of these was asked to make way."""

    def __init__(self, limits: Limits) -> None:
        self.limits = limits
        self.ready = Ready(limits)
        self.free = set(range(limits.at_once))
        self.waiting: list["Turn"] = []
        self.looking: list["Turn"] = []
        self.parting: set["Turn"] = set()
        self.changed = threading.Condition()

    def enter(self, is_drawing: bool = False) -> "Turn":
        """A place in the queue; refused where too many wait."""
        with self.changed:
            if len(self.waiting) >= MOST_WAITING:
                raise Refused(f"{MOST_WAITING} wait for their turn: try again later")
            turn = Turn(self, is_drawing)
            self.waiting.append(turn)
            self.waiting.sort(key=lambda it: not it.is_drawing)
            return turn


class Turn:
    """A place in the queue, and then a slot."""

    def __init__(self, turns: Turns, is_drawing: bool) -> None:
        self.turns, self.is_drawing = turns, is_drawing
        self.slot: int | None = None
        self.make_way: Callable[[], object] = lambda: None

    def before(self) -> int:
        """How many wait before this one."""
        with self.turns.changed:
            return self.turns.waiting.index(self) if self in self.turns.waiting else 0

    def has_come(self, seconds: float = HEARTBEAT) -> bool:
        """Whether it is this one's turn, or becomes it within so many seconds."""
        turns = self.turns
        with turns.changed:
            if self.slot is not None or not turns.changed.wait_for(self.is_next, seconds):
                return self.slot is not None
            if turns.free:
                turns.waiting.remove(self)
                self.slot = min(turns.free)
                turns.free.remove(self.slot)
                turns.changed.notify_all()
                return True
            other = turns.looking.pop(0)
            turns.parting.add(other)
        other.make_way()
        return False

    def is_next(self) -> bool:
        """Whether a slot is this one's, or can be made so."""
        turns = self.turns
        can_be_made = self.is_drawing and bool(turns.looking) and not turns.parting
        return turns.waiting[:1] == [self] and (bool(turns.free) or can_be_made)

    def looks(self, make_way: Callable[[], object]) -> None:
        """From now on something is looked for beyond a search, which ends when it is asked to make way."""
        with self.turns.changed:
            self.make_way = make_way
            self.turns.looking.append(self)
            self.turns.changed.notify_all()

    def leave(self) -> None:
        with self.turns.changed:
            self.turns.parting.discard(self)
            for those in (self.turns.waiting, self.turns.looking):
                if self in those:
                    those.remove(self)
            if self.slot is not None:
                self.turns.free.add(self.slot)
                self.slot = None
            self.turns.changed.notify_all()

    def run(self, words: list[str], folder: pathlib.Path) -> "Running":
        """Has a process run a command of `draft` in a folder, in this one's slot."""
        assert self.slot is not None
        running = self.turns.ready.take()
        running.begin(words, folder, self.turns.limits.processors_of(self.slot), self.leave)
        return running


class Running:
    """A process with its limits, in a group of its own, which has imported what a drawing needs, and waits for its one command (ready.py)."""

    def __init__(self, limits: Limits) -> None:
        self.limits = limits
        self.is_late = self.is_stopped = False
        # What it says on standard error.
        self.said = tempfile.TemporaryFile()
        self.process = subprocess.Popen(
            [*limits.words(), *executable.words("ready")], stdin=subprocess.PIPE, stdout=subprocess.PIPE, stderr=self.said, cwd=tempfile.gettempdir(),
            bufsize=0, start_new_session=True, env={**os.environ, controls.VARIABLE: "page"},
        )
        self.timer = threading.Timer(limits.seconds, self.late)
        self.timer.daemon = True
        self.was_late: Callable[[], object] = lambda: None

    def begin(self, words: list[str], folder: pathlib.Path, processors: list[int], was_late: Callable[[], object]) -> None:
        """Has it run a command of `draft` in a folder, on some processors; something is done where that takes too long."""
        self.was_late = was_late
        self.timer.start()
        self.ask(json.dumps({"words": words, "folder": str(folder), "processors": processors}))

    def ask(self, line: str) -> None:
        """Tells it a line on its standard input, as long as it is there."""
        assert self.process.stdin
        with contextlib.suppress(OSError):
            self.process.stdin.write(f"{line}\n".encode())

    def pieces(self) -> Iterator[bytes]:
        """What it writes, as it comes; nothing after each while without a word, so that whoever reads is looked after."""
        assert self.process.stdout
        poll = select.poll()
        poll.register(self.process.stdout, select.POLLIN)
        while True:
            if not poll.poll(1000 * HEARTBEAT):
                yield b""
                continue
            piece = os.read(self.process.stdout.fileno(), PIECE)
            if not piece:
                self.process.wait()
                return
            yield piece

    def stop(self, word: str = STOP) -> None:
        """Asks it to end its search, or to make way for a drawing."""
        self.is_stopped = True
        self.ask(word)

    def make_way(self) -> None:
        """Ends it for a drawing."""
        self.is_stopped = True
        self.end()

    def late(self) -> None:
        """Ends it since its time is up, and gives its turn to who waits, even where nobody reads what it wrote."""
        self.is_late = True
        self.end()
        self.was_late()

    def end(self) -> None:
        """Ends it and all that it began."""
        self.timer.cancel()
        try:
            os.killpg(self.process.pid, signal.SIGKILL)
        except ProcessLookupError:
            pass
        self.process.wait()

    def words_said(self) -> str:
        """What it said, up to now, on standard error."""
        return os.pread(self.said.fileno(), MOST_SAID, 0).decode(errors="replace")

    def complaint(self) -> str:
        """Why it ended without what was asked for, in words."""
        status = self.process.wait()
        last = self.words_said().strip().splitlines()[-1:]
        if self.is_late or status == -signal.SIGXCPU:
            return f"it took longer than {self.limits.seconds:g} seconds"
        if last and "MemoryError" in last[0] or status == -signal.SIGSEGV:
            return f"it needs more than {self.limits.memory:,} MiB of memory"
        if status < 0:
            return f"it was ended by {signal.Signals(-status).name}"
        return re.sub(r"^draft \w+: ", "", last[0]) if last else f"it ended with status {status}"


class Ready:
    """The process that is ready for the next command. Once it is taken another one is made ready, in the background, when the first solid is
    likely to be shown. There is one, however many slots there are: so what waits takes little, and of two drawings at the same moment one
    begins without."""

    def __init__(self, limits: Limits) -> None:
        self.limits = limits
        self.running: Running | None = None
        self.has_ended = False
        self.lock = threading.Lock()
        self.prepare(0)

    def prepare(self, seconds: float) -> None:
        """Has one be made ready after so many seconds."""
        timer = threading.Timer(seconds, self.make)
        timer.daemon = True
        timer.start()

    def make(self) -> None:
        """Makes one ready, unless there is one; where that can't be now it is tried again when it is needed."""
        with self.lock, contextlib.suppress(OSError):
            if not self.has_ended and (self.running is None or self.running.process.poll() is not None):
                self.running = Running(self.limits)

    def take(self) -> Running:
        """The one that is ready, or a new one, where there is none that lives."""
        with self.lock:
            running, self.running = self.running, None
        self.prepare(SHOWN)
        return running if running and running.process.poll() is None else Running(self.limits)

    def end(self) -> None:
        with self.lock:
            self.has_ended = True
            if self.running:
                self.running.end()
