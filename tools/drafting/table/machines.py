"""Batches on this machine and on others, carried by GNU parallel: a batch is the standard input of one job, by one connection of ssh where
it goes to another machine, and its rows are what the job writes. So no file is fetched or removed. A machine that fails often gets no more
batches, and it is told.
"""
import collections
import contextlib
import json
import os
import pathlib
import re
import selectors
import shlex
import subprocess
import tempfile
import threading
import time
from collections.abc import Callable, Iterable
from typing import Any, NamedTuple

from ..core import executable
from ..core.messages import Progress, Refused, many, say
from .handover import HERE
from .prefork import Warm

# A machine is left out once so many of its last so many batches failed.
FAILURES, LAST = 3, 5
# How long machines may take to say what they have, as slow ones do whose logins wait for something, and a stopped GNU parallel to end; how it
# stops jobs, which then clean up. By `exec` no shell stands between: once that ended, the batch would be killed at once on another machine.
CHECKED, ENDED = 300, 20
STOPS = "TERM,10000,KILL,25"
# By these a machine that is gone without a word is known to be gone, and no password is waited for.
SSH = "-o BatchMode=yes -o ConnectTimeout=20 -o ServerAliveInterval=15 -o ServerAliveCountMax=3"

Row = dict[str, Any]


class Machine(NamedTuple):
    """A machine as GNU parallel takes it, and by the name that it tells of it."""

    word: str
    name: str


def machines_of(words: Iterable[str]) -> list[Machine]:
    """The machines that were named, several in one word with commas between them; this one, where none is named."""
    found = [word.strip() for told in words for word in re.split(r"(?<!\\),", told)] or [HERE]
    machines = [Machine(word, re.sub(r"^(@[^/]*/)?(\d*/)?", "", word)) for word in found]
    if odd := next((it for it in machines if it.name in ("", "-", "..") or "\n" in it.word), None):
        raise Refused(f"no machine: {odd.word!r}")
    return machines


def told_name(name: str) -> str:
    return "this machine" if name == HERE else name


def parallel(*words: object) -> tuple[list[str], dict[str, str]]:
    """A command of GNU parallel, and its variables."""
    ssh = os.environ.get("PARALLEL_SSH", "ssh")
    return ["parallel", "--plain", *map(str, words)], {**os.environ, "PARALLEL_SSH": f"{ssh} {SSH}"}


def write_machines(room: str, machines: Iterable[Machine]) -> pathlib.Path:
    """The list that GNU parallel reads, anew whenever it is changed."""
    path, part = pathlib.Path(room, "machines"), pathlib.Path(room, "machines.part")
    part.write_text("".join(f"{machine.word}\n" for machine in machines))
    os.replace(part, path)
    return path


class Followed:
    """The lines that a file gets while it is written."""

    def __init__(self, path: pathlib.Path) -> None:
        self.path, self.at, self.rest = path, 0, b""

    def lines(self) -> list[str]:
        try:
            with open(self.path, "rb") as file:
                file.seek(self.at)
                new = file.read()
        except OSError:
            return []
        self.at += len(new)
        *whole, self.rest = (self.rest + new).split(b"\n")
        return [line.decode(errors="replace") for line in whole]


class Job(NamedTuple):
    """A job that has ended, as GNU parallel's log of jobs tells it."""

    name: str
    seconds: float
    status: int
    signal: int


def job_of(line: str) -> Job | None:
    """The job that a line of the log tells; none at its head."""
    cells = line.split("\t")
    return Job(cells[1], float(cells[3]), int(cells[6]), int(cells[7])) if len(cells) >= 8 and cells[0].isdigit() else None


# ---- which machines are fit

def fit(machines: list[Machine], path: pathlib.Path, own: dict[str, str]) -> list[Machine]:
    """The machines that have the same program, `draft` and ezdxf as this one, by sums; of the others it is told why they are left out."""
    if [machine.name for machine in machines] == [HERE]:
        return machines
    asked = shlex.join(executable.words("batch", "--sums", "--program", path))
    Progress.show("the machines are asked what they have")
    with tempfile.TemporaryDirectory(prefix="draft_table_") as room:
        listed, log = write_machines(room, machines), pathlib.Path(room, "joblog")
        words, variables = parallel("--nonall", "--tag", "--timeout", CHECKED, "--joblog", log, "--sshloginfile", listed, asked)
        ended = subprocess.run(words, env=variables, capture_output=True, stdin=subprocess.DEVNULL)
        jobs = {job.name: job for job in map(job_of, Followed(log).lines()) if job}
    told, said = by_machine(ended.stdout), by_machine(ended.stderr)
    found = []
    for machine in machines:
        silence = why_silent(jobs.get(machine.name), said.get(machine.name, []), ended.stderr)
        if lack := lacks(own, told.get(machine.name, []), silence):
            say(f"draft table: {told_name(machine.name)} is left out: {lack}")
        else:
            found.append(machine)
    if found:
        names = ", ".join(told_name(machine.name) for machine in found)
        say(f"draft table: {names}: the same recon ({own['recon'][:12]}), draft ({own['draft'][:12]}) and ezdxf ({own['ezdxf']})")
    return found


def by_machine(text: bytes) -> dict[str, list[str]]:
    """Lines that have a machine's name and a tab before them, by this name."""
    found: dict[str, list[str]] = {}
    for line in text.decode(errors="replace").splitlines():
        name, tab, rest = line.partition("\t")
        if tab and rest.strip():
            found.setdefault(name, []).append(rest.strip())
    return found


def why_silent(job: Job | None, said: list[str], words: bytes) -> str:
    """Why a machine doesn't tell what it has: by what became of its job, what was said there, and GNU parallel's own words."""
    if job is None:
        own = [line for line in words.decode(errors="replace").splitlines() if line.startswith("parallel: ")]
        return f"GNU parallel didn't ask it: {own[0] if own else 'and says nothing'}"
    if job.seconds >= CHECKED:
        return f"no answer within {CHECKED} seconds, a login included"
    return said[-1] if said else f"its command ended with status {job.status} and signal {job.signal}, and said nothing"


def lacks(own: dict[str, str], told: list[str], silence: str) -> str:
    """Why a machine isn't fit; nothing where it is."""
    its = None
    for line in told:
        with contextlib.suppress(ValueError):
            its = json.loads(line)
    if not isinstance(its, dict):
        return f"it doesn't tell what it has: {silence}"[:300]
    others = [f"{name} {str(its.get(name))[:12]} where this machine has {told[:12]}" for name, told in own.items() if its.get(name) != told]
    return f"it has {', '.join(others)}" if others else ""


# ---- batches on them

class Carrier:
    """One run of GNU parallel over batches, with its log of jobs and a folder for what else it needs."""

    def __init__(self, machines: list[Machine], jobs: str, program: pathlib.Path, log: pathlib.Path, room: str) -> None:
        self.machines, self.room = machines, room
        self.log, self.words = Followed(log), Followed(pathlib.Path(room, "said"))
        self.last: dict[str, collections.deque[bool]] = {}
        self.complaint = self.error = ""
        self.trouble: Exception | None = None
        listed = write_machines(room, machines)
        door = os.path.join(room, "door")
        words = ["--pipe", "--recend", r"\n\n", "-N1", "--line-buffer", "--jobs", jobs, "--joblog", log, "--sshloginfile", listed,
                 "--halt", "never", "--termseq", STOPS, f"exec {shlex.join(executable.words(door, module='drafting.table.handover'))}"]
        command, variables = parallel(*words)
        with open(self.words.path, "wb") as said:
            self.warm = Warm(door, program, said) if any(machine.name == HERE for machine in machines) else None
            self.process = subprocess.Popen(command, env=variables, stdin=subprocess.PIPE, stdout=subprocess.PIPE, stderr=said)

    def carry(self, batches: Iterable[bytes], take: Callable[[Row], None], tick: Callable[[], None]) -> None:
        """Carries batches, and hands on each row as it comes; a tick comes each second."""
        feeding = threading.Thread(target=self.feed, args=(batches,), daemon=True)
        feeding.start()
        try:
            if self.read(take, tick):
                with contextlib.suppress(subprocess.TimeoutExpired):
                    self.process.wait(ENDED)
        finally:
            self.end()
        self.follow()
        feeding.join(ENDED)
        if self.trouble:
            raise self.trouble
        if self.error and not self.last:
            raise Refused(self.error)

    def feed(self, batches: Iterable[bytes]) -> None:
        """Hands batches over, from a thread of its own; what goes wrong in it is raised by the other."""
        assert self.process.stdin
        try:
            with contextlib.suppress(BrokenPipeError):
                for batch in batches:
                    self.process.stdin.write(batch)
        except Exception as trouble:
            self.trouble = trouble
        with contextlib.suppress(BrokenPipeError):
            self.process.stdin.close()

    def read(self, take: Callable[[Row], None], tick: Callable[[], None]) -> bool:
        """Hands on what comes, until all is done; says whether it is, or no machine is left."""
        lines = Lines(self.process.stdout)
        due = time.monotonic() + 1
        while self.machines and (came := lines.next(max(0.0, due - time.monotonic()))) is not None:
            for line in came:
                self.hand_on(line, take)
            if time.monotonic() >= due:
                due = time.monotonic() + 1
                self.follow()
                tick()
        return bool(self.machines)

    def hand_on(self, line: bytes, take: Callable[[Row], None]) -> None:
        """Hands on a row; what a machine writes besides, when one logs in, is none."""
        try:
            row = json.loads(line)
        except ValueError:
            return
        if isinstance(row, dict) and isinstance(row.get("number"), int):
            take(row)

    # -- machines that fail

    def follow(self) -> None:
        """Looks at what GNU parallel and the jobs said since the last time, and at the jobs that have ended."""
        for line in filter(str.strip, self.words.lines()):
            if line.startswith("parallel: Error"):
                self.error = line
            elif line.startswith("parallel: "):
                say(f"draft table: {line}")
            else:
                self.complaint = line.strip()[:300]
        for job in filter(None, map(job_of, self.log.lines())):
            self.count(job.name, (job.status, job.signal) != (0, 0))

    def count(self, name: str, has_failed: bool) -> None:
        last = self.last.setdefault(name, collections.deque(maxlen=LAST))
        last.append(has_failed)
        if sum(last) >= FAILURES and any(machine.name == name for machine in self.machines):
            self.leave_out(name, f"{sum(last)} of its last {many(len(last), 'batch', 'batches')} failed")

    def leave_out(self, name: str, why: str) -> None:
        self.machines = [machine for machine in self.machines if machine.name != name]
        last = f"; the last that was said: {self.complaint}" if self.complaint else ""
        say(f"draft table: {told_name(name)} is left out: {why}{last}")
        if self.machines:
            write_machines(self.room, self.machines)

    def end(self) -> None:
        """Ends GNU parallel, and with it what it runs: by the second signal it doesn't wait for jobs."""
        for _ in range(2):
            if self.process.poll() is None:
                self.process.terminate()
                with contextlib.suppress(subprocess.TimeoutExpired):
                    self.process.wait(0.2)
        try:
            self.process.wait(ENDED)
        except subprocess.TimeoutExpired:
            self.process.kill()
            self.process.wait()
        assert self.process.stdout
        self.process.stdout.close()
        if self.warm:
            self.warm.end()


class Lines:
    """Lines of a pipe as they come, without waiting longer than is said."""

    def __init__(self, pipe: Any) -> None:
        self.pipe, self.rest = pipe, b""
        self.chosen = selectors.DefaultSelector()
        self.chosen.register(pipe, selectors.EVENT_READ)

    def next(self, seconds: float) -> list[bytes] | None:
        """The lines that have come; none after so many seconds, and nothing at the end."""
        if not self.chosen.select(seconds):
            return []
        new = os.read(self.pipe.fileno(), 1 << 16)
        if not new:
            return None
        *whole, self.rest = (self.rest + new).split(b"\n")
        return whole
