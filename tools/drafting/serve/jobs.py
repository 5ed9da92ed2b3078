"""The drawings of all open pages of `draft serve`: each has a folder, options, and processes, which go with its page. What is told of a
drawing is kept in its folder, and a page asks for it piece by piece: so no connection stays open, and a page that is loaded anew gets all
of it again. A page that is left, or that hasn't asked for anything for a while, is gone, and its drawing with it."""
import errno
import json
import pathlib
import re
import secrets
import shutil
import tempfile
import threading
import time
from typing import Any

from ..core.messages import Refused, many
from ..render import html
from ..solve.verdict import stopped
from .queue import MAKE_WAY, Limits, Running, Turn, Turns

# The most bytes of what is told of one drawing, of one piece of that, and the most drawings in open pages.
MOST_TOLD, PIECE, MOST_JOBS = 256 << 20, 4 << 20, 32
# After how many seconds a page that was left is gone; and one of which nothing was heard: browsers let a page that isn't seen ask once a
# minute. A page that is being loaded may be one that was left, loaded anew, and has so many seconds to come.
GRACE, LIFE = 5.0, 150.0
LOADING = 60.0
# What the drawing's process says in the end, where it told all.
TOLD_ALL = re.compile(r"^draft follow: [\d,]+ solids? told$", re.M)
FULL = (errno.ENOSPC, errno.EDQUOT, errno.EFBIG)


class Unfit(Exception):
    """A request that isn't taken: the status, and why."""

    def __init__(self, status: int, text: str) -> None:
        super().__init__(text)
        self.status = status


def told_of_failure(failure: OSError) -> str:
    """What is to be said where a file of the server can't be written or read; its path isn't."""
    if failure.errno in FULL:
        return "the disk is full: make room on it, and try again"
    if failure.errno in (errno.ENOENT, errno.ENOTDIR):
        return "the server's folder is gone: end `draft serve`, and start it again"
    return f"the server can't keep its files: {failure.strerror or type(failure).__name__}"


def file_name(name: str) -> str:
    """The name of a file as far as it can be one here."""
    plain = re.sub(r"[^\w .()+-]+", "_", name).strip(" .-_")[-80:].strip(" .-_")
    return plain or "drawing"


def event(kind: str, **told: Any) -> bytes:
    return json.dumps({"kind": kind, **told}, separators=(",", ":")).encode() + b"\n"


class Job:
    """A drawing in an open page: its folder, its options, what is told of it, and the processes that work at it."""

    def __init__(self, session: pathlib.Path) -> None:
        self.key = secrets.token_urlsafe(12)
        self.folder = pathlib.Path(tempfile.mkdtemp(prefix="drawing_", dir=session))
        self.told = self.folder / "events"
        # Where its processes run, so that what they say of a file names it as its owner does.
        self.room = self.folder / "room"
        self.room.mkdir()
        self.name = ""
        self.words: list[str] = []
        self.options: list[Any] = []
        self.running: list[Running] = []
        # How its search ended, once it is told; whether it was stopped, is over, and has ended with its page.
        self.how = ""
        self.is_stopped = self.is_over = self.has_ended = False
        self.size = 0
        # The end of what is told, where it couldn't be written.
        self.rest = b""
        self.changed = threading.Condition()
        self.left = 0.0
        self.heard()

    @property
    def given(self) -> pathlib.Path:
        return self.room / file_name(self.name)

    def heard(self) -> None:
        """Its page is there."""
        self.asked_at, self.left = time.monotonic(), 0.0

    def leave(self) -> None:
        """Its page goes away, for good or to be loaded anew."""
        self.left = time.monotonic()

    def is_gone(self, may_come: bool) -> bool:
        """Whether its page is gone; one that was left may be the one that is being loaded."""
        now = time.monotonic()
        return now - self.asked_at > LIFE or bool(self.left) and not may_come and now - self.left > GRACE

    def tell(self, data: bytes) -> None:
        """Keeps some whole events; once it has ended no file comes into its folder, which is being removed."""
        with self.changed:
            if self.rest or self.has_ended:
                self.rest += data
            else:
                try:
                    with open(self.told, "ab") as file:
                        file.write(data)
                except OSError:
                    self.rest = data
            self.size += len(data)
            self.changed.notify_all()

    def events(self, start: int, seconds: float) -> bytes:
        """What is told from a byte on, as soon as there is some, within so many seconds."""
        with self.changed:
            self.changed.wait_for(lambda: self.size > start or self.is_over or self.has_ended, seconds)
            kept = self.size - len(self.rest)
            if self.has_ended or start >= kept:
                return self.rest[start - kept:]
        with open(self.told, "rb") as file:
            file.seek(start)
            return file.read(min(PIECE, kept - start))

    def stop(self) -> None:
        """Has its search end, wherever it is."""
        self.is_stopped = True
        for running in list(self.running):
            running.stop()

    def end(self) -> None:
        with self.changed:
            self.has_ended = True
            self.changed.notify_all()
        for running in list(self.running):
            running.end()
        self.clear()

    def clear(self) -> None:
        shutil.rmtree(self.folder, ignore_errors=True)


class Desk:
    """The drawings of all open pages, and the processes for them."""

    def __init__(self, session: pathlib.Path, limits: Limits, path: pathlib.Path) -> None:
        self.session, self.limits, self.path = session, limits, path
        self.turns = Turns(limits)
        self.jobs: dict[str, Job] = {}
        # When those pages were asked for that haven't come yet.
        self.loading: list[float] = []
        self.lock = threading.Lock()
        threading.Thread(target=self.clear, daemon=True).start()

    def clear(self) -> None:
        """Ends the drawings of pages that are gone, as long as the server runs."""
        while True:
            time.sleep(0.25)
            with self.lock:
                self.loading = [at for at in self.loading if time.monotonic() - at < LOADING]
                gone = [job for job in self.jobs.values() if job.is_gone(bool(self.loading))]
            for job in gone:
                self.end(job)

    def begin(self) -> Job:
        with self.lock:
            if len(self.jobs) >= MOST_JOBS:
                raise Unfit(503, f"{MOST_JOBS} drawings are open already: close a page, or try again later")
            job = Job(self.session)
            self.jobs[job.key] = job
            return job

    def asked_for_page(self) -> None:
        with self.lock:
            self.loading.append(time.monotonic())

    def came(self, key: object) -> Job | None:
        """A page that was asked for has come; the drawing that it had before it was loaded anew."""
        with self.lock:
            job = self.jobs.get(key) if isinstance(key, str) else None
            if job:
                job.heard()
            if self.loading:
                self.loading.pop(0)
            return job

    def end(self, job: Job) -> None:
        with self.lock:
            self.jobs.pop(job.key, None)
        job.end()

    def end_all(self) -> None:
        self.turns.ready.end()
        for job in list(self.jobs.values()):
            self.end(job)

    def job(self, key: object) -> Job:
        job = self.jobs.get(key) if isinstance(key, str) else None
        if job is None:
            raise Unfit(404, "no such drawing any more: its page was closed, or has another one")
        job.heard()
        return job

    def words(self, job: Job, command: str, *words: str) -> list[str]:
        """The words of a command of `draft` over a job's drawing."""
        # The program has a little less time, so that there is some to tell what it found.
        seconds = max(self.limits.seconds / 2, self.limits.seconds - 5)
        own = [] if command == "page" else [f"--program={self.path}", f"--seconds={seconds:g}", *job.words]
        return [command, *own, *words]

    def run(self, job: Job, turn: Turn, words: list[str]) -> Running:
        running = turn.run(words, job.room)
        job.running.append(running)
        if job.has_ended:
            running.end()
        return running

    # ---- a drawing

    def follow(self, job: Job) -> None:
        """Has all be told of a job's drawing, in its turn, in a thread of its own."""
        job.tell(event("job", key=job.key, name=job.name, options=job.options))
        threading.Thread(target=self.followed, args=(job,), daemon=True).start()

    def followed(self, job: Job) -> None:
        """What is told of a drawing. How it ended is always told, and that it is over."""
        text = ""
        try:
            turn = self.turns.enter(is_drawing=True)
            try:
                if self.has_turn(job, turn):
                    text = self.told(job, turn)
            finally:
                turn.leave()
        except Refused as refusal:
            text = str(refusal)
        except OSError as failure:
            text = told_of_failure(failure)
        if job.is_stopped and not job.how:
            job.how = "stopped"
            job.tell(event("end", how=job.how, html=html.verdict_told(stopped(None, 0, "")), text=""))
        job.tell(event("over", text=text))
        with job.changed:
            job.is_over = True
            job.changed.notify_all()
        # A process that began while its page went away may have put a file into its folder.
        if job.has_ended:
            job.clear()

    def has_turn(self, job: Job, turn: Turn) -> bool:
        """Waits for a job's turn, and tells how many are before it; whether it came before the job was stopped."""
        before = -1
        while not (job.is_stopped or job.has_ended) and not turn.has_come():
            if turn.before() != before:
                before = turn.before()
                job.tell(event("queued", before=before))
        return not (job.is_stopped or job.has_ended)

    def told(self, job: Job, turn: Turn) -> str:
        """Has its process tell of a drawing, and answers why it told less than all."""
        job.tell(event("began", seconds=self.limits.seconds, processors=self.limits.processors))
        running = self.run(job, turn, self.words(job, "follow", "--attended", "--", job.given.name))
        if job.is_stopped:
            running.stop()
        rest = b""
        try:
            for piece in running.pieces():
                lines, line_end, rest = (rest + piece).rpartition(b"\n")
                ends = [line for line in lines.split(b"\n") if line.startswith(b'{"kind":"end"')]
                if ends:
                    job.how = json.loads(ends[-1])["how"]
                    turn.looks(lambda: running.stop(MAKE_WAY))
                if job.size + len(lines) > MOST_TOLD:
                    raise Refused(f"more than {many(MOST_TOLD >> 20, 'MiB', 'MiB')} are told of this drawing")
                if lines:
                    job.tell(lines + line_end)
        finally:
            running.end()
            job.running.remove(running)
        return "" if TOLD_ALL.search(running.words_said()) or running.is_stopped or job.has_ended else running.complaint()

    def made(self, job: Job, words: list[str], is_look: bool = False) -> bytes:
        """What a command over a job's drawing writes to standard output; what looks beyond a search makes way for a drawing."""
        turn = self.turns.enter()
        try:
            while not turn.has_come():
                if job.has_ended:
                    raise Unfit(404, "the page is closed")
            running = self.run(job, turn, words)
            if is_look:
                turn.looks(running.make_way)
            try:
                out = b"".join(running.pieces())
            finally:
                running.end()
                job.running.remove(running)
            if running.is_stopped:
                raise Unfit(503, "it made way for another drawing that was dropped in: ask again")
            if running.process.wait():
                raise Unfit(422, running.complaint())
            return out
        finally:
            turn.leave()
