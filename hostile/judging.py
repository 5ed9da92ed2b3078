"""What a run of the program may have written, beside the answer that an undisturbed run gave."""
import collections
import os
import pathlib
import subprocess
import sys
from collections.abc import Iterable
from typing import NamedTuple

# What runs and times the program, and what makes drawings, stands there.
sys.path.append(str(pathlib.Path(__file__).resolve().parent.parent / "bench"))

# How many bytes of a text were walked over, and whether all that is to come before the answer stands in them.
Walked = tuple[int, bool]


class Job(NamedTuple):
    """What a run is over: the program's words, and what it reads."""

    words: list[str]
    text: bytes


class Answer(NamedTuple):
    """What an undisturbed run gave: its status, what it wrote without the pages, and the choices that it lists."""

    status: int
    text: bytes
    choices: list[bytes]


class Asked(NamedTuple):
    """A page that a reader is asked for: its number, from which place on, and how many choices at most."""

    reader: int
    first: int
    most: int


def answer(path: str | os.PathLike[str], job: Job) -> Answer:
    """The answer of an undisturbed run, without pages and readers."""
    words = ["solve" if word == "ask" else word for word in job.words if word != "--pages"]
    ended = subprocess.run([path, *words], input=job.text, stdout=subprocess.PIPE, stderr=subprocess.PIPE)
    if ended.stderr:
        sys.exit(f"{words}: {ended.stderr[:200]!r} on standard error, undisturbed")
    lines = ended.stdout.splitlines() if words[0] == "solve" else []
    return Answer(ended.returncode, ended.stdout, [line.split()[3] for line in lines if line.startswith(b"solid ")])


def is_cut_page(line: bytes, pages: int, seen: int) -> bool:
    """Whether the line is a page's first line, cut somewhere: the page after so many pages and choices."""
    begins = b"page %d solids " % (pages + 1)
    if begins.startswith(line):
        return True
    count = line[len(begins) :]
    fit = range(seen + 1, seen + 257)
    return line.startswith(begins) and any((b"%d" % number).startswith(count) for number in fit)


def walk_pages(wrote: bytes, choices: list[bytes]) -> Walked | None:
    """The number of the pages' bytes that a text begins with, and whether all of the choices stand in them; or None where the
    pages aren't right as far as they come."""
    left, pages, due, at = set(choices), 0, 0, 0
    for line in wrote.splitlines(keepends=True):
        whole = line.endswith(b"\n")
        seen = len(choices) - len(left)
        if due and not whole:
            return (at + len(line), False) if any((b"choice %s\n" % one).startswith(line) for one in left) else None
        if due:
            if line[:7] != b"choice " or line[7:-1] not in left:
                return None
            left.remove(line[7:-1])
            due -= 1
        elif not line.startswith(b"page "):
            if not whole and is_cut_page(line, pages, seen):
                return at + len(line), False
            break
        elif not whole:
            return (at + len(line), False) if is_cut_page(line, pages, seen) else None
        else:
            words = line.split()
            if len(words) != 4 or words[1] != b"%d" % (pages + 1) or words[2] != b"solids" or not words[3].isdigit():
                return None
            due, pages = int(words[3]) - seen, pages + 1
            if not 1 <= due <= 256:
                return None
        at += len(line)
    return at, not left


def pages_asked(text: bytes) -> list[Asked]:
    """The pages that are asked for behind a drawing, in the order in which they are told: reader by reader."""
    lines = [line.split() for line in text[text.rindex(b"\nEOF\n") :].splitlines()]
    asked = [Asked(int(words[0]), int(words[2]), int(words[3])) for words in lines if words[1:2] == [b"page"]]
    return sorted(asked, key=lambda page: page.reader)


def walk_readers(wrote: bytes, choices: list[bytes], asked: list[Asked]) -> Walked | None:
    """The number of bytes of the readers' pages that a text begins with, and whether each page that is asked for stands in them;
    or None where they aren't right as far as they come. What a page told a later one of that reader tells at the same place."""
    lines, at = iter(wrote.splitlines(keepends=True)), 0
    told: dict[int, dict[int, bytes]] = collections.defaultdict(dict)

    def is_cut(line: bytes, whole: Iterable[bytes]) -> bool:
        return at + len(line) == len(wrote) and any(one.startswith(line) for one in whole)

    for page in asked:
        begins = b"reader %d page %d solids " % (page.reader, page.first)
        counts = {b"%s%d ends %d\n" % (begins, count, ends): count for count in range(page.most + 1) for ends in (0, 1)}
        line, seen = next(lines, b""), told[page.reader]
        if line not in counts:
            return (len(wrote), False) if is_cut(line, counts) else None
        at += len(line)
        for place in range(page.first, page.first + counts[line]):
            others = {one for other, one in seen.items() if other != place}
            may = {b"choice %s\n" % one: one for one in choices if one not in others and seen.get(place, one) == one}
            line = next(lines, b"")
            if line not in may:
                return (len(wrote), False) if is_cut(line, may) else None
            seen[place] = may[line]
            at += len(line)
    return at, True


def walk(wrote: bytes, job: Job, answer: Answer) -> Walked | None:
    """The same of what a job writes before its answer: pages, what readers tell, or nothing."""
    if wrote and answer.text.startswith(wrote) and not answer.choices:
        return 0, True
    if job.words[0] == "ask":
        return walk_readers(wrote, answer.choices, pages_asked(job.text))
    return walk_pages(wrote, answer.choices) if "--pages" in job.words else (0, True)


def is_prefix(wrote: bytes, job: Job, answer: Answer) -> bool:
    """Whether what was written is a prefix of a right text: what comes before the answer, whose choices are the answer's, and
    then the answer."""
    walked = walk(wrote, job, answer)
    return walked is not None and (walked[0] == len(wrote) or walked[1] and answer.text.startswith(wrote[walked[0] :]))


def is_right(wrote: bytes, job: Job, answer: Answer) -> bool:
    """Whether what was written is a right text, whole."""
    walked = walk(wrote, job, answer)
    return walked is not None and walked[1] and wrote[walked[0] :] == answer.text
