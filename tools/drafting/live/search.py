"""Asks the program about a drawing or a sheet, and tells what comes of it as it comes: an event in JSON a line, which `draft serve` hands
to its page and `draft page` puts into its file. First what was changed or left out, the views and where the blocks are; then the solids,
told by their blocks, page by page, while the program still searches; then how it ended; and then what is wrong, where no solid has
the views, or what would settle it, where several have them.

With --attended standard input is whoever asked: a line `stop` ends the search, and what is found is told; once that has ended it ends what is
looked for beyond it, as `make way` does, where another drawing waits. Its end ends everything.
"""
import argparse
import itertools
import json
import os
import pathlib
import queue
import signal
import subprocess
import sys
import threading
from collections.abc import Callable, Iterator
from typing import IO, Any

from ..core import notes
from ..core.messages import Refused, many, say
from ..core.notes import Note
from ..dxf.drawing import Line, decimals_of, lines_within, origin_of, views_of
from ..explain import hidden_unknown, settle, why
from ..explain.added_views import takes_points
from ..explain.distinguishing import Solids, all_means, best_first
from ..projection.draw import FRAMES, sheet_of
from ..projection.sections import layer_of
from ..recon import blocks, faults, process as program
from ..recon.answer import CUT, FAULT, WHOLE
from ..recon.blocks import Blocks
from ..render import html as shown
from ..render.html import Units
from ..render.sections import drawn_sections
from ..rounds.features import given_in
from ..serve.queue import MAKE_WAY, STOP
from ..solve import pipeline, verdict as verdicts

NAME = "follow"
HELP = "ask recon about a drawing, and tell as it goes; `draft serve` runs it"

MIRRORED = notes.found("the side view is the left one: the drawing is shown in a mirror, and the solids as they are")
SQUARED = notes.changed("solids are shown squared off: FreeCAD isn't there, by which they are rounded back")
Event = dict[str, Any]
Events = Iterator[Event]

# Of how many solids what is drawn of them is told, where they are rounded back.
MOST_ROUNDED = 64
# How many solids, and how many cells of all of them, are settled.
MOST_SETTLED, MOST_CELLS = 4_096, 40_000_000


def add_arguments(parser: argparse.ArgumentParser) -> None:
    parser.add_argument("drawing", metavar="IN.dxf")
    parser.add_argument("--attended", action="store_true", help="standard input is whoever asked, by a page")
    add_options(parser)


def add_options(parser: argparse.ArgumentParser) -> None:
    parser.add_argument("--runs", type=int, default=why.RUNS, help=f"of `draft why`: so many runs at most ({why.RUNS:,})")
    parser.add_argument("--search", type=float, default=why.SEARCH, metavar="SECONDS", help=f"so long clingo may look ({why.SEARCH:g} s)")
    pipeline.add_arguments(parser)


# ---- events

def said(told: object) -> Event:
    """A sentence, or what is told as one; of sections that weren't read it says that they are such."""
    return {"kind": "said", "text": str(told), **({"unread": True} if isinstance(told, Note) and told.entity == pipeline.UNREAD else {})}


def drawing_event(lines: list[str], units: Units, head: str = "", with_sections: bool = False) -> Event:
    """The views, and where they are read the sections."""
    sections = drawn_sections(lines, units.decimals) if with_sections else []
    return {"kind": "drawing", "html": shown.drawing_told(views_of(lines), units, head, given_in(lines), sections)}


def planes_events(lines: list[str], its: Blocks, units: Units) -> Events:
    """The planes at which solids can be cut, those of the drawing's sections: of each its axis, where it lies from the part's least coordinate on, in
    units of the answer, and whether what is farther is cut off, or what is nearer."""
    sections = drawn_sections(lines, units.decimals)
    if units.origin.mirrored:
        sections = [it.in_a_mirror(its.grid.cuts[0][-1] - its.grid.cuts[0][0]) for it in sections]
    planes = [{"told": it.told(units.told), "axis": it.axis, "at": float(it.at), "back": FRAMES[it.view].sight_back} for it in sections]
    yield from [{"kind": "planes", "planes": planes}] if planes else []


def grid_event(its: Blocks, units: Units) -> Event:
    """What solids are shown by: the cuts of each axis, in units of the answer; the block of each place, or -1, in runs of (block, how
    many), x fastest, then y, then z, with a place behind the last cell of each axis; and how lengths are told."""
    told = its.turned_round() if units.origin.mirrored else its
    runs = [(block, len(list(run))) for block, run in itertools.groupby(told.numbers)]
    return {"kind": "grid", "cuts": told.grid.cuts, "cells": runs, "blocks": told.count, "units": units.for_script()}


def solids_event(choices: list[str]) -> Event:
    """Some choices, each as hexadecimal digits of four blocks."""
    def digits(choice: str) -> str:
        wide = -(-len(choice) // 4)
        return f"{int(choice.ljust(4 * wide, '0') or '0', 2):0{wide}x}"

    return {"kind": "solids", "choices": list(map(digits, choices))}


def rounds_events(asked: pipeline.Asked) -> Events:
    """What came of a sheet with rounds; and what is drawn of the solids that are kept, in place of their cells."""
    rounds, first = asked.rounds, asked.rounds and asked.rounds.likeliest
    if not rounds:
        return
    shapes = [one for one in first.outcome.kept if one.shape is not None] if first else []
    if not first or not shapes:
        yield said(SQUARED)
        return
    from ..cad.meshes import meshes
    yield {"kind": "rounded", "solids": list(meshes(shapes[:MOST_ROUNDED], first.given, asked))}
    if len(shapes) > MOST_ROUNDED:
        yield said(notes.changed(f"{many(MOST_ROUNDED, 'solid')} are shown round, and the others squared off", MOST_ROUNDED))


def end_event(how: str, html: str, text: str = "") -> Event:
    """How the search ended: whole, cut, stopped, fault or refused."""
    return {"kind": "end", "how": how, "html": html, "text": text}


def stopped_event(asked: pipeline.Asked | None, count: int, why_stopped: str = "") -> Event:
    """That the search was ended before its end, by hand or why."""
    return end_event("stopped", shown.verdict_told(verdicts.stopped(asked, count, why_stopped)))


def ended_event(asked: pipeline.Asked, head: str, count: int) -> Event:
    """How the search of a drawing ended, by its last line, with so many solids."""
    told = shown.head_told(verdicts.verdict_of(asked, head, count), head, asked.rounds)
    return end_event("cut" if CUT.fullmatch(head) else "whole", told)


def fault_events(lines: list[str], units: Units, head: str, with_sections: bool) -> Events:
    """What is told of a drawing that has a fault."""
    yield drawing_event(lines, units, head, with_sections)
    yield end_event("fault", shown.fault_told(head, lines))


def unmeant(text: str) -> Event:
    """Why it isn't told what would settle it."""
    return {"kind": "means", "rows": [], "text": text}


def means_event(its: Blocks, choices: list[str], lines: list[str], decimals: int) -> Event:
    """What further views and sections show, each told by its layer: for each solid, in the stated order, the number of its group, or null where
    nothing is drawn. Views come before sections, of which is told too which cells they cut."""
    if len(choices) > MOST_SETTLED or len(choices) * its.grid.count > MOST_CELLS:
        return unmeant(f"What would settle it isn't looked for among {many(len(choices), 'solid')}.")
    solids = Solids(its.grid, list(map(its.full, sorted(choices, reverse=True))))
    views, sections = all_means(solids, sheet_of(views_of(lines), decimals))
    # What a mirror shows isn't drawn beside solids that are turned back.
    is_drawn, with_points = not origin_of(lines).mirrored, takes_points(lines)
    rows = []
    for means in [*best_first(views), *sections[:settle.SHOWN]]:
        numbers: dict[object, int] = {}
        keys = [None if key is None else numbers.setdefault(key, len(numbers)) for key in means.keys]
        rows.append({"name": means.name, "layer": layer_of(means.layer, decimals, with_points), "keys": keys, "at": means.section and means.section[1]})
    text = "Drawn here from the solids that the program lists; a drawing with lines added is checked by the program."
    return {"kind": "means", "rows": rows, "text": text, "drawn": is_drawn}


# ---- the search

class Search:
    """A run of the program over a drawing, whose pages are told as they come."""

    def __init__(self) -> None:
        self.process: subprocess.Popen[bytes] | None = None
        self.is_stopped = False
        self.is_late = False
        self.head = ""
        self.lines: list[str] = []
        self.decimals = 0
        self.blocks = blocks.NONE
        self.choices: list[str] = []
        self.kept: set[str] | None = None
        self.asked: pipeline.Asked | None = None
        self.with_sections = False
        # How it is told that what is looked for beyond the search was ended before it was found, as long as that is so.
        self.unlooked: Callable[[str], Event] | None = None

    @property
    def shown(self) -> list[str]:
        """The choices that are shown: of a sheet with rounds those of the solids that are kept."""
        return [choice for choice in self.choices if self.kept is None or choice in self.kept]

    def take(self, asked: pipeline.Asked) -> None:
        """Takes how a drawing was read; of a sheet with rounds those solids are shown that are kept."""
        self.asked, self.kept = asked, asked.rounds and asked.rounds.choices

    def searched_drawing(self, data: bytes) -> pipeline.Asked:
        """The drawing that is searched: as it was read, else as it is."""
        none = program.Run(program.WHOLE, "", 0.0)
        return self.asked or pipeline.Asked(data, self.lines, self.decimals, origin_of(self.lines), none, with_sections=self.with_sections)

    def stop(self) -> None:
        self.is_stopped = True
        if self.process:
            self.process.terminate()

    def late(self) -> None:
        self.is_late = True
        self.kill()

    def kill(self) -> None:
        if self.process:
            self.process.kill()

    def close(self) -> None:
        """Ends the program where it still runs."""
        if self.process:
            self.process.kill()
            self.process.wait()
            for stream in (self.process.stdout, self.process.stderr):
                if stream:
                    stream.close()
            self.process = None

    def events(self, data: bytes, decimals: int, its: Blocks, arguments: argparse.Namespace) -> Events:
        """Searches a drawing of three layers that has no fault, as it is: its views, its solids page by page, how it ended, and what would
        settle it."""
        self.lines, self.decimals, self.blocks, self.with_sections = lines_within(data), decimals, its, arguments.sections
        words = ["solve", *pipeline.views_words(self.lines), *pipeline.sections_words(("solve",), arguments),
                 *pipeline.decimals_words(("solve",), decimals), *pipeline.words_of(arguments), "--pages"]
        yield from self.searched(program.find(arguments.program), list(map(str, words)), data, arguments.seconds)
        if len(self.shown) > 1:
            self.unlooked = lambda why: unmeant(f"What would settle it wasn't looked for to its end, {why}.")
        elif not self.choices and WHOLE.fullmatch(self.head):
            self.unlooked = lambda why: looked(f"What would have to be drawn otherwise wasn't looked for to its end, {why}.", [])
        if FAULT.fullmatch(self.head):
            yield from fault_events(self.lines, Units(decimals, origin_of(self.lines)), self.head, arguments.sections)
        elif self.head:
            yield ended_event(self.searched_drawing(data), self.head, len(self.shown))
        else:
            late = f"recon took longer than {arguments.seconds:g} seconds" if self.is_late else ""
            yield stopped_event(self.searched_drawing(data), len(self.shown), late)
        if len(self.shown) > 1:
            yield self.means()
        self.close()

    def searched(self, path: pathlib.Path, words: list[str], data: bytes, seconds: float) -> Events:
        """Runs the program up to the line behind the pages, which is kept."""
        self.process = process = subprocess.Popen([path, *words], stdin=subprocess.PIPE, stdout=subprocess.PIPE, stderr=subprocess.PIPE)
        timer = threading.Timer(seconds, self.late)
        timer.start()
        try:
            yield from self.pages(process, data)
        finally:
            timer.cancel()
        if not self.head and not self.is_late and not self.is_stopped:
            told = process.stderr.read(400) if process.stderr else b""
            program.check(path, words, process.wait(), told)
            raise Refused("the program wrote no answer")

    def pages(self, process: "subprocess.Popen[bytes]", data: bytes) -> Events:
        """Tells the views, the grid and the pages, and keeps the line behind these, where one came."""
        assert process.stdin and process.stdout
        try:
            process.stdin.write(data)
            process.stdin.close()
        except BrokenPipeError:
            pass
        rows = (line.decode("latin-1").rstrip("\n") for line in process.stdout)
        head = next(rows, "")
        if head.startswith("page ") or WHOLE.fullmatch(head) or CUT.fullmatch(head):
            yield from self.views()
        while head.startswith("page "):
            choices, head = self.page(int(head.split()[3]), rows)
            self.choices += choices
            yield solids_event([choice for choice in choices if self.kept is None or choice in self.kept])
        self.head = head if any(it.fullmatch(head) for it in (WHOLE, CUT, FAULT)) else ""

    def views(self) -> Events:
        """The views, and the grid where the drawing has one."""
        units = Units(self.decimals, origin_of(self.lines))
        yield drawing_event(self.lines, units, with_sections=self.with_sections)
        if units.origin.mirrored:
            yield said(MIRRORED)
        if self.blocks.grid.has_cells():
            yield grid_event(self.blocks, units)
            yield from planes_events(self.lines, self.blocks, units) if self.with_sections else ()

    def page(self, count: int, rows: Iterator[str]) -> tuple[list[str], str]:
        """The choices of one page, up to so many solids in all, and the line behind it."""
        choices: list[str] = []
        line = ""
        for line in rows:
            if not line.startswith("choice ") or len(self.choices) + len(choices) == count:
                break
            choices.append(line.removeprefix("choice "))
        else:
            line = ""
        if self.is_stopped or self.is_late:
            choices = [choice for choice in choices if len(choice) == self.blocks.count]
        if any(len(choice) != self.blocks.count for choice in choices):
            raise Refused("the program tells choices of other blocks than it told")
        return choices, line

    def means(self) -> Event:
        """What would settle it; whoever stopped the search doesn't wait for that."""
        if not self.head:
            return unmeant("What would settle it isn't looked for, since the search was stopped.")
        return means_event(self.blocks, self.shown, self.lines, self.decimals)


# ---- what is wrong, and what would settle it

def suggestion_event(suggestion: why.Suggestion, asked: pipeline.Asked) -> Event:
    """A change by which some solid has the views: in words, in the views, and as the drawing that it makes."""
    def in_unit(line: Line) -> Line:
        start, end = ((x / 10**asked.decimals, y / 10**asked.decimals) for x, y in (line.start, line.end))
        return line._replace(start=start, end=end)

    views = {view: list(map(in_unit, lines)) for view, lines in why.marked_views(suggestion).items()}
    picture = shown.views_told(views, Units(asked.decimals, asked.origin), 1).replace('class="marked"', 'class="suggested"')
    words = suggestion.words if len(suggestion.words) == 1 else [*suggestion.words, f"would give {suggestion.outcome.words}"]
    return {"kind": "suggestion", "words": words, "html": picture, "dxf": why.written_with(suggestion, asked.origin)}


def as_it_comes(work: Callable[[Callable[[Event], None]], None]) -> Events:
    """What some work hands over, as it comes, out of a thread of its own; what it refuses is refused here."""
    coming: queue.SimpleQueue[Event | BaseException | None] = queue.SimpleQueue()

    def worked() -> None:
        try:
            work(coming.put)
            coming.put(None)
        except BaseException as failure:
            coming.put(failure)

    threading.Thread(target=worked, daemon=True).start()
    while (came := coming.get()) is not None:
        if isinstance(came, BaseException):
            raise came
        yield came


def looked(first: str, rows: list[str]) -> Event:
    """What came of the look at what would have to be drawn otherwise."""
    return {"kind": "looked", "rows": rows, "first": first}


def suggest(asked: pipeline.Asked, arguments: argparse.Namespace, emit: Callable[[Event], None]) -> None:
    """Looks for what would have to be drawn otherwise, and hands over each change as it is found."""
    told: list[str] = []

    def tell(suggestion: why.Suggestion) -> None:
        told.extend(suggestion.words)
        emit(suggestion_event(suggestion, asked))

    emit({"kind": "looking"})
    limits = why.Limits(arguments.runs, arguments.search)
    rows, found = why.told_of(asked, program.find(arguments.program), limits, tell, arguments.sections)
    for one in found:
        if one.words[0] not in told:
            tell(one)
    emit(looked(rows[0], [row for row in rows[1:] if row.strip() not in told]))


# ---- one drawing

def follow(arguments: argparse.Namespace, search: Search) -> Events:
    """All of one drawing. How it is read is found by asking for its blocks, and then it is searched as it was asked for."""
    told: list[Note] = []
    try:
        try:
            asked = blocks.ask(arguments, told.append)
        finally:
            yield from map(said, told)
        head = asked.run.text.partition("\n")[0]
        if FAULT.fullmatch(head):
            yield from fault_events(asked.lines, Units(asked.decimals, asked.origin), head, arguments.sections)
            return
        search.take(asked)
        yield from rounds_events(asked)
        yield from search.events(asked.data, asked.decimals, blocks.blocks_in(asked.run.text), arguments)
        beyond = search.unlooked
        if asked.page and asked.page.lacking:
            search.unlooked = lambda why: said(f"What the page leaves open as it is wasn't looked for to its end, {why}")
        yield from map(said, hidden_unknown.told(asked, arguments))
        search.unlooked = beyond
        if WHOLE.fullmatch(search.head) and not search.choices:
            known = asked._replace(run=program.Run(program.WHOLE, f"{search.head}\n", 0.0))
            yield from as_it_comes(lambda emit: suggest(known, arguments, emit))
    except Refused as refusal:
        yield from refused(arguments, refusal, search)


def refused(arguments: argparse.Namespace, refusal: Refused, search: Search) -> Events:
    """Why a file isn't taken; and where it has lines of the three views, these, with the one that is at fault as it is."""
    data = pathlib.Path(arguments.drawing).read_bytes()
    lines = lines_within(data)
    if not search.choices and any(views_of(lines).values()):
        words = ["solve", *pipeline.views_words(lines), "--decimals", decimals_of(lines), "--solids", 1, "--nodes", 1]
        head = program.run(program.find(arguments.program), words, data, arguments.seconds).text.partition("\n")[0]
        yield drawing_event(lines, Units(0, origin_of(lines)), head if faults.name_of(head) else "")
    told = end_event("refused", shown.refused_told(str(refusal)), str(refusal))
    yield {**told, "option": refusal.option, "ways": refusal.ways} if refusal.ways else told


# Why what is looked for beyond a search is ended, by the line that asks for that.
WHY = {STOP: "since it was stopped", MAKE_WAY: "since another drawing was dropped in: read this one again for it"}


def listen(search: Search, source: IO[str], ended: list[str], last: Callable[[Event | None], None]) -> None:
    """Does what whoever asked says, and ends with them. What is stopped before its search has begun is told to be, and is over; so is what
    is looked for once the search has ended."""
    for line in map(str.strip, source):
        if line not in WHY or line == MAKE_WAY and not ended:
            continue
        search.stop()
        if ended:
            last(search.unlooked and search.unlooked(WHY[line]))
        elif search.process is None:
            last(stopped_event(None, 0))
    os.killpg(0, signal.SIGKILL)


def run(arguments: argparse.Namespace) -> int:
    lock = threading.Lock()
    ended: list[str] = []

    def emit(event: Event) -> None:
        with lock:
            tell(event)

    def tell(event: Event) -> None:
        if event["kind"] == "end":
            ended.append(event["how"])
        elif event["kind"] in ("means", "looked"):
            search.unlooked = None
        sys.stdout.write(json.dumps(event, separators=(",", ":")) + "\n")
        sys.stdout.flush()

    def last(event: Event | None) -> None:
        with lock:
            if event:
                tell(event)
            os.killpg(0, signal.SIGKILL)

    search = Search()
    if arguments.attended:
        if os.getpgid(0) != os.getpid():
            os.setpgid(0, 0)
        # Not by sys.stdin, which is locked while it is read, and which the processes of `trials` close.
        threading.Thread(target=listen, args=(search, os.fdopen(os.dup(0)), ended, last), daemon=True).start()
    for event in follow(arguments, search):
        emit(event)
    say(f"draft follow: {many(len(search.choices), 'solid')} told")
    return 1 if ended[-1:] in (["fault"], ["refused"]) else 0
