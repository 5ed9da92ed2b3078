"""Makes a page of a drawing and of what recon writes for it, which is read from the file ANSWER (`-` for standard input), or else
had by running the program. Solids are shown by their blocks: where these are it tells too, or the file BLOCKS. An answer whose faces aren't
those of its blocks is refused.

The page stands alone and asks the network for nothing. It shows the views as drawn, with --sections also the sections, and the solids in
three dimensions, so many at a time: turned by mouse, touch and arrow keys and cut at these sections, all together, and one large, with
sections. What only some of them have is coloured, two that are picked are compared, and blocks can be fixed full or empty, by which those
solids are left that have them so. Of a fault it shows the lines of the file that are named. Where no solid has the views it shows what
would have to be drawn otherwise, unless the answer was given, and where several have them which further view or section would tell them
apart. `draft serve` shows the same while the program searches.

For three dimensions it has three.js, on Debian: apt-get install libjs-three. What is proved is the program, and not this.
"""
import argparse
import base64
import hashlib
import html
import json
import pathlib
import re
from collections.abc import Iterator

from ..core.messages import Refused, say, write_result
from ..dxf import reader
from ..dxf.drawing import decimals_of, lines_within, origin_of, views_of
from ..live import search
from ..live.search import Event, Events
from ..messages.controls import option
from ..recon import blocks, process
from ..recon.answer import FAULT, Answer, answer_of, text_of
from ..recon.blocks import Blocks
from ..rounds.features import given_in
from ..sheet import pipeline as sheet
from ..solve import readings, pipeline as asking
from .html import Units

NAME = "page"
HELP = "make a page that shows a drawing and its solids"

VIEWER = pathlib.Path(__file__).resolve().parent / "viewer"
THREE = pathlib.Path("/usr/share/javascript/three")
WIDE_LINES = ("LineSegmentsGeometry", "LineMaterial", "LineSegments2")
LIBRARY = ["three.min.js", *(f"examples/js/lines/{name}.js" for name in WIDE_LINES)]
LICENCE = "three.js, (c) 2010-2019 three.js authors, MIT licence: https://github.com/mrdoob/three.js/blob/r111/LICENSE"
# A page has no scripts and styles but those of which its policy tells the hashes.
POLICY = "default-src 'none'; script-src {scripts}; style-src {styles}; img-src data: blob:"
# What stands in `viewer` for its readers alone: comments that have their lines for themselves, and how far lines are indented.
FOR_READERS = re.compile(r"^ *(//.*\n|/\*\*.*\*/\n|)", re.M)
IMPORT = re.compile(r'^import [^;]*?"\./(\w+)\.js";\n', re.M)
# What would end a script within it, and what says the same there.
SCRIPT_END, OTHERWISE = re.compile("</script"), r"<\\/script"
INLINE = re.compile(r"<(script|style)(?: type=\"module\")?>(.*?)</\1>", re.S)

TILES = 64
# Of how many suggestions the solids stand in the page.
SUGGESTIONS = 3


# ---- the page's file

def modules(name: str, known: dict[str, str]) -> None:
    """Adds the module of this name in `viewer` to those that are known, behind all that it imports."""
    text = (VIEWER / f"{name}.js").read_text(encoding="utf-8")
    known[name] = ""
    for imported in IMPORT.findall(text):
        if imported not in known:
            modules(imported, known)
    del known[name]
    known[name] = text


def joined(name: str) -> str:
    """A module of `viewer` and all that it imports as one, without what is for its readers: no two of them have the same name for something."""
    known: dict[str, str] = {}
    modules(name, known)
    texts = [FOR_READERS.sub("", IMPORT.sub("", text)) for text in known.values()]
    return "".join(re.sub(r"^export ", "", text, flags=re.M) for text in texts)


def scripts(name: str, has_solids: bool = True) -> str:
    """The page's own scripts; where there are solids, before them three.js with what draws its wide lines."""
    library = [THREE / file for file in LIBRARY] if has_solids else []
    missing = [file for file in library if not file.is_file()]
    if missing:
        raise Refused(f"three.js isn't there, no {missing[0]}: apt-get install libjs-three")
    texts = [("", file.read_text(encoding="utf-8")) for file in library] + [(' type="module"', joined(name))]
    notice = [f"<!-- {LICENCE} -->"] if library else []
    return "\n".join([*notice, *(f"<script{kind}>\n{SCRIPT_END.sub(OTHERWISE, text)}\n</script>" for kind, text in texts)])


def hashes_in(text: str, kind: str) -> str:
    """The hashes of the scripts or styles that stand in a page, as its policy names them."""
    found = [body for name, body in INLINE.findall(text) if name == kind]
    return " ".join(f"'sha256-{base64.b64encode(hashlib.sha256(body.encode()).digest()).decode()}'" for body in found)


def filled(parts: dict[str, str], served: str = "") -> tuple[str, str]:
    """The page, with its parts, and its content security policy, which stands in it unless it is served with further words."""
    style = (VIEWER / "page.css").read_text(encoding="utf-8")
    policy = POLICY.format(scripts=hashes_in(parts["scripts"], "script"), styles=hashes_in(f"<style>\n{style}\n</style>", "style"))
    tag = "" if served else f'<meta http-equiv="Content-Security-Policy" content="{policy}">'
    parts = {"style": style, "told": "", "drawing": "", "table": "", "events": "[]", "policy": tag, **parts}
    text = re.sub(r"{{(\w+)}}", lambda place: parts[place[1]], (VIEWER / "page.html").read_text(encoding="utf-8"))
    return text, f"{policy}; {served}"


def last_html(events: list[Event], kind: str) -> str:
    return next((str(event["html"]) for event in reversed(events) if event["kind"] == kind), "")


def page(name: str, events: list[Event], tiles: int) -> str:
    """The page of what was told of a drawing."""
    has_solids = any(event["kind"] in ("grid", "suggestion") for event in events)
    return filled({
        "title": html.escape(name),
        "told": last_html(events, "end"),
        "drawing": last_html(events, "drawing"),
        "events": json.dumps([{"kind": "tiles", "count": tiles}, *events], separators=(",", ":")).replace("<", "\\u003c"),
        "scripts": scripts("page", has_solids),
    })[0]


# ---- what it tells

def checked_choices(answer: Answer, its: Blocks) -> list[str]:
    """The solids' choices; refused where the faces of some solid aren't those of its blocks."""
    for solid in answer.solids:
        if not its.are_of(solid):
            raise Refused(f"the answer isn't of this drawing: the solid of choice {solid.choice[:60]} has other blocks")
    return [solid.choice for solid in answer.solids]


def rounds_of(lines: list[str], text: str, units: Units) -> readings.Readings | None:
    """What comes of the solids of an answer, where rounds of its drawing were squared off."""
    given, drawn = given_in(lines), sheet.Drawn("\n".join(lines), units.decimals, units.origin)
    return readings.of_drawing(drawn, given, process.Run(process.WHOLE, text, 0.0)) if given else None


def answer_told(lines: list[str], text: str, its: Blocks | None, with_sections: bool = False) -> Events:
    """An answer that is given, as it would be told while the program runs; of one with solids also where the drawing's blocks are."""
    answer = answer_of(text)
    head = answer.head
    units = Units(answer.decimals if answer.solids else decimals_of(lines, with_sections), origin_of(lines))
    views = views_of(lines)
    yield from map(search.said, asking.passed_over_told(lines, with_sections))
    if units.origin.mirrored:
        yield search.said(search.MIRRORED)
    if not any(views.values()) and not FAULT.fullmatch(head):
        raise Refused("no line of a view is in the drawing, and the answer is no fault")
    if FAULT.fullmatch(head):
        yield from search.fault_events(lines, units, head, with_sections)
        return
    yield search.drawing_event(lines, units, head, with_sections)
    rounds, run = rounds_of(lines, text, units), process.Run(process.WHOLE, text, 0.0)
    asked = asking.Asked(b"", lines, units.decimals, units.origin, run, None, rounds, with_sections=with_sections)
    yield from search.rounds_events(asked)
    choices: list[str] = []
    if its:
        choices = [it for it in checked_choices(answer, its) if rounds is None or it in rounds.choices]
        yield search.grid_event(its, units)
        yield from search.planes_events(lines, its, units) if with_sections else ()
        yield search.solids_event(choices)
    yield search.ended_event(asked, head, answer.listed)
    if its and len(choices) > 1:
        yield search.means_event(its, choices, lines, units.decimals)


def told_by_program(arguments: argparse.Namespace) -> Events:
    """What the program tells of the drawing; of the first suggestions also what it tells of those drawings."""
    suggestions = 0
    for event in search.follow(arguments, search.Search()):
        if event["kind"] == "said":
            say(f"draft page: {event['text']}")
        if event.get("how") == "refused":
            raise Refused(str(event["text"]))
        if event["kind"] == "suggestion" and suggestions < SUGGESTIONS:
            suggestions += 1
            event = {**event, "events": list(told_of(str(event["dxf"]), arguments))}
        yield event


def told_of(drawing: str, arguments: argparse.Namespace) -> Events:
    """What the program tells of a drawing that is at hand."""
    data = drawing.encode()
    lines = lines_within(data)
    decimals = decimals_of(lines, arguments.sections)
    return search.Search().events(data, decimals, blocks.of(arguments, data, lines, decimals), arguments)


def events_of(arguments: argparse.Namespace) -> Iterator[Event]:
    if arguments.events:
        return map(json.loads, pathlib.Path(arguments.events).read_text().splitlines())
    if not arguments.answer:
        return told_by_program(arguments)
    data, text = reader.dxf_of(arguments.drawing), text_of(arguments.answer)
    lines, answer = lines_within(data), answer_of(text)
    return answer_told(lines, text, blocks.of(arguments, data, lines, answer.decimals) if answer.solids else None, arguments.sections)


def add_arguments(parser: argparse.ArgumentParser) -> None:
    parser.add_argument("drawing", metavar="FILE.dxf")
    parser.add_argument("answer", metavar="ANSWER", nargs="?", help="what recon solve wrote for it as it is; - for standard input")
    blocks.add_argument(parser)
    parser.add_argument("-o", "--output", metavar="OUT.html", help="the file to write, else standard output")
    parser.add_argument("--tiles", type=int, default=TILES, help=f"how many solids are shown at a time (else {TILES})")
    parser.add_argument("--events", metavar="EVENTS", help="what `draft follow` told of the drawing")
    parser.add_argument("--name", help="what the page calls the drawing (else the file's name)")
    search.add_options(parser)


def run(arguments: argparse.Namespace) -> int:
    if arguments.blocks and not arguments.answer:
        raise Refused(f"{option('blocks')} goes with an answer")
    if arguments.tiles < 1:
        raise Refused("not even one solid at a time")
    name = arguments.name or pathlib.Path(arguments.drawing).name
    write_result(page(name, list(events_of(arguments)), arguments.tiles), arguments.output)
    return 0
