"""What the program answers to a drawing as it is, or to a sheet once it is drawn for it."""
import argparse
import math
import pathlib
import re
from fractions import Fraction
from typing import NamedTuple

from ..core import page as documents, notes
from ..core.messages import Refused, Usage
from ..core.notes import Note, Tell
from ..core.verdict import Reason
from ..dxf import missing
from ..dxf.crosscheck import Unreadable
from ..dxf.drawing import (
    Origin, content_of, decimals_of, entries_of, lines_of, lines_within, may_hide_otherwise, missing_in, origin_of, passed_over, views_of,
)
from ..messages.controls import option
from ..projection.draw import Sheet, sheet_of
from ..projection.sections import layers_in, views_told
from ..recon import faults, process
from ..recon.answer import Answer, answer_of, turned_back
from ..rounds.features import given_in
from ..rounds.verify import Kept
from ..sheet import view_files, pipeline as sheet
from ..sheet.back_to_sheet import Paper
from ..sheet.scale import is_likely as likely_size
from . import arrangements, readings
from .readings import Readings

# What recon passes over and a sheet is compared with: its sizes, and which views are sections.
TELLING = ("DIMENSION", "HATCH")
# What is told of sections that weren't read is of entities of this kind.
UNREAD = "section"
# The program's commands that read sections.
READ_SECTIONS = ("solve", "redraw", "stl", "check")
# Faults of a drawing of three layers which `draft sheet` may get round.
SHEETS = ("Binary", "NotWhole", "Linetype", "Geometry", "EmptyView", "TooManyLines", "TooLong")


class Asked(NamedTuple):
    """What was asked, and the answer: the drawing that the program read, the lines of that, with how many decimals, how it stands for
    the sheet, the run, and where it was made of a sheet the way back to that; where rounds were squared off also what came of it; of a document of
    FreeCAD its page; whether its sections were to be read; and what the reading of the sheet leaves open."""

    data: bytes
    lines: list[str]
    decimals: int
    origin: Origin
    run: process.Run
    paper: Paper | None = None
    rounds: Readings | None = None
    page: documents.Page | None = None
    with_sections: bool = False
    reasons: tuple[Reason, ...] = ()

    @property
    def kept(self) -> list[Kept]:
        """The solids that are kept once their rounds are rounded back, those of all readings that keep some."""
        return [one for it in self.rounds.kept for one in it.outcome.kept] if self.rounds else []

    @property
    def missing(self) -> str:
        """The main view that isn't drawn, where the other two are."""
        return missing_in(views_of(self.lines))

    @property
    def views(self) -> str:
        """What it shows, in words."""
        return views_told(self.lines, self.with_sections)

    def sheet(self) -> Sheet:
        """The strokes of its views, which know the sheet that they were made of."""
        return sheet_of(views_of(self.lines), self.decimals)._replace(back=self.paper)

    def answer(self, most: int | None = None) -> Answer:
        """The answer, with its solids turned back where the drawing shows them in a mirror."""
        answer = answer_of(self.run.text, most)
        return turned_back(answer) if self.origin.mirrored else answer

    def length(self, units: int) -> str:
        """A length of the answer in the sheet's unit."""
        return measure(Fraction(units) / self.per_unit(), self.origin.unit)

    def volume(self, units: int) -> str:
        return measure(Fraction(units) / self.per_unit() ** 3, self.cubic())

    def cubic(self) -> str:
        return self.origin.unit and self.origin.unit + "³"

    def rounded_volume(self, kept: Kept) -> str:
        """The volume of a solid that is rounded back, as `4,800 + 272 pi = 5,654.51 mm³`."""
        times = self.origin.times**3
        if kept.volume is None:
            return f"{in_figures(kept.size() / float(times))} {self.cubic()}".strip() + " by FreeCAD"
        plain, by_pi = (it / times for it in kept.volume)
        sum_told = f"{in_figures(float(plain) + float(by_pi) * math.pi)} {self.cubic()}".strip()
        if not by_pi:
            return measure(plain, self.cubic())
        with_pi = f"{measure(abs(by_pi), '')} pi = {sum_told}"
        return with_pi if not plain else f"{measure(plain, '')} {'-' if by_pi < 0 else '+'} {with_pi}"

    def per_unit(self) -> Fraction:
        """How many units of the answer one of the sheet's has."""
        return self.origin.times * Fraction(10**self.decimals)


def measure(value: Fraction, unit: str) -> str:
    """A length or a volume, exactly where it has an end, with its unit."""
    rest = value.denominator
    for prime in (2, 5):
        while rest % prime == 0:
            rest //= prime
    if rest == 1:
        places = 0
        while value.denominator != 1 and (value * 10**places).denominator != 1:
            places += 1
        units = int(value * 10**places)
        text = f"{units // 10**places:,}" + (f".{units % 10**places:0{places}d}" if places else "")
    else:
        text = f"about {float(value):.9g}"
    return f"{text} {unit}".strip()


def in_figures(value: float) -> str:
    """A number that has no end: with two decimals, or six figures where it is small."""
    return f"{value:,.2f}" if value >= 1000 else f"{value:.6g}"


def add_reading(parser: argparse.ArgumentParser) -> None:
    """The options that say how a file is read, and by which program."""
    parser.add_argument("--as-is", action="store_true", help="the program reads the file as it is, and no sheet is drawn for it")
    parser.add_argument("--decimals", type=int, choices=range(7), help="how many decimals the file is read with as it is (else found)")
    parser.add_argument("--sections", action="store_true", help="sections are read, on layers as SECTION_FRONT_12 and AREA_FRONT_12")
    parser.add_argument("--all-readings", action="store_true", help="try all readings of a sheet whose lines may be tangent edges, however long it takes")
    parser.add_argument("--reading-seconds", type=float, metavar="SECONDS",
                        help=f"try readings for so long (else {readings.SECONDS:g} once a solid is found, {readings.PATIENCE:g} until then)")
    process.add_arguments(parser)
    sheet.add_options(parser)


def add_arguments(parser: argparse.ArgumentParser) -> None:
    """The options of a command that asks for a search."""
    parser.add_argument("--nodes", type=int, help="a limit of the search's nodes")
    parser.add_argument("--solids", type=int, help="a limit of solids")
    parser.add_argument("--workers", type=int, help="how many work at the search")
    add_reading(parser)


def words_of(arguments: argparse.Namespace) -> list[object]:
    """The program's options as they were given."""
    words: list[object] = []
    for name in ("nodes", "solids", "workers"):
        if getattr(arguments, name, None) is not None:
            words += [f"--{name}", getattr(arguments, name)]
    return words


def ask(path: str | None, arguments: argparse.Namespace, tell: Tell, command: tuple[object, ...] = ("solve",)) -> Asked:
    """Asks the program about a file: as it is, where that is a drawing of three layers and nothing in its views is passed over, or it is
    said so; else about what `draft sheet` draws of it, of a page of FreeCAD, or of a file for each view."""
    if path is None or view_files.files_of(arguments, path) or documents.is_document(path):
        return of_sheet(path, arguments, tell, command)
    documents.check_options(arguments, False)
    data = pathlib.Path(path).read_bytes()
    lines = lines_within(data)
    is_sheet = not arguments.as_is and (is_said_of_sheet(arguments) or not is_plain(lines))
    given = given_in(lines)
    if given and (is_sheet or arguments.as_is):
        tell(notes.warning(f"the drawing has its {given.kinds} squared off, and is taken as {'it is' if arguments.as_is else 'a sheet'}: what is told "
                           "is of squares"))
        given = None
    if is_sheet and (asked := of_readable_sheet(path, lines, arguments, tell, command)) is not None:
        return asked
    decimals = decimals_in(lines, arguments)
    words = [*command, *views_words(lines), *sections_words(command, arguments), *decimals_words(command, decimals), *words_of(arguments)]
    run = process.run(process.find(arguments.program), words, data, arguments.seconds)
    fault = faults.name_of(run.text.strip())
    if fault in SHEETS and not is_sheet and not arguments.as_is:
        tell(notes.found(f"recon doesn't take the file as it is: {run.text.strip()}"))
        if (asked := of_readable_sheet(path, lines, arguments, tell, command)) is not None:
            return asked
    for note in passed_over_told(lines, arguments.sections):
        tell(note)
    if not fault:
        tell(notes.found(f"recon reads the file as it is, with {option('decimals', str(decimals))}"))
        if missing := missing_in(views_of(lines)):
            tell(notes.found(f"two views, without {missing}"))
    rounds = None
    if given and not fault:
        solved = run if words == solve_words(arguments, decimals) else ask_all(arguments)(data, decimals)
        rounds = readings.of_drawing(sheet.Drawn(data.decode(errors="surrogateescape"), decimals, origin_of(lines)), given, solved)
    return Asked(data, lines, decimals, origin_of(lines), run, None, rounds, None, arguments.sections)


def is_said_of_sheet(arguments: argparse.Namespace) -> bool:
    """Whether the user says what only a sheet is read by."""
    said = any(getattr(arguments, name) for name in ("hidden", "visible", "leave_out", "visible_only", "pairs", "angle", "unit", "as_drawn"))
    return said or arguments.scale not in (None, "1:1")


def is_plain(lines: list[str]) -> bool:
    """Whether a file is a drawing of three layers, of which nothing is missing, or passed over that lies within its views or tells of them."""
    return (faults.is_of_the_main_layers(lines) and not passed_over(lines) and not faults.names_other_layers(lines)
            and not missing.is_lacking(entries_of(lines)) and not may_hide_otherwise(lines)
            and is_likely_size(lines) and not any(entry.section == "ENTITIES" and entry.name in TELLING for entry in entries_of(lines)))


def is_likely_size(lines: list[str]) -> bool:
    """Whether a drawing's unit may be meant; of one that `draft sheet` wrote it was asked about then."""
    origin = origin_of(lines)
    if not origin.unit or any(text.startswith("draft ") for _, text in content_of(lines).comments):
        return True
    views = [[end for line in its for end in (line.start, line.end)] for its in views_of(lines).values() if its]
    extents = [max(along) - min(along) for its in views for along in zip(*its)]
    return not extents or likely_size(max(extents), origin.unit)


def ask_all(arguments: argparse.Namespace) -> readings.Asker:
    """Asks for all solids of a squared-off drawing."""
    def ask_one(data: bytes, decimals: int) -> process.Run:
        return process.run(process.find(arguments.program), solve_words(arguments, decimals), data, arguments.seconds)

    return ask_one


def solve_words(arguments: argparse.Namespace, decimals: int) -> list[object]:
    """What the program is given where all solids of a squared-off drawing are asked for."""
    return ["solve", *sections_words(("solve",), arguments), *decimals_words(("solve",), decimals), *limits_of(arguments)]


def limits_of(arguments: argparse.Namespace) -> list[object]:
    """The limits of a search for all solids, whatever is asked of the program first."""
    return list(getattr(arguments, "limits", None) or words_of(arguments))


def way_out(cut: re.Match[str]) -> str:
    """What to do where a search was cut."""
    limit, most = int(cut[2]), {"nodes": process.MOST_NODES, "solids": process.MOST_SOLIDS}[cut[1]]
    return f"raise it by {option(cut[1])}, to {most:,} at most" if limit < most else "draw what tells the solids apart, or less of the part"


def views_words(lines: list[str]) -> list[object]:
    """What the program is given where one of the main views isn't drawn."""
    return [process.TWO_VIEWS] if missing_in(views_of(lines)) else []


def sections_words(command: tuple[object, ...], arguments: argparse.Namespace) -> list[object]:
    """What the program is given where sections are to be read, by those of its commands that read them."""
    return [process.SECTIONS] if arguments.sections and command[0] in READ_SECTIONS else []


def decimals_in(lines: list[str], arguments: argparse.Namespace) -> int:
    """With how many decimals a file is read: those that are said, else what it has."""
    return decimals_of(lines, arguments.sections) if arguments.decimals is None else int(arguments.decimals)


def decimals_words(command: tuple[object, ...], decimals: int) -> list[object]:
    return ["--decimals", decimals] if decimals and command[0] != "stl" else []


def passed_over_told(lines: list[str], with_sections: bool = False) -> list[Note]:
    """What lies within the views and isn't read, and sections where they aren't."""
    unread = [] if with_sections else layers_in(lines)
    told = f"{' and '.join(unread)} {'was' if len(unread) == 1 else 'were'} not read: {option('sections')} has sections read"
    sections = [Note("warning", told, len(unread), entity=UNREAD)]
    return [Note("warning", f"{count} {kind} on layer {layer} {'lies' if count == 1 else 'lie'} within the views and "
                 f"{'was' if count == 1 else 'were'} not read", count, layer=layer, entity=kind)
            for (layer, kind), count in passed_over(lines).items()] + (sections if unread else [])


def of_readable_sheet(path: str, lines: list[str], arguments: argparse.Namespace, tell: Tell, command: tuple[object, ...]) -> Asked | None:
    """The same as `of_sheet`; nothing, which is told, where ezdxf can't read a file that has lines on the three layers, so that the
    program has to read it as it is."""
    try:
        return of_sheet(path, arguments, tell, command)
    except Unreadable as cause:
        if is_said_of_sheet(arguments) or not any(views_of(lines).values()):
            raise
        tell(notes.warning(f"{cause}, so the program reads the file as it is"))
        return None


def is_taken(path: str, arguments: argparse.Namespace) -> bool:
    """Whether the program takes a file as it is, as the least search tells."""
    lines = [] if documents.is_document(path) else lines_of(path)
    if not any(views_of(lines).values()):
        return False
    words = ["solve", *views_words(lines), *decimals_words(("solve",), decimals_in(lines, arguments)), "--nodes", 1, "--solids", 1]
    run = process.run(process.find(arguments.program), words, pathlib.Path(path).read_bytes(), arguments.seconds)
    return not faults.name_of(run.text.strip())


def of_sheet(path: str | None, arguments: argparse.Namespace, tell: Tell, command: tuple[object, ...]) -> Asked:
    """Asks the program about what a sheet is drawn as; of a sheet with rounds about the first reading of which a solid is kept."""
    try:
        drawn = arrangements.drawn_of(path, arguments, tell, ask_all(arguments))
        # What is asked of the drawing later on reads its sections too.
        is_new, arguments.sections = drawn.has_sections and not arguments.sections, drawn.has_sections or arguments.sections
        rounds = readings.readings(drawn, ask_all(arguments), arguments) if given_in(lines_within(drawn.text.encode())) else None
        if drawn.refused and not (rounds and rounds.kept):
            raise drawn.refused
    except (Usage, Unreadable):
        raise
    except Refused as refusal:
        if path is None or not is_taken(path, arguments):
            raise
        raise refusal.with_words(f"\n  ({option('as-is')} has recon read the file as it is)") from None
    if rounds and (chosen := rounds.likeliest):
        drawn = chosen.drawn
    for note in drawn.notes:
        tell(note)
    if is_new:
        tell(notes.found("sections of the sheet, which are read as its views are"))
    data = drawn.text.encode()
    lines = lines_within(data)
    words = [*command, *views_words(lines), *sections_words(command, arguments), *decimals_words(command, drawn.decimals), *words_of(arguments)]
    known = rounds.likeliest if rounds else None
    if known and words == solve_words(arguments, drawn.decimals):
        run = known.run
    else:
        run = process.run(process.find(arguments.program), words, data, arguments.seconds)
    return Asked(data, lines, drawn.decimals, drawn.origin, run, drawn.paper, rounds, drawn.page, arguments.sections, drawn.reasons)
