"""Plots in HP-GL, the language of pen plotters that CAD programs write and old archives hold: their lines and circles as a sheet.

A plot's coordinates are whole fortieths of a millimetre, so lengths are as on paper. A pen is a colour and a layer (PEN2), a line type is a
linetype (LT2). Read are IN, DF, SP, PU, PD, PA, PR, LT, CI, AA, AR, EA and ER; LB labels are no lines. What else draws is kept as what can't be
read; what else there is doesn't change lines and is counted. Source: HP-GL/2 and HP RTL Reference Guide (Hewlett-Packard, 5961-3526).
"""
import math
import pathlib
import re
from collections import Counter
from collections.abc import Iterator, Sequence
from typing import NamedTuple

from ..core.messages import Refused
from ..core.notes import Thing
from .drawing import Place
from .reader import SCALE, Arc, Edge, Sheet, Source, Unread
from .styles import Choice, Look, Style, style_of

# How many units of a plot are a millimetre, and the most strokes that are read.
UNITS, MOST = 40, 1_000_000
# How much of a file tells what it is; and what comes before a plot: escapes to the plotter, blanks.
LOOKED_AT = 4096
BEFORE = rb"(?:\x1b(?:\.[^:\x1b]{0,40}?[:@A-Z(]|%-?\d*[A-Z]|[A-Z])|[\s;])*"
BEGINS = re.compile(BEFORE + rb"(?:(?:IN|DF|BP|PS|NP|RO|IP|SC|SP|PU|PA|VS)[\s;,\d.-]|(?:IN|DF)[A-Z]{2})")
DRAWS = re.compile(rb"P[UD]\s*(?:-?\d|;|P[AUD])")
NUMBER = re.compile(r"[-+]?(?:\d+\.?\d*|\.\d+)")
COMMAND = re.compile(r"([A-Za-z]{2})")
# The dashes, gaps and dots of the line types, as shares of their length (in the guide's table of LT); 0 and 1 are dots.
PATTERNS = {"2": [50.0, -50.0], "3": [70.0, -30.0], "4": [80.0, -10.0, 0.0, -10.0], "5": [70.0, -10.0, 10.0, -10.0],
            "6": [50.0, -10.0, 10.0, -10.0, 10.0, -10.0], "7": [70.0, -10.0, 0.0, -10.0, 0.0, -10.0],
            "8": [50.0, -10.0, 0.0, -10.0, 10.0, -10.0, 10.0, -10.0]}
# What draws and isn't read.
DRAWN = ("AT", "RT", "EW", "WG", "RA", "RR", "EP", "FP", "BZ", "BR")


class Command(NamedTuple):
    """A command with its numbers, or the text of a label; and where it begins in the file, in bytes."""

    name: str
    numbers: list[float]
    text: str
    at: int


def is_plot(data: bytes) -> bool:
    """Whether a file is a plot in HP-GL, by how it begins."""
    start = data[:LOOKED_AT]
    return bool(BEGINS.match(start) and DRAWS.search(start) and (b";" in start or b"," in start))


def commands_in(text: str) -> Iterator[Command]:
    """The commands of a plot. A label goes as far as its end, which DT may change."""
    at, end = 0, "\x03"
    while found := COMMAND.search(text, at):
        name, at = found[1].upper(), found.end()
        if name == "DT":
            end = text[at:at + 1] if text[at:at + 1] not in ("", ";") else "\x03"
            at += 2
        elif name == "LB":
            stop = text.find(end, at)
            stop = len(text) if stop < 0 else stop
            yield Command(name, [], text[at:stop], found.start())
            at = stop + 1
        elif name in ("CO", "PE", "WD", "SM"):
            stop = text.find(";", at)
            yield Command(name, [], "", found.start())
            at = len(text) if stop < 0 else stop + 1
        else:
            following = COMMAND.search(text, at)
            stop = min(it for it in (text.find(";", at) % (len(text) + 1), following.start() if following else len(text)))
            yield Command(name, [float(it) for it in NUMBER.findall(text[at:stop])], "", found.start())
            at = stop


class Plotter:
    """Draws a plot as a sheet: where the pen is and whether it is down, which one it is, and the line type."""

    def __init__(self, choices: Sequence[Choice]) -> None:
        self.sheet, self.choices = Sheet("mm"), choices
        self.place, self.is_down, self.is_relative = (0.0, 0.0), False, False
        self.pen, self.linetype, self.before, self.own = 1, "", "", set[str]()
        self.count = 0

    def run(self, command: Command) -> None:
        """Draws a command, or counts it."""
        name, numbers = command.name, command.numbers
        if name in ("IN", "DF"):
            self.is_relative, self.linetype = False, ""
            self.is_down = self.is_down and name == "DF"
        elif name == "SP":
            self.pen = int(numbers[0]) if numbers else 0
        elif name in ("PU", "PD", "PA", "PR"):
            self.is_down = name == "PD" or self.is_down and name != "PU"
            self.is_relative = name == "PR" or self.is_relative and name != "PA"
            for x, y in zip(numbers[::2], numbers[1::2]):
                self.move((self.place[0] + x, self.place[1] + y) if self.is_relative else (x, y), command)
        elif name == "LT":
            self.style(numbers)
        elif name in ("CI", "AA", "AR", "EA", "ER"):
            self.shape(command)
        elif name == "LB":
            self.sheet.texts.append(self.on_sheet(self.place))
            self.sheet.scales |= {f"{told[1]}:{told[2]}" for told in SCALE.finditer(command.text)}
            self.sheet.left[Thing("LB (label) of the plot", entity="LB")] += 1
        elif name in DRAWN:
            x, y = self.on_sheet(self.place)
            self.sheet.unread.append(Unread(f"is drawn by the command {name}, which isn't read", (x, y, x, y), self.source(command)))
        else:
            self.other(command)

    def other(self, command: Command) -> None:
        """Counts a command that draws nothing; refused where it changes what lines are, or holds lines in a form that isn't read."""
        if command.name == "SC" and command.numbers:
            raise Refused(f"the plot scales its coordinates (SC at byte {command.at:,}), so that its lengths aren't told: plot it without "
                          "scaling, or export DXF")
        if command.name == "PE":
            raise Refused(f"the plot has packed lines (PE at byte {command.at:,}), which aren't read: plot it as HP-GL rather than HP-GL/2, or "
                          "export DXF")
        if command.name == "UL" and command.numbers:
            self.own.add(str(int(command.numbers[0])))
        self.sheet.left[Thing(f"command {command.name} of the plot", entity=command.name)] += 1

    def style(self, numbers: Sequence[float]) -> None:
        name = str(abs(int(numbers[0]))) if numbers else ""
        self.before, self.linetype = self.linetype, self.before if name == "99" else name

    # ---- what is drawn

    def on_sheet(self, place: Place) -> Place:
        return place[0] / UNITS, place[1] / UNITS

    def source(self, command: Command) -> Source:
        linetype = f"LT{self.linetype}" if self.linetype else "CONTINUOUS"
        return Source(command.name, f"PEN{self.pen}", "", look=Look(f"PEN{self.pen}", linetype, self.pen))

    def move(self, place: Place, command: Command) -> None:
        """Moves the pen, which draws a line where it is down."""
        start, self.place = self.place, place
        if self.is_down and self.pen and start != place:
            self.line(start, place, command)

    def drawn(self, command: Command) -> tuple[Source, Style]:
        """What a stroke is of, and its style."""
        self.count += 1
        if self.count > MOST:
            raise Refused(f"the plot has more than {MOST:,} strokes")
        source = self.source(command)
        pattern = PATTERNS.get(self.linetype) if self.linetype not in self.own else None
        return source, style_of(source.look, self.choices, pattern)[0] if source.look else Style.VISIBLE

    def line(self, start: Place, end: Place, command: Command) -> None:
        source, style = self.drawn(command)
        edge = Edge(style is Style.HIDDEN, self.on_sheet(start), self.on_sheet(end), self.pen, source)
        if style is Style.UNKNOWN:
            (a, b), (c, d) = edge.start, edge.end
            box = min(a, c), min(b, d), max(a, c), max(b, d)
            self.sheet.unread.append(Unread(f"has the line type LT{self.linetype}, which tells no style", box, source, f"LT{self.linetype}"))
        elif style in (Style.CENTRE, Style.APART):
            self.sheet.chains += [edge] if style is Style.CENTRE else []
            what = f"centre lines of line type LT{self.linetype}" if style is Style.CENTRE else f"lines of pen {self.pen}, as asked"
            self.sheet.left[Thing(what, source.layer, "LINE")] += 1
        else:
            self.sheet.edges.append(edge)

    def shape(self, command: Command) -> None:
        """A circle, an arc, or the sides of a rectangle."""
        name, numbers = command.name, command.numbers
        x, y = self.place
        if name == "CI" and numbers:
            self.arc(self.place, abs(numbers[0]), 0.0, 360.0, command)
        elif name in ("AA", "AR") and len(numbers) >= 3:
            centre = (numbers[0], numbers[1]) if name == "AA" else (x + numbers[0], y + numbers[1])
            radius, start = math.dist(centre, self.place), math.degrees(math.atan2(y - centre[1], x - centre[0]))
            if self.is_down and self.pen:
                self.arc(centre, radius, start if numbers[2] > 0 else start + numbers[2], abs(numbers[2]), command)
            turn = math.radians(start + numbers[2])
            self.place = round(centre[0] + radius * math.cos(turn), 6), round(centre[1] + radius * math.sin(turn), 6)
        elif name in ("EA", "ER") and len(numbers) >= 2:
            right, up = (numbers[0], numbers[1]) if name == "EA" else (x + numbers[0], y + numbers[1])
            corners = [(x, y), (right, y), (right, up), (x, up), (x, y)]
            for start_of, end in zip(corners, corners[1:]):
                self.line(start_of, end, command)

    def arc(self, centre: Place, radius: float, start: float, sweep: float, command: Command) -> None:
        source, style = self.drawn(command)
        if style in (Style.VISIBLE, Style.HIDDEN) and radius:
            self.sheet.arcs.append(Arc(style is Style.HIDDEN, self.on_sheet(centre), radius / UNITS, start % 360, min(sweep, 360.0), source))
        elif style is Style.UNKNOWN:
            x, y, reach = *self.on_sheet(centre), radius / UNITS
            box = x - reach, y - reach, x + reach, y + reach
            self.sheet.unread.append(Unread(f"has the line type LT{self.linetype}, which tells no style", box, source, f"LT{self.linetype}"))
        else:
            self.sheet.left[Thing(f"arcs of pen {self.pen} that are no edges", source.layer, "ARC")] += 1


def sheet_of(path: str, choices: Sequence[Choice]) -> Sheet:
    """The sheet that a plot draws, in millimetres of paper; refused where it draws nothing."""
    plotter = Plotter(choices)
    for command in commands_in(pathlib.Path(path).read_bytes().decode("latin-1")):
        plotter.run(command)
    sheet = plotter.sheet
    if not (sheet.edges or sheet.arcs or sheet.unread or sheet.chains):
        raise Refused(f"{pathlib.Path(path).name} is a plot (HP-GL) that draws nothing")
    count = Counter(edge.source.layer for edge in sheet.edges)
    pens = ", ".join(f"{number} of {name}" for name, number in sorted(count.items()))
    sheet.changed[Thing(f"plot (HP-GL) read, in fortieths of a millimetre: lines {pens}")] += 1
    return sheet
