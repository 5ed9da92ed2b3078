"""check_log.py: it takes right logs and lists the drawing's solids, refuses others at their first wrong line, reads drawings as
recon does, and says what the proved program says."""
import functools
import itertools
import pathlib
import random
import re
import subprocess
import sys
import unittest
from unittest import mock

import check_log
from drafting.dxf.drawing import further_in, lines_of
from drafting.recon import process

from . import logs, made
from .support import EXAMPLES, TOOLS, Decorated, is_built, needs_program

MUTATIONS, DRAWINGS = 2_000, 300
CUBE = (EXAMPLES / "unit_cube.dxf").read_bytes()
RIGHT_CUBE = b"log 1 blocks 1\nforce 0 1 front l 0 0\nsolid\nend 1\n"
HOLLOW = made.file_of(made.drawn({it for it in made.cells_of(*[range(3)] * 3) if it != (1, 1, 1)}, [list(range(4))] * 3)).encode()
RIGHT_HOLLOW = b"log 1 blocks 2\nsplit 0\nforce 1 0 front l 1 1\nsolid\nfail front l 0 0\nend 1\n"


def said(drawing: bytes, log: bytes = b"") -> tuple[int, str]:
    status, pieces = check_log.answer(drawing + log)
    return status, b"".join(pieces).decode()


def grid_in(drawing: bytes) -> tuple[list[int], dict[check_log.Line, int]] | None:
    """What check_log.py makes a state of, where the drawing has no fault and has cells."""
    try:
        grid = check_log.grid_of(check_log.read(drawing)[0])
    except check_log.Wrong:
        return None
    return grid if all(grid[0]) else None


def of_three_views() -> list[pathlib.Path]:
    """The drawings of examples/ that have no further view, by which no log goes."""
    return [file for file in sorted(EXAMPLES.glob("*.dxf")) if not further_in(lines_of(str(file)))]


def drawings() -> list[bytes]:
    """The small drawings of examples/ that can be read."""
    found = [file for file in of_three_views() if file.with_suffix(".txt").exists()]
    return [file.read_bytes() for file in found if not file.with_suffix(".txt").read_text().startswith("fault")]


def random_drawing(chance: random.Random) -> bytes:
    """A small drawing of a solid, or one with mistakes."""
    cells = made.random_solid(chance, chance.randint(2, 4), chance.randint(1, 5)) if chance.random() < 0.7 else made.scattered(
        chance, (chance.randint(1, 3), chance.randint(1, 3), chance.randint(1, 3)), 0.6)
    grid = made.drawn(cells, made.random_cuts(chance, cells))
    told = made.runs(grid)
    for _ in range(chance.choice((0, 0, 0, 1, 2))):
        told = chance.choice(made.MISTAKES)(chance, grid, told) or told
    return made.file_of(grid, told).encode()


def spoiled(chance: random.Random, log: bytes) -> bytes:
    """A log with something changed in it, which may be a log still."""
    lines = log.split(b"\n")
    at, other = chance.randrange(len(lines)), chance.randrange(len(lines))
    kind = chance.randrange(9)
    if kind == 0:
        place = chance.randrange(len(log) + 1)
        return log[:place] + chance.choice((b" ", b"0", b"1", b"\t", b"\r", b"\n", b"\0", b"9", b"l", b"\xff")) + log[place:]
    if kind == 1:
        place = chance.randrange(len(log))
        return log[:place] + log[place + 1:]
    if kind == 2:
        return log[:chance.randrange(len(log))]
    if kind == 3:
        lines[at], lines[other] = lines[other], lines[at]
    elif kind == 4:
        del lines[at]
    elif kind == 5:
        lines.insert(other, lines[at])
    else:
        numbers = list(re.finditer(rb"\b[0-9]\b|\bl\b|\bu\b|front|top|side", log))
        if not numbers:
            return log + b"\n"
        here = chance.choice(numbers)
        words = {b"l": [b"u"], b"u": [b"l"]}.get(here[0]) or ([b"front", b"top", b"side"] if len(here[0]) > 1 else [b"%d" % it for it in range(6)])
        return log[:here.start()] + chance.choice(words) + log[here.end():]
    return b"\n".join(lines)


class Rules(unittest.TestCase):
    def test_what_columns_can_draw(self) -> None:
        """All that can be known of two columns of up to four cells, beside what their edges are by the definitions."""
        for depth in range(5):
            columns = list(itertools.product((0, 1, None), repeat=depth))
            masks = [tuple(sum(1 << at for at, it in enumerate(column) if it in wanted) for wanted in ((1,), (1, None))) for column in columns]
            for (one, ones), (other, others) in itertools.product(zip(columns, masks), repeat=2):
                found = {style for style in range(3) if check_log.can_draw(style, *ones, *others)}
                self.assertEqual(found, logs.styles_of(one, other), (one, other))


class Reading(unittest.TestCase):
    """Faults of drawings, changes of the unit cube's file."""

    def check(self, drawing: bytes, text: str) -> None:
        expected = (1, f"fault {text}\n") if text else (0, "yes 1\nchoice 1\n")
        self.assertEqual(said(drawing, RIGHT_CUBE), expected, drawing[:200])

    def changed(self, **lines: str) -> bytes:
        """The cube's file with some lines changed, each named l and its number; a text may have several lines."""
        text = CUBE.decode().split("\n")
        for name, line in lines.items():
            text[int(name[1:]) - 1] = line
        return "\n".join(text).encode()

    def entity(self, *pairs: object) -> bytes:
        """The cube's file with a first entity more."""
        return CUBE.replace(b"ENTITIES\n", b"ENTITIES\n" + "".join(f"{it}\n" for it in pairs).encode(), 1)

    def test_numerals(self) -> None:
        for value, fault in (
            ("-0.0", ""), (".0", ""), ("0.", ""), ("0E99999999999999999999", ""), ("+0e-5", ""), ("00000", ""), ("0.5", "F7 NotWhole"),
            ("1000000001", "F8 TooFar"), ("x", "F6 BadNumber"), ("", "F6 BadNumber"), (".", "F6 BadNumber"), ("1E", "F6 BadNumber"),
            ("1,0", "F6 BadNumber"), ("1E400", "F8 TooFar"), ("1E-400", "F7 NotWhole"), ("1000000001.5", "F7 NotWhole"), ("--1", "F6 BadNumber"),
            ("1" * 5000, "F8 TooFar"), ("1E" + "9" * 5000, "F8 TooFar"), ("1E-" + "9" * 5000, "F7 NotWhole"), ("1" * 5000 + "x", "F6 BadNumber"),
            ("1.2.3", "F6 BadNumber"), ("1_0", "F6 BadNumber"), ("\u0661", "F6 BadNumber"), ("E5", "F6 BadNumber"), (".E5", "F6 BadNumber"),
        ):
            self.check(self.changed(l12=value), fault and f"{fault} line 12 code 10")
        for value in ("1", "1.0E+0", "10E-1", ".1e1", "1.", "+1", "0001", "100000000000000000000E-20"):
            self.check(self.changed(l18=value), "")

    def test_pairs_and_sections(self) -> None:
        lines = CUBE.splitlines(keepends=True)
        for drawing, fault in (
            (b"".join(lines[:5]), "F3 NoValue line 5"), (b"".join(lines[:6]), "F4 NoEof line 7"), (self.changed(l5="x"), "F2 BadCode line 5"),
            (self.changed(l5="00000"), "F2 BadCode line 5"), (self.changed(l5=" 000\t"), ""), (self.changed(l5="0\r\r"), "F2 BadCode line 5"),
            (b"AutoCAD Binary DXF\r\n\x1a\0", "F1 Binary line 1"), (b"\xef\xbb\xbfAutoCAD Binary DXF", "F1 Binary line 1"),
            (b"\xef\xbb\xbf" + CUBE, ""), (b"\xef\xbb\xbf\xef\xbb\xbf" + CUBE, "F2 BadCode line 1"), (CUBE.replace(b"\n", b"\r\n"), ""),
            (b"999\nAutoCAD Binary DXF\n" + CUBE, ""), (b"0\nSECTION\n2\nENTITIES\n0\nEOF\n", "F5 BadSection line 5"),
            (b"0\nSECTION\n0\nEOF\n", "F5 BadSection line 3"), (b"0\nLINE\n", "F5 BadSection line 1"), (b"-999\nx\n", "F5 BadSection line 1"),
            (b"0\nsection\n2\n?\n0\nSECTION\n", "F5 BadSection line 5"), (b"0\nSECTION\n2\n\n5\n6\n0\nendsec\n" + CUBE, ""),
            (self.changed(l4="entities"), ""), (self.changed(l5="102\n{x\n0"), ""), (self.changed(l17="102\n{x\n11\n5\n102\n}\n11"), ""),
            (self.changed(l17="102\n}\n11"), ""), (self.changed(l17="102\n{\n11"), "F9 Missing line 5 code 11"),
            (self.changed(l17="102\n{\n102\n{\n102\n}\n11"), ""), (self.changed(l17="999\nx\n11"), ""),
        ):
            cut = fault.startswith(("F3", "F4"))
            self.assertEqual(said(drawing, b"" if cut else RIGHT_CUBE), (1, f"fault {fault}\n") if fault else (0, "yes 1\nchoice 1\n"), drawing[:60])
        self.assertEqual(said(b""), (1, "fault F4 NoEof line 1\n"))
        self.assertEqual(said(CUBE.removesuffix(b"\n")), (9, "log G7 Short line 1\n"))

    def test_entities(self) -> None:
        top = (0, "LINE", 8, "TOP", 6, "PHANTOM")
        for drawing, fault in (
            (self.changed(l20="1"), "F11 Oblique line 5"), (self.entity(*top, 10, 0), "F12 Linetype line 5"),
            (self.entity(0, "line", 8, "Top", 6, "centerX2", 10, 0.5, 20, 0, 11, 3, 21, 9), ""),
            (self.entity(0, "ARC", 8, "TOP"), "F13 Geometry line 5"),
            (self.entity(0, "ARC", 8, "TOP", 67, 1), ""), (self.entity(0, "ARC", 8, "TOP", 67, "01"), "F13 Geometry line 5"),
            (self.entity(0, "TEXT", 8, "TOP"), ""),
            (self.entity(0, "ARC", 8, "NOTES"), ""), (self.changed(l17="12"), "F9 Missing line 5 code 11"),
            (self.changed(l22="0\n10\n0"), "F10 Repeated line 23 code 10"),
            (self.entity(0, "LINE", 8, "TOP"), "F9 Missing line 5 code 10"),
            (self.entity(0, "LINE", 8, "SIDE", 21, "x"), "F6 BadNumber line 10 code 21"),
            (self.changed(l6="ENDSEC", l7="0", l8="EOF"), "F14 EmptyView view FRONT"), (CUBE.replace(b"SIDE", b"NOTES"), "F14 EmptyView view SIDE"),
        ):
            self.check(drawing, fault)

    def test_layers(self) -> None:
        def with_layers(*pairs: object) -> bytes:
            head = "".join(f"{it}\n" for it in (0, "SECTION", 2, "TABLES", *pairs, 0, "ENDSEC"))
            return head.encode() + CUBE.replace(b"CONTINUOUS", b"bylayer")
        own = (0, "LAYER", 2, "FRONT", 6)
        for pairs, fault in (((), ""), ((*own, "PHANTOM"), "F12 Linetype line 15"), ((*own, "BYBLOCK", *own, "PHANTOM"), ""), ((*own, "ByLayer"), ""),
                             ((0, "LAYER", 2, "front", 102, "{", 6, "x"), ""), ((0, "LAYER", 6, "x"), ""), ((*own, "CENTER"), "")):
            drawing = with_layers(*pairs)
            line = 5 + drawing[:drawing.index(b"ENTITIES")].count(b"\n") - 3
            told = re.sub(r"line \d+", f"line {line}", fault) if "CENTER" not in pairs else "F14 EmptyView view FRONT"
            self.check(drawing, told)

    def test_polylines(self) -> None:
        front = re.compile(rb"(0\nLINE\n8\nFRONT\n(?:.*\n){14}){4}")
        def with_front(*pairs: object) -> bytes:
            return front.sub("".join(f"{it}\n" for it in (0, "LWPOLYLINE", 8, "FRONT", *pairs)).encode(), CUBE, count=1)
        corners = (10, 0, 20, 0, 10, 1, 20, 0, 10, 1, 20, 1, 10, 0, 20, 1)
        for pairs, fault in (
            ((70, 1, *corners), ""), ((*corners, 70, "129.0"), ""), ((70, 1, 70, "x", *corners), ""), ((70, 1, 42, "0.0", *corners), ""),
            ((70, 1, 42, "0e5", *corners), ""),
            ((70, 1, 42, "5e-99", *corners), "F19 Curved line 5"), ((42, "x", 10, "y"), "F6 BadNumber line 10 code 42"),
            ((70, 0.5), "F7 NotWhole line 10 code 70"),
            ((20, 0), "F9 Missing line 5 code 10"), ((10, 0, 10, "x"), "F9 Missing line 5 code 20"),
            ((10, 0, 20, 0, 20, "x"), "F10 Repeated line 13 code 20"),
            ((10, 0), "F9 Missing line 5 code 20"), ((10, 0, 20, 0, 10, 1, 20, 1), "F11 Oblique line 5"),
            ((10, 0, 20, 0, 70, 1), "F14 EmptyView view FRONT"),
        ):
            self.check(with_front(*pairs), fault)
        for flags in (0, 128):
            self.assertEqual(said(with_front(70, flags, *corners), b"log 1 blocks 0\nfail front l 0 0\nend 0\n"), (0, "yes 0\n"))

    def test_limits(self) -> None:
        line = b"".join(CUBE.splitlines(keepends=True)[4:22])
        with mock.patch.object(check_log, "MOST_LINES", 20):
            for more, fault in ((8, ""), (9, "F15 TooManyLines line 5")):
                drawing = CUBE.replace(b"0\nENDSEC", line * more + b"0\nENDSEC")
                self.check(drawing, fault and f"F15 TooManyLines line {5 + 18 * 20}")
        with mock.patch.object(check_log, "MOST_BYTES", len(CUBE)):
            self.assertEqual((said(CUBE), said(CUBE, b"x")), ((9, "log G7 Short line 1\n"), (1, "fault F16 TooLong\n")))
        with mock.patch.object(check_log, "MOST_PLACES", 4):
            self.assertEqual(said(HOLLOW, RIGHT_HOLLOW)[0], 0)
        with mock.patch.object(check_log, "MOST_PLACES", 3):
            self.assertEqual(said(HOLLOW), (1, "fault F17 TooFine axis x count 4\n"))
        with mock.patch.object(check_log, "MOST_BLOCKS", 1):
            self.assertEqual(said(HOLLOW), (1, "fault F18 TooManyBlocks count 2\n"))

    @needs_program()
    def test_faults_are_those_of_the_program(self) -> None:
        chance = random.Random(57)
        known = [CUBE, *((EXAMPLES / f"{name}.dxf").read_bytes() for name in ("untidy", "bracket_of_polylines", "bracket", "fractions"))]
        for number in range(DRAWINGS):
            drawing = broken(chance, chance.choice(known))
            run = process.run(process.find(), ["solve", "--solids", 1], drawing)
            with self.subTest(number=number):
                if run.status == process.FAULT:
                    self.assertEqual(said(drawing), (1, run.text), drawing)
                else:
                    self.assertEqual(said(drawing)[0], check_log.NO_LOG, drawing)


def broken(chance: random.Random, drawing: bytes) -> bytes:
    """A drawing with a few of its lines changed; nothing stands behind its end."""
    lines = drawing[:drawing.rindex(b"EOF") + 4].split(b"\n")
    for _ in range(chance.randint(0, 3)):
        at, other = chance.randrange(len(lines)), chance.randrange(len(lines))
        kind = chance.randrange(5)
        if kind == 0:
            del lines[at:at + chance.choice((1, 2, 2, 2))]
        elif kind == 1:
            lines[at:at] = lines[other:other + chance.choice((1, 2, 2, 18))]
        elif kind == 2:
            lines[at] = chance.choice(b"0 10 70 42 1.5 1e3 HIDDEN LINE LWPOLYLINE ENDSEC SECTION x 102 { 999".split() + [b""])
        elif kind == 3:
            lines[at] = lines[other]
        lines = lines or [b""]
    drawing = b"\n".join(lines)
    return drawing[:drawing.find(b"EOF") + 4] if b"EOF" in drawing else drawing


@functools.cache
def has_logs() -> bool:
    """The built program knows the commands `prove` and `check`."""
    def is_taken(word: str) -> bool:
        ended = subprocess.run([process.find(), word], stdin=subprocess.DEVNULL, capture_output=True)
        return ended.returncode != process.USAGE
    return is_built() and is_taken("prove") and is_taken("check")


def recon(word: str, data: bytes) -> tuple[int, str]:
    """The status of the built program at this word, and what it writes."""
    ended = subprocess.run([process.find(), word], input=data, capture_output=True, timeout=600)
    if ended.stderr:
        raise AssertionError(ended.stderr)
    return ended.returncode, ended.stdout.decode()


class Logs(unittest.TestCase):
    """Right logs, and wrong ones."""

    def check(self, plain: logs.Plain, drawing: bytes, log: bytes) -> str:
        """What is said of a log: the same as by the plain definitions, and by the program where it is built."""
        status, text = said(drawing, log)
        self.assertEqual(text, logs.verdict(plain, log), log)
        if has_logs():
            self.assertEqual((status, text), recon("check", drawing + log), log)
        self.assertEqual(status, 0 if text.startswith("yes") else 9)
        return text

    def test_logs_that_were_worked_out(self) -> None:
        self.assertEqual(logs.log_of(logs.plain_of(CUBE)).encode(), RIGHT_CUBE)
        self.assertEqual(logs.log_of(logs.plain_of(HOLLOW)).encode(), RIGHT_HOLLOW)
        lines = RIGHT_HOLLOW.splitlines(keepends=True)
        for log, text in (
            (RIGHT_HOLLOW, "yes 1\nchoice 10\n"), (RIGHT_HOLLOW.replace(b"force 1 0", b"force 1 1"), "log G3 Unproved line 3\n"),
            (b"".join(lines[:4] + lines[5:]), "log G1 BadLine line 5\n"), (b"".join(lines[:4]), "log G7 Short line 5\n"),
            (RIGHT_HOLLOW.replace(b"end 1", b"end 2"), "log G6 BadCount line 6\n"),
        ):
            self.assertEqual(said(HOLLOW, log)[1], text, log)

    def test_right_logs(self) -> None:
        chance = random.Random(3)
        row = {it for it in made.cells_of(*[range(5)] * 3) if not set(it) <= {1, 3}} | {(10, 10, 10)}
        row |= {(x + 6, y + 6, z + 6) for x, y, z in made.cells_of(*[range(3)] * 3) if (x, y, z) != (1, 1, 1)}
        wide = [0, 2, 4, 6, 8, 10, 11, 15, 19, 23, 24, 32]
        for drawing in (*drawings(), made.file_of(made.drawn(row, [wide] * 3)).encode(), *(random_drawing(chance) for _ in range(40))):
            if not grid_in(drawing):
                continue
            plain = logs.plain_of(drawing)
            choices = logs.choices_of(plain)
            told = "".join([f"yes {len(choices)}\n", *(f"choice {choice}\n" for choice in choices)])
            for by_chance in (None, chance, chance):
                self.assertEqual(said(drawing, logs.log_of(plain, by_chance).encode()), (0, told))

    def test_the_examples_solids(self) -> None:
        for drawing in of_three_views():
            answer = drawing.with_suffix(".txt").read_text() if drawing.with_suffix(".txt").exists() else "fault"
            if not answer.startswith("fault"):
                choices = [line.split()[3] for line in answer.splitlines() if line.startswith("solid ")]
                log = logs.log_of(logs.plain_of(drawing.read_bytes())).encode()
                told = [f"yes {len(choices)}", *(f"choice {it}" for it in choices)]
                self.assertEqual(said(drawing.read_bytes(), log)[1].splitlines(), told, drawing)

    def test_each_kind_at_several_lines(self) -> None:
        drawing = (EXAMPLES / "eight_voids.dxf").read_bytes()
        plain = logs.plain_of(drawing)
        right = logs.log_of(plain).encode().splitlines()
        places = {word: [at for at, line in enumerate(right) if line.startswith(word)] for word in (b"split", b"force", b"fail", b"solid")}
        def some(*words: bytes) -> list[int]:
            found = sorted(itertools.chain(*(places[word] for word in words)))
            return [found[0], found[len(found) // 2], found[-1]] if found else []
        beyond = [b"front l 6 0", b"front l 0 5", b"top u 9999999999 0", b"side u 0 9999999999"]
        cases = [(at, b"solids", "G1 BadLine") for at in (0, len(right) // 2, len(right) - 1)]
        blocks = (b"split 9", b"split 9999999999", b"force 9 1 front l 0 0")
        cases += [(at, line, "G2 BadBlock") for at in some(b"split", b"force") for line in blocks]
        cases += [(at, line, "G2 BadBlock") for at in some(b"force")[1:] + some(b"split")[1:] for line in (b"split 0", b"force 0 1 front l 6 0")]
        cases += [(at, b"fail " + place, "G3 Unproved") for at in some(b"split", b"force", b"solid") for place in (*beyond, b"front l 2 2")]
        places_of_no_use = (*beyond, b"top u 2 2")
        cases += [(at, right[at].rsplit(b" ", 4)[0] + b" " + place, "G3 Unproved") for at in some(b"force", b"fail") for place in places_of_no_use]
        cases += [(at, right[at][:-1] + b"9", "G3 Unproved") for at in some(b"force", b"fail")]
        cases += [(at, b"solid", "G4 Unsolid") for at in some(b"split", b"force", b"fail")]
        cases += [(len(right) - 1, b"end %d" % count, "G6 BadCount") for count in (0, 34, 36, 9999999999)]
        for at, line, kind in cases:
            log = b"\n".join([*right[:at], line, *right[at + 1:]])
            self.assertEqual(self.check(plain, drawing, log), f"log {kind} line {at + 1}\n", line)
        for at in (0, 1, len(right) // 2, len(right) - 1):
            self.assertEqual(self.check(plain, drawing, b"".join(line + b"\n" for line in right[:at])), f"log G7 Short line {at + 1}\n")
        for more in (b"\n", b"end 35", b"\0", b" ", b"\r\n"):
            self.assertEqual(self.check(plain, drawing, b"\n".join([*right, more])), f"log G8 Long line {len(right) + 1}\n")
        for most in (0, 17, 34):
            with mock.patch.object(check_log, "MOST_LISTED", most):
                self.assertEqual(said(drawing, b"\n".join(right)), (9, f"log G5 TooMany line {places[b'solid'][most] + 1}\n"))
        with mock.patch.object(check_log, "MOST_LISTED", 35):
            self.assertEqual(said(drawing, b"\n".join(right))[0], 0)

    def test_how_lines_are_spelled(self) -> None:
        plain = logs.plain_of(HOLLOW)
        lines = RIGHT_HOLLOW.splitlines()
        for at, wrong in (
            (1, b"log 1 blocks 02"), (1, b"log 2 blocks 2"), (1, b"log 1 blocks 2 "), (1, b"log 1 blocks 2\r"), (1, b"log 1 blocks 3"),
            (1, b""), (1, b"\xef\xbb\xbflog 1 blocks 2"),
            (2, b"split 00"), (2, b"split  0"), (2, b" split 0"), (2, b"split 0 "), (2, b"split\t0"), (2, b"split 0\r"),
            (2, b"split 0\0"), (2, b"split"), (2, b""), (2, b"split +0"),
            (2, b"split 00000000000"), (2, b"split 10000000000"), (2, b"split \xd9\xa0"), (2, b"Split 0"), (2, b"split -0"),
            (2, b"split 0 0"), (2, b"end 0"),
            (3, b"force 1 00 front l 1 1"), (3, b"force 1 2 front l 1 1"), (3, b"force 01 0 front l 1 1"), (3, b"force 1 0 front l 01 1"),
            (3, b"force 1 0 front l 1 10000000000"),
            (3, b"force 1 0 left l 1 1"), (3, b"force 1 0 FRONT l 1 1"), (3, b"force 1 0 front x 1 1"), (3, b"force 1 0 front l 1"),
            (3, b"force 1 0 front l 1 1 1"), (3, b"force 1 0"),
            (4, b"solid "), (4, b"solid 1"), (4, b"solid\r"), (5, b"fail front l 0 0 0"), (5, b"fail"), (6, b"end 01"), (6, b"end  1"),
            (6, b"end 1\r"), (6, b"end 1 "), (6, b"end"),
            (6, b"end 10000000000"), (6, b"solid"), (6, b"end -1"), (6, b"end 1\0"),
        ):
            log = b"\n".join([*lines[:at - 1], wrong, *lines[at:]])
            self.assertEqual(self.check(plain, HOLLOW, log), f"log G1 BadLine line {at}\n", wrong)
        self.assertEqual(self.check(plain, HOLLOW, RIGHT_HOLLOW[:-1]), "yes 1\nchoice 10\n")
        self.assertEqual(self.check(plain, HOLLOW, RIGHT_HOLLOW.replace(b"\n", b"\r\n")), "log G1 BadLine line 1\n")

    def test_a_block_that_the_line_does_not_touch(self) -> None:
        drawing = (EXAMPLES / "row_of_three_pieces.dxf").read_bytes()
        plain = logs.plain_of(drawing)
        last = plain.blocks - 1
        far = [name for name, demand in plain.lines.items() if demand.style and last not in demand.one + demand.other]
        for name in (far[0], far[len(far) // 2], far[-1]):
            for value in (0, 1):
                log = b"log 1 blocks %d\nforce %d %d %b\n" % (plain.blocks, last, value, name.encode())
                self.assertEqual(self.check(plain, drawing, log), "log G3 Unproved line 2\n")

    def test_logs_of_other_drawings(self) -> None:
        known = [(drawing, logs.plain_of(drawing)) for drawing in drawings()]
        right = [logs.log_of(plain).encode() for _, plain in known]
        for (drawing, plain), log in itertools.product(known, right):
            text = self.check(plain, drawing, log)
            if text.startswith("yes"):
                self.assertEqual(text.split()[3::2], logs.choices_of(plain))

    def test_random_changes(self) -> None:
        chance = random.Random(17)
        pool = []
        names = ("quartered_cube", "eight_voids", "clevis", "pierced_plate")
        known = [CUBE, HOLLOW, *((EXAMPLES / f"{name}.dxf").read_bytes() for name in names), *(random_drawing(chance) for _ in range(60))]
        for drawing in known:
            if grid := grid_in(drawing):
                plain = logs.plain_of(drawing)
                right = [logs.log_of(plain, by_chance).encode() for by_chance in (None, chance, chance)]
                pool.append((drawing, plain, logs.choices_of(plain), right, functools.partial(check_log.State, *grid)))
        taken = 0
        for _ in range(MUTATIONS):
            drawing, plain, choices, right, state = chance.choice(pool)
            log = chance.choice(right)
            for _ in range(chance.choice((1, 1, 1, 2, 3))):
                log = spoiled(chance, log or b"\n1")
            lines = log.split(b"\n")
            try:
                found = check_log.listed(state(), lines if lines[-1] else lines[:-1])
                text = "".join([f"yes {len(found)}\n", *(f"choice {choice.decode()}\n" for choice in found)])
                self.assertEqual([choice.decode() for choice in found], choices, log)
                taken += 1
            except check_log.Wrong as wrong:
                text = f"log {wrong}\n"
            self.assertEqual(text, logs.verdict(plain, log), log)
            if has_logs():
                self.assertEqual(text, recon("check", drawing + log)[1], log)
        self.assertGreater(taken, MUTATIONS // 100)


class Streams(unittest.TestCase):
    """The program as it is run."""

    def run_it(self, data: bytes = b"", *words: str, out: str = "") -> tuple[int, bytes, bytes]:
        command = [sys.executable, str(TOOLS / "check_log.py"), *words]
        if out:
            with open(out, "wb") as sink:
                ended = subprocess.run(command, input=data, stdout=sink, stderr=subprocess.PIPE)
            return ended.returncode, b"", ended.stderr
        ended = subprocess.run(command, input=data, capture_output=True)
        return ended.returncode, ended.stdout, ended.stderr

    def test_statuses(self) -> None:
        reads = b"check_log.py reads the views FRONT, TOP and SIDE alone\n"
        self.assertEqual(self.run_it(CUBE + RIGHT_CUBE), (0, b"yes 1\nchoice 1\n", reads))
        self.assertEqual(self.run_it(CUBE), (9, b"log G7 Short line 1\n", reads))
        self.assertEqual(self.run_it(), (1, b"fault F4 NoEof line 1\n", reads))
        status, out, told = self.run_it(CUBE, "--help")
        self.assertEqual((status, out, told[:6]), (2, b"", b"usage:"))
        self.assertEqual(self.run_it(CUBE + RIGHT_CUBE, out="/dev/full"), (6, b"", reads))
        closed = subprocess.run(["sh", "-c", 'exec "$0" "$1" <&-', sys.executable, str(TOOLS / "check_log.py")], capture_output=True)
        self.assertEqual((closed.returncode, closed.stdout, closed.stderr), (5, b"", reads))

    def test_inputs_of_no_sense(self) -> None:
        chance = random.Random(5)
        for size in (1, 10, 100, 10_000):
            for _ in range(25):
                data = bytes(chance.choices(range(256), k=size))
                self.assertEqual(said(data)[0], 1)
                self.assertEqual(said(CUBE, data)[0], 9)
        entity = b"0\nLWPOLYLINE\n8\nTOP\n" + b"10\n0\n20\n0\n" * 50_000
        self.assertEqual(said(CUBE.replace(b"0\nENDSEC", entity + b"0\nENDSEC", 1), RIGHT_CUBE), (0, "yes 1\nchoice 1\n"))
        self.assertEqual(said(b"0\nSECTION\n" * 100_000), (1, "fault F5 BadSection line 3\n"))


def needs_logs() -> Decorated:
    return unittest.skipUnless(has_logs(), "the program isn't built, or has no commands prove and check")


@needs_logs()
class BesideTheProgram(unittest.TestCase):
    def test_random_drawings(self) -> None:
        chance, taken = random.Random(36), 0
        for number in range(DRAWINGS):
            drawing = random_drawing(chance)
            status, log = recon("prove", drawing)
            with self.subTest(number=number):
                self.assertIn(status, (0, 1), drawing)
                if status == 1:
                    self.assertEqual(said(drawing), (1, log), drawing)
                else:
                    self.assertEqual(said(drawing, log.encode())[0], check_log.YES, (drawing, log))
                tried = [log.encode(), *(spoiled(chance, log.encode() or b"\n1") for _ in range(2))]
                if grid_in(drawing):
                    plain = logs.plain_of(drawing)
                    self.assertEqual(log, logs.log_of(plain), drawing)
                    tried += [other := logs.log_of(plain, chance).encode(), spoiled(chance, other)]
                for log_tried in tried:
                    answer = said(drawing, log_tried)
                    self.assertEqual(answer, recon("check", drawing + log_tried), (drawing, log_tried))
                    taken += answer[0] == check_log.YES
        self.assertGreater(taken, DRAWINGS)

    def test_broken_drawings(self) -> None:
        chance = random.Random(37)
        for _ in range(DRAWINGS):
            drawing = broken(chance, chance.choice((CUBE, HOLLOW, (EXAMPLES / "bracket_of_polylines.dxf").read_bytes()))) + RIGHT_CUBE
            self.assertEqual(said(drawing), recon("check", drawing), drawing)


if __name__ == "__main__":
    unittest.main()
