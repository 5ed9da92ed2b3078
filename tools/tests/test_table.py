"""Tables of many drawings: each drawing has one row, also where the table was stopped and resumed, and costs none but its own."""
import csv
import io
import json
import os
import pathlib
import shutil
import signal
import subprocess
import sys
import tempfile
import tracemalloc
import unittest
from collections import Counter
from unittest import mock

from drafting.cli import table
from drafting.core.messages import Refused
from drafting.core.verdict import UNDECIDED
from drafting.recon import process
from drafting.report import record as records
from drafting.table import passes
from drafting.table.inputs import Place, written
from drafting.table.rows import Row, Rows, key_of

from .machines import needs_own_files
from .support import EXAMPLES, TOOLS, draft, needs_command, needs_module, needs_program
from .tables import answer_alone, begun, count, kept, made, rows_of, until, words_of

# The status of a table of whose drawings some weren't read.
NOT_READ = table.ROWS_NOT_READ
# A program that does with a drawing what a comment in it says, and else what the built one does.
SPITED = """#!/bin/sh
text=$(mktemp)
trap 'rm "$text"' EXIT
cat > "$text"
case $(head -n 2 "$text" | tail -n 1) in
KILL) kill -KILL $PPID;;
ABORT) kill -ABRT $$;;
SLEEP) exec sleep 1000;;
MEMORY) exit 7;;
WAIT) while [ -e {folder}.wait ]; do sleep 0.1; done;;
TOUCH) touch -d @1 {folder}/TOUCH.dxf;;
CUT) case "$*" in *2000*) echo cut nodes 2000; exit 3;; esac;;
esac
{program} "$@" < "$text"
"""


@needs_command("parallel", "parallel")
@needs_program()
class Tables(unittest.TestCase):
    def setUp(self) -> None:
        room = tempfile.TemporaryDirectory()
        self.addCleanup(room.cleanup)
        self.room = pathlib.Path(room.name)
        self.folder = self.room / "drawings of parts"
        self.state = self.folder / ".draft_table"

    def fill(self, *names: str) -> None:
        (self.folder / "0").mkdir(parents=True)
        for file in EXAMPLES.glob("*.dxf"):
            if not names or file.stem in names:
                shutil.copy(file, self.folder / "0" / file.name)
        (self.folder / "no drawing; 'at all'.dxf").write_text("hello\n")
        (self.folder / "cut.dxf").write_bytes((EXAMPLES / "clevis.dxf").read_bytes()[:900])

    def spited(self) -> pathlib.Path:
        """The program that does what a drawing says."""
        path = self.room / "spited"
        path.write_text(SPITED.format(program=process.find(), folder=f"'{self.folder}'"))
        path.chmod(0o755)
        return path

    def spite(self, name: str) -> None:
        (self.folder / f"{name}.dxf").write_text(f"999\n{name}\n{(EXAMPLES / 'unit_cube.dxf').read_text()}")

    def test_each_drawing_has_a_row(self) -> None:
        self.fill()
        before = kept(self.folder)
        ended = made(self.folder)
        self.assertEqual(ended.status, NOT_READ, ended.said)
        self.assertTrue(kept(self.folder) == before)
        self.assertEqual(set(ended.rows), {str(file.relative_to(self.folder)) for file in before})
        for file in EXAMPLES.glob("*.dxf"):
            row = ended.rows[f"0/{file.name}"]
            self.assertEqual((row["status"], row["solids"]), answer_alone(file.read_bytes()), row)
        self.assertEqual(ended.rows["0/fractions.dxf"]["message"], "volume 12,343.75")
        self.assertEqual(ended.rows["cut.dxf"]["status"], "1")
        counts = Counter(row["verdict"] for row in ended.rows.values())
        # The drawing of an example with a fault, and of two files that are none.
        self.assertEqual(counts["not_read"], 3)
        last = ended.said.splitlines()[-1]
        self.assertEqual(last, f"draft table: {len(before)} drawings: {counts['unique']} unique, {counts['ambiguous']} ambiguous, "
                         f"{counts['impossible']} impossible, 3 not read")
        # Asked again, nothing is run.
        self.assertEqual(made(self.folder), (NOT_READ, ended.rows, f"{last}\n"))
        os.utime(self.folder / "cut.dxf", (1, 1))
        text = subprocess.run([word for word in words_of(self.folder, "--sshlogin", "2/:") if word != "--csv"], capture_output=True)
        self.assertIn(b": 1 drawing of", text.stderr)
        self.assertEqual(len(text.stdout.splitlines()), 1 + len(before))

    def test_a_table_that_is_stopped_goes_on(self) -> None:
        self.fill("bracket", "clevis", "unit_cube", "pierced_plate", "fractions")
        self.spite("WAIT")
        spited, waits = self.spited(), self.folder.with_name(f"{self.folder.name}.wait")
        for how in (signal.SIGKILL, signal.SIGINT, signal.SIGTERM):
            shutil.rmtree(self.state, ignore_errors=True)
            waits.touch()
            running = begun(self.folder, "--program", spited)
            until(lambda: count(self.state) >= 3, running)
            other = made(self.folder, "--program", spited)
            self.assertIn("another table is being made", other.said)
            os.killpg(running.pid, how)
            running.communicate()
            waits.unlink()
            first = (self.state / "rows").read_bytes()
            with open(self.state / "rows", "ab") as rows:
                rows.write(b'{"key": "cut of')
            ended = made(self.folder, "--program", spited)
            self.assertEqual(ended.status, NOT_READ, ended.said)
            self.assertEqual(set(ended.rows), {str(file.relative_to(self.folder)) for file in kept(self.folder)})
            self.assertTrue((self.state / "rows").read_bytes().startswith(first))
            self.assertEqual(count(self.state), len(ended.rows))

    def test_drawings_that_are_named(self) -> None:
        self.fill("bracket", "unit_cube")
        odd = os.fsencode(self.folder) + b"/line\nend \xff.dxf"
        shutil.copy(EXAMPLES / "clevis.dxf", os.fsdecode(odd))
        names = [os.fsencode(self.folder / "0" / "bracket.dxf"), odd, os.fsencode(self.folder / "none.dxf"), odd]
        ended = made("-", self.folder / "0" / "unit_cube.dxf", "-0", "--state", self.room / "rows", data=b"\0".join(names))
        told = {name: (row["status"], row["message"]) for name, row in ended.rows.items()}
        lost = ("lost", "can't be read: No such file or directory")
        answers = [("0", "volume 48,000"), ("0", "volume 41"), lost, ("0", "volume 1")]
        self.assertEqual(told, dict(zip([*map(os.fsdecode, names[:3]), str(self.folder / "0" / "unit_cube.dxf")], answers)))
        self.assertEqual(ended.status, 1)
        self.assertIn("1 row lost, the first of ", ended.said)
        words = [word for word in words_of("-", "--state", self.room / "rows", "--json") if word != "--csv"]
        text = subprocess.run(words, input=names[0] + b"\n", capture_output=True)
        row = json.loads(text.stdout)
        self.assertEqual((row["drawing"]["file"], row["status"], row["count"]), (os.fsdecode(names[0]), 0, 1))
        self.assertEqual((text.returncode, text.stderr), (0, b"draft table: 1 drawing: 1 unique\n"))

    def test_a_drawing_costs_itself_alone(self) -> None:
        spited = self.spited()
        self.folder.mkdir()
        for name in ("KILL", "ABORT", "SLEEP", "MEMORY", "TOUCH", "CUT", "NOTHING"):
            self.spite(name)
        ended = made(self.folder, "--program", spited, "--seconds", 10, "--jobs", 8)
        self.assertEqual({name: (row["status"], row["message"].split(" solve")[0]) for name, row in ended.rows.items()}, {
            "KILL.dxf": ("failed", "reading it was ended by SIGKILL"), "ABORT.dxf": ("failed", "recon was ended by SIGABRT"),
            "SLEEP.dxf": ("failed", "recon"), "MEMORY.dxf": ("failed", "recon ran out of memory"),
            "TOUCH.dxf": ("lost", "was changed meanwhile"), "CUT.dxf": ("0", "volume 1"), "NOTHING.dxf": ("0", "volume 1"),
        })
        self.assertEqual(ended.status, 1)
        # A row that failed is asked for anew within other limits alone.
        again = made(self.folder, "--program", spited, "--seconds", 10, "--jobs", 8)
        self.assertIn(": 1 drawing of 7", again.said)
        other = made(self.folder, "--program", spited, "--seconds", 9, "--jobs", 8)
        self.assertIn(": 4 drawings of 7", other.said)

    @needs_own_files()
    def test_a_full_disk_costs_no_row(self) -> None:
        self.fill("bracket", "clevis", "unit_cube", "pierced_plate")
        self.state.mkdir()
        full = self.state / "full"
        fill = 'mount -t tmpfs -o size=4k none "$0" && head -c 4000 /dev/zero > "$0/full"; exec "$@"'
        words = ["unshare", "-m", "sh", "-c", fill, str(self.state), *words_of(self.folder)]
        ended = subprocess.run(words, capture_output=True)
        self.assertEqual(set(rows_of(ended.stdout)), {str(file.relative_to(self.folder)) for file in kept(self.folder)}, ended.stderr)
        self.assertIn(b"No space left on device", ended.stderr)
        self.assertFalse(full.exists())

    @needs_module("ezdxf", "python3-ezdxf")
    def test_what_ezdxf_cannot_read_is_asked_as_it_is(self) -> None:
        self.folder.mkdir()
        head, entities, rest = (EXAMPLES / "bracket.dxf").read_text().partition("ENTITIES\n")
        circle = "  0\nCIRCLE\n  8\nNOTES\n 10\n0\n 20\n0\n 40\n9999\n"
        text = "  0\nTEXT\n  8\nNOTES\n 10\nabc\n 20\n5\n 40\n1\n  1\nhello\n"
        (self.folder / "spite.dxf").write_text(head + entities + circle + text + rest)
        row = made(self.folder).rows["spite.dxf"]
        self.assertEqual((row["status"], row["solids"]), ("0", "1"))
        self.assertRegex(row["message"], "volume 48,000; Not checked: 1 CIRCLE on layer NOTES, .*; warning: ezdxf can't read .* as it is; warning: 1 CIRCLE on layer NOTES")
        # What lies within the views and isn't read may be of the part.
        self.assertEqual(row["verdict"], "not_decided")
        self.assertEqual(draft("solve", self.folder / "spite.dxf").status, UNDECIDED)

    def test_every_row_failed(self) -> None:
        self.folder.mkdir()
        for number in range(3):
            (self.folder / f"{number}.dxf").write_text("hello\n")
        ended = made(self.folder)
        self.assertEqual((ended.status, ended.said.splitlines()[-1]), (NOT_READ, "draft table: 3 drawings: 3 not read"))

    def test_links_to_nothing_and_pipes_have_rows(self) -> None:
        """A pipe would be waited for without an end, and a link to nothing was passed over without a word."""
        self.folder.mkdir()
        shutil.copy(EXAMPLES / "unit_cube.dxf", self.folder / "cube.dxf")
        (self.folder / "folder.dxf").mkdir()
        (self.folder / "dangling.dxf").symlink_to("/nowhere/part.dxf")
        (self.folder / "linked.dxf").symlink_to(self.folder / "cube.dxf")
        os.mkfifo(self.folder / "pipe.dxf")
        ended = made(self.folder)
        self.assertEqual({name: (row["status"], row["verdict"], row["message"]) for name, row in ended.rows.items()}, {
            "cube.dxf": ("0", "unique", "volume 1"), "linked.dxf": ("0", "unique", "volume 1"),
            "dangling.dxf": ("refused", "not_read", "not read: a link to /nowhere/part.dxf, which isn't there"),
            "pipe.dxf": ("refused", "not_read", "not read: a pipe, and no file"),
        })
        self.assertEqual((ended.status, ended.said.splitlines()[-1]), (NOT_READ, "draft table: 4 drawings: 2 unique, 2 not read"))
        alone = made(self.folder / "pipe.dxf", self.folder / "dangling.dxf", "--state", self.room / "rows")
        self.assertEqual([row["verdict"] for row in alone.rows.values()], ["not_read"] * 2)

    def test_what_is_refused(self) -> None:
        self.fill("unit_cube")
        options = (("--jobs", "many"), ("--sshlogin", "-"), ("--memory", 1), ("--state", self.folder / "cut.dxf"))
        for words in ((EXAMPLES / "none",), (TOOLS / "drafting",), *((self.folder, *option) for option in options)):
            ended = made(*words)
            self.assertEqual((ended.status, ended.rows), (1, {}), words)
            self.assertRegex(ended.said, "(?s).*draft table: ")


class Progress(unittest.TestCase):
    def test_how_far_it_is(self) -> None:
        tally = passes.Tally(0, 10_000)
        self.assertEqual(tally.text(), "pass 1: 0 of 10,000 rows")
        for number in range(2_000):
            tally.count({"status": "refused" if number < 3 else "failed" if number < 5 else 0, "machine": "one" if number < 500 else ":"})
        with mock.patch("time.monotonic", return_value=tally.began + 10):
            text = tally.text()
        self.assertEqual(text, "pass 1: 2,000 of 10,000 rows, 3 refused, 2 failed; 200 a second, 40 s left; this machine 1,500, one 500")

    def test_times_in_words(self) -> None:
        self.assertEqual([passes.in_time(it) for it in (0.4, 99, 100, 3_000, 7_260)], ["0 s", "99 s", "2 min", "50 min", "2 h 01 min"])

    def test_rows_that_are_kept(self) -> None:
        with tempfile.TemporaryDirectory() as room:
            state = pathlib.Path(room)
            first, second, cut = key_of("first"), key_of("second"), key_of("cut")
            line = json.dumps({"key": first.hex(), **ROW}).encode() + b"\n"
            (state / "rows").write_bytes(b'no row\n{"key": "a"}\n' + line + b'{"key": "c", "st')
            rows = Rows(state)
            self.assertEqual((rows.get(first), rows.get(second), second in rows), (ROW, None, False))
            with self.assertRaises(Refused):
                Rows(state)
            rows.add(second, {**ROW, "solids": 2})
            rows.add(cut, {**ROW, "status": process.CUT_NODES})
            told = (ROW, {**ROW, "solids": 2}, {**ROW, "status": process.CUT_NODES})
            self.assertEqual(tuple(map(rows.get, (first, second, cut))), told)
            rows.file.close()
            again = Rows(state)
            self.assertEqual(tuple(map(again.get, (first, second, cut))), told)
            self.assertEqual([again.is_cut(key) for key in (first, second, cut)], [False, False, True])

    def test_of_a_row_its_place_alone_is_held(self) -> None:
        """A row of 5 kB takes no more than 300 bytes of memory, when it is added and when it is found again; and so does the table of all."""
        record = {**records.of_none("refused", "x"), "notes": ["word " * 1_000]}
        with tempfile.TemporaryDirectory() as room:
            places = [Place(f"{number}.dxf", f"/{number}.dxf") for number in range(1_000)]
            tracemalloc.start()
            self.addCleanup(tracemalloc.stop)
            its = passes.Table(places, Rows(pathlib.Path(room)), pathlib.Path(sys.executable), [], [])
            before = tracemalloc.get_traced_memory()[0]
            for number in range(len(places)):
                its.take(number, 0, {**ROW, "record": record})
            self.assertLess(tracemalloc.get_traced_memory()[0] - before, 300 * len(places))
            its.rows.file.close()
            tracemalloc.reset_peak()
            its.rows = Rows(pathlib.Path(room))
            self.assertEqual(sum(map(len, written(its, "json"))) // len(places) // 1_000, 5)
            self.assertEqual(its.lost_ones(), [])
            self.assertLess(tracemalloc.get_traced_memory()[1] - before, 900 * len(places))

    def test_no_cell_is_a_formula(self) -> None:
        names = ['=HYPERLINK("http://x").dxf', "+1.dxf", "-1.dxf", "@SUM(A1).dxf", "\t=1.dxf", "\r=1.dxf", "a=1.dxf", "'b.dxf"]
        rows: list[Row] = [{"file": name, **ROW, "message": "=cmd|' /C calc'!A1"} for name in names]
        written_ones = list(csv.reader(io.StringIO(b"".join(written(rows, "csv")).decode(), newline="")))[1:]
        self.assertEqual([row[0] for row in written_ones], [*(f"'{name}" for name in names[:6]), *names[6:]])
        self.assertEqual({row[-1] for row in written_ones}, {"'=cmd|' /C calc'!A1"})
        # JSON is for programs, and has each name as it is.
        self.assertEqual([json.loads(line)["drawing"]["file"] for line in written(rows, "json")], names)

    def test_the_counts_of_verdicts(self) -> None:
        for counts, words in (({"unique": 1}, "1 drawing: 1 unique"), ({"not_read": 600}, "600 drawings: 600 not read"),
                              ({"not_decided": 1, "unique": 1_000, "impossible": 2}, "1,003 drawings: 1,000 unique, 1 not decided, 2 impossible")):
            self.assertEqual(table.counted(Counter(counts)), words)

    def test_a_table_as_it_is_written(self) -> None:
        rows: list[Row] = [{"file": "a,b\udcff.dxf", **ROW}, {"file": "line\nend", **ROW, "solids": None, "message": ""}]
        self.assertEqual(b"".join(written(rows, None)).decode(), (
            "file          status verdict solids rounds seconds message\n"
            "a,b\\udcff.dxf 0      unique  1      0      0.50    volume 1\n"
            "line\\nend     0      unique         0      0.50\n"))
        self.assertEqual(b"".join(written(rows, "csv")), (
            b'file,status,verdict,solids,rounds,seconds,message\n"a,b\xff.dxf",0,unique,1,0,0.50,volume 1\n"line\nend",0,unique,,0,0.50,\n'))
        self.assertEqual([json.loads(line)["drawing"]["file"] for line in written(rows, "json")], ["a,b\udcff.dxf", "line\nend"])


ROW: Row = {"status": 0, "verdict": "unique", "solids": 1, "rounds": 0, "seconds": 0.5, "message": "volume 1", "record": None}
