"""The proved program: where it is, and runs of it with limits of time."""
import argparse
import os
import pathlib
import shutil
import signal
import subprocess
import time
from typing import NamedTuple

from ..core.messages import Refused
from ..messages.controls import option

TOP = pathlib.Path(__file__).resolve().parents[3]
BUILT = TOP / "crates" / "recon" / "out" / "recon"
# The proved program that stands in the repository (`shipped.py`).
SHIPPED = TOP / "bin" / "recon"
# How it is built, and what that costs.
BUILD = "(cd crates/recon && rt run -- solve < ../../examples/unit_cube.dxf) builds it, once it has proved everything, for an hour or two"
# The most seconds that one run may take, unless the caller says otherwise.
SECONDS = 3600.0

# The program's statuses, as docs/OUTPUT.md has them.
WHOLE, FAULT, USAGE, CUT_NODES, CUT_SOLIDS, NO_INPUT, NO_OUTPUT, NO_MEMORY, NO_SUCH_SOLID, NO_LOG = range(10)
# What it is given where one of the main views isn't drawn.
TWO_VIEWS = "--two-views"
# What it is given where it is to read sections.
SECTIONS = "--sections"
# The greatest values that its options take.
MOST_NODES, MOST_SOLIDS, MOST_WORKERS, MOST_DECIMALS = 4_000_000, 65_536, 64, 6


class Failed(Refused):
    """A run that came to no end of its own, or ran out of memory."""


class NoProgram(Refused):
    """There is no program to be run."""


class TimedOut(Failed):
    """A run that took longer than it may."""


class Run(NamedTuple):
    """A run of the program: its status, what it wrote on standard output, and how many seconds it took."""

    status: int
    text: str
    seconds: float


def add_arguments(parser: argparse.ArgumentParser) -> None:
    """The options that say which program is run, and for how long."""
    parser.add_argument("--program", metavar="PATH", help="recon's program (else $RECON, the one built here if it is newer than bin/recon, bin/recon, recon on the path)")
    parser.add_argument("--seconds", type=float, default=SECONDS, help="the most seconds that a run of it may take")


def find(named: str | None = None) -> pathlib.Path:
    """The program: the one that is named, else the one that RECON names, else the one that was built here if it is newer than the
    repository's, else the repository's, else the one on the path."""
    for path, who in ((named, option("program")), (os.environ.get("RECON"), "RECON")):
        if path and not is_program(path):
            raise NoProgram(f"{path}, which {who} names, is no program that may be run")
        if path:
            return pathlib.Path(path).resolve()
    own = sorted((path for path in (SHIPPED, BUILT) if is_program(path)), key=lambda path: path.stat().st_mtime_ns)
    found = str(own[-1]) if own else shutil.which("recon")
    if not found:
        raise NoProgram(f"recon isn't there: {ways()}")
    return pathlib.Path(found).resolve()


def is_program(path: str | pathlib.Path) -> bool:
    return os.access(path, os.X_OK) and not os.path.isdir(path)


def ways() -> str:
    """How to come by the program."""
    others = f"apt install ./recon_VERSION_ARCH.deb, its package; or name one that is elsewhere by {option('program')} or RECON"
    unproved = "CONTRIBUTING.md says how to have one answer unproved, in minutes"
    return f"{BUILD}; or {others}; {unproved}" if (TOP / "crates" / "recon").is_dir() else others


def run(program: pathlib.Path, words: list[object], data: bytes, seconds: float = SECONDS) -> Run:
    """Runs the program over a drawing. Refused where it takes too long, is ended by a signal, or says what it never says."""
    began = time.monotonic()
    command = [str(program), *map(str, words)]
    try:
        ended = subprocess.run(command, input=data, capture_output=True, timeout=seconds)
    except subprocess.TimeoutExpired:
        raise TimedOut(f"recon {' '.join(command[1:])} took longer than {seconds:g} seconds") from None
    check(program, command[1:], ended.returncode, ended.stderr)
    return Run(ended.returncode, ended.stdout.decode("latin-1"), time.monotonic() - began)


def check(program: pathlib.Path, words: list[str], status: int, said: bytes) -> None:
    """Refuses a run that was ended by a signal, that says what the program never says, or that has no answer."""
    if status < 0:
        raise Failed(f"recon was ended by {signal.Signals(-status).name}")
    if said or status > NO_LOG:
        told = said.decode(errors="replace").strip()[:200]
        raise Refused(f"{program} isn't recon, or not as it is known here: status {status} {told}")
    if status in (USAGE, NO_INPUT, NO_OUTPUT, NO_MEMORY):
        why = {USAGE: "doesn't take the arguments " + " ".join(words), NO_INPUT: "couldn't read its input",
               NO_OUTPUT: "couldn't write its output", NO_MEMORY: "ran out of memory"}[status]
        raise (Failed if status == NO_MEMORY else Refused)(f"recon {why}")
