"""The built program, for the scripts of bench/ and hostile/: where it is, what it runs on, and runs that are timed."""
import argparse
import os
import pathlib
import resource
import shutil
import subprocess
import sys
import tempfile
import threading
import time
from collections.abc import Sequence
from typing import Any, NamedTuple

TOP = pathlib.Path(__file__).resolve().parent.parent
BUILT = TOP / "crates" / "recon" / "out" / "recon"
# How many bytes of what is let go are read at once.
DRAINED = 1 << 20
# A command with its words, and a file, as `subprocess` and `open` take them.
File = str | os.PathLike[str]
Command = Sequence[File]


class Run(NamedTuple):
    """A run: its time by the clock and that of the processors, in seconds; the most memory that it held at once, in bytes, where
    that was asked for; its status, below 0 where a signal ended it; and what was kept of what it wrote."""

    seconds: float
    used: float
    memory: int
    status: int
    wrote: bytes

    @property
    def text(self) -> str:
        return self.wrote.decode(errors="replace")


def built(name: str) -> pathlib.Path:
    """The program of this name, as an argument gives it."""
    path = pathlib.Path(name).resolve()
    if not os.access(path, os.X_OK) or path.is_dir():
        how = "(cd crates/recon && rt run -- solve < ../../examples/unit_cube.dxf)"
        raise argparse.ArgumentTypeError(f"{path} isn't built: {how} builds it, once it has proved everything, for about an hour")
    return path


def parser(description: str | None) -> argparse.ArgumentParser:
    """The arguments of a script: the description of it, and the program, that of this repository if none is named."""
    reader = argparse.ArgumentParser(description=description, formatter_class=argparse.RawDescriptionHelpFormatter)
    reader.add_argument("program", nargs="?", type=built, default=str(BUILT), help=f"another build than {BUILT}")
    return reader


def machine() -> str:
    """What the figures are taken on, and when."""
    with open("/proc/cpuinfo") as info:
        names = [line.partition(":")[2].strip() for line in info if line.startswith("model name")]
    return f"{(names or ['an unknown processor'])[0]}, {os.cpu_count()} processors, {time.strftime('%Y-%m-%d')}"


def begin(command: Command, file: File = os.devnull, **how: Any) -> "subprocess.Popen[bytes]":
    """Begins a command whose standard input is the file."""
    with open(file, "rb") as text:
        return subprocess.Popen(command, stdin=text, **how)


def wait(process: "subprocess.Popen[bytes]", most: int | None) -> tuple[bytes, int, resource.struct_rusage]:
    """What a process writes, up to so many bytes if that is told, its status, and what it used, once it has ended."""
    wrote = b""
    if process.stdout:
        with process.stdout as output:
            wrote = output.read(-1 if most is None else most)
            while output.read(DRAINED):
                pass
    _, told, used = os.wait4(process.pid, 0)
    process.returncode = os.waitstatus_to_exitcode(told)
    return wrote, process.returncode, used


def gnu_time() -> str:
    """GNU time, by which the most memory is told: a look from here would count what this process held when it began the run."""
    return shutil.which("time") or sys.exit("GNU time isn't installed: apt-get install time")


def timed(
    command: Command, file: File = os.devnull, into: File | None = None, most: int | None = None, memory: bool = False, patience: float | None = None
) -> Run:
    """Runs a command whose standard input is the file. What it writes goes into another file, if one is named, and else is kept,
    up to so many bytes. It is killed after so many seconds."""
    with tempfile.NamedTemporaryFile() as note, open(into or os.devnull, "wb") as writes:
        before = [gnu_time(), "-f", "%M", "-o", note.name] if memory else []
        output: dict[str, Any] = {"stdout": writes if into else subprocess.PIPE, "stderr": subprocess.STDOUT}
        began = time.perf_counter()
        process = begin([*before, *command], file, **output)
        killer = threading.Timer(patience or 0, process.kill)
        if patience:
            killer.start()
        wrote, status, used = wait(process, most)
        seconds = time.perf_counter() - began
        killer.cancel()
        held = int(note.read().split()[-1]) * 1024 if memory else 0
    return Run(seconds, used.ru_utime + used.ru_stime, held, status, wrote)
