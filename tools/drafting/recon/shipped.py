"""The proved program that stands in the repository: `bin/recon`, and the file `bin/PROVED`, which says of which sources the gate built it.

PROVED has a name and a value a line:

    program    the sha256 of bin/recon
    sources    the sum of all that it was proved and built of (`sum_of_sources`)
    toolchain  what `rt version` says
    date       when the gate passed, as 2026-12-02
    gate       the gate's last line: how many crates, tests and programs passed
"""
import hashlib
import os
import pathlib
from typing import NamedTuple

from ..core.messages import Refused
from . import process

# The names of PROVED's lines, in their order.
NAMES = ("program", "sources", "toolchain", "date", "gate")
# What the gate reads beside the folder of the crates.
BESIDE = ("crates.txt", "HANDLES")
# What builds leave in a crate's folder.
LEFT_BY_BUILDS = frozenset({"out", "__pycache__"})


class Proved(NamedTuple):
    """What bin/PROVED says."""

    program: str
    sources: str
    toolchain: str
    date: str
    gate: str

    def text(self) -> str:
        """The text of the file."""
        return "".join(f"{name:<10} {value}\n" for name, value in zip(NAMES, self))


def read(text: str) -> Proved:
    """What the text of a file PROVED says. Refused where a line lacks, or there is another one."""
    values = dict(line.split(maxsplit=1) for line in text.splitlines() if len(line.split()) > 1)
    if tuple(values) != NAMES:
        raise Refused(f"bin/PROVED has the lines {', '.join(values) or 'none'}; expected {', '.join(NAMES)}: tools/refresh-bin writes it")
    return Proved(*(values[name] for name in NAMES))


def sum_of_file(file: pathlib.Path) -> str:
    """The sha256 of a file's bytes."""
    return hashlib.sha256(file.read_bytes()).hexdigest()


def sources(top: pathlib.Path) -> list[pathlib.Path]:
    """The files that the gate proves and builds: all below crates/ but what builds leave there, and those beside it that it reads."""
    found = [top / name for name in BESIDE if (top / name).is_file()]
    for folder, folders, files in os.walk(top / "crates"):
        folders[:] = [name for name in folders if name not in LEFT_BY_BUILDS]
        found += [pathlib.Path(folder, name) for name in files]
    return sorted(found, key=lambda file: file.relative_to(top).as_posix())


def sum_of_sources(top: pathlib.Path) -> str:
    """The sha256 over the path, length and bytes of each source, in the order of their paths."""
    total = hashlib.sha256()
    for file in sources(top):
        data = file.read_bytes()
        total.update(f"{file.relative_to(top).as_posix()}\0{len(data)}\0".encode())
        total.update(data)
    return total.hexdigest()


def faults(top: pathlib.Path, built: pathlib.Path, toolchain: str) -> list[str]:
    """Why the program in bin/ isn't the one that the gate proved and built of the sources here: nothing where it is. Under another toolchain
    than PROVED's the built program isn't looked at, since another compiler may write other bytes."""
    try:
        proved = read((top / "bin" / "PROVED").read_text(encoding="utf-8"))
    except FileNotFoundError:
        return ["bin/PROVED isn't there"]
    if sum_of_file(top / "bin" / "recon") != proved.program:
        return ["bin/recon isn't the program of bin/PROVED: their sums differ"]
    if sum_of_sources(top) != proved.sources:
        return ["the sources under crates/ have changed since bin/recon was built of them"]
    if toolchain == proved.toolchain and sum_of_file(built) != proved.program:
        return [f"{built} isn't bin/recon, byte for byte, though sources and toolchain are the same"]
    return []


def described() -> str:
    """Which program `draft` uses, and whether it is the one of bin/PROVED."""
    try:
        program = process.find()
    except Refused as refusal:
        return f"recon: {refusal}"
    try:
        proved = read((process.TOP / "bin" / "PROVED").read_text(encoding="utf-8"))
    except (OSError, Refused):
        return f"recon: {program}"
    if sum_of_file(program) == proved.program:
        return f"recon: {program}, the program that the gate proved and built on {proved.date} (its sum is that of bin/PROVED)"
    return f"recon: {program}. Not checked: its sum isn't that of bin/PROVED, so this may be another program."
