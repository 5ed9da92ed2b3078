"""What the tests share: running `draft`, and what they need of packages and of the built program."""
import importlib.util
import os
import pathlib
import shutil
import subprocess
import unittest
from collections.abc import Callable
from typing import Any, NamedTuple

from drafting.core.messages import Refused
from drafting.core.notes import Note, Tell
from drafting.recon import process

TOOLS = pathlib.Path(__file__).resolve().parent.parent
EXAMPLES = TOOLS.parent / "examples"
# Why tests that take minutes are left out.
LONG = "takes minutes: tools/check --long"


class Ended(NamedTuple):
    """How a run of `draft` ended: its status, standard output and standard error."""

    status: int
    out: str
    said: str


def draft(*words: object, data: bytes = b"", seconds: float = 600) -> Ended:
    command = [str(TOOLS / "draft"), *map(str, words)]
    done = subprocess.run(command, input=data, capture_output=True, timeout=seconds)
    return Ended(done.returncode, done.stdout.decode(), done.stderr.decode())


def in_words(said: list[str]) -> Tell:
    """Takes what is told as sentences."""
    def take(note: Note) -> None:
        said.append(str(note))

    return take


def is_built() -> bool:
    try:
        return bool(process.find())
    except Refused:
        return False


Decorated = Callable[[Any], Any]


def needs_program() -> Decorated:
    return unittest.skipUnless(is_built(), f"recon isn't there: {process.BUILD}")


def needs_module(module: str, package: str, folder: str = "") -> Decorated:
    """A module of Python, on its path or in a folder beside it."""
    is_there = importlib.util.find_spec(module) or folder and (pathlib.Path(folder) / f"{module}.so").exists()
    return unittest.skipUnless(is_there, f"apt-get install {package}")


def needs_long() -> Decorated:
    return unittest.skipUnless(os.environ.get("DRAFT_LONG"), LONG)


def needs_command(command: str, package: str) -> Decorated:
    return unittest.skipUnless(shutil.which(command), f"apt-get install {package}")
