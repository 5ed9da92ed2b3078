"""Imports what a drawing needs, and then waits to be told of one: so `draft serve` has a process at hand when a drawing is dropped in. To begin
one only then would take about as long as all the rest until its first solid is seen. Each still runs one command alone, within limits of its
own, and ends with that.

Standard input is who asked. Its first line, in JSON, says the command, where it runs, and on which processors; what follows is the command's.
Its end before that is the end.
"""
import argparse
import contextlib
import json
import os
import resource

from ..cli import commands
from ..core.messages import Refused
from ..dxf import reader

NAME = "ready"
HELP = "be ready for a command; `draft serve` runs it"

# Under a limit of less memory, in bytes, what sheets alone need isn't imported before one comes.
ROOMY = 256 << 20


def add_arguments(parser: argparse.ArgumentParser) -> None:
    pass


def prepare() -> None:
    commands.commands("follow")
    most = resource.getrlimit(resource.RLIMIT_AS)[0]
    if most == resource.RLIM_INFINITY or most >= ROOMY:
        with contextlib.suppress(Refused):
            reader.library()


def run(arguments: argparse.Namespace) -> int:
    prepare()
    # Byte by byte, so that what follows the line is left to the command.
    with open(0, "rb", buffering=0, closefd=False) as asking:
        line = asking.readline()
    if not line.endswith(b"\n"):
        return 0
    try:
        told = json.loads(line)
        words, folder, processors = told["words"], told["folder"], told["processors"]
    except (KeyError, TypeError, ValueError):
        raise Refused("the line is none that `draft serve` tells") from None
    os.sched_setaffinity(0, processors)
    os.chdir(folder)
    os.environ["TMPDIR"] = folder
    return commands.main(words)
