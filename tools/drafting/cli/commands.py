"""The arguments, commands and statuses of `draft`."""
import argparse
import importlib
import os
import platform
import sys
import textwrap
from types import ModuleType
from typing import NoReturn

from .. import __version__
from ..core import provenance
from ..core.messages import Progress, Refused, Usage, say
from ..recon import shipped
from ..sheet.view_files import with_standard_input

# The commands, in the order in which the help tells them, and the module of each, with NAME, HELP, add_arguments(parser) and
# run(arguments), which answers the status. What a command needs beyond Python is imported by its run alone.
MODULES = {
    "sheet": "sheet.pipeline", "solve": "cli.solve", "serve": "cli.serve", "ready": "serve.prefork", "follow": "live.search",
    "why": "explain.why", "settle": "explain.settle", "judge": "explain.judge", "prove": "explain.proof", "check": "cli.check",
    "table": "cli.table", "batch": "table.worker", "step": "export.step", "stl": "export.stl", "clean": "cli.clean", "chosen": "cli.chosen",
    "page": "render.page", "picture": "render.picture", "stages": "render.stages", "views": "export.views", "triangles": "export.triangles",
}

EPILOG = """\
Results go to standard output, or into the file of --output, and only where the status is 0; words for people go to standard
error. The status is 1 where an input is refused, 2 where the arguments aren't taken; 12 where solve has another number of solids than
--expect says, and 13 where it lists some solids by --visible-edges-alone. A drawing may be `-`, standard input. None of this is proved: the program that it runs is, and each thing that is changed,
left out or taken here is told."""


class Help(argparse.HelpFormatter):
    """Help whose paragraphs are filled to the width of the terminal, 80 columns where there is none; indented ones stay as they are."""

    def _fill_text(self, text: str, width: int, indent: str) -> str:
        paragraphs = text.strip("\n").split("\n\n")
        return "\n\n".join(it if it.startswith(" ") else textwrap.fill(it, width, initial_indent=indent, subsequent_indent=indent)
                           for it in paragraphs)


def commands(word: str = "") -> list[ModuleType]:
    """The commands; where a word names one of them that one alone, since the others take time to begin."""
    return [importlib.import_module(f"drafting.{MODULES[name]}") for name in ([word] if word in MODULES else MODULES)]


class Versions(argparse.Action):
    """Prints the version of this program and of what it runs on, and which program of recon it uses. These are looked for then alone, since
    that takes a while."""

    def __call__(self, parser: argparse.ArgumentParser, *_: object) -> NoReturn:
        ezdxf = provenance.version_of_ezdxf()
        print(f"draft {__version__} (Python {platform.python_version()}, {f'ezdxf {ezdxf}' if ezdxf else 'no ezdxf'})")
        print(shipped.described())
        parser.exit()


def parser_of(modules: list[ModuleType]) -> argparse.ArgumentParser:
    parser = argparse.ArgumentParser(
        prog="draft", description="Programs round recon, for drawings as people make them.", epilog=EPILOG, allow_abbrev=False,
        formatter_class=Help,
    )
    parser.add_argument("--version", action=Versions, nargs=0, help="show program's version number and exit")
    choices = parser.add_subparsers(dest="command", metavar="COMMAND", required=True)
    for module in modules:
        one = choices.add_parser(
            module.NAME, help=module.HELP, description=module.__doc__, allow_abbrev=False,
            formatter_class=Help,
        )
        module.add_arguments(one)
        one.set_defaults(run=module.run)
    return parser


def main(words: list[str] | None = None) -> int:
    """Runs the command that the words name, else those that the process was begun with, and answers its status."""
    words = sys.argv[1:] if words is None else words
    arguments = parser_of(commands(*words[:1])).parse_args(words)
    Progress.is_wanted = True
    try:
        with with_standard_input(arguments):
            return int(arguments.run(arguments))
    except Refused as refusal:
        say(f"draft {arguments.command}: {refusal}")
        return 2 if isinstance(refusal, Usage) else 1
    except BrokenPipeError:
        # Whoever reads has gone: nothing is left to be told, and nothing may be flushed at the end.
        os.dup2(os.open(os.devnull, os.O_WRONLY), sys.stdout.fileno())
    except OSError as failure:
        say(f"draft {arguments.command}: {failure.filename or 'input or output'}: {failure.strerror}")
    except KeyboardInterrupt:
        Progress.clear()
        return 130
    return 1
