"""Texts name options as whoever reads them has these: no text spells one out, each that one names is there, and the page has a control for it, or
is told that the command line alone has it."""
import argparse
import ast
import html.parser
import json
import os
import re
import subprocess
import sys
import unittest
from collections.abc import Iterator

from drafting.cli import commands as command
from drafting.core import page as documents, executable
from drafting.messages import controls
from drafting.render import page
from drafting.serve import routes

from .support import TOOLS

MODULES = [
    it for folder in ("drafting", "freecad/Recon/recon_addon") for it in sorted((TOOLS / folder).rglob("*.py")) if it.name != "controls.py"
]
SPELLED = re.compile(r"(?<![\w-])--[a-z]")
# An option as a program is given it, and the command of another one.
GIVEN = re.compile(r"--[\w-]+(=\S*)?")
INSTALL = "apt-get install --no-install-recommends"
# What tells the help: there an option is spelled as it is typed.
HELP = ("add_argument", "add_parser", "add_argument_group")
# The options that are named by a variable.
NAMED = {"nodes", "solids", "front", "sheet_page", "part", *documents.SAID}


def texts_in(tree: ast.AST) -> Iterator[str]:
    """The texts of a module, without those of its documentation and help; what is put into one is x."""
    for child in ast.iter_child_nodes(tree):
        if isinstance(child, ast.Expr) and isinstance(child.value, ast.Constant):
            continue
        if isinstance(child, ast.Call) and isinstance(child.func, ast.Attribute) and child.func.attr in HELP:
            continue
        if isinstance(child, ast.Assign) and any(isinstance(it, ast.Name) and it.id == "EPILOG" for it in child.targets):
            continue
        if isinstance(child, ast.JoinedStr):
            yield "".join(str(it.value) if isinstance(it, ast.Constant) else "x" for it in child.values)
            for part in child.values:
                yield from texts_in(part) if isinstance(part, ast.FormattedValue) else ()
        elif isinstance(child, ast.Constant) and isinstance(child.value, str):
            yield child.value
        else:
            yield from texts_in(child)


def named_by(function: str) -> Iterator[tuple[str, list[str]]]:
    """What the texts of all modules name by a function of `controls`, with the words behind it."""
    for file in MODULES:
        for node in ast.walk(ast.parse(file.read_text(encoding="utf-8"))):
            if isinstance(node, ast.Call) and isinstance(node.func, ast.Name) and node.func.id == function:
                words = [it.value for it in node.args if isinstance(it, ast.Constant)]
                if words:
                    yield str(words[0]), [str(it) for it in words[1:]]


def options_of(parser: argparse.ArgumentParser) -> set[str]:
    """The options of a parser and of all commands below it."""
    found = {word for action in parser._actions for word in action.option_strings}
    below = [action for action in parser._actions if isinstance(action, argparse._SubParsersAction)]
    return found.union(*(options_of(one) for action in below for one in action.choices.values()))


class Labels(html.parser.HTMLParser):
    """The words of each label of a page, by the name of its control."""

    def __init__(self) -> None:
        super().__init__()
        self.words, self.name, self.found = "", "", dict[str, str]()

    def handle_starttag(self, tag: str, attrs: list[tuple[str, str | None]]) -> None:
        if tag == "label":
            self.words, self.name = "", ""
        elif tag in ("input", "select"):
            self.name = dict(attrs).get("name") or ""

    def handle_data(self, data: str) -> None:
        self.words += "" if self.lasttag == "option" else data

    def handle_endtag(self, tag: str) -> None:
        if tag == "label":
            self.found[self.name] = self.words.strip()


def told_on(place: str, names: list[str]) -> dict[str, str]:
    """How options are named in a process that tells at a place."""
    script = "import json, sys; from drafting.messages.controls import option; print(json.dumps({it: option(it, 'x') for it in sys.argv[1:]}))"
    around = {**os.environ, "PYTHONPATH": str(executable.FOLDER), controls.VARIABLE: place}
    return dict(json.loads(subprocess.run([sys.executable, "-c", script, *names], env=around, capture_output=True, check=True).stdout))


class Options(unittest.TestCase):
    names = sorted({name for function in ("option", "without") for name, _ in named_by(function)} | {it.replace("_", "-") for it in NAMED})

    def test_no_text_spells_one(self) -> None:
        spelled = [f"{file.name}: {text[:80]}" for file in MODULES for text in texts_in(ast.parse(file.read_text(encoding="utf-8")))
                   if SPELLED.search(text.replace(INSTALL, "")) and not GIVEN.fullmatch(text)]
        self.assertEqual(spelled, [])

    def test_each_is_an_option_of_a_command(self) -> None:
        every = options_of(command.parser_of(command.commands()))
        self.assertGreater(len(self.names), 30)
        self.assertEqual([name for name in self.names if f"--{name}" not in every], [])
        commands = list(named_by("command"))
        self.assertTrue(commands)
        for name, words in commands:
            of_it = options_of(command.parser_of(command.commands(name)))
            self.assertEqual([word for word in words if f"--{word.split()[0]}" not in of_it], [], name)

    def test_each_has_a_control_or_is_the_command_lines(self) -> None:
        labels = Labels()
        labels.feed((page.VIEWER / "table.html").read_text(encoding="utf-8"))
        on_page = told_on("page", self.names)
        for name in self.names:
            control = labels.found.get({"visible-only": "second"}.get(name, name))
            if control is None:
                self.assertEqual(on_page[name], f"the command line's --{name} x")
            else:
                self.assertRegex(on_page[name], r"“.+” x")
                self.assertTrue(control.startswith(on_page[name][1:].partition("”")[0]), (name, control))
                self.assertTrue(name in routes.OPTIONS or name in routes.SWITCHES or name == "visible-only", name)
        self.assertEqual(told_on("", ["scale"]), {"scale": "--scale x"})
        self.assertEqual(told_on("panel", ["scale", "part"]), {"scale": "the command line's --scale x", "part": "“Views of ..” x"})
