"""The manual pages and the completion of the package. Those of recon, whose own words are fixed, are made of docs/OUTPUT.md and
docs/DXF.md; those of `draft` of its arguments."""
import argparse
import ast
import pathlib
import re
import subprocess

from build_manpages.manpage import Manpage
from drafting.cli import commands as command
from drafting.core.messages import Refused
from drafting.recon.process import TOP

OUTPUT, DXF = TOP / "docs" / "OUTPUT.md", TOP / "docs" / "DXF.md"
ARGUMENTS = "Commands and options"
# The sections of these pages that the manual has, and its names for them.
SECTIONS = {"ARGUMENTS": (OUTPUT, ARGUMENTS), "STATUSES": (OUTPUT, "Exit statuses"), "FAULTS": (DXF, "Faults")}
# Commands are completed as the first word, then their options and the values of these; else files are.
COMPLETION = """\
_{name}() {{
    local word=${{COMP_WORDS[COMP_CWORD]}} options=
    case "$COMP_CWORD ${{COMP_WORDS[1]}} ${{COMP_WORDS[COMP_CWORD-1]}}" in
    1\\ *) options="{first}" ;;
{values}
    esac
    if [[ -z $options && $word == -* ]]; then
        case ${{COMP_WORDS[1]}} in
{options}
        esac
    fi
    mapfile -t COMPREPLY < <(compgen -W "$options" -- "$word")
}}
complete -o bashdefault -o default -F _{name} {name}
"""
SEE = "# SEE ALSO\n\n{others}. /usr/share/doc/recon has DXF.md and OUTPUT.md, on all that is read and written, PROVED, and examples.\n"
RECON = """\
# NAME

recon - lists every solid that has the views of a drawing

# SYNOPSIS

recon COMMAND \\[NUMBER\\] \\[OPTION..\\] < DRAWING.dxf

# DESCRIPTION

Reads a three-view drawing from standard input, an ASCII DXF file with its lines on the layers FRONT, TOP and SIDE, and writes every
solid that has exactly these views, each once, on standard output. For sheets as people draw them, see draft(1).

"""


def section(page: pathlib.Path, name: str) -> str:
    """A section of a page, without its heading."""
    found = re.search(rf"^## {name}\n(.*?)(?=^## |\Z)", page.read_text(encoding="utf-8"), re.M | re.S)
    if not found:
        raise Refused(f"{page} has no section '{name}'")
    return found[1].strip()


def manual(name: str, text: str) -> str:
    """Markdown as a manual page; of links their words are left."""
    words = re.sub(r"\[([^]]*)\]\([^)]*\)", r"\1", text)
    ended = subprocess.run(["lowdown", "-s", "-tman", "-"], input=f"title: {name}\nsection: 1\n\n{words}", capture_output=True, text=True)
    if ended.returncode:
        raise Refused(f"lowdown: {ended.stderr.strip()}")
    # Tables need tbl, which the first line asks for.
    return f"'\\\" t\n{ended.stdout}"


def of_recon() -> str:
    body = "".join(f"# {ours}\n\n{section(*theirs)}\n\n" for ours, theirs in SECTIONS.items())
    return manual("recon", RECON + body + SEE.format(others="draft(1), recon-check-log(1)"))


def of_draft() -> str:
    page = str(Manpage(command.parser_of(command.commands())))
    return page.replace(".SH NAME\ndraft\n", ".SH NAME\ndraft \\- from drawings as people make them to recon, and on to solids\n", 1)


def of_check_log() -> str:
    told = ast.get_docstring(ast.parse((TOP / "tools" / "check_log.py").read_text(encoding="utf-8"))) or ""
    head = "# NAME\n\nrecon-check-log - sees whether a log shows that the solids it lists are all\n\n"
    return manual("recon-check-log", f"{head}# DESCRIPTION\n\n{told}\n\n{SEE.format(others='recon(1)')}")


# ---- completion

# A command's options, each with the values that it takes, where these are few.
Options = dict[str, list[str]]


def of_output() -> dict[str, Options]:
    """The commands of recon and their options, as the first table of OUTPUT.md has them."""
    rows = re.findall(r"^\| `([^`]*)` \| [^|]* \| ([^|]*) \|$", section(OUTPUT, ARGUMENTS), re.M)
    return {words.split()[0]: dict.fromkeys(re.findall(r"--[\w-]+", options), []) for words, options in rows if not words.startswith("-")}


def of_arguments() -> dict[str, Options]:
    """The commands of `draft` and their options."""
    found = {}
    for module in command.commands():
        parser = argparse.ArgumentParser()
        module.add_arguments(parser)
        found[module.NAME] = {word: list(map(str, action.choices or [])) for action in parser._actions for word in action.option_strings}
    return found


def completion(name: str, commands: dict[str, Options], others: str = "") -> str:
    values = [(f"*\\ {command}\\ {option}", words) for command, options in commands.items() for option, words in options.items() if words]
    return COMPLETION.format(
        name=name, first=" ".join([*commands, *others.split()]),
        values="\n".join(f'    {pattern}) options="{" ".join(words)}" ;;' for pattern, words in values),
        options="\n".join(f'        {command}) options="{" ".join(options)}" ;;' for command, options in commands.items()),
    )


def completions() -> dict[str, str]:
    return {"recon": completion("recon", of_output()), "draft": completion("draft", of_arguments(), "--help --version")}
