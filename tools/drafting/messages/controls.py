"""Options and commands as whoever reads of them has them: in a shell in its own words, on the page of `draft serve` and in FreeCAD's panel by the
names of the controls there. Where a process tells what it tells is said in its environment when it begins: so each text is right as it is made."""
import os
import shlex

# The variable that says where: `page`, `panel`, or, where there is none, a shell.
VARIABLE = "DRAFT_TOLD_ON"
AS_IS = "as it is, not as a sheet"
# The controls that each place has for options, by the names that viewer/table.html and FreeCAD's panel show.
CONTROLS = {
    "page": {
        "hidden": "Hidden lines", "visible": "Visible lines", "leave-out": "Leave out", "scale": "Scale", "angle": "Angle", "solids": "Most solids",
        "nodes": "Most nodes", "tolerance": "Noise", "decimals": "Decimals", "sheet-decimals": "Decimals of the sheet",
        "all-visible": "no line is hidden", "as-drawn": "lengths are as drawn", "as-is": AS_IS, "sections": "with its sections",
        "sheet-page": "Page", "part": "Part", "unit": "Unit", "visible-only": "The same sheet without hidden lines",
    },
    "panel": {"part": "Views of .."},
}
# What each place does by itself, and a shell by a command.
COMMANDS = {"page": {"sheet": f"this page, with “{AS_IS}” off,"}}
WHERE = os.environ.get(VARIABLE, "")


def option(name: str, *values: str) -> str:
    """An option with its values; what has no control is said to be the command line's."""
    if name in CONTROLS.get(WHERE, {}):
        return " ".join([f"“{CONTROLS[WHERE][name]}”", *filter(None, ["; ".join(values)])])
    words = " ".join(f"--{name} {shlex.quote(value)}" for value in values) or f"--{name}"
    return f"the command line's {words}" if WHERE in CONTROLS else words


def without(name: str) -> str:
    """That an option isn't to be said."""
    return f"leave {option(name)} empty" if name in CONTROLS.get(WHERE, {}) else f"leave out {option(name)}"


def command(name: str, *options: str) -> str:
    """A command of `draft`, with options of it."""
    words = " ".join(["draft", name, *(f"--{it}" for it in options)])
    return COMMANDS.get(WHERE, {}).get(name) or f"{'the command ' if WHERE in CONTROLS else ''}`{words}`"
