"""The English of a verdict, for every place that tells one: a headline, each reason that leaves it open, and what to do; and what came of a sheet
with rounds, beside its solids."""
from ..core.messages import many
from ..core.verdict import Doubt, Kind, Reason, Verdict
from ..recon import process
from ..solve.readings import Readings
from .controls import command, option

WORDS = {Kind.UNIQUE: "Unique", Kind.AMBIGUOUS: "Ambiguous", Kind.NOT_DECIDED: "Not decided", Kind.IMPOSSIBLE: "Impossible", Kind.NOT_READ: "Not read"}
# What FreeCAD is installed by.
FREECAD = "apt-get install --no-install-recommends freecad-python3"


# ---- the verdict

def word(verdict: Verdict) -> str:
    """The verdict in a word or two."""
    return WORDS[verdict.kind]


def matching(count: int) -> str:
    """How many solids match a drawing, as the middle of a sentence."""
    return {0: "no solid matches", 1: "one solid matches"}.get(count, f"{count:,} solids match")


def sentence(verdict: Verdict) -> str:
    """What the verdict says, as a sentence that goes on behind its word and a colon."""
    count = verdict.count
    if verdict.kind is Kind.NOT_READ:
        return verdict.message
    if verdict.kind is Kind.AMBIGUOUS:
        return f"{matching(count)} this drawing. All are listed."
    if verdict.is_decided:
        return f"{matching(count)} this drawing."
    known = f"At least {many(count, 'solid')} {'matches' if count == 1 else 'match'}." if count else "No solid was found."
    if limit := next((it for it in verdict.reasons if it.doubt is Doubt.SEARCH_STOPPED and it.value("limit")), None):
        return f"the search stopped at {option(str(limit.value('limit')), str(limit.value('most')))}. {known}"
    if count:
        return f"at least {matching(count)} this drawing, and there may be more."
    return "no solid was found, and some may match this drawing."


def sentence_alone(verdict: Verdict) -> str:
    """The same as a sentence of its own. Why nothing was read may begin with the name of a file, which isn't changed."""
    text = sentence(verdict)
    return text if verdict.kind is Kind.NOT_READ else text[:1].upper() + text[1:]


def headline(verdict: Verdict) -> str:
    """The verdict's first line, the same in every place."""
    return f"{word(verdict)}: {sentence(verdict)}"


def reasons(verdict: Verdict) -> list[str]:
    """Why it isn't decided, a sentence each."""
    return [it.sentence for it in verdict.reasons]


def advice(verdict: Verdict) -> list[str]:
    """What to do about the reasons, where an option or a package helps."""
    return list(dict.fromkeys(text for it in verdict.reasons if (text := advice_on(it))))


def advice_on(reason: Reason) -> str:
    """What to do about one reason; nothing where nothing is known to help."""
    if reason.doubt is Doubt.SEARCH_STOPPED:
        return limit_advice(reason)
    if reason.doubt is Doubt.READINGS_NOT_TRIED and reason.value("seconds") is None:
        return f"To have all readings tried, ask about the sheet itself, without {option('reading')}."
    if reason.doubt is Doubt.READINGS_NOT_TRIED:
        return f"{option('all-readings')} tries all readings, however long it takes."
    return {Doubt.SECTIONS_NOT_READ: f"{option('sections')} has sections read.",
            Doubt.NOT_COMPARED: f"FreeCAD compares them: {FREECAD}",
            Doubt.STROKES_JOINED: f"{option('strokes', 'hidden')} says that these lines are read as they are meant.",
            Doubt.HIDDEN_NOT_DRAWN: "Have the views show hidden lines.",
            Doubt.FEATURE_UNSUPPORTED: f"{command('why SHEET.dxf')} looks for a line that is wrong."}.get(reason.doubt, "")


def limit_advice(reason: Reason) -> str:
    """What to do where the search stopped at a limit: raise that, as far as it goes."""
    limit, most = str(reason.value("limit")), reason.value("most")
    greatest = {"nodes": process.MOST_NODES, "solids": process.MOST_SOLIDS}.get(limit)
    if greatest is None or not isinstance(most, int):
        return ""
    if most >= greatest:
        return "Draw what tells the solids apart, or less of the part."
    return f"Raise the limit by {option(limit)}, to {greatest:,} at most."


def next_step(verdict: Verdict) -> str:
    """What to do about a drawing that is decided, and doesn't have one solid."""
    if verdict.kind is Kind.IMPOSSIBLE:
        return f"{command('why SHEET.dxf')} looks for the wrong line."
    if verdict.kind is Kind.AMBIGUOUS:
        return f"{command('settle SHEET.dxf')} names the view or section that tells them apart."
    return ""


def told(verdict: Verdict) -> list[str]:
    """The verdict in lines, in a shell: the headline, the reasons, and what to do."""
    first = headline(verdict)
    if verdict.kind is Kind.IMPOSSIBLE:
        return [f"{first} {next_step(verdict)}", *reasons(verdict)]
    return [first, *reasons(verdict), *advice(verdict), *filter(None, [next_step(verdict)])]


# ---- beside the verdict of a sheet with rounds

def scope(rounds: Readings) -> str:
    """Of which parts the verdict speaks, where curves were squared off."""
    given = rounds.likeliest.given if rounds.likeliest else None
    crossed = " or crossing others as a hole does" if given and given.is_crossed else ""
    return (f"This speaks of parts made of boxes and these {given.kinds if given else 'rounds'}, each standing free{crossed}. "
            "It is tested, not proved.")


def details(rounds: Readings) -> list[str]:
    """What came of the solids of the squared-off drawing, in sentences."""
    one = rounds.shown
    if one is None:
        return []
    more = [f"Solids come of {len(rounds.kept):,} readings of the sheet. Pages show those of the first one."] if len(rounds.kept) > 1 else []
    return [*one.outcome.told(), *more, *([scope(rounds)] if rounds.kept else [])]
