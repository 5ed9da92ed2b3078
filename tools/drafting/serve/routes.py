"""What a page of this machine may ask of `draft serve`. It sends a drawing and options out of a list, and asks piece by piece for what is
told of it. Only pages that it served itself are answered: the names of host and origin and a token are checked at each request."""
import hmac
import json
import re
import secrets
from typing import Any

import flask
from werkzeug.exceptions import HTTPException

from ..core.messages import Refused
from ..dxf.drawing import MILLIMETRES, VIEWS, is_known
from ..recon import process
from ..render import page
from .jobs import Desk, Job, Unfit, told_of_failure

# The most bytes of a file, and of a request with two of them.
MOST_FILE = 16 << 20
MOST_REQUEST = 2 * MOST_FILE + (1 << 16)
WHICH = r"(color|colour|layer|linetype|group)=[^\x00-\x1f]{1,100}"
NUMBER = r"\d{1,6}(\.\d{1,6})?"
NAME = r"[^\x00-\x1f]{1,1000}"
# What may be said of a drawing, and what each may be.
OPTIONS = {
    "solids": r"[1-9]\d{0,4}", "nodes": r"[1-9]\d{0,6}", "decimals": "[0-6]", "sheet-decimals": "[0-6]", "angle": "third|first",
    "scale": f"{NUMBER}:{NUMBER}", "tolerance": r"\d{0,3}\.?\d{1,9}", "hidden": WHICH, "visible": WHICH, "leave-out": WHICH,
    "sheet-page": NAME, "part": NAME, "unit": "|".join(MILLIMETRES),
}
SWITCHES = ("as-is", "all-visible", "as-drawn", "sections")
MOST_OPTIONS = 40
# The most letters of a layer's name, as one may be named.
MOST_NAME = 64
# The forms in which a solid is saved, and the commands for that; and the drawings that a first page offers.
FORMS = {"dxf": "clean", "stl": "stl", "step": "step"}
EXAMPLES = ("clevis", "quartered_cube")
# How long a page waits for what is told next, in seconds.
WAIT = 0.5
HEADERS = {
    "Cache-Control": "no-store", "X-Content-Type-Options": "nosniff", "Referrer-Policy": "no-referrer", "X-Frame-Options": "DENY",
    "Cross-Origin-Resource-Policy": "same-origin",
}
# What a page that was served may do beside what its file says of its scripts and styles.
POLICY = "connect-src 'self'; base-uri 'none'; form-action 'none'; frame-ancestors 'none'"

asked_for = flask.Blueprint("asked_for", __name__)


# ---- who asks

def check(port: int, token: str) -> None:
    """Refuses what comes by another name of this machine, from a page of another origin, or without the token."""
    request = flask.request
    hosts = (f"127.0.0.1:{port}", f"localhost:{port}")
    if request.headers.get("Host", "") not in hosts:
        raise Unfit(403, f"this server answers at 127.0.0.1:{port} alone")
    origin = request.headers.get("Origin")
    is_own = origin in [f"http://{host}" for host in hosts] or origin is None and request.method in ("GET", "HEAD")
    # The page itself is opened from a file too, whose site no browser names.
    is_opened = request.method == "GET" and request.path == "/" and request.headers.get("Sec-Fetch-Mode") == "navigate"
    if not is_own or request.headers.get("Sec-Fetch-Site", "none") not in ("none", "same-origin") and not is_opened:
        raise Unfit(403, "this server answers pages of its own alone")
    told = request.headers.get("X-Draft-Token") or (request.args.get("token") if request.method == "GET" else None) or ""
    if not hmac.compare_digest(told.encode(), token.encode()):
        raise Unfit(403, "the token is missing or another one: open the address that `draft serve` told")


def refusal(error: Exception) -> flask.Response:
    """A refusal in words."""
    text, status = str(error), 503
    if isinstance(error, Unfit):
        status = error.status
    elif isinstance(error, HTTPException):
        text, status = error.name, error.code or 500
    elif isinstance(error, OSError):
        text, status = told_of_failure(error), 507
    elif isinstance(error, RecursionError):
        text, status = "the request is no JSON, or nested too deep", 400
    return flask.Response(f"{text}\n", status, mimetype="text/plain")


def secured(response: flask.Response) -> flask.Response:
    response.headers.update(HEADERS)
    return response


# ---- what is asked

def words_of(told: object) -> list[str]:
    """The options of a request as words for `draft`."""
    if not isinstance(told, list) or len(told) > MOST_OPTIONS:
        raise Unfit(400, "the options aren't a list")
    words = []
    for option in told:
        if option in SWITCHES:
            words.append(f"--{option}")
        elif isinstance(option, list) and len(option) == 2 and all(isinstance(part, str) for part in option):
            name, value = option
            if name not in OPTIONS or not re.fullmatch(OPTIONS[name], value):
                raise Unfit(400, f"no such option: {name[:40]} {value[:100]}")
            words.append(f"--{name}={value}")
        else:
            raise Unfit(400, "no such option")
    return words


def desk() -> Desk:
    found = flask.current_app.config["DESK"]
    assert isinstance(found, Desk)
    return found


def asked() -> dict[str, Any]:
    """What a request of a page asks, in JSON."""
    told = flask.request.get_json(force=True, silent=True)
    if not isinstance(told, dict):
        raise Unfit(400, "the request is no JSON")
    return told


def number_in(told: dict[str, Any]) -> str:
    number = told.get("number")
    if not isinstance(number, int) or isinstance(number, bool) or not 1 <= number <= process.MOST_SOLIDS:
        raise Unfit(400, f"no number of a solid from 1 to {process.MOST_SOLIDS:,}")
    return str(number)


def choice_in(told: dict[str, Any]) -> str:
    choice = told.get("choice")
    if not isinstance(choice, str) or not re.fullmatch("[01]{1,4096}", choice):
        raise Unfit(400, "no choice of a solid")
    return choice


def take_files(job: Job) -> None:
    """Keeps a request's drawing, and its second export without hidden lines, in the job's room, by what is left of their names."""
    files = flask.request.files
    if "drawing" not in files:
        raise Unfit(400, "no drawing in the request")
    try:
        job.options = json.loads(flask.request.form.get("options", "[]"))
        job.words = words_of(job.options)
    except ValueError:
        raise Unfit(400, "the options are no JSON") from None
    job.name = re.sub(r"[\x00-\x1f\x7f]", "", files["drawing"].filename or "")[:200] or "drawing"
    visible = job.room / f"without_hidden_lines_{job.given.name}"
    for name, path in (("drawing", job.given), ("visible", visible)):
        if name in files:
            files[name].save(path)
            if path.stat().st_size > MOST_FILE:
                raise Unfit(413, f"a file of more than {MOST_FILE:,} bytes")
    if "visible" in files:
        job.words.append(f"--visible-only={visible.name}")


# ---- what is answered

@asked_for.get("/")
def table() -> flask.Response:
    desk().asked_for_page()
    form = (page.VIEWER / "table.html").read_text(encoding="utf-8")
    text, policy = page.filled({"title": "Drafting table", "table": form, "scripts": page.scripts("table")}, POLICY)
    response = flask.Response(text, mimetype="text/html")
    response.headers["Content-Security-Policy"] = policy
    return response


@asked_for.post("/drawing")
def drawing() -> dict[str, str]:
    job = desk().begin()
    try:
        take_files(job)
    except BaseException:
        desk().end(job)
        raise
    desk().follow(job)
    return {"job": job.key}


@asked_for.post("/events")
def events() -> flask.Response:
    """What is told of a drawing from a byte on: so a page says too that it is there."""
    told = asked()
    start = told.get("from")
    if not isinstance(start, int) or isinstance(start, bool) or start < 0:
        raise Unfit(400, "no number of bytes")
    job = desk().job(told.get("job"))
    return flask.Response(job.events(start, WAIT), mimetype="application/x-ndjson")


@asked_for.post("/leave")
def leave() -> str:
    """A page goes away, to come back within moments where it is loaded anew; or it has another drawing."""
    told = asked()
    job = desk().job(told.get("job"))
    job.leave()
    if told.get("for_good") is True:
        desk().end(job)
    return ""


@asked_for.post("/stop")
def stop() -> str:
    desk().job(asked().get("job")).stop()
    return ""


@asked_for.post("/here")
def here() -> flask.Response:
    """A page has come. One that was loaded anew gets the drawing that it had, as it came."""
    job = desk().came(asked().get("job"))
    return flask.Response(job.given.read_bytes(), mimetype="application/octet-stream") if job else flask.Response(status=204)


@asked_for.post("/example")
def example() -> flask.Response:
    name = asked().get("name")
    if name not in EXAMPLES:
        raise Unfit(404, "no such example")
    return flask.Response((process.TOP / "examples" / f"{name}.dxf").read_bytes(), mimetype="application/octet-stream")


@asked_for.post("/solid")
def solid() -> flask.Response:
    """A solid as a file: by the program where it has listed them all, else by its choice."""
    told = asked()
    job, number, form = desk().job(told.get("job")), number_in(told), told.get("form")
    if form not in FORMS:
        raise Unfit(400, "no such form of a file")
    name = f"solid_{secrets.token_hex(8)}.{form}"
    if job.how != "whole":
        command, words = "chosen", [choice_in(told), name]
    elif form == "step":
        command, words = FORMS[form], [name, f"--only={number}"]
    else:
        command, words = FORMS[form], [number, f"--output={name}"]
    desk().made(job, desk().words(job, command, job.given.name, *words))
    made = job.room / (f"{name.removesuffix('.step')}_{number}.step" if command == "step" else name)
    data = made.read_bytes()
    made.unlink()
    return flask.Response(data, mimetype="application/octet-stream")


@asked_for.post("/settle")
def settle() -> flask.Response:
    """What to add so that the solid that is meant is left: the fewest further views, else sections, or those that are named by their layers."""
    told = asked()
    job, number, views = desk().job(told.get("job")), number_in(told), told.get("views", [])
    if not isinstance(views, list) or len(views) > len(VIEWS) or not all(isinstance(it, str) and len(it) < MOST_NAME and is_known(it) for it in views):
        raise Unfit(400, "no views or sections")
    if job.how == "stopped":
        raise Unfit(422, "the search was stopped, so that its solids have no numbers that stay: read the drawing again, to the end")
    words = [f"--meant={number}", "--json", *(f"--by={view}" for view in views)]
    return flask.Response(desk().made(job, desk().words(job, "settle", job.given.name, *words), is_look=True), mimetype="application/json")


@asked_for.post("/page")
def whole_page() -> flask.Response:
    job = desk().job(asked().get("job"))
    if not job.how:
        raise Unfit(422, "nothing is told yet")
    words = [f"--events={job.told}", f"--name={job.name}", "--", job.given.name]
    return flask.Response(desk().made(job, desk().words(job, "page", *words)), mimetype="text/html")


def made(its_desk: Desk, port: int, token: str) -> flask.Flask:
    """The application."""
    app = flask.Flask("draft", static_folder=None)
    app.config.update(MAX_CONTENT_LENGTH=MOST_REQUEST, DESK=its_desk)
    app.before_request(lambda: check(port, token))
    app.after_request(secured)
    for kind in (Unfit, Refused, HTTPException, OSError, RecursionError):
        app.register_error_handler(kind, refusal)
    app.register_blueprint(asked_for)
    return app
