"""The desk as a Flask application: its addresses, and what its pages have in common."""
import contextlib
import datetime
import functools
import secrets
from collections.abc import Callable
from pathlib import Path

import flask
from werkzeug import formparser
from werkzeug.exceptions import HTTPException, NotFound, RequestEntityTooLarge
from werkzeug.wrappers import Response

from registry_tools import voice
from registry_tools.desk import (
    asks, coming, gate, machines, own, pages, posts, questions, search, settings_page, shown, words,
)  # fmt: skip
from registry_tools.desk.gate import Served
from registry_tools.door import heads, log
from registry_tools.errors import Fault, FileFault, RightsFault
from registry_tools.pages import beside, html
from registry_tools.pages.rulebook import FORMATS, RULES, document_parts
from registry_tools.pages.settled import long_date
from registry_tools.second import faults
from registry_tools.sheets import limits
from registry_tools.texts.checks import form_checks
from registry_tools.texts.in_words import grouped

# What is sent at once is at most as large as one file may be that is handed in.
MOST_BYTES = limits.MOST_BYTES
GROUPS = {
    "The day": {"/": "Today", "/hand-in": "Hand in", "/next": "The next day", "/change": "Change", "/close": "Close"},
    "The registry": {"/accounts": "Accounts", "/find": "Find", "/days": "Days", "/month": "Months"},
    "Duties": {"/compliance": "Compliance", "/due": "Due", "/send": "Send"},
    "The folder": {"/names": "Names", "/journal": "Journal", "/audit": "Audit", "/office": "The office"},
}
SECTIONS = {path: name for group in GROUPS.values() for path, name in group.items()}
# What tries a change, and takes it back: it is of no moment before.
OF_TRIALS, LOOK = {"/undo"}, "/look/"
# What a desk that only looks has no use for.
OF_CHANGES = {"/hand-in", "/change", "/close", "/office"}
# What is said of an address that is none.
OTHER = {404: "No page of this desk has this address."}
# As what a table is had, besides on its page.
FILES = "<any(csv, xlsx, json):kind>"
# What answers an address: of the desk, with the words of its rule.
View = Callable[..., Response]
GET: dict[str, View] = {
    "/": pages.today, "/hand-in": pages.hand_in, "/next": pages.next_day, "/change": pages.change,
    "/close": pages.close, "/days": pages.days, "/days/<string(length=10):word>": pages.day, "/undo": pages.undo,
    "/release": pages.release, "/correct": pages.correct_page, "/name": pages.name, "/names": questions.names,
    "/accounts": questions.accounts, "/accounts/<int:number>": questions.account, "/compliance": questions.compliance,
    "/due": coming.page, "/due.<any(csv, xlsx, json, ics):kind>": coming.as_file,
    "/approve": pages.approve_page, "/search": search.page, "/month": questions.month_page,
    "/find": questions.find, f"/find.{FILES}": questions.find_file,
    f"/accounts.{FILES}": questions.accounts_file, f"/accounts/<int:number>/history.{FILES}": questions.history_file,
    f"/compliance.{FILES}": questions.compliance_file, f"/names.{FILES}": questions.names_file,
    "/table.<any(csv, xlsx):kind>": questions.table_file,
    "/journal": questions.journal, f"/journal.{FILES}": questions.journal_file, f"/days.{FILES}": questions.days_file,
    f"/month.{FILES}": questions.month_file, "/audit": questions.audit, "/send": questions.send,
    "/hand-in/look/<key>": asks.look, "/change/look/<key>": asks.look, "/names/look/<key>": asks.look,
    "/office": settings_page.page, "/office/anchor.csv": settings_page.anchor,
    "/office/<number>/<name>": settings_page.copy,
    "/jobs/<number>": questions.job, "/jobs/<number>/packages.zip": questions.packages,
}  # fmt: skip
POST: dict[str, View] = {
    "/name": posts.name, "/hand-in/look": asks.ask, "/hand-in/take": posts.take, "/next/take-back": posts.take_back,
    # (a look is kept, so that the next one tells what is new)
    "/next/seen": functools.partial(posts.begin, command="try"),
    "/change/look": asks.ask, "/change/make": posts.make_change, "/close/settle": posts.settle,
    "/correct/look": posts.look_at_correction, "/correct/make": posts.make_correction,
    "/office/ask": settings_page.ask, "/office/take-back": settings_page.take_back,
    "/office/db": functools.partial(settings_page.begin, command="db"),
    "/office/backup": functools.partial(settings_page.begin, command="backup"),
    "/undo/yes": posts.undo, "/release/yes": posts.release, "/names/look": asks.ask,
    "/names/give": posts.give_names, "/approve": posts.approve, "/audit/begin": posts.audit, "/send/begin": posts.send,
}  # fmt: skip
# What programs ask where the system alone says who comes (door.py).
OF_MACHINES: dict[str, tuple[str, Callable[[Served], Response]]] = {
    "/status.json": ("GET", machines.standing), "/try.json": ("GET", machines.try_next),
    "/hand-in.json": ("POST", machines.hand_in),
}  # fmt: skip
# What somebody may begin who changes nothing.
OF_LOOKING = {"/name", "/audit/begin", "/send/begin"}


class Limited(flask.Request):
    """A request whose form is not too long. (Some versions of Flask have no setting for that.)"""

    max_form_memory_size = heads.MOST_FORM


def make(served: Served) -> flask.Flask:
    """The application of a desk."""
    app = flask.Flask("desk", root_path=str(Path(__file__).parent), static_folder=None)
    app.request_class = Limited
    # (werkzeug 2.2 raises this for a large field by a name that it forgot to import)
    setattr(formparser, "RequestEntityTooLarge", RequestEntityTooLarge)
    # (cookies know no ports: another desk has another one)
    app.config.update(
        SECRET_KEY=served.secret,
        MAX_CONTENT_LENGTH=MOST_BYTES, SESSION_COOKIE_NAME=f"desk-{served.host.rpartition(':')[2]}",
        SESSION_COOKIE_HTTPONLY=True, SESSION_COOKIE_SAMESITE="Strict",
    )  # fmt: skip
    app.session_interface = gate.Sessions(served.proxy)
    # (what is told on a page is told in the words of the desk)
    desk = voice.Desk(served.path)
    app.before_request(lambda: flask.g.setdefault("voice", contextlib.ExitStack()).enter_context(voice.speaking(desk)))
    app.teardown_request(lambda _: flask.g.pop("voice", contextlib.ExitStack()).close())
    # (the gate stands before all pages, also those that are not there)
    app.before_request(functools.partial(gate.let_in, served))
    # (and behind it, who is tied to a holder has a desk of their own)
    app.before_request(functools.partial(own.answer, served))
    app.after_request(gate.with_headers)
    for fault in (Fault, OSError, HTTPException):
        app.register_error_handler(fault, functools.partial(failed, served))
    for rule, view in GET.items():
        app.add_url_rule(rule, f"GET {rule}", functools.partial(shown_now, served, view), methods=["GET"])
    for rule, view in POST.items():
        app.add_url_rule(rule, f"POST {rule}", functools.partial(changed, served, view), methods=["POST"])
    for rule, (method, view) in OF_MACHINES.items():
        told = functools.partial(machines.told, view)
        shows: View = shown_now
        if method == "POST":
            shows = changed
        app.add_url_rule(rule, f"{method} {rule}", functools.partial(shows, served, told), methods=[method])
    app.add_url_rule("/style.css", "style", style, methods=["GET"])
    for page in (RULES, FORMATS):
        app.add_url_rule(f"/{page}", page, functools.partial(document, page), methods=["GET"])
    dress(app, served)
    return app


def shown_now(served: Served, view: View, **more: object) -> Response:
    """What a view shows of the folder as it is at one moment."""
    # (what a change of this page builds on is of the same moment)
    if flask.request.path in OF_TRIALS or LOOK in flask.request.path:
        flask.g.state = served.reading.state()
        return view(served, **more)
    with served.reading.moment():
        flask.g.state = served.reading.state()
        return view(served, **more)


def changed(served: Served, view: View) -> Response:
    """What a form does that changes something: once, also if it is sent again. A desk that only looks refuses it."""
    if served.is_look and flask.request.path not in OF_LOOKING:
        return gate.said(403, "This desk shows all, and changes nothing.", title="Nothing was done")
    number = shown.form("once")
    if number in served.jobs.jobs:
        return flask.redirect(f"/jobs/{number}", 303)
    flask.g.state = served.reading.state()
    return view(served)


def failed(served: Served, error: Exception) -> Response:
    """What went wrong, on a page and in the log."""
    code, text, back = told_of(error)
    head, why = gate.head(), "what was asked can't be done"
    # (other sentences have words in them that somebody typed)
    told = text.partition(":")[0] if isinstance(error, RightsFault) else why
    log.refused(head.peer, head.method, head.path, code, told)
    return gate.said(code, text, back=back)


def told_of(error: Exception) -> tuple[int, str, str]:
    """What is told of an error: its status, its words, and the form to which the page leads back."""
    if isinstance(error, HTTPException):
        text = error.description if isinstance(error, NotFound) and error.description != NotFound.description else ""
        code = error.code or 500
        return code, str(text or OTHER.get(code, f"{error.name}.")), ""
    if isinstance(error, OSError):
        name = Path(str(error.filename or "the folder")).name
        return 500, f"{name}: it cannot be read or written: {error.strerror or 'for a reason not known'}", ""
    asked = flask.request
    is_typed = asked.path in SECTIONS and asked.args and shown.TYPED not in asked.args
    back = shown.back_of_form() if asked.method == "POST" else shown.address(typed=1) if is_typed else ""
    return 409 if isinstance(error, FileFault) else 400, str(error), back


def dress(app: flask.Flask, served: Served) -> None:
    """What all templates know."""
    hidden = OF_CHANGES if served.is_look else set()
    groups = {of: {path: each[path] for path in each if path not in hidden} for of, each in GROUPS.items()}
    app.jinja_env.globals.update(
        groups=lambda: own.GROUPS if gate.tied() else groups, is_look=served.is_look, of_looking=OF_LOOKING,
        office=served.path.name,
        token=lambda: flask.session["token"], once=lambda: secrets.token_hex(8), state=lambda: flask.g.get("state", ""),
        who=lambda: gate.known_name(served), says_name=not (served.who or served.proxy or served.door),
        may_not=lambda: gate.may_not(served), apart=beside.apart, time=voice.time,
        zone=words.zone, table=shown.sorted_table, acts=faults.ACT_WORDS,
        meaning=lambda name: form_checks()[name].meaning,
    )  # fmt: skip
    app.jinja_env.filters.update(
        grouped=grouped, label=words.label, date=long_date,
        called=lambda word: long_date(word) if isinstance(word, datetime.date) else beside.called(word),
    )
    app.jinja_env.trim_blocks = app.jinja_env.lstrip_blocks = True


def document(name: str) -> Response:
    """The page of a document."""
    title, body = document_parts(name)
    return flask.make_response(flask.render_template("base.html", title=title, is_in=True, body=body))


def style() -> Response:
    """The style of all pages: that of ./day page, and that of forms."""
    parts = [html.style_of("colours", "style", "picture")]
    parts += [html.stacked(name, ".broad") for name in (*html.ROOMS, html.EVERYWHERE)]
    parts.append((Path(__file__).parent / "desk.css").read_text(encoding="utf-8"))
    return Response("".join(parts), content_type="text/css; charset=utf-8")
