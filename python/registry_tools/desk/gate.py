"""What a desk serves, and who gets in. It answers one address alone, to browsers that came by its link, and behind a
proxy as the one whom it names; a change needs the token of a form that this browser was shown. At a socket it answers
who the system says that comes (door.py)."""
import datetime
import hmac
import re
import secrets
from pathlib import Path

import flask
from flask.sessions import SecureCookieSessionInterface
from werkzeug.wrappers import Response

from registry_tools.desk.jobs import Jobs
from registry_tools.desk.reading import Reading
from registry_tools.desk.shown import back_of_form, show_page
from registry_tools.cli.words import one_line
from registry_tools.door import heads, log
from registry_tools.door.door import NO_LINK, NOT_NAMED, Caller, Door, link_name, peer_of
from registry_tools.door.heads import LONGEST_NAME, MOST_FORM, Head, Proxy, Refusal
from registry_tools.door.kept import BYTES, signed_by
from registry_tools.errors import FileFault, RightsFault, WordsFault
from registry_tools.layout import SETTINGS
from registry_tools.office import people, settings
from registry_tools.office.office import By
from registry_tools.office.people import Person
from registry_tools.sheets import limits

# Nothing is fetched from elsewhere, no script runs, no other page has one of the desk in itself, and nobody keeps one.
HEADERS = {
    "Content-Security-Policy": (
        "default-src 'none'; style-src 'self'; form-action 'self'; base-uri 'none'; frame-ancestors 'none'"
    ),
    "X-Content-Type-Options": "nosniff", "X-Frame-Options": "DENY", "Referrer-Policy": "no-referrer",
    "Cache-Control": "no-store", "Cross-Origin-Opener-Policy": "same-origin",
    "Cross-Origin-Resource-Policy": "same-origin",
}  # fmt: skip
PLAIN, OTHER_TOKEN = "text/plain; charset=utf-8", "its token is not that of the browser"
NO_DAY = "No day is settled yet: Today leads to the first one."
NOT_NOW = "The office cannot answer this now, and nothing was done. Come again later, or ask the office."
# Who looks, and has not said a name yet.
NOBODY = "nobody yet"
# The command of each page that asks for a yes.
COMMANDS = {
    "/hand-in": "hand-in", "/change": "change", "/names": "label", "/close": "close", "/undo": "undo",
    "/release": "release", "/correct": "correct",
}  # fmt: skip


class Served:
    """A folder with who works at it. `host` is the one address by which it is asked, `proxy` the one that names who it
    is, `who` the one name of a desk that has only one, `door` what tells who comes to a socket, in place of all
    these."""

    def __init__(
        self, path: Path, host: str, private: Path, who: str | None, proxy: Proxy | None, is_look: bool,
        door: Door | None = None,
    ) -> None:  # fmt: skip
        self.path, self.host, self.who, self.proxy, self.is_look = path, host, who, proxy, is_look
        self.door = door
        # What the link has: 128 bits.
        self.key = secrets.token_urlsafe(16)
        self.reading, self.jobs = Reading(path, private), Jobs(path, private)
        # By what cookies are signed: after a restart by the same, where somebody else than the link says who it is.
        links = door.links.kept if door is not None else None
        self.secret = links.key if links else signed_by(proxy.secret, path) if proxy else secrets.token_bytes(BYTES)


def head() -> Head:
    """The head of the request."""
    asked = flask.request
    headers = {name.lower(): word for name, word in asked.headers.items()}
    peer = f"the login {peer_of(asked.environ).login}" if "gunicorn.socket" in asked.environ else "this machine"
    return Head(asked.method, asked.path, headers, peer)


def let_in(served: Served) -> Response | None:
    """Answers nothing to who may go on, or why not."""
    try:
        return let_in_or_not(served)
    except (FileFault, OSError) as error:
        if served.door is None and served.proxy is None:
            raise
        # (as long as nobody knows who may come, nobody is told more)
        log.told(f"nobody is let in: {error}")
        return said(500, NOT_NOW)


def let_in_or_not(served: Served) -> Response | None:
    """The same. Raises FileFault if nobody knows who may come."""
    asked_by, request = head(), flask.request
    if served.door is not None:
        return let_in_by(served.door, asked_by)
    refusal = heads.refusal_of_address(served.host, asked_by) or heads.refusal_of_proxy(served.proxy, asked_by)
    refusal = refusal or refusal_of_name(served)
    key = request.args.get("key")
    if not refusal and key is not None and request.method == "GET" and request.path == "/":
        return enter(served, asked_by, key)
    refusal = refusal or heads.refusal_of_browser(served.proxy, asked_by, flask.session) or refusal_of_form()
    return refuse(asked_by, refusal) if refusal else None


def refusal_of_name(served: Served) -> Refusal | None:
    """Why somebody gets nothing whom the proxy names, and office.ini does not."""
    people_named = settings.read(served.path / SETTINGS).people.named if served.proxy is not None else {}
    name = name_of_proxy(served)
    flask.g.person = people_named.get(name)
    if not people_named or name in people_named:
        return None
    return Refusal(403, NOT_NAMED, f"{name}, whom the proxy names, is no login that {SETTINGS} names")


def let_in_by(door: Door, asked_by: Head) -> Response | None:
    """The same at a socket: whoever comes is who the system says, and has a link beside, or a proxy that names them."""
    peer, session = peer_of(flask.request.environ), flask.session
    caller = door.caller(peer, asked_by)
    if isinstance(caller, Refusal):
        return refuse(asked_by, caller)
    flask.g.caller, flask.g.person = caller, door.people().named.get(people.person_of(caller.login))
    if peer.is_at_links:
        return let_in_machine(asked_by, caller) if asked_by.path.endswith(".json") else link_for(door, asked_by, caller)
    refusal = heads.refusal_of_site(asked_by.of("Host"), asked_by)
    key = flask.request.args.get("key")
    if not refusal and key is not None and asked_by.method == "GET" and asked_by.path == "/":
        return enter_by(door, asked_by, caller, key)
    is_in = session.get("name") == caller.login and "token" in session
    if caller.is_by_proxy and not is_in and asked_by.method == "GET":
        # (the proxy has asked who it is)
        come_in(asked_by, caller, "")
    elif not is_in or not (caller.is_by_proxy or door.links.counts(session.get("link"), caller.login)):
        refusal = refusal or Refusal(403, NO_LINK, "it did not come by a link that counts")
    request = flask.request
    if asked_by.method == "POST":
        # (a body that goes on up to the end of the connection says no length either)
        length, coding = request.content_length, asked_by.of("Transfer-Encoding")
        refusal = refusal or heads.refusal_of_body(
            asked_by, length or 0, length is None or bool(coding), limits.MOST_BYTES, MOST_FORM
        )
    refusal = refusal or refusal_of_form()
    return refuse(asked_by, refusal) if refusal else None


def let_in_machine(asked_by: Head, caller: Caller) -> Response | None:
    """Lets a program in that asks for JSON where links are made: whose it is, the system says. A form of a browser that
    somebody leads there sends no JSON."""
    refusal = None
    if caller.is_by_proxy:
        refusal = Refusal(404, "Programs come by themselves, and not by a proxy.", "a program by a proxy")
    if asked_by.method == "POST":
        length, kind = flask.request.content_length, asked_by.of("Content-Type").partition(";")[0]
        if kind != "application/json":
            refusal = refusal or Refusal(415, "JSON is wanted here.", "no JSON")
        is_open = length is None or bool(asked_by.of("Transfer-Encoding"))
        refusal = refusal or heads.refusal_of_body(asked_by, length or 0, is_open, limits.MOST_BYTES, limits.MOST_BYTES)
    return refuse(asked_by, refusal) if refusal else None


def come_in(asked_by: Head, caller: Caller, link: str) -> None:
    """Lets the browser of somebody in."""
    flask.session.clear()
    flask.session.update(token=secrets.token_urlsafe(16), name=caller.login, link=link)
    log.came_in(asked_by.peer, caller.person)


def enter_by(door: Door, asked_by: Head, caller: Caller, key: str) -> Response:
    """Lets somebody in who has a link of their own."""
    name = link_name(key)
    if not door.links.counts(name, caller.login):
        return refuse(asked_by, Refusal(403, NO_LINK, "the link of another login, or one that has ended"))
    come_in(asked_by, caller, name)
    return flask.make_response(flask.render_template("entered.html"))


def link_for(door: Door, asked_by: Head, caller: Caller) -> Response:
    """Makes a link for whoever asks at the socket of links, or ends all of theirs."""
    asked = asked_by.method, asked_by.path
    if caller.is_by_proxy or asked not in (("POST", "/link"), ("POST", "/end")):
        return refuse(asked_by, Refusal(404, "Links are made here, and nothing else.", "no link was asked for"))
    if asked_by.path == "/end":
        log.told(f"{caller.person} ended their links")
        return Response(f"{door.links.end(caller.login)}\n", content_type=PLAIN)
    key, until = door.links.make(caller.login)
    log.told(f"{caller.person} was given a link")
    return Response(f"{key}\n{datetime.datetime.fromtimestamp(until):%Y-%m-%d %H:%M}\n", content_type=PLAIN)


def refusal_of_form() -> Refusal | None:
    """Why a form is refused that this browser was not shown, or another method."""
    request = flask.request
    if request.method == "POST":
        token = request.form.get("token", "").encode("utf-8", "replace")
        other = "The form is not of this desk, or it was started anew since. Nothing was done: look once more."
        is_own = hmac.compare_digest(token, flask.session["token"].encode())
        return None if is_own else Refusal(403, other, OTHER_TOKEN)
    is_known = request.method in ("GET", "HEAD")
    return None if is_known else Refusal(405, "That is no method of this desk.", "no method of the desk")


def refuse(asked_by: Head, refusal: Refusal) -> Response:
    """The page of a request that is refused."""
    log.refused(asked_by.peer, asked_by.method, asked_by.path, refusal.code, refusal.why)
    # (what was typed is there again)
    back = back_of_form() if refusal.why == OTHER_TOKEN else ""
    return said(refusal.code, refusal.text, is_again=refusal.is_again, back=back)


def enter(served: Served, asked_by: Head, key: str) -> Response:
    """Lets a browser in that has the secret of the link. Behind a proxy it stays the one whom the proxy names now."""
    if not hmac.compare_digest(key.encode("utf-8", "replace"), served.key.encode()):
        other = "The link has another secret: the desk prints a new one each time it is started."
        return refuse(asked_by, Refusal(403, other, "the secret of another link"))
    flask.session.clear()
    flask.session["token"] = secrets.token_urlsafe(16)
    if served.proxy is not None:
        flask.session["name"] = name_of_proxy(served)
    log.came_in(asked_by.peer, known_name(served))
    # (a redirect of a link that was opened elsewhere would not take the strict cookie with it: a page does)
    return flask.make_response(flask.render_template("entered.html"))


def with_headers(response: Response) -> Response:
    """An answer with the headers that keep a browser from what the desk does not send."""
    response.headers.update(HEADERS)
    return response


# What happened, by the status of the page that tells more.
HAPPENED = {
    403: "You are not let in", 404: "There is no such page", 405: "There is no such page", 413: "The form is too long",
    409: "What was read has a fault", 500: "The folder cannot be read or written",
}  # fmt: skip
# Of a text that says by itself what happened, in front of a colon, so much is a title.
LONGEST_TITLE = 80


def title_of(code: int, text: str) -> str:
    """What happened, as the title of a page that tells more."""
    if code != 400 and not (code == 404 and ":" in text):
        return HAPPENED.get(code, "Nothing was done")
    first = text.partition(":")[0]
    if code == 404 or text.startswith(NO_DAY):
        return first[:1].upper() + first[1:LONGEST_TITLE]
    return "Nothing was done" if flask.request.method == "POST" else "It cannot be shown as it was asked for"


def said(code: int, text: str, is_again: bool = False, back: str = "", title: str = "") -> Response:
    """A page that says one thing. `is_again`: it leads to the page that was asked for; `back` is a form."""
    path = flask.request.full_path.rstrip("?") if is_again and flask.request.method == "GET" else ""
    # (two slashes would lead to another host)
    heading = title or title_of(code, text)
    return show_page("said", heading, code, text=text, path="/" + path.lstrip("/\\") if path else "", back=back)


class Sessions(SecureCookieSessionInterface):
    """Cookies that a browser keeps to TLS, if its proxy says that it came by that."""

    def __init__(self, proxy: Proxy | None) -> None:
        self.proxy = proxy

    def get_cookie_secure(self, app: flask.Flask) -> bool:
        """Whether the cookie is for TLS alone."""
        asked_by, caller = head(), flask.g.get("caller")
        is_by_door = caller is not None and caller.is_by_proxy and heads.says_tls(asked_by)
        return is_by_door or heads.is_by_tls(self.proxy, asked_by)


# Who it is.


def name_of_proxy(served: Served) -> str:
    """The name that the proxy before the desk tells; nothing, if it tells none."""
    return heads.name_in(served.proxy, head()) if served.proxy is not None else ""


def known_name(served: Served) -> str:
    """Who works at this browser; nothing, if it was not said yet."""
    if served.door is not None:
        caller: Caller | None = flask.g.get("caller")
        return caller.person if caller is not None else ""
    return name_of_proxy(served) if served.proxy is not None else served.who or str(flask.session.get("who", ""))


def tied() -> Person | None:
    """Who is at this browser, if it is somebody whom office.ini ties to a holder."""
    person: Person | None = flask.g.get("person")
    return person if person is not None and person.tied_to(people.HOLDER) else None


def speaks_for(served: Served, who: str) -> str | None:
    """The login that the system or the proxy names, if office.ini lets the login of this desk speak for others. A name
    that somebody typed is no login."""
    if served.door is not None:
        caller: Caller = flask.g.caller
        return caller.login
    is_let = served.proxy is not None and served.reading.office().people.may_speak(people.system_login())
    return who if is_let else None


def by(served: Served, seen: str | None = None) -> By:
    """By whom something is looked at before it is done."""
    who = known_name(served)
    return By(login_of(served, who), who or NOBODY, seen)


def login_of(served: Served, who: str) -> str:
    """The login by which somebody works."""
    return people.login_for(served.reading.office().people, speaks_for(served, who))


def may_not(served: Served) -> str:
    """Why who is known here may not give the command of this page, before it is filled in; nothing, if they may."""
    command, who = COMMANDS.get(flask.request.path), known_name(served)
    if command is None or not who or served.is_look or tied():
        return ""
    try:
        people.must_be_allowed(served.reading.office().people, login_of(served, who), command)
    except RightsFault as fault:
        return fault.why
    except WordsFault as fault:
        return str(fault)
    except (FileFault, OSError):
        # (the page says by itself what is wrong with the folder)
        return ""
    return ""


def name(served: Served) -> str:
    """Who asks for a change: whom the desk knows, or who says it now. A browser says it once."""
    name_now = known_name(served)
    if not name_now:
        name_now = one_line("your name", flask.request.form.get("who", "").strip())
        if len(name_now) > LONGEST_NAME:
            raise WordsFault(f"your name has to be at most {LONGEST_NAME} letters")
        # (a byte that is no UTF-8 has no place in a cookie)
        flask.session["who"] = name_now = re.sub("[\ud800-\udfff]", "?", name_now)
    return name_now
