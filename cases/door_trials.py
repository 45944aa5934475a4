"""What people of several logins try at a desk at a socket, and what each of them must get. For cases/run-door."""
from __future__ import annotations

import contextlib
import json
import os
import re
import signal
import socket
import subprocess
import sys
import threading
import time
from collections.abc import Callable, Iterator, Mapping, Sequence
from email.message import Message
from http.client import HTTPMessage
from pathlib import Path
from typing import Any

import door_commands
import door_holders
import door_links
import door_machines
import door_many
import door_rights
import door_week
import logins
import real_servers
from harness import MOST_SECONDS, PYTHON, TOP, LeftOut, differs
from logins import Login
from real_desk import Answer, File, form_of

from registry_tools.door import door
from registry_tools.door.commands import MOST_OPEN
from registry_tools.door.door import MOST_LINKS, Links, link_name

Told = Iterator[tuple[str, object]]
WEEK, RULES = TOP / "examples" / "week", TOP / "tools" / "rules.py"
HEADER = door.HEADER
# What a login asks a socket, run as this login: words of JSON, as the answer is.
ASK = """
import http.client, json, socket, sys
path, method, where, headers, body = json.loads(sys.stdin.read())
own = http.client.HTTPConnection('localhost', timeout=60)
own.sock = socket.socket(socket.AF_UNIX)
own.sock.settimeout(60)
own.sock.connect(path)
own.putrequest(method, where, skip_host=any(name == 'Host' for name, _ in headers))
for name, word in [*headers, ('Content-Length', str(len(body)))] if body or method == 'POST' else headers:
    own.putheader(name, word)
own.endheaders(body.encode('latin-1'))
there = own.getresponse()
print(json.dumps([there.status, there.getheaders(), there.read().decode('utf-8', 'replace')]))
"""
# The same, of bytes as they are: how the answer begins.
SAY = """
import socket, sys
own = socket.socket(socket.AF_UNIX)
own.settimeout(60)
own.connect(sys.argv[1])
own.sendall(sys.stdin.buffer.read())
own.shutdown(socket.SHUT_WR)
print(own.recv(99).decode('latin-1'))
"""
ROW = "do,2025-09-23,5101,5102,transfer,100210,300118,general,{}\n"


class Visitor:
    """Somebody at the socket of a desk, with cookies."""

    # The keys and cookies of all of them.
    secrets: list[str] = []

    def __init__(self, login: Login, path: Path, **headers: str) -> None:
        self.login, self.path, self.cookies = login, path, dict[str, str]()
        self.headers = {name.replace("_", "-"): word for name, word in headers.items()}

    def ask(self, method: str, where: str, body: bytes = b"", headers: Sequence[tuple[str, str]] = ()) -> Answer:
        own = [*self.headers.items(), *headers]
        if self.cookies and not any(name == "Cookie" for name, _ in own):
            own.append(("Cookie", "; ".join(f"{name}={word}" for name, word in self.cookies.items())))
        told = json.dumps([str(self.path), method, where, own, body.decode("latin-1")])
        said = subprocess.run(
            self.login.line(sys.executable, "-I", "-c", ASK), input=told, capture_output=True, text=True,
            timeout=MOST_SECONDS, check=False, cwd="/",
        )  # fmt: skip
        if said.returncode:
            return Answer(0, message([]), said.stderr)
        status, there, text = json.loads(said.stdout)
        for name, word in there:
            if name == "Set-Cookie":
                cookie, _, value = word.partition(";")[0].partition("=")
                self.cookies[cookie] = value
                self.secrets.append(value)
        return Answer(status, message(there), text)

    def says(self, *lines: str, body: bytes = b"") -> int:
        """The status that a request gets which has these lines as its head."""
        own = [*lines, *(f"{name}: {word}" for name, word in self.headers.items())]
        own.append("Cookie: " + "; ".join(f"{name}={word}" for name, word in self.cookies.items()))
        said = subprocess.run(
            self.login.line(sys.executable, "-I", "-c", SAY, self.path),
            input="\r\n".join([*own, "", ""]).encode("latin-1") + body, capture_output=True, timeout=MOST_SECONDS,
            check=True, cwd="/",
        )  # fmt: skip
        return int(said.stdout.split()[1])

    def get(self, where: str, *headers: tuple[str, str]) -> Answer:
        return self.ask("GET", where, b"", headers)

    def post(
        self, where: str, fields: Mapping[str, str], files: Sequence[File] = (), headers: Sequence[tuple[str, str]] = ()
    ) -> Answer:
        kind, body = form_of(fields, files)
        return self.ask("POST", where, body, [("Content-Type", kind), *headers])

    def link(self, *words: object) -> tuple[int, str]:
        """The status of ./day link, and what it says."""
        return self.login.day("link", "--socket", self.path, *words)

    def came_in(self) -> "Visitor":
        """This browser, once it has opened a link of its own."""
        way = self.way()
        assert self.get(way).status == 200, way
        return self

    def way(self) -> str:
        """The address of a new link."""
        status, said = self.link()
        found = re.match(r"http://127\.0\.0\.1:8424(/\?key=([\w-]{22}))\n", said)
        assert status == 0 and found, said
        self.secrets.append(found[2])
        return found[1]

    def send(self, page: str, action: str, files: Sequence[File] = (), **said: str) -> Answer:
        answer = self.post(action, {**self.get(page).fields(action), **said}, files)
        place = answer.headers.get("Location", "")
        return self.get(place) if "/look/" in place else answer

    def job(self, answer: Answer) -> Answer:
        """The page of a command that was begun, once it has ended."""
        assert answer.status == 303, answer
        until = time.monotonic() + MOST_SECONDS
        while True:
            there = self.get(answer.headers["Location"])
            if "At work" not in there.text or time.monotonic() > until:
                return there
            time.sleep(0.1)

    def yes(self, looked: Answer, action: str, **said: str) -> Answer:
        """The page of what the form of an answer has begun."""
        answer = self.post(action, {**looked.fields(action), **said})
        return self.job(answer) if answer.status == 303 else answer


def message(headers: Sequence[Sequence[str]]) -> HTTPMessage:
    found: Message = HTTPMessage()
    for name, word in headers:
        found[name] = word
    assert isinstance(found, HTTPMessage)
    return found


class Holding:
    """Somebody who opens a connection, and says half of something."""

    def __init__(self, login: Login, path: Path) -> None:
        code = f"import socket, sys, time; own = socket.socket(socket.AF_UNIX); own.connect({str(path)!r})"
        code += "; own.send(b'GET / HT'); print('x', flush=True); sys.stdin.read()"
        self.process = subprocess.Popen(
            login.line(sys.executable, "-I", "-c", code), stdin=subprocess.PIPE, stdout=subprocess.PIPE,
            stderr=subprocess.DEVNULL,
        )  # fmt: skip
        assert self.process.stdout is not None
        self.process.stdout.readline()

    def end(self) -> None:
        self.process.communicate()


class SocketDesk:
    """`./day desk --socket` at work, by a login of its own. Its log goes to a file."""

    def __init__(self, owner: Login, office: Path, path: Path, log: Path, *words: object) -> None:
        self.log = log
        line = [TOP / "day", "desk", "--office", office, "--socket", path, *words]
        with log.open("wb") as errors:
            self.process = subprocess.Popen(
                owner.line(*line),
                # (what this says to gunicorn is of no moment)
                cwd="/", env={**os.environ, "SCRIPT_NAME": "/elsewhere"}, stdin=subprocess.DEVNULL,
                stdout=subprocess.PIPE, stderr=errors, text=True,
            )  # fmt: skip
        assert self.process.stdout is not None
        first = self.process.stdout.readline()
        if not first:
            raise LeftOut(f"no desk at a socket can be had here: {self.said().strip()}")
        until = time.monotonic() + MOST_SECONDS
        while not Path(f"{path}.link").exists() and time.monotonic() < until:
            time.sleep(0.05)

    def said(self) -> str:
        return self.log.read_text("utf-8", "replace")

    def kill_server(self) -> None:
        """Kills the process that answers: another one comes in its place."""
        children = Path(f"/proc/{self.process.pid}/task/{self.process.pid}/children").read_text().split()
        for number in children:
            os.kill(int(number), signal.SIGKILL)

    def end(self) -> int:
        """Ends it by Ctrl-C, and gives its status."""
        self.process.send_signal(signal.SIGINT)
        status = self.process.wait(MOST_SECONDS)
        assert self.process.stdout is not None
        self.process.stdout.close()
        return status


# Links.


def link_trials(mock: Any) -> Told:
    """A link counts for its login alone, for some hours."""
    links = Links()
    key, until = links.make("anna")
    name = link_name(key)
    yield "a link counts", differs(links.counts(name, "anna"), True)
    yield "for nobody else", links.counts(name, "bert")
    yield "its key is not kept", key in repr(links.links)
    with mock.patch("time.time", return_value=until + 1):
        yield "it ends after some hours", links.counts(name, "anna")
    more = [links.make("anna")[0] for _ in range(MOST_LINKS)]
    yield "of too many the first one ends", links.counts(name, "anna")
    yield "and no other", [own for own in more if not links.counts(link_name(own), "anna")]
    links.make("bert")
    yield "all of one login end", differs(links.end("anna"), MOST_LINKS)
    yield "and none of others", differs(len(links.links), 1)


# People.


def all_trials(work: Path, leave_out: Callable[[str, LeftOut], None], many: int) -> Told:
    """All that is tried by several logins. `leave_out` hears what can't be tried; so many things each of ten asks who
    do so at once."""
    names = "desk", "anna", "bert", "look", "www", "nobody", "hold", "hands"
    with logins.made(*names, *door_many.PEOPLE) as (owner, anna, bert, looks, proxy, stranger, holder, hands, *ten):
        people = owner, anna, bert, looks, proxy, stranger
        home, place = work / "home", work / "place"
        for own in (home, place):
            own.mkdir()
            os.chown(own, owner.user, owner.group)
            own.chmod(0o755)
        office, path = home / "office", place / "desk.sock"
        named = people_of(owner, anna, bert, looks, proxy, holder, hands)
        yield from begin_trials(owner, named, office, place)
        desk = SocketDesk(owner, office, path, work / "log")
        try:
            yield from stranger_trials(path, anna, stranger, looks)
            yield from link_of_others_trials(path, anna, bert)
            yield from right_trials(path, office, anna, looks)
            yield from door_rights.all_trials(path, home, work, (hands, anna), lambda own: Visitor(own, path), desk)
            yield from proxy_trials(path, office, anna, bert, proxy, stranger)
            yield from odd_trials(path, anna, bert, proxy, desk)
            yield from in_its_place_trials(anna, work)
            yield from two_trials(path, office, anna, bert, proxy)
            yield from settings_trials(path, office, work, (anna, bert, proxy, hands))

            def browsers() -> list[Visitor]:
                """A browser of anna's by a link, and one by a proxy."""
                return [Visitor(anna, path).came_in(), named_by(proxy, path, anna)]

            yield from door_commands.all_trials(work, path, people, desk, browsers)
            yield from door_links.all_trials(work, path, home, (owner, anna, stranger))
            at_links = Path(f"{path}.link")
            programs = [Visitor(login, at_links) for login in (anna, looks, proxy, stranger)]
            programs[2].headers = {HEADER: anna.name}
            yield from door_machines.machine_trials(programs, Visitor(anna, path).came_in())
            yield from door_machines.client_trials(path, work, anna, looks)
            of_holder = [Visitor(holder, path).came_in(), named_by(proxy, path, holder)]
            yield from door_holders.holder_trials(work, holder, path, of_holder, Visitor(holder, at_links))
            for what, trials in (
                ("nginx", real_servers.nginx_trials(work, path, proxy, [anna, looks, stranger])),
                ("ssh", real_servers.ssh_trials(work, path, [anna, looks, stranger])),
            ):  # fmt: skip
                try:
                    yield from trials
                except LeftOut as why:
                    leave_out(f"a desk behind {what}", why)
            yield from end_trials(path, office, anna, bert, desk)
        finally:
            status = desk.end()
        yield "Ctrl-C ends it", differs(status, 0)
        left = [name for name in os.listdir(place) if name.startswith(path.name)]
        yield "its sockets are gone, and what it keeps is there", differs(left, [f"{path.name}.kept"])
        yield "which nobody else reads", differs((place / left[0]).stat().st_mode & 0o777, 0o600)
        status, said = owner.day("audit", "--second", "--office", office)
        yield "audit of the folder", None if ": 0 differences" in said else (status, said)
        yield "no key or cookie in the log", [word for word in Visitor.secrets if word in desk.said()]
        yield from lived_trials(work, owner, anna)
        yield from ten_trials(work, owner, ten, many)


def ten_trials(work: Path, owner: Login, ten: Sequence[Login], many: int) -> Told:
    """Ten people at a desk of their own."""
    office, path = work / "home" / "ten", work / "place" / "ten.sock"
    monday = ["close", "--date", "2025-09-22", "--second", "--yes", "--office", office]
    for words in (["init", office, WEEK / "monday.csv"], monday):
        status, said = owner.day(*words, LOGNAME=owner.name)
        assert status in (0, 1), said
    settings_of(office, {owner.name: "The desk: proxy", **{own.name: "Somebody: all" for own in ten}})
    desk = SocketDesk(owner, office, path, work / "ten.log")
    try:
        yield from door_many.many_trials(path, office, ten, desk, many)
    finally:
        desk.end()
    status, said = owner.day("audit", "--second", "--office", office)
    yield "audit of what ten people did", None if ": 0 differences" in said else (status, said)


def lived_trials(work: Path, owner: Login, anna: Login) -> Told:
    """The week by commands at a desk of its own, and on a folder."""
    home, path = work / "home", work / "place" / "week.sock"
    for office in (home / "week", home / "beside"):
        status, said = owner.day("init", office, WEEK / "monday.csv", LOGNAME=owner.name)
        assert status == 0, said
        settings_of(office, {owner.name: "The desk: proxy", anna.name: "Anna Berg: all"}, "release")
    desk = SocketDesk(owner, home / "week", path, work / "week.log")
    try:
        yield from door_week.week_trials(work, owner, anna, (path, home / "week"), home / "beside")
    finally:
        desk.end()
    desk = SocketDesk(owner, home / "week", path, work / "look.log", "--look")
    try:
        yield from door_commands.look_trials(path, home / "week", anna)
        told = Visitor(anna, Path(f"{path}.link")).ask("POST", "/hand-in.json", b"{}", [door_machines.JSON])
        yield "a program changes nothing there", told.wrong(403)
    finally:
        desk.end()


def named_by(proxy: Login, path: Path, login: Login) -> Visitor:
    """A browser that comes by a proxy, which names this login."""
    own = Visitor(proxy, path, **{HEADER: login.name})
    own.get("/")
    return own


def settings_of(office: Path, people: dict[str, str], waits: str = "change") -> None:
    """Puts people into office.ini, and lets changes by hand, or others, wait for a second one."""
    lines = [f"{name} = {words}\n" for name, words in people.items()]
    with open(office / "office.ini", "a", encoding="utf-8") as settings:
        settings.write("".join(["[people]\n", *lines, f"[four eyes]\ncommands = {waits}\n"]))


def people_of(*people: Login) -> dict[str, str]:
    owner, anna, bert, looks, proxy, holder, hands = people
    return {
        owner.name: "The desk: proxy", anna.name: "Anna Berg: all", bert.name: "Bert Kohl: all",
        looks.name: "Gerd Pohl: look", proxy.name: "The web server: proxy", hands.name: "Ida Voss: hand in",
        holder.name: "Hanna Holt: holder 5501, user 5101",
    }  # fmt: skip


def begin_trials(owner: Login, people: dict[str, str], office: Path, place: Path) -> Told:
    """Where a desk begins, and where it does not."""
    for words in (("init", office, WEEK / "monday.csv", "--program", RULES),
                  ("close", "--date", "2025-09-22", "--second", "--yes", "--office", office)):  # fmt: skip
        status, said = owner.day(*words)
        assert status in (0, 1), said
    own = ["desk", "--office", office, "--socket"]
    status, said = owner.day(*own, place / "desk.sock")
    yield "whom nobody lets speak", None if status == 2 and "= The desk: proxy" in said else (status, said)
    settings_of(office, people)
    others = place / "others"
    others.mkdir()
    others.chmod(0o777)
    file = place / "file.sock"
    file.write_text("x")
    for what, path, wanted in (
        ("a folder that others may write", others / "desk.sock", "others could put a socket of theirs"),
        ("something else in its place", file, "something else than a socket lies there"),
        ("no such folder", place / "none" / "desk.sock", "No such file"),
        ("a path that is too long", place / ("x" * 120), "at most 100 bytes"),
    ):  # fmt: skip
        status, said = owner.day(*own, path)
        yield f"no desk at {what}", None if status == 2 and wanted in said else (status, said)
    others_say: list[tuple[str, list[object]]] = [
        ("a name", ["--who", "x"]), ("a port", ["--port", 9000]), ("a secret", ["--proxy-secret", file]),
    ]  # fmt: skip
    for what, more in others_say:
        status, said = owner.day(*own, place / "desk.sock", *more)
        yield f"no desk with {what}", None if status == 2 and "the system says who comes" in said else (status, said)


def stranger_trials(path: Path, anna: Login, stranger: Login, looks: Login) -> Told:
    """Who has no right gets nothing, whatever they say; and nobody comes in without a link."""
    nobody, own = Visitor(stranger, path), Visitor(anna, path)
    for where in ("/", "/accounts", "/style.css", "/jobs/x", "/?key=x", "/nothing"):
        yield f"a stranger, {where}", nobody.get(where).wrong(403)
    for header in (HEADER, "X-User", "X-Forwarded-User", "Authorization"):
        yield f"a stranger who says {header}", nobody.get("/", (header, anna.name)).wrong(403)
    for where in ("/hand-in/look", "/close/settle", "/link", "/end"):
        yield f"a form of a stranger, {where}", nobody.post(where, {"who": anna.name}).wrong(403)
    held = [Holding(stranger, path) for _ in range(12)]
    yield "strangers who hold connections open hold up nobody", own.get("/").wrong(403)
    for each in held:
        each.end()
    held = [Holding(looks, path) for _ in range(2 * MOST_OPEN)]
    yield "nor does one of those whom office.ini names", own.get("/").wrong(403)
    yield "who has no more connections then", Visitor(looks, path).get("/").wrong(0, 403)
    for each in held:
        each.end()
    status, said = nobody.link()
    yield "no link for a stranger", None if status == 2 and "does not know this login" in said else (status, said)
    for where in ("/", "/accounts", "/style.css"):
        yield f"without a link, {where}", own.get(where).wrong(403)
    yield "a key that is none", own.get("/?key=" + "x" * 22).wrong(403)
    yield "no link at the socket of the desk", own.post("/link", {}).wrong(403)
    for method, where in (("GET", "/"), ("GET", "/link"), ("POST", "/close/settle"), ("PUT", "/link")):
        there = Visitor(looks, Path(f"{path}.link")).ask(method, where)
        yield f"{method} {where} at the socket of links", there.wrong(404)


def link_of_others_trials(path: Path, anna: Login, bert: Login) -> Told:
    """A link lets in the one alone who asked for it."""
    own, other = Visitor(anna, path), Visitor(bert, path)
    way = own.way()
    yield "the link of somebody else", other.get(way).wrong(403)
    yield "the link of one's own", own.get(way).wrong(200)
    told = own.get("/")
    yield "who came is known", None if f"You are {anna.name}" in told.text and "another name" not in told.text else told
    kept = own.cookies
    other.cookies = dict(kept)
    yield "the cookie of somebody else", other.get("/").wrong(403)
    told = own.get("/", (HEADER, bert.name))
    yield "a header of who is no proxy", None if f"You are {anna.name}" in told.text else told
    cookie = next(iter(kept.values()))
    own.cookies = {next(iter(kept)): cookie[:-4] + "AAAA"}
    yield "a forged cookie", own.get("/").wrong(403)
    own.cookies = kept
    form = own.get("/names").fields("/names/look")
    said = {**form, "kind": "holder", "number": "5501", "name": "x"}
    yield "a form of another site", own.post("/names/look", said, (), [("Sec-Fetch-Site", "cross-site")]).wrong(403)
    yield "a form of another page", own.post("/names/look", said, (), [("Origin", "http://example.org")]).wrong(403)
    yield "another token", own.post("/names/look", {**said, "token": form["token"][::-1]}).wrong(403)
    yield "a form of the desk", own.post("/names/look", said, (), [("Origin", "http://localhost")]).wrong(303)
    yield "another method", own.ask("PUT", "/").wrong(405)
    told = own.ask("POST", "/names/look", b"", [("Transfer-Encoding", "chunked")])
    yield "a form of no length", told.wrong(400, 403, 411)


def right_trials(path: Path, office: Path, anna: Login, looks: Login) -> Told:
    """Each does what office.ini says, and the folder keeps who it was."""
    own, gerd = Visitor(anna, path).came_in(), Visitor(looks, path).came_in()
    looked = own.send("/hand-in", "/hand-in/look", [("a.csv", ROW.format(1).encode())])
    told = own.yes(looked, "/hand-in/take")
    yield "who may hand in", None if "handed in: a.csv" in told.text else told.text[-900:]
    what, login, who = door_many.events_of(office)[-1]
    yield "the folder keeps who", differs((what, login.partition(":")[2], who), ("handed", anna.name, anna.name))
    told = own.yes(own.send("/hand-in", "/hand-in/look", [("b.csv", ROW.format(2).encode())]), "/hand-in/take", who="x")
    yield "a name that was typed is nobody", differs(door_many.events_of(office)[-1][2], anna.name)
    before = door_many.events_of(office)
    for page in ("/", "/accounts", "/days/2025-09-22", "/find?refused=1", "/journal"):
        yield f"who may look, {page}", gerd.get(page).wrong(200)
    told = gerd.send("/hand-in", "/hand-in/look", [("c.csv", ROW.format(3).encode())])
    yield "who may only look hands nothing in", None if "may look, and not hand in" in told.text else told.text[-900:]
    form, theirs = own.get("/undo").fields("/undo/yes"), gerd.get("/undo")
    yield "and undoes nothing", None if "may look, and not close" in theirs.text else theirs.text[-900:]
    token = gerd.get("/audit").fields("/audit/begin")
    for action in ("/undo/yes", "/release/yes", "/close/settle", "/change/make", "/names/give", "/next/take-back"):
        said = {
            **form, **token, "why": "x", "state": form["state"], "once": os.urandom(8).hex(), "yes": "1",
            "second": "1", "date": "2025-09-23", "places": "1", "kind": "user", "number": "1", "name": "x",
            "of": "rules",
        }  # fmt: skip
        answer = gerd.post(action, said)
        told = gerd.job(answer) if answer.status == 303 else answer
        yield f"{action} of who may only look", None if "Nothing was done" in told.text or told.status == 400 else told
    yield "nothing was done", differs(door_many.events_of(office), before)


def proxy_trials(path: Path, office: Path, anna: Login, bert: Login, proxy: Login, stranger: Login) -> Told:
    """A proxy says for whom it comes, of those whom office.ini names."""
    nobody = Visitor(proxy, path)
    yield "a proxy that names nobody", nobody.get("/").wrong(403)
    for what, name in (
        ("a stranger", stranger.name), ("an empty name", ""), ("two at once", f"{anna.name},{bert.name}"),
        ("one through another", f"{proxy.name}:{anna.name}"), ("a long name", "x" * 90), ("marks", "an\x0bna"),
    ):  # fmt: skip
        yield f"a proxy that names {what}", nobody.get("/", (HEADER, name)).wrong(400, 403)
    both = nobody.get("/", (HEADER, anna.name), (HEADER, bert.name))
    yield "a proxy whose header stands twice", both.wrong(400, 403)
    under = nobody.get("/", (HEADER, anna.name), (HEADER.replace("-", "_"), bert.name))
    yield "a header that a browser put beside it", under.wrong(400, 403)
    own = Visitor(proxy, path, **{HEADER: anna.name})
    told = own.get("/")
    yield "whom it names is in", None if f"You are {anna.name}" in told.text else (told.status, told.text[-600:])
    cookie = own.get("/", ("X-Forwarded-Proto", "https"))
    fresh = Visitor(proxy, path, **{HEADER: anna.name}).get("/", ("X-Forwarded-Proto", "https"))
    yield "by TLS the cookie is for TLS", "Secure" not in fresh.headers.get("Set-Cookie", "") or cookie.wrong(200)
    form = own.get("/names").fields("/names/look")
    said = {**form, "kind": "holder", "number": "5501", "name": "x"}
    own.headers = {HEADER: bert.name}
    yield "a form under another name", own.post("/names/look", said).wrong(403)
    own.headers = {HEADER: anna.name}
    yield "a form under the same name", own.post("/names/look", said).wrong(303)
    told = own.yes(own.send("/hand-in", "/hand-in/look", [("d.csv", ROW.format(4).encode())]), "/hand-in/take")
    what, login, who = door_many.events_of(office)[-1]
    wanted = ("handed", f"{proxy.name}:{anna.name}", anna.name)
    yield "the folder keeps both", differs((what, login.partition(":")[2], who), wanted) and told.text[-900:]
    at_links = Visitor(proxy, Path(f"{path}.link"), **{HEADER: anna.name})
    yield "no link through a proxy", at_links.ask("POST", "/link").wrong(404)


def odd_trials(path: Path, anna: Login, bert: Login, proxy: Login, desk: SocketDesk) -> Told:
    """Requests that one server reads in another way than the next one."""
    own, theirs, host = Visitor(anna, path).came_in(), Visitor(proxy, path), "Host: localhost"
    post, name = ["POST /hand-in/look HTTP/1.1", host], f"X-Remote-User: {bert.name}"
    lengths: dict[str, list[str]] = {
        "no length": [], "pieces": ["Transfer-Encoding: chunked"], "PIECES": ["Transfer-Encoding: CHUNKED"],
    }  # fmt: skip
    for what, length in lengths.items():
        kind, body = form_of(own.get("/hand-in").fields("/hand-in/look"), [("a.csv", b"x")])
        chunks = f"{len(body):x}\r\n".encode() + body + b"\r\n0\r\n\r\n" if length else body
        yield f"a body of {what}", differs(own.says(*post, *length, f"Content-Type: {kind}", body=chunks), 411)
    for what, lines in (
        ("with an underscore", [name.replace("-", "_")]), ("with a blank that is none", [name.replace(": ", ": \xa0")]),
        ("with a mark behind it", [f"{name}\x1f"]), ("in capital letters", [name.upper()]),
    ):  # fmt: skip
        status = theirs.says("GET / HTTP/1.1", host, *lines)
        yield f"a name of a proxy {what}", None if status in (400, 403) else status
    yield "a place of the server that a browser says", differs(own.says("GET / HTTP/1.1", host, "SCRIPT_NAME: /x"), 400)
    yield "nothing of it ends in a traceback", "Traceback" in desk.said() and desk.said()[-900:]


def in_its_place_trials(anna: Login, place: Path) -> Told:
    """Something else than a desk listens where somebody asks for a link."""
    for what, answer, wanted in (
        ("half an answer", b"x" * 22, "is no desk"), ("nothing", b"", "is no desk"),
        ("marks for a terminal", b"x" * 22 + b"\n\x1b[2J\n", "is no desk"),
        ("a long one", b"y" * 9_000_000, "is no desk"), ("no answer", None, "no desk answers there"),
    ):  # fmt: skip
        path = place / "other.sock.link"
        path.unlink(missing_ok=True)
        with socket.socket(socket.AF_UNIX) as listener:
            listener.bind(str(path))
            path.chmod(0o666)
            listener.listen()
            thread = threading.Thread(target=answer_once, args=(listener, answer))
            thread.start()
            status, said = anna.day("link", "--socket", place / "other.sock")
            thread.join()
        is_so = status == 2 and wanted in said and "\x1b" not in said and len(said) < 999
        yield f"in place of a desk, {what}", None if is_so else (status, said[-900:])


def answer_once(listener: socket.socket, answer: bytes | None) -> None:
    """Answers one request, by these bytes."""
    with listener.accept()[0] as own, contextlib.suppress(OSError):
        own.recv(1 << 16)
        head = b"\x1b[2J" if answer is None else b"HTTP/1.1 200 OK\r\nContent-Length: %d" % len(answer)
        own.sendall(head + b"\r\n\r\n" + (answer or b""))


def two_trials(path: Path, office: Path, anna: Login, bert: Login, proxy: Login) -> Told:
    """One person is never two: by two browsers, by a proxy and without one, by a name that is typed."""
    first, second, other = Visitor(anna, path).came_in(), Visitor(anna, path).came_in(), Visitor(bert, path).came_in()
    looked = first.send("/change?account=100210", "/change/look", holder="5503")
    told = first.yes(looked, "/change/make", why="sold")
    yield "a change waits", None if "waits for" in told.text and "Bert Kohl" in told.text else told.text[-900:]
    by_proxy = Visitor(proxy, path, **{HEADER: anna.name})
    by_proxy.get("/")
    for what, who in (("the same browser", first), ("another browser of the login", second), ("a proxy", by_proxy)):
        told = who.yes(who.get("/"), "/approve", who=bert.name)
        is_so = "another login approves it" in told.text and "Nothing was done" in told.text
        yield f"approved by {what}", None if is_so else told.text[-900:]
    told = other.yes(other.get("/"), "/approve")
    yield "approved by somebody else", None if "approved: place" in told.text else told.text[-900:]
    looked = by_proxy.send("/change?account=100377", "/change/look", holder="5503")
    by_proxy.yes(looked, "/change/make", why="sold")
    told = first.yes(first.get("/"), "/approve")
    is_so = "another login approves it" in told.text
    yield "asked through a proxy, approved without", None if is_so else told.text[-900:]
    theirs = Visitor(proxy, path, **{HEADER: bert.name})
    theirs.get("/")
    told = theirs.yes(theirs.get("/"), "/approve")
    yield "approved by somebody else through it", None if "approved: place" in told.text else told.text[-900:]


def settings_trials(path: Path, office: Path, work: Path, people: Sequence[Login]) -> Told:
    """Another office.ini, which one asks for: they approve it in no way, a second one does, and it counts at once."""
    anna, bert, proxy, hands = people
    ini, own, new = office / "office.ini", door_commands.Giver(anna, path), work / "new.ini"
    kept, why = ini.read_text(), ("--why", "x")
    new.write_text(kept.replace("Ida Voss: hand in", "Ida Voss: hand in, change"))
    given = door_commands.Giver(hands, path).gives("settings", f"[people] {hands.name} = Ida Voss: all", *why)
    yield "who gives themselves all", door_commands.has(given, "(2, ", "may hand in, and not all")
    given = own.gives("settings", "[office] program = /bin/sh", *why)
    yield "a program", door_commands.has(given, "(3, ", "an editor of the owner alone changes it")
    asked = own.gives("settings", "--file", new, *why)
    yield "it is asked for", door_commands.has(asked, "(1, ", f"+ [people] {hands.name} = Ida Voss: hand in, change")
    approve = "approve", "settings", re.findall(r"settings (\d+)", asked[1])[-1]
    first, second = Visitor(anna, path).came_in(), Visitor(anna, path).came_in()
    for what, who in (("a browser", first), ("another one", second), ("a proxy", named_by(proxy, path, anna))):
        told = who.yes(who.get("/approve"), "/approve", who=bert.name)
        yield f"approved by {what}", door_commands.has(told.text, "another login approves it", "Nothing was done")
    for word, wanted in (("--who", "another login approves it"), ("--for", "the system says for whom")):
        given = own.gives(*approve, word, bert.name)
        yield f"approved by {word} of another one", door_commands.has(given, "(2, ", wanted)
    yield "approved by a command", door_commands.has(own.gives(*approve), "(2, ", "another login approves it")
    forged = own.sends(door_commands.request(*approve, login=bert.name))
    yield "approved by a login beside the words", door_commands.has(str(forged), "another login approves it")
    given = door_commands.Giver(hands, path).gives(*approve)
    yield "approved by who gets more by it", door_commands.has(given, "(2, ", "may hand in, and not all")
    yield "nothing is written", differs(ini.read_text(), kept)
    yield "a second one approves", door_commands.has(
        door_commands.Giver(bert, path).gives(*approve), "(0, ", "it is written"
    )
    yield "it lies there to the letter", differs(ini.read_text(), new.read_text())
    given = door_commands.Giver(hands, path).gives("change", "100210", "--waiver", "yes", *why)
    yield "it counts at once", door_commands.has(given, "(1, ", "this would be changed")
    ini.write_text(kept)


def end_trials(path: Path, office: Path, anna: Login, bert: Login, desk: SocketDesk) -> Told:
    """Whom office.ini names no more is out at once; a link that was ended lets nobody in; a server that is killed comes
    again."""
    own, other = Visitor(anna, path).came_in(), Visitor(bert, path).came_in()
    status, said = own.link("--end")
    yield "links are ended", None if status == 0 and said.startswith("links that have ended: ") else said
    yield "nobody is in by them", own.get("/").wrong(403)
    yield "others are", other.get("/").wrong(200)
    own.came_in()
    kept = (office / "office.ini").read_text()
    (office / "office.ini").write_text(kept.replace(f"{bert.name} = Bert Kohl: all\n", ""))
    yield "who is named no more is out", other.get("/").wrong(403)
    (office / "office.ini").write_text(kept)
    desk.kill_server()
    until, there = time.monotonic() + MOST_SECONDS, own.get("/")
    while there.status == 0 and time.monotonic() < until:
        time.sleep(0.2)
        there = own.get("/")
    yield "behind a kill it answers, and knows no link", there.wrong(403)
    yield "and gives another one", own.came_in().get("/").wrong(200)
    said = desk.said()
    for words in (
        f"came in from the login {anna.name} as {anna.name}", "no login that office.ini names; nothing was read",
        "the link of another login", f"{anna.name} was given a link", f"{anna.name} ended their links",
    ):  # fmt: skip
        yield f"the log says: {words[:30]}", None if words in said else said[-1500:]
