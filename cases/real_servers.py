"""Browsers that come to a desk at a socket by programs of others: by nginx, which asks who it is, and by ssh, which
leads a port there. For cases/run-door."""
from __future__ import annotations

import base64
import contextlib
import http.client
import os
import shutil
import socket
import subprocess
import time
from collections.abc import Iterator, Mapping, Sequence
from pathlib import Path

from harness import MOST_SECONDS, TOP, LeftOut, answer_of
from logins import Login
from real_desk import Answer, File, form_of

Told = Iterator[tuple[str, object]]
SECRET, ROW = "a word of hers", b"do,2025-09-23,5101,5102,transfer,100210,300118,general,7\n"
# What stands round the lines of the example, so that it runs beside another one.
NGINX = """\
user {user} {group};
pid {place}/nginx.pid;
error_log {place}/nginx.log;
events {{}}
http {{
access_log off;
{folders}
server {{
listen 127.0.0.1:{port};
{location}}}
}}
"""
LOCATION = TOP / "examples/desk/nginx.conf"
# The paths in it.
SOCKET, USERS = "/run/registry/desk.sock", "/etc/nginx/desk.users"
SSHD = """\
Port {port}
ListenAddress 127.0.0.1
HostKey {place}/host
PidFile {place}/sshd.pid
AuthorizedKeysFile {place}/%u.pub
PasswordAuthentication no
KbdInteractiveAuthentication no
StrictModes no
"""


class AtPort:
    """A browser at a port of this machine, with cookies."""

    def __init__(self, port: int, headers: Mapping[str, str] | None = None) -> None:
        self.host, self.port = f"127.0.0.1:{port}", port
        self.cookies, self.headers = dict[str, str](), headers or {}

    def ask(self, method: str, where: str, body: bytes = b"", more: Mapping[str, str] | None = None) -> Answer:
        own = {**self.headers, **(more or {})}
        if self.cookies:
            own["Cookie"] = "; ".join(f"{name}={word}" for name, word in self.cookies.items())
        with contextlib.closing(http.client.HTTPConnection("127.0.0.1", self.port, timeout=MOST_SECONDS)) as there:
            there.request(method, where, body or None, own)
            answer = there.getresponse()
            for cookie in answer.headers.get_all("Set-Cookie", []):
                name, _, word = cookie.partition(";")[0].partition("=")
                self.cookies[name] = word
            return Answer(answer.status, answer.headers, answer.read().decode("utf-8", "replace"))

    def get(self, where: str) -> Answer:
        return self.ask("GET", where)

    def post(self, where: str, fields: Mapping[str, str], files: Sequence[File] = (), origin: str = "") -> Answer:
        kind, body = form_of(fields, files)
        return self.ask("POST", where, body, {"Content-Type": kind, "Origin": origin or f"http://{self.host}"})

    def send(self, page: str, action: str, files: Sequence[File] = (), **said: str) -> Answer:
        """Opens a page, and sends its form with fields filled in, and with files."""
        answer = self.post(action, {**self.get(page).fields(action), **said}, files)
        place = answer.headers.get("Location", "")
        return self.get(place) if "/look/" in place else answer

    def is_not(self, login: Login) -> object:
        """What is wrong, if the desk does not say that this login is at this browser."""
        told = self.get("/")
        return None if f"You are {login.name}" in told.text else told


def name_of(own: AtPort) -> dict[str, str]:
    """The fields of a form of this browser that names a holder."""
    return {**own.get("/names").fields("/names/look"), "kind": "holder", "number": "5501", "name": "x"}


def said_who(login: Login, secret: str = SECRET) -> dict[str, str]:
    """The header of a browser whose reader has said who it is."""
    return {"Authorization": "Basic " + base64.b64encode(f"{login.name}:{secret}".encode()).decode()}


def free_port() -> int:
    with socket.socket() as free:
        free.bind(("127.0.0.1", 0))
        port: int = free.getsockname()[1]
        return port


def wait_for(port: int, why: Path) -> None:
    """Waits until something answers at a port."""
    until = time.monotonic() + MOST_SECONDS
    while True:
        with contextlib.suppress(OSError), socket.create_connection(("127.0.0.1", port), MOST_SECONDS):
            return
        if time.monotonic() > until:
            raise LeftOut(f"nothing answers at port {port}: {why.read_text()[-300:] if why.exists() else ''}")
        time.sleep(0.1)


@contextlib.contextmanager
def at_work(line: Sequence[str | Path], port: int, log: Path) -> Iterator[None]:
    """A program at work, for the block, once it answers at a port."""
    with log.open("ab") as told:
        process = subprocess.Popen([*map(str, line)], stdin=subprocess.DEVNULL, stdout=told, stderr=told)
    try:
        wait_for(port, log)
        yield
    finally:
        process.terminate()
        process.wait(MOST_SECONDS)


@contextlib.contextmanager
def nginx(work: Path, path: Path, proxy: Login, names: Sequence[str]) -> Iterator[int]:
    """nginx at work for the block, as the login of a proxy, which knows these names; and its port."""
    program = shutil.which("nginx", path=f"{os.environ['PATH']}:/usr/sbin")
    if not program:
        raise LeftOut("nginx is not here")
    place, port = work / "nginx", free_port()
    place.mkdir()
    place.chmod(0o755)
    kinds = "client_body", "proxy", "fastcgi", "uwsgi", "scgi"
    folders = "".join(f"{kind}_temp_path {place}/{kind};" for kind in kinds)
    location = LOCATION.read_text()
    assert SOCKET in location and USERS in location, location
    location = location.replace(SOCKET, str(path)).replace(USERS, str(place / "users"))
    more = {"user": proxy.name, "group": f"rgy{os.getpid()}g", "folders": folders, "location": location}
    (place / "nginx.conf").write_text(NGINX.format(place=place, port=port, **more))
    (place / "users").write_text("".join(f"{name}:{{PLAIN}}{SECRET}\n" for name in names))
    log = place / "nginx.log"
    with at_work([program, "-p", place, "-c", place / "nginx.conf", "-e", log, "-g", "daemon off;"], port, log):
        yield port


class Ssh:
    """An ssh server at work, with keys of logins."""

    def __init__(self, work: Path, port: int) -> None:
        self.place, self.port = work / "ssh", port

    def line(self, login: Login, *words: object) -> list[str]:
        """A line of ssh that is led to the server as a login."""
        options = ("StrictHostKeyChecking=no", f"UserKnownHostsFile={self.place}/known", "BatchMode=yes",
                   "ExitOnForwardFailure=yes")  # fmt: skip
        own: list[object] = ["ssh", "-F", "none", "-i", self.place / login.name, "-p", self.port]
        own += [word for option in options for word in ("-o", option)]
        return [*map(str, own), *map(str, words[:-1]), f"{login.name}@127.0.0.1", *map(str, words[-1:])]

    def says(self, login: Login, command: str) -> str:
        """What a command says that a login gives by ssh."""
        said = subprocess.run(
            self.line(login, command), stdin=subprocess.DEVNULL, capture_output=True, text=True, check=False,
            timeout=MOST_SECONDS,
        )  # fmt: skip
        return said.stdout + said.stderr

    @contextlib.contextmanager
    def leads(self, login: Login, path: Path) -> Iterator[int]:
        """A port that leads to a socket, as `ssh -N -L PORT:PATH` opens it."""
        port = free_port()
        line = self.line(login, "-L", f"{port}:{path}", "-N", "")[:-1]
        with at_work(line, port, self.place / "log"):
            yield port


@contextlib.contextmanager
def ssh_server(work: Path, people: Sequence[Login]) -> Iterator[Ssh]:
    """An ssh server at work for the block, to which these come, each by a key of their own."""
    program = shutil.which("sshd", path=f"{os.environ['PATH']}:/usr/sbin")
    if not program or not shutil.which("ssh-keygen"):
        raise LeftOut("sshd is not here")
    own = Ssh(work, free_port())
    own.place.mkdir()
    own.place.chmod(0o755)
    for name in ("host", *(login.name for login in people)):
        line = ["ssh-keygen", "-q", "-t", "ed25519", "-N", "", "-C", name, "-f", str(own.place / name)]
        subprocess.run(line, stdin=subprocess.DEVNULL, capture_output=True, check=True)
    for login in people:
        # (whoever comes by ssh needs a shell, and a login that is not locked)
        subprocess.run(["usermod", "--shell", "/bin/sh", "--password", "*", login.name], check=True)
    (own.place / "sshd_config").write_text(SSHD.format(place=own.place, port=own.port))
    Path("/run/sshd").mkdir(exist_ok=True)
    with at_work([program, "-D", "-e", "-f", own.place / "sshd_config"], own.port, own.place / "sshd.log"):
        yield own


def nginx_trials(work: Path, path: Path, proxy: Login, people: Sequence[Login]) -> Told:
    """Whoever comes by nginx is who it asked for a password, whatever else they say."""
    anna, looks, stranger = people
    with nginx(work, path, proxy, [login.name for login in people]) as port:
        yield "nginx: without a password", AtPort(port).get("/").wrong(401)
        yield "nginx: with another one", AtPort(port, said_who(anna, "x")).get("/").wrong(401)
        yield "nginx: whom office.ini does not name", AtPort(port, said_who(stranger)).get("/").wrong(403)
        own = AtPort(port, said_who(anna))
        yield "nginx: by a password", own.is_not(anna)
        for header in ("X-Remote-User", "X_Remote_User", "x-remote-user"):
            other = AtPort(port, {**said_who(looks), header: anna.name})
            yield f"nginx: somebody who says {header}", other.is_not(looks)
        yield "nginx: a form with a file", own.send("/hand-in", "/hand-in/look", [("n.csv", ROW)]).wrong(200)
        large = own.send("/hand-in", "/hand-in/look", [("large.csv", b"do,2025-09-23," * 200_000)])
        yield "nginx: a file of 2.8 MB is looked at", None if "large.csv:1" in large.text else large.text[-900:]
        said = name_of(own)
        yield "nginx: a form of another page", own.post("/names/look", said, (), "http://example.org").wrong(403)
        yield "nginx: a form of the desk", own.post("/names/look", said).wrong(303)
        own.headers = said_who(looks)
        yield "nginx: a form under another name", own.post("/names/look", said).wrong(403)


def ssh_trials(work: Path, path: Path, people: Sequence[Login]) -> Told:
    """Whoever comes by ssh is who has the key, with a link of their own."""
    anna, looks, stranger = people
    with ssh_server(work, people) as there, there.leads(anna, path) as port:
        words = f"{TOP}/day link --socket {path} --port {port}"
        yield "ssh: the port alone lets nobody in", AtPort(port).get("/").wrong(403)
        way, own = there.says(anna, words).partition("\n")[0].partition(f"http://127.0.0.1:{port}")[2], AtPort(port)
        yield "ssh: the link opens", own.get(way).wrong(200)
        yield "ssh: by a key", own.is_not(anna)
        said = name_of(own)
        yield "ssh: a form of the desk", own.post("/names/look", said).wrong(303)
        yield "ssh: a form of another page", own.post("/names/look", said, (), "http://example.org").wrong(403)
        theirs = there.says(looks, words).partition("\n")[0].partition(f"http://127.0.0.1:{port}")[2]
        yield "ssh: the link of somebody else at her port", AtPort(port).get(theirs).wrong(403)
        with there.leads(looks, path) as other:
            yield "ssh: her link at the port of somebody else", AtPort(other).get(way).wrong(403)
            yield "ssh: their link there", AtPort(other).get(theirs).wrong(200)
        told = there.says(stranger, words)
        yield "ssh: no link for a stranger", None if "does not know this login" in told else told
        with there.leads(stranger, path) as other:
            yield "ssh: nothing at the port of a stranger", AtPort(other).get("/").wrong(403)


def unit_trials() -> Told:
    """The service of systemd: its words are known, and what it may do is little."""
    unit, program = TOP / "examples/desk/registry-desk.service", shutil.which("systemd-analyze")
    sockets = [path.name for path in (unit, LOCATION) if SOCKET not in path.read_text()]
    yield "the socket of the service is that of nginx", sockets
    if not program:
        raise LeftOut("systemd-analyze is not here")
    # (in tenths: of 10.0 for a service that may do all)
    said = answer_of([program, "security", "--offline=true", "--no-pager", "--threshold=10", unit])
    yield "the service may do little", None if said[2] == 0 else said[0].decode()[-400:]
    told = answer_of([program, "verify", unit])[1].decode()
    yield "systemd knows the words of the service", [line for line in told.splitlines() if "nknown" in line]
