"""The desk on a socket of the system, which says by which login somebody comes: nobody types who they are.

office.ini says what each login may do; whom it does not name gets nothing. A login with the right `proxy` says by a
header for whom it comes, and nobody else's header counts. Who comes without a proxy has a link beside: a port that
leads to the socket from the reader's own machine, as `ssh -L` opens it, is open to everybody there.

Links are made at a second socket, which such a port does not lead to: PATH.link. At a third one, PATH.day, commands are
given (commands.py).
"""
import contextlib
import hashlib
import os
import secrets
import socket
import stat
import threading
import time
from collections.abc import Mapping
from dataclasses import dataclass
from pathlib import Path

from registry_tools import frames
from registry_tools.cli.calling import COMMANDS
from registry_tools.cli.link import LINKS
from registry_tools.door import heads, log
from registry_tools.door.heads import Head, Refusal
from registry_tools.door.kept import Kept
from registry_tools.errors import FileFault, WordsFault
from registry_tools.layout import SETTINGS
from registry_tools.office import people, settings
from registry_tools.office.people import SPEAKS_FOR, People

# By this header a proxy says for whom it comes, if the desk is not told another one.
HEADER = "X-Remote-User"
# So long a link counts, with all that came in by it, in seconds; and so many count for one login.
MOST_SECONDS, MOST_LINKS = 8 * 3_600, 10
# The longest path of a socket.
LONGEST = 100
# What stands behind that path where browsers, links and commands come.
ENDINGS = ("", LINKS, COMMANDS)
NOT_NAMED = "This desk does not know you: office.ini names who may come."
NO_LINK = "Ask for a link of your own by the command link, and open it."


@dataclass(frozen=True)
class Peer:
    """Who is at the other end of a connection: the login that the system tells, and whether it came to the socket of
    links."""

    login: str
    is_at_links: bool


@dataclass(frozen=True)
class Caller:
    """Who asks: the login by which the folder keeps what is done, the person, and whether a proxy speaks for them."""

    login: str
    person: str
    is_by_proxy: bool


@dataclass(frozen=True)
class Link:
    """A link: for which login it counts, and until when, in seconds of the clock."""

    login: str
    until: float


def peer_of(environ: Mapping[str, object]) -> Peer:
    """Who is at the other end of the connection of a request."""
    connection = environ["gunicorn.socket"]
    assert isinstance(connection, socket.socket)
    return peer_at(connection)


def peer_at(connection: socket.socket) -> Peer:
    """Who is at the other end of a connection."""
    return Peer(people.login_of(frames.user_at(connection)), str(connection.getsockname()).endswith(LINKS))


class Links:
    """The links that were made, by the sums of their keys: whoever reads the memory of a log finds no key."""

    def __init__(self, kept: Kept | None = None) -> None:
        self.lock, self.kept = threading.Lock(), kept
        self.links = {name: Link(*link) for name, link in kept.links.items()} if kept else {}

    def make(self, login: str) -> tuple[str, float]:
        """A new link for a login: its key, and until when it counts. Of too many, the first one ends."""
        key, until = secrets.token_urlsafe(16), time.time() + MOST_SECONDS
        with self.lock:
            names = [name for name, link in self.links.items() if link.login == login]
            for name in names[: max(len(names) - MOST_LINKS + 1, 0)]:
                del self.links[name]
            self.links[link_name(key)] = Link(login, until)
            self.keep()
        return key, until

    def keep(self) -> None:
        """Keeps those that count still, for the time behind a restart."""
        if self.kept is not None:
            links = {name: (link.login, link.until) for name, link in self.links.items() if time.time() < link.until}
            self.kept.links = links
            self.kept.write()

    def end(self, login: str) -> int:
        """Ends all links of a login, and answers how many there were."""
        with self.lock:
            names = [name for name, link in self.links.items() if link.login == login]
            for name in names:
                del self.links[name]
            self.keep()
        return len(names)

    def counts(self, name: object, login: str) -> bool:
        """Whether a link counts for a login now."""
        link = self.links.get(str(name))
        return link is not None and link.login == login and time.time() < link.until


def link_name(key: str) -> str:
    """The name of a link: the sum of its key."""
    return hashlib.sha256(key.encode("utf-8", "replace")).hexdigest()


class Door:
    """Who may come to the desk of a folder."""

    def __init__(self, folder: Path, header: str = HEADER, kept: Kept | None = None) -> None:
        self.folder, self.header, self.links = folder, header, Links(kept)

    def people(self) -> People:
        """The people whom office.ini names. Raises FileFault."""
        return settings.read(self.folder / SETTINGS).people

    def why_not(self, connection: socket.socket) -> str:
        """Why nothing is read of a connection; nothing, if it is of a login that office.ini names."""
        peer = peer_at(connection)
        with contextlib.suppress(FileFault, OSError):
            if peer.login in self.people().named:
                return ""
        log.refused(f"the login {peer.login}", "all", "", 403, f"no login that {SETTINGS} names; nothing was read")
        return NOT_NAMED

    def caller(self, peer: Peer, head: Head) -> Caller | Refusal:
        """Who asks, or why nobody does who may."""
        people_here = self.people()
        if peer.login not in people_here.named:
            return Refusal(403, NOT_NAMED, f"{peer.login} is no login that {SETTINGS} names")
        if not people_here.may_speak(peer.login):
            return Caller(peer.login, peer.login, False)
        name = heads.plain_name(head.of(self.header))
        if not name:
            told = "The proxy before this desk has to say who you are, and it does not."
            return Refusal(403, told, f"the proxy {peer.login} names nobody")
        if name not in people_here.named or SPEAKS_FOR in name:
            return Refusal(403, NOT_NAMED, f"{name}, whom {peer.login} names, is no login that {SETTINGS} names")
        return Caller(f"{peer.login}{SPEAKS_FOR}{name}", name, True)


# Where it listens.


def must_be_free(path: str) -> None:
    """Ends the command where no socket can be made: another desk answers there, something else lies there, or others
    may put theirs in its place."""
    if len(os.fsencode(path)) > LONGEST:
        raise WordsFault(f"--socket {path}: a path of a socket has at most {LONGEST} bytes")
    folder = os.path.dirname(os.path.abspath(path))
    try:
        about = os.stat(folder)
    except OSError as error:
        raise WordsFault(f"--socket {path}: {folder}: {error.strerror}") from None
    is_shared = about.st_mode & (stat.S_IWGRP | stat.S_IWOTH) and not about.st_mode & stat.S_ISVTX
    if about.st_uid not in (os.geteuid(), 0) or is_shared:
        expected = f"expected a folder of {people.system_login()} that nobody else may write"
        raise WordsFault(f"--socket {path}: others could put a socket of theirs into {folder}; {expected}")
    for ending in ENDINGS:
        must_be_left(f"{path}{ending}")


def must_be_left(path: str) -> None:
    """Ends the command if something else than a socket that a desk left lies there."""
    with contextlib.suppress(FileNotFoundError):
        if not stat.S_ISSOCK(os.lstat(path).st_mode):
            raise WordsFault(f"--socket {path}: something else than a socket lies there")
        with socket.socket(socket.AF_UNIX) as connection, contextlib.suppress(ConnectionRefusedError):
            connection.connect(path)
            raise WordsFault(f"--socket {path}: another desk answers there")
