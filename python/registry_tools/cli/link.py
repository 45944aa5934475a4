"""Prints a link for a browser, with which whoever gives the command comes to the desk at a socket (./day desk
--socket): the system tells the desk who that is. It counts for this login alone, for some hours, or up to --end.

From another machine, with ssh:

  ssh -N -L 8424:PATH anna@host &         leads a port of that machine to the socket
  ssh anna@host ./day link --socket PATH  prints the link, which its browser opens

The port is open to everybody on that machine, and the link is not: so it is a link that lets a browser in.
"""
import argparse
import http.client
import os
import re
import socket

from registry_tools.cli.desks import VARIABLE
from registry_tools.errors import WordsFault, shown

EXAMPLE = "./day link --socket /run/registry/desk.sock"
# The port that ssh leads to the socket.
PORT = 8424
# Behind the path of a socket, the one where links are made.
LINKS = ".link"
MOST_SECONDS = 30
# What a desk answers: a key, and until when it counts; or how many links have ended.
ANSWERS = {
    "/link": re.compile(r"([\w-]{22})\n([0-9-]{10} [0-9:]{5})\n", re.ASCII), "/end": re.compile(r"([0-9]{1,9})\n"),
}  # fmt: skip
MOST_BYTES = 1 << 10


class Connection(http.client.HTTPConnection):
    """A connection to a socket of the system."""

    def __init__(self, path: str) -> None:
        super().__init__("localhost", timeout=MOST_SECONDS)
        self.path = path

    def connect(self) -> None:
        """Opens it."""
        self.sock = socket.socket(socket.AF_UNIX)
        self.sock.settimeout(MOST_SECONDS)
        self.sock.connect(self.path)


def add_words(parser: argparse.ArgumentParser) -> None:
    """Tells a parser the words of the command."""
    parser.add_argument("--socket", metavar="PATH", help=f"the socket of the desk; without it, that of {VARIABLE}")
    parser.add_argument("--port", type=int, default=PORT, metavar="N", help=f"the port that leads there; else {PORT}")
    parser.add_argument("--end", action="store_true", help="end all links of this login")


def run(said: argparse.Namespace) -> int:
    """Runs the command, and answers the exit status."""
    path = said.socket or os.environ.get(VARIABLE)
    if not path:
        raise WordsFault("name the socket of the desk", f"--socket PATH, or {VARIABLE}")
    answer = ask(path, "/end" if said.end else "/link")
    if said.end:
        print(f"links that have ended: {answer[1]}")
        return 0
    key, until = answer.groups()
    print(f"http://127.0.0.1:{said.port}/?key={key}\nit counts for you alone, until {until}; --end ends it before")
    return 0


def ask(path: str, what: str) -> re.Match[str]:
    """What the desk answers at the socket of links. (Whoever listens there in its place has nothing else printed.)"""
    connection = Connection(f"{path}{LINKS}")
    try:
        connection.request("POST", what, headers={"Content-Length": "0"})
        answer = connection.getresponse()
        found = ANSWERS[what].fullmatch(answer.read(MOST_BYTES).decode("utf-8", "replace"))
    except (OSError, http.client.HTTPException) as error:
        raise WordsFault(f"--socket {path}: no desk answers there: {shown(str(error))}") from None
    finally:
        connection.close()
    if answer.status != http.client.OK:
        raise WordsFault(f"--socket {path}: the desk does not know this login, or answers otherwise: {answer.status}")
    if found is None:
        raise WordsFault(f"--socket {path}: what answers there is no desk")
    return found
