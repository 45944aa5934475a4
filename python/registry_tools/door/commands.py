"""Commands that logins give at the socket of a desk, from where they are: each is carried out by a process of its own,
which has the connection (answering.py). Nothing that comes is read here."""
import contextlib
import os
import signal
import socket
import subprocess
import tempfile
from collections import defaultdict
from pathlib import Path

from registry_tools import isolated
from registry_tools.door import log
from registry_tools.door.door import Door, peer_at
from registry_tools.errors import FileFault
from registry_tools.office import people

# So many commands of one login may be at work, and so many connections of browsers may be open: of one login, and of a
# proxy, which comes for many.
MOST_AT_ONCE, MOST_OPEN, MOST_OF_PROXY = 8, 8, 48
# So long the desk waits for the commands at its end, before it ends them otherwise.
MOST_SECONDS = 60.0
# The descriptor of a connection that is closed.
CLOSED = -1
TOO_MANY = f"{MOST_AT_ONCE} commands of this login are at work: wait until one ends"
OF_HOLDER = "who is tied to a holder works in a browser, and gives no commands"
Started = subprocess.Popen[bytes]
BY_PROXY = "a proxy gives no commands: whoever it speaks for gives them"


class Coming:
    """Who comes to a desk: the connections that are open and the commands that are at work, by login, so that nobody
    has all of them."""

    def __init__(self, folder: Path, private: Path, door: Door, is_look: bool) -> None:
        self.folder, self.private, self.door, self.is_look = folder, private, door, is_look
        self.begun: dict[str, list[Started]] = defaultdict(list)
        self.open: dict[str, list[socket.socket]] = defaultdict(list)

    def why_not(self, connection: socket.socket) -> str:
        """Why nothing is read of a connection of a browser or of a link; nothing, if it may come."""
        why = self.door.why_not(connection)
        if why:
            return why
        login = peer_at(connection).login
        others = [each for each in self.open[login] if each.fileno() != CLOSED]
        most = MOST_OF_PROXY if self.is_proxy(login) else MOST_OPEN
        if len(others) >= most:
            log.refused(f"the login {login}", "all", "", 403, f"{most} connections of it are open")
            return f"{most} connections of this login are open: wait until one ends"
        self.open[login] = [*others, connection]
        return ""

    def why_no_command(self, connection: socket.socket) -> str:
        """Why somebody may give no command now; nothing, if they may."""
        why = self.door.why_not(connection)
        if why:
            return why
        login = peer_at(connection).login
        why = BY_PROXY if self.is_proxy(login) else OF_HOLDER if self.is_tied(login) else ""
        if not why and len(self.at_work(login)) >= MOST_AT_ONCE:
            why = TOO_MANY
        if why:
            log.refused(f"the login {login}", "a command", "", 403, why)
        return why

    def is_proxy(self, login: str) -> bool:
        """Whether a login may speak for others; not if office.ini cannot be read now."""
        with contextlib.suppress(FileFault, OSError):
            return self.door.people().may_speak(login)
        return False

    def is_tied(self, login: str) -> bool:
        """Whether a login is tied to a holder, or nobody knows it now."""
        with contextlib.suppress(FileFault, OSError, KeyError):
            return self.door.people().named[login].tied_to(people.HOLDER) is not None
        return True

    def at_work(self, login: str) -> list[Started]:
        """The commands of a login that have not ended."""
        self.begun[login] = [process for process in self.begun[login] if process.poll() is None]
        return self.begun[login]

    def begin(self, connection: socket.socket) -> None:
        """Has a process carry out what comes by a connection."""
        login = peer_at(connection).login
        aside = tempfile.mkdtemp(prefix="job-", dir=self.private)
        words = [str(connection.fileno()), str(self.folder), login, aside, "look" if self.is_look else "all"]
        # (its errors go to the log of the desk; and who it is stands in its words alone)
        process = subprocess.Popen(
            [*isolated.answer_by(), *words], cwd=aside, stdin=subprocess.DEVNULL, stdout=subprocess.DEVNULL,
            pass_fds=[connection.fileno()], start_new_session=True, env={**os.environ, "LOGNAME": login},
        )  # fmt: skip
        self.at_work(login).append(process)

    def end(self) -> None:
        """Ends what is at work, and waits: a command that is told to end leaves the folder as it was, or as it will
        be."""
        running = [process for processes in self.begun.values() for process in processes if process.poll() is None]
        for process in running:
            with contextlib.suppress(ProcessLookupError):
                os.killpg(process.pid, signal.SIGTERM)
        for process in running:
            with contextlib.suppress(subprocess.TimeoutExpired):
                process.wait(MOST_SECONDS)
