"""The process that answers at a socket, by gunicorn, which loads it by its name."""
import errno
import os
import socket
import struct
from collections import deque
from collections.abc import Callable, Sequence
from typing import Protocol

import flask
from gunicorn.app.base import BaseApplication
from gunicorn.http.errors import InvalidHeaderName
from gunicorn.workers.gthread import ThreadWorker

from registry_tools import frames
from registry_tools.cli.calling import COMMANDS
from registry_tools.door import log
from registry_tools.door.commands import Coming
from registry_tools.door.door import ENDINGS

# A connection on which nothing comes for so many seconds is closed.
SILENT = 60
# So many connections of strangers are kept until they have read why they are refused.
MOST_REFUSED = 64
# What is told, in plain text, to who gets nothing else.
ANSWER = "HTTP/1.1 403 Forbidden\r\nConnection: close\r\nContent-Type: text/plain\r\nContent-Length: {}\r\n\r\n{}"
# By this name gunicorn loads what answers; and what it reads of the environment.
WORKER = "registry_tools.door.worker.Worker"
OF_OTHERS = ("SCRIPT_NAME", "GUNICORN_PID", "GUNICORN_FD", "LISTEN_PID", "LISTEN_FDS")
# Under this name the application has what says whether somebody may come in, and else why not, and begins commands.
BEGINS = "BEGINS"


class Asked(Protocol):
    """A request as gunicorn has read it."""

    method: str
    path: str
    headers: Sequence[tuple[str, str]]


class Worker(ThreadWorker):
    """Answers requests in several threads, and waits for nobody without end. Who has nothing to do here takes no
    thread: nothing of theirs is read."""

    refused: deque[socket.socket]

    def init_process(self) -> None:
        """Begins to answer."""
        self.refused = deque()
        super().init_process()

    def accept(self, server: object, listener: socket.socket) -> None:
        """Takes a connection, if it may be: of a browser or of a link, or one by which a command is given."""
        coming: Coming = self.wsgi.config[BEGINS]
        if not str(server).endswith(COMMANDS):
            super().accept(server, Listener(listener, coming.why_not, refuse_browser, self.refused))
            return
        try:
            connection, _ = Listener(listener, coming.why_no_command, frames.refuse, self.refused).accept()
        except OSError:
            # (they may not, or are gone)
            return
        with connection:
            try:
                coming.begin(connection)
            except OSError as error:
                log.told(f"a command cannot be begun: {error.strerror}")
                frames.refuse(connection, f"the desk cannot begin it now: {error.strerror}")

    def handle_request(self, req: Asked, conn: object) -> bool:
        """Answers a request, and says whether its connection goes on. A header with `_` in its name is refused: it
        would pass for the one with `-`, which a proxy sets or takes away, and SCRIPT_NAME for what a server says."""
        strange = next((name for name, _ in req.headers if "_" in name), None)
        if strange is not None:
            log.refused("a connection", req.method, req.path, 400, f"the header {strange}, with _ for -")
            raise InvalidHeaderName(strange)
        goes_on: bool = super().handle_request(req, conn)
        return goes_on


class Listener:
    """A listening socket that gives only connections of those who may come."""

    def __init__(
        self, listener: socket.socket, why_not: Callable[[socket.socket], str],
        tell: Callable[[socket.socket, str], None], refused: deque[socket.socket],
    ) -> None:  # fmt: skip
        self.listener, self.why_not, self.tell, self.refused = listener, why_not, tell, refused

    def accept(self) -> tuple[socket.socket, object]:
        """The next connection. Raises OSError if it is of somebody who may not come."""
        connection, client = self.listener.accept()
        why = self.why_not(connection)
        if why:
            self.refuse(connection, why)
            raise OSError(errno.EAGAIN, os.strerror(errno.EAGAIN))
        for option in (socket.SO_RCVTIMEO, socket.SO_SNDTIMEO):
            connection.setsockopt(socket.SOL_SOCKET, option, struct.pack("ll", SILENT, 0))
        return connection, client

    def refuse(self, connection: socket.socket, why: str) -> None:
        """Tells somebody why not. (Closed at once, the connection would break while they still ask.)"""
        self.refused.append(connection)
        if len(self.refused) > MOST_REFUSED:
            self.refused.popleft().close()
        self.tell(connection, why)


def refuse_browser(connection: socket.socket, why: str) -> None:
    """Tells a browser, or whoever asks for a link, why nothing is read of it."""
    frames.send_at_once(connection, ANSWER.format(len(why.encode()) + 1, f"{why}\n").encode())


def serve(app: flask.Flask, coming: Coming, path: str, threads: int, end: Callable[[], None]) -> None:
    """Answers requests at a socket until somebody ends it. `end` is done by the process that answers, at its end."""
    app.config[BEGINS] = coming
    # (gunicorn takes these from whoever started the desk: where it answers, and of whom it goes on)
    for name in OF_OTHERS:
        os.environ.pop(name, None)

    class Application(BaseApplication):
        """The desk, as gunicorn wants it."""

        def load_config(self) -> None:
            """How it is served: by one process, which knows all that it began."""
            for name, value in {
                "bind": [f"unix:{path}{ending}" for ending in ENDINGS], "workers": 1, "threads": threads,
                "umask": 0o111, "worker_class": WORKER, "timeout": 0, "loglevel": "warning", "graceful_timeout": 5,
                "worker_exit": lambda _server, _worker: end(),
            }.items():  # fmt: skip
                self.cfg.set(name, value)

        def load(self) -> flask.Flask:
            """What answers."""
            return app

    Application().run()
