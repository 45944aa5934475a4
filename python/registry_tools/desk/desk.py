"""Serves a folder of days to browsers until somebody ends it: at a port, by waitress, or at a socket, by gunicorn."""
import contextlib
import gc
import hashlib
import importlib.util
import os
import subprocess
import sys
from pathlib import Path

from registry_tools import isolated, streams
from registry_tools.cli.serving import AtPort, AtSocket
from registry_tools.door import heads, log
from registry_tools.door.heads import Proxy
from registry_tools.errors import WordsFault
from registry_tools.office import people
from registry_tools.progress import progress

ADDRESS, THREADS = "127.0.0.1", 6
# At a socket, where no login has more than some of them.
MOST_THREADS = 64
NEEDED, SYSTEM = ("flask", "waitress"), "/usr/bin/python3"
# What a socket needs in place of these, and what it is installed by.
AT_SOCKETS = ("flask", "gunicorn")
PACKAGES = "apt-get install python3-flask python3-waitress"
# So many bytes has the head of a request.
MOST_HEADER = 1 << 15
# After so many seconds without a byte of a request, its connection is closed.
SILENT = 60


def begin(asked: AtPort | AtSocket) -> int:
    """Serves a folder as it is asked for, and answers the exit status."""
    if isinstance(asked, AtSocket):
        return at_socket(asked)
    proxy = None if asked.proxy is None else Proxy(asked.proxy[0], heads.read_secret(asked.proxy[1]))
    if not 1 <= asked.port <= 65_535:
        raise WordsFault(f"--port {asked.port} is no port: one from 1 to 65535")
    missing = missing_of(NEEDED)
    if missing:
        return by_system(missing)
    serve(asked.path, asked.port, asked.who, proxy, asked.is_look)
    return 0


def missing_of(needed: tuple[str, ...]) -> list[str]:
    """Which of these this Python lacks."""
    return [name for name in needed if importlib.util.find_spec(name) is None]


def at_socket(asked: AtSocket) -> int:
    """Serves a folder at a socket, and answers the exit status."""
    missing = missing_of(AT_SOCKETS)
    if missing:
        return by_system(missing, AT_SOCKETS, f"{PACKAGES} python3-gunicorn")
    from registry_tools.door import door

    login, people_here = people.system_login(), door.Door(asked.path).people()
    if not people_here.may_speak(login):
        way = f"below [people], {login} = The desk: {people.PROXY}"
        raise WordsFault(f"--socket: {login} speaks for who comes, and office.ini does not say so", way)
    door.must_be_free(asked.socket)
    serve_at(asked.path, asked.socket, asked.header or door.HEADER, asked.is_look)
    return 0


def serve_at(path: Path, socket: str, header: str, is_look: bool) -> None:
    """Answers requests at a socket until somebody ends it."""
    from registry_tools.desk import app
    from registry_tools.desk.gate import Served
    from registry_tools.desk.jobs import private_folder
    from registry_tools.door import door, worker
    from registry_tools.door.commands import Coming
    from registry_tools.door.kept import Kept

    gc.enable()
    progress.is_shown = False
    with private_folder() as aside:
        # (cookies know no sockets: another desk has another one)
        named = f"socket:{hashlib.sha256(os.fsencode(os.path.abspath(socket))).hexdigest()[:8]}"
        at_door = door.Door(path, header, Kept(socket))
        served = Served(path, named, aside, None, None, is_look, at_door)
        coming = Coming(path, aside, at_door, is_look)

        def end() -> None:
            coming.end()
            served.jobs.end()

        log.begin()
        print(f"the desk of {path} at {socket}; Ctrl-C ends it", flush=True)
        with contextlib.suppress(SystemExit, KeyboardInterrupt):
            worker.serve(app.make(served), coming, socket, MOST_THREADS, end)


def serve(path: Path, port: int, who: str | None, proxy: Proxy | None, is_look: bool) -> None:
    """Answers requests until somebody ends it."""
    import waitress

    from registry_tools.desk import app
    from registry_tools.desk.gate import Served
    from registry_tools.desk.jobs import private_folder
    from registry_tools.door import early

    # (a server lives for days, and a command would leave its circles to its end)
    gc.enable()
    progress.is_shown = False
    with private_folder() as aside:
        served = Served(path, f"{ADDRESS}:{port}", aside, who, proxy, is_look)
        flask = app.make(served)
        try:
            server = waitress.create_server(
                flask, host=ADDRESS, port=port, threads=THREADS, ident=None, channel_timeout=SILENT,
                max_request_body_size=app.MOST_BYTES, max_request_header_size=MOST_HEADER,
                # (what the proxy says of TLS is looked at by its secret)
                clear_untrusted_proxy_headers=False,
            )  # fmt: skip
        except OSError as error:
            raise WordsFault(f"--port {port}: {error.strerror}", "another number may be free", "; ") from None
        early.watch(server, flask, served.host, proxy, app.MOST_BYTES, heads.MOST_FORM)
        log.begin()
        link = f"http://{served.host}/?key={served.key}"
        try:
            print(f"the desk of {path}; Ctrl-C ends it. Open\n{link}", flush=True)
            server.run()
        except KeyboardInterrupt:
            # (the server takes it by itself, once it waits for requests)
            pass
        finally:
            server.close()
            served.jobs.end()


def by_system(missing: list[str], needed: tuple[str, ...] = NEEDED, packages: str = PACKAGES) -> int:
    """Starts the desk by the other Python of this machine, if that one has what is needed."""
    asked = [SYSTEM, "-I", "-c", f"import {', '.join(needed)}"]
    is_own = os.path.realpath(sys.executable) == os.path.realpath(SYSTEM)
    if is_own or not os.access(SYSTEM, os.X_OK) or subprocess.run(asked, capture_output=True, check=False).returncode:
        raise WordsFault(f"it needs {' and '.join(missing)}", packages)
    print(f"{sys.executable} has no {' and no '.join(missing)}: started by {SYSTEM}", file=sys.stderr, flush=True)
    os.execv(SYSTEM, [*isolated.command_by(SYSTEM), streams.names["./day"], *sys.argv[1:]])
