"""What people of several logins try by commands that they give at the socket of a desk, with the words of `./day` and
by bytes of their own. For cases/run-door."""
from __future__ import annotations

import contextlib
import json
import os
import signal
import socket
import subprocess
import sys
import threading
import time
from collections.abc import Callable, Iterator, Mapping, Sequence
from concurrent.futures import ThreadPoolExecutor
from pathlib import Path
from typing import TYPE_CHECKING, Any

from harness import MOST_SECONDS, PYTHON, TOP, differs
from logins import Login

from registry_tools import frames, tables
from registry_tools.door.commands import MOST_AT_ONCE

if TYPE_CHECKING:
    from door_trials import SocketDesk, Visitor

Told = Iterator[tuple[str, object]]
WEEK = TOP / "examples" / "week"
# What a login sends to the socket of commands, run as this login: frames of JSON, as the answer is.
SAY = """
import contextlib, json, socket, sys
from concurrent.futures import ThreadPoolExecutor
sys.path.insert(0, sys.argv[1])
from registry_tools import frames
def say(content):
    own, there = socket.socket(socket.AF_UNIX), []
    own.settimeout(600)
    own.connect(sys.argv[2])
    stream = own.makefile('rb')
    def hear():
        kind, content = frames.take(stream, 1 << 30)
        there.append([kind.decode(), content.decode('utf-8', 'replace')])
        return kind
    try:
        if hear() == frames.GO:
            with contextlib.suppress(OSError):
                own.sendall(content)
                if sys.argv[3:] == ['half']:
                    own.shutdown(socket.SHUT_WR)
        while hear() != frames.STATUS:
            if there[-1][0] == 'A':
                frames.send(own, frames.THERE)
    except OSError as error:
        there.append(['broken', str(error)])
    return there
with ThreadPoolExecutor(4) as pool:
    asked = json.load(sys.stdin)
    print(json.dumps([*pool.map(say, (own.encode('latin-1') for own in asked))]))
"""
# Who begins a command, and says nothing.
HOLD = """
import socket, sys
own = [socket.socket(socket.AF_UNIX) for _ in range(int(sys.argv[2]))]
for each in own:
    each.connect(sys.argv[1])
    each.recv(1)
print('x', flush=True)
sys.stdin.read()
"""


class Giver:
    """Somebody who gives commands at the socket of a desk."""

    def __init__(self, login: Login, path: Path) -> None:
        self.login, self.path = login, path

    def gives(self, *words: object, **more: str) -> tuple[int, str]:
        """The status of a command, and what it says."""
        return self.login.day("--desk", self.path, *words, **more)

    def gives_all(self, given: Sequence[Sequence[object]], **more: str) -> list[tuple[int, str]]:
        """The same of several commands, some at a time."""
        with ThreadPoolExecutor(4) as pool:
            return [*pool.map(lambda words: self.gives(*words, **more), given)]

    def sends(self, *contents: bytes, how: str = "whole") -> list[list[list[str]]]:
        """What comes back of some bytes, each by a connection of their own, some at a time."""
        line = self.login.line(sys.executable, "-I", "-c", SAY, PYTHON, f"{self.path}.day", how)
        said = subprocess.run(
            line, input=json.dumps([content.decode("latin-1") for content in contents]).encode(),
            capture_output=True, timeout=MOST_SECONDS, check=True, cwd="/",
        )  # fmt: skip
        answer: list[list[list[str]]] = json.loads(said.stdout)
        return answer

    def tries(self, asked: Sequence[tuple[str, bytes, str]], how: str = "whole") -> Told:
        """What is wrong, if what comes back of some bytes does not tell something."""
        answers = self.sends(*(content for _, content, _ in asked), how=how)
        for (what, _, wanted), answer in zip(asked, answers, strict=True):
            yield what, has(" ".join(content for _, content in answer), wanted)


def request(*words: str, sent: Mapping[str, bytes] | None = None, **more: object) -> bytes:
    """The bytes by which a command is given, with these files."""
    files = sent or {}
    told: dict[str, Any] = {
        "version": tables.VERSION, "called": "./day", "words": words, "is_terminal": False, "shows_progress": False,
        "files": [(name, None) for name in files], **more,
    }  # fmt: skip
    contents = [frames.frame(frames.CONTENT, content) for content in files.values()]
    return b"".join([frames.frame(frames.WORDS, frames.said(told)), *contents])


def has(found: object, *wanted: str) -> object:
    """What is wrong, if something of this is not told."""
    lacking = [word for word in wanted if word not in str(found)]
    return f"{lacking} lack in {str(found)[-900:]}" if lacking else None


def tree_of(home: Path) -> dict[str, bytes]:
    """All files of the desk's login."""
    return {str(path): path.read_bytes() for path in home.rglob("*") if path.is_file()}


def right_trials(path: Path, anna: Login, looks: Login, stranger: Login, proxy: Login) -> Told:
    """Each gets what office.ini says, whatever the environment says."""
    nobody, gerd = Giver(stranger, path), Giver(looks, path)
    asked: list[list[object]] = [["status"], ["hand-in", WEEK / "tuesday-do.csv"]]
    for words in asked:
        yield f"a stranger gives {words[0]}", has(nobody.gives(*words), "(2, ", "does not know you")
        yield f"a proxy gives {words[0]}", has(Giver(proxy, path).gives(*words), "(2, ", "a proxy gives no commands")
    yield "who may look, status", has(gerd.gives("status"), "(0, ")
    commands: list[list[object]] = [
        ["hand-in", WEEK / "thursday-do.csv"], ["close", "--date", "2025-09-23", "--second", "--yes"],
        ["change", "100210", "--holder", "5503", "--why", "x", "--yes"], ["label", "user", "1", "x", "--why", "x"],
        ["release", "2025-09-22", "--why", "x", "--yes"], ["undo", "2025-09-22", "--why", "x"],
        ["correct", "2025-09-22", "--without", "61001", "--why", "x", "--second", "--yes"],
    ]  # fmt: skip
    for (name, *_), told in zip(commands, gerd.gives_all(commands)):
        yield f"who may only look, {name}", has(told, "(2, ", "may look, and not")
    others = {"LOGNAME": anna.name, "USER": anna.name, "REGISTRY_OFFICE": "/etc", "REGISTRY_PROGRAMS": "/"}
    for (name, *_), told in zip(commands, gerd.gives_all(commands[:2], **others)):
        yield f"who says by the environment to be somebody else, {name}", has(told, "(2, ", "may look, and not")


def word_trials(path: Path, home: Path, anna: Login, bert: Login) -> Told:
    """Words that name other folders, programs or people, and files of the desk's login."""
    own, office = Giver(anna, path), home / "office"
    (home / "secret.csv").write_text("a secret of the desk\n")
    (home / "secret.csv").chmod(0o600)
    os.chown(home / "secret.csv", office.stat().st_uid, -1)
    before = tree_of(home)
    names = [str(home / "secret.csv"), str(office / "office.ini"), f"{office}/registry.sqlite", "/etc/shadow",
             "../../../etc/passwd", "office.ini", "/proc/self/environ", "/dev/stdin", "-"]  # fmt: skip
    not_sent = "it was not sent with the command"
    yield from own.tries([(f"hand-in of {name}, not sent", request("hand-in", name), not_sent) for name in names])
    of_files: list[list[str]] = [
        ["label", "--file", names[0], "--why", "x"], ["audit", "--anchors", names[0]],
        ["correct", "2025-09-22", "--with", names[0], "--why", "x"], ["hand-in", "a.csv", "--mapping", names[0]],
        ["send", "x", "--labels", names[0]], ["compliance", "--day", "2025-09-22", "--labels", names[0]],
        ["page", "x", "--day", "2025-09-22", "--lanes", names[0]], ["db", names[0]], ["anchor", "--to", names[0]],
        ["page", "x", "--day", "2025-09-22", "--history", names[0], names[0]],
    ]  # fmt: skip
    table = {"a.csv": b"x,y\n1,2\n"}
    yield from own.tries([
        (f"{words[0]} with a file that is not sent", request(*words, sent=table), not_sent) for words in of_files
    ])  # fmt: skip
    targets: list[list[str]] = [
        ["status", "--to", f"{office}/x"], ["month", f"{office}/x"], ["unpack", f"{office}/x"], ["db", f"{office}/x"],
        ["due", "--ics", f"{home}/x"], ["statements", "--day", "2025-09-22", f"{office}/days"],
        ["page", "--day", "2025-09-22", f"{home}/pages"], ["send", f"{home}/sent"], ["anchor", "--to", f"{home}/x"],
        ["export", "--day", "2025-09-22", "--log", "--xlsx", f"{home}/x.xlsx"],
    ]  # fmt: skip
    # (of what the caller has not, the caller says so)
    gone = [[f"{place}/x", [2, "No such file or directory"]] for place in (office, home)]
    for words, told in zip(targets, own.sends(*(request(*words, files=gone) for words in targets))):
        is_sent = any(kind in "FD" and str(home) in content for kind, content in told)
        yield f"{words[0]} writes elsewhere", None if is_sent else told
    no_command = "desk init upgrade backup link man completion chain next nothing ../x".split()
    yield from own.tries([(f"words that name {what}", request(*words), wanted) for what, words, wanted in (
        ("another folder", ["status", "--office", "/etc"], "last day"),
        ("another folder of a day", ["verify", "--day", "2025-09-22", "--office", "/etc"], "is what the rules make"),
        ("a desk", ["--desk", str(path), "status"], "no command of a desk"),
        ("a command for a desk", ["--for-desk", "/", "/tmp/x", "status"], "no command of a desk"),
        ("a program", ["verify", "--day", "2025-09-22", "--program", "/bin/sh"], "runs no program"),
        ("a folder by hand", ["page", "x", "--day", "2025-09-22", "--by-hand", str(home)], "runs no program"),
        ("pairs", ["find", "--pairs", names[0], names[0]], "needs no desk"),
        ("paths in place of a day", ["verify", names[0], names[0]], "unrecognized arguments"),
        ("somebody else", ["take-back", "1", "--why", "x", "--for", bert.name], "the system says for whom"),
        *((name, [name, "x", "y"], "no command of a desk") for name in no_command),
    )])  # fmt: skip
    yield "nothing lies with the desk that was not there", differs(tree_of(home), before)
    (home / "secret.csv").unlink()


def byte_trials(path: Path, anna: Login, log: Callable[[], str]) -> Told:
    """Bytes that no caller sends."""
    own = Giver(anna, path)
    huge = frames.HEAD.pack(frames.CONTENT, 1 << 60)
    named = request("hand-in", "a", files=[["a", None]])
    yield from own.tries([
        ("words with a NUL", request("label", "user", "1", "a\0b", "--why", "x"), "<NUL>"),
        ("a name of a file with a NUL", request("hand-in", "a\0b"), "it was not sent"),
        ("a long word", request("find", "--name", "x" * 900_000), "names no user or holder"),
        ("huge words", request("find", "--name", "x" * 2_000_000), "at most 1,048,576 may come"),
        ("a huge file", named + huge, "have at most"),
        ("a long number", request("statements", "--day", "2025-09-22", "x", "--account", "9" * 9_000), "--account"),
        ("no frame", b"GET / HTTP/1.1\r\nHost: x\r\n\r\n", "may come"),
        ("another frame", frames.frame(frames.STOP), "words that are none"),
        ("words that are a list", frames.frame(frames.WORDS, b"[1]"), "words that are none"),
        ("deep words", frames.frame(frames.WORDS, b"[" * 90_000), "words that are none"),
        ("no JSON", frames.frame(frames.WORDS, b"\xff\xfe"), "words that are none"),
        ("no command", request(), "words that are none"),
        ("a strange name", request("status", called="/bin/sh"), "words that are none"),
        ("a strange error", request("status", files=[["a", ["x", 1]]]), "words that are none"),
        ("another version", request("status", version="0.9"), f"of version {tables.VERSION}"),
    ])  # fmt: skip
    ended = "the connection has ended"
    yield from own.tries([
        ("half a head", b"W", ended), ("half of the words", request("status")[:-9], ended), ("nothing", b"", ended),
        ("a file without its content", named, ended),
    ], "half")  # fmt: skip
    yield "nothing of it ends in a traceback", "Traceback" in log() and log()[-1500:]


def many_of_one_trials(path: Path, anna: Login, bert: Login) -> Told:
    """Whoever begins many commands, and says nothing, holds up nobody else."""
    own, other = Giver(anna, path), Giver(bert, path)
    line = [sys.executable, "-I", "-c", HOLD, f"{path}.day", str(MOST_AT_ONCE)]
    with subprocess.Popen(own.login.line(*line), stdin=subprocess.PIPE, stdout=subprocess.PIPE) as holds:
        assert holds.stdout is not None
        holds.stdout.readline()
        yield "too many commands of one login", has(own.gives("status"), "(2, ", "of this login are at work")
        yield "and somebody else gives one", has(other.gives("status"), "(0, ")
        holds.communicate()


def two_trials(path: Path, office: Path, owner: Login, anna: Login, bert: Login, browsers: "Sequence[Visitor]") -> Told:
    """One person is never two: at a desk by words, by a link, by a proxy, and at a terminal."""
    own, other = Giver(anna, path), Giver(bert, path)
    told = own.gives("change", "100210", "--holder", "5504", "--why", "sold", "--yes")
    yield "a change by words waits", has(told, "waits for", "Bert Kohl")
    status, said = own.gives("approve")
    place = next((word.partition(":")[0].strip() for word in said.splitlines() if word.startswith("  ")), "")
    for what, told in (
        ("by words", own.gives("approve", place)),
        ("by words and another name", own.gives("approve", place, "--who", bert.name, LOGNAME=bert.name)),
        ("at a terminal", owner.day("approve", place, "--for", anna.name, "--office", office, LOGNAME=owner.name)),
    ):  # fmt: skip
        yield f"approved {what}", has(told, "(2, ", "another login approves it")
    for what, browser in zip(("by a link", "by a proxy"), browsers):
        page = browser.yes(browser.get("/"), "/approve", who=bert.name)
        yield f"approved {what}", has(page.text, "another login approves it", "Nothing was done")
    yield "approved by somebody else", has(other.gives("approve", place), "(0, ", "approved: place")


def lying_desk_trials(work: Path, anna: Login) -> Told:
    """What answers in place of a desk writes nothing that the words do not name."""
    place, path = work / "lying", work / "lying" / "desk.sock"
    place.mkdir()
    os.chown(place, anna.user, anna.group)
    end = frames.frame(frames.STATUS, b"\0")
    folder = frames.frame(frames.FOLDER, frames.said(f"{place}/x"))

    def inside(name: str) -> bytes:
        return folder + frames.frame(frames.INSIDE, frames.said(name)) + frames.frame(frames.CONTENT, b"x")

    def file(name: str) -> bytes:
        return frames.frame(frames.FILE, frames.said(name)) + frames.frame(frames.CONTENT, b"x")

    keep = frames.frame(frames.ALL) + frames.frame(frames.KEEP)
    for what, answer in (
        ("another file", file(f"{place}/y") + end), ("a file in place of none", file("/etc/motd") + end),
        ("a folder above", inside("../y") + keep + end), ("a whole path", inside(f"{place}/y") + keep + end),
        ("the folder itself", inside(".") + keep + end), ("no end", b""), ("half a frame", end[:-1]),
        ("a huge frame", frames.HEAD.pack(frames.OUT, 1 << 62)), ("an unknown frame", frames.frame(b"?") + end),
        ("no name", frames.frame(frames.FILE, b"\xff") + end),
    ):  # fmt: skip
        told = answered(place, path, anna, frames.frame(frames.GO) + answer, "unpack", f"{place}/x")
        yield f"a desk that sends {what}", has(told, "(3, ", "told no end")
        yield f"nothing is written of {what}", [own.name for own in place.iterdir() if own.suffix != ".day"]
    told = answered(place, path, anna, frames.frame(frames.GO) + folder + end, "unpack", f"{place}/x")
    yield "a folder that is not kept", differs([own.name for own in place.iterdir() if own.suffix != ".day"], [])


def answered(place: Path, path: Path, login: Login, answer: bytes, *words: str) -> tuple[int, str]:
    """What a command says whose desk answers by these bytes."""
    there = Path(f"{path}.day")
    there.unlink(missing_ok=True)
    with socket.socket(socket.AF_UNIX) as listener:
        listener.bind(str(there))
        there.chmod(0o666)
        listener.listen()

        def serve() -> None:
            with listener.accept()[0] as own, contextlib.suppress(OSError):
                own.sendall(answer)
                own.shutdown(socket.SHUT_WR)
                while own.recv(1 << 16):
                    pass

        thread = threading.Thread(target=serve)
        thread.start()
        said = login.day("--desk", path, *words)
        thread.join()
    return said


def interrupted_trials(path: Path, home: Path, owner: Login, anna: Login) -> Told:
    """Ctrl-C ends a command where it is carried out, and it tells how. So does whoever goes away."""
    office, begun = home / "office", home / "begun"
    program = home / "waits"
    owner.writes(program, f"#!/bin/sh\n: > {begun}\nexec sleep 900\n")
    owner.does("os.chmod(sys.argv[1], 0o755)", program)
    kept = (office / "office.ini").read_text()
    (office / "office.ini").write_text(kept.replace(f"program = {TOP}/tools/rules.py", f"program = {program}"))
    own = Giver(anna, path)
    words = [str(TOP / "day"), "--desk", str(path), "close", "--date", "2025-09-23", "--yes"]
    before = own.gives("status")
    for what, number, wanted in (("Ctrl-C", signal.SIGINT, 130), ("a kill", signal.SIGKILL, -9)):
        line = own.login.line(*words)
        with subprocess.Popen(line, cwd="/", stdout=subprocess.PIPE, stderr=subprocess.PIPE) as process:
            wait_for(begun)
            begun.unlink()
            process.send_signal(number)
            process.communicate(timeout=MOST_SECONDS)
        yield f"{what} ends a command", differs(process.returncode, wanted)
        yield f"nothing is done behind {what}", differs(own.gives("status"), before)
    (office / "office.ini").write_text(kept)


def wait_for(path: Path) -> None:
    """Waits until a file is there: a program at work has made it."""
    until = time.monotonic() + MOST_SECONDS
    while not path.exists() and time.monotonic() < until:
        time.sleep(0.05)


def look_trials(path: Path, office: Path, anna: Login) -> Told:
    """A desk that only looks: commands show all, and change nothing."""
    own, store = Giver(anna, path), office / "registry.sqlite"
    before = store.read_bytes()
    commands: list[list[object]] = [
        ["hand-in", WEEK / "monday-report.csv"], ["label", "user", "1", "x", "--why", "x"],
        ["change", "100210", "--holder", "7", "--why", "x", "--yes"], ["approve", "1"],
        ["take-back", "1", "--why", "x"], ["close", "--second", "--date", "2025-09-29", "--yes"],
    ]  # fmt: skip
    for (name, *_), told in zip(commands, own.gives_all(commands)):
        yield f"{name} at a desk that only looks", has(told, "(2, ", "this desk shows all, and changes nothing")
    yield "status at a desk that only looks", has(own.gives("status"), "(0, ", "last day")
    yield "try at a desk that only looks", "changes nothing" in own.gives("try", "--date", "2025-09-29")[1]
    yield "nothing is changed there", store.read_bytes() != before


def all_trials(
    work: Path, path: Path, people: Sequence[Login], desk: "SocketDesk", browsers: "Callable[[], Sequence[Visitor]]"
) -> Told:
    """All that is tried by commands at a desk; each of it is told in the log of the desk."""
    owner, anna, bert, looks, proxy, stranger = people
    home, office = work / "home", work / "home" / "office"
    kept = (office / "office.ini").read_text()
    yield from right_trials(path, anna, looks, stranger, proxy)
    yield from word_trials(path, home, anna, bert)
    yield from byte_trials(path, anna, desk.said)
    yield from many_of_one_trials(path, anna, bert)
    yield from two_trials(path, office, owner, anna, bert, browsers())
    yield from lying_desk_trials(work, anna)
    yield from interrupted_trials(path, home, owner, anna)
    yield from named_trials(work, path, office, owner, anna)
    yield "office.ini is as it was", differs((office / "office.ini").read_text(), kept)
    said = desk.said()
    for words in (
        f"refused 403: all nothing from the login {stranger.name}: no login that office.ini names",
        f"from the login {proxy.name}: a proxy gives no commands", f"{looks.name} began ./day hand-in",
        f"./day hand-in of {looks.name} ended with status 2", f"./day verify of {anna.name} ended with status 2",
        "words that are none", "the connection has ended", "commands of this login are at work", "have at most",
    ):  # fmt: skip
        yield f"the log says: {words[:50]}", None if words in said else said[-1500:]


def named_trials(work: Path, path: Path, office: Path, owner: Login, anna: Login) -> Told:
    """How a desk is named: by a word, by the variable, or by office.ini of a folder that somebody else writes."""
    told = anna.day("status", REGISTRY_DESK=str(path))
    yield "by the variable", has(told, "(0, ", "last day")
    yield "a command of no folder is done here", has(
        anna.day("--desk", path, "explain", TOP / "examples/wrong-date.csv"), "(1, ", "row "
    )
    yield "a desk and a folder", has(anna.day("--desk", path, "status", "--office", office), "(2, ", "in place of")
    yield "no desk", has(anna.day("--desk", work / "none.sock", "status"), "(2, ", "nobody answers there")
    for words, way in (
        (["backup", "x"], "copies its file there"), (["init", "x", "y"], "where it lies"), (["link"], "prints a link"),
    ):  # fmt: skip
        yield f"the way out of {words[0]}", has(anna.day("--desk", path, *words), "(2, ", way)
    kept = (office / "office.ini").read_text()
    office.chmod(0o755)
    (office / "office.ini").chmod(0o644)
    (office / "office.ini").write_text(kept.replace("[office]\n", f"[office]\ndesk = {path}\n"))
    yield "by office.ini", has(anna.day("status", "--office", office), "(0, ", "last day")
    yield "whoever writes the folder does it there", has(owner.day("status", "--office", office), "(0, ", "last day")
    place = work / "another"
    place.mkdir()
    os.chown(place, anna.user, anna.group)
    (office / "office.ini").write_text(kept.replace("[office]\n", f"[office]\ndesk = {place}/desk.sock\n"))
    told = answered_by(place / "desk.sock", anna, anna, "status", "--office", str(office))
    yield "by office.ini, and somebody else answers", has(told, "(2, ", "and not its owner")
    (office / "office.ini").write_text(kept)
    office.chmod(0o700)


def answered_by(path: Path, server: Login, login: Login, *words: str) -> tuple[int, str]:
    """What a command says where somebody else listens at the socket."""
    there = Path(f"{path}.day")
    there.unlink(missing_ok=True)
    code = f"import socket, sys; own = socket.socket(socket.AF_UNIX); own.bind({str(there)!r}); own.listen()"
    code += f"; import os; os.chmod({str(there)!r}, 0o666); print('x', flush=True); sys.stdin.read()"
    line = [sys.executable, "-I", "-c", code]
    with subprocess.Popen(server.line(*line), stdin=subprocess.PIPE, stdout=subprocess.PIPE) as listens:
        assert listens.stdout is not None
        listens.stdout.readline()
        said = login.day(*words)
        listens.communicate()
    return said
