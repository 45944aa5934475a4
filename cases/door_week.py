"""The week of the examples, lived twice: by commands that are given at the socket of a desk, and by the same commands
on a folder of one's own. Both have to say, answer and write the same. For cases/run-door."""
from __future__ import annotations

import contextlib
import os
import re
import shutil
import sqlite3
import subprocess
from collections.abc import Iterator
from concurrent.futures import ThreadPoolExecutor
from pathlib import Path

from harness import MOST_SECONDS, TOP
from lived_weeks import DAYS, WEEK
from logins import Login

Told = Iterator[tuple[str, object]]
LAST = "2025-09-26"
# What another run has otherwise: when something was done, and the sums in which that is.
OF_ITS_RUN = re.compile(rb"[0-9-]{10}T[0-9:]{8}Z|[0-9]{8}T[0-9]{6}Z|\b[0-9a-f]{64}\b|\b[0-9a-f]{12}\b")
# The commands of which a login is kept.
OF_LOGINS = {
    "hand-in", "change", "label", "take-back", "close", "approve", "undo", "correct", "release", "send",
}  # fmt: skip
NAMES = "holder,5501,Kalkwerk Nord\naccount,100210,Ofen 1\n"
# What is asked behind each day, and behind all of them. `FILES` is a folder of files that both read.
ON_A_DAY: list[list[str]] = [["try"], ["hand-in", f"{WEEK}/thursday-do.csv", f"{WEEK}/thursday-do.csv"]]
AT_THE_END: list[list[str]] = [
    ["status", "--to", "status.txt"], ["find", "--refused"], ["find", "--json"], ["find", "--act", "nothing"],
    ["history", "Ofen 1", "--to", "history.csv", "--csv"], ["changes"], ["due", "--ics", "due.ics"],
    ["month", "month.html"], ["db", "all.db"], ["db", "all.db"], ["db", "FILES/names.csv"],
    ["unpack", "plain", "--day", LAST], ["unpack", "plain"], ["page", "--day", LAST, "pages", "--only", "100210"],
    ["statements", "--day", LAST, "statements", "--own"], ["log", "--day", "2025-09-22", LAST, "--refused"],
    ["compliance", "--day", LAST, "--labels", "FILES/names.csv", "--to", "c.txt"],
    ["export", "--day", LAST, "--accounts", "--xlsx", "accounts.xlsx"], ["verify", "--day", LAST],
    ["explain", "--day", "2025-01-01"], ["send", "letters"], ["send", "others", "--release", "--day", LAST],
    ["anchor", "--to", "anchors.csv"], ["anchor", "--to", "anchors.csv"], ["audit", "--anchors", "anchors.csv"],
    ["audit", "--anchors", "nothing.csv"], ["hand-in", "nothing.csv"], ["hand-in", "FILES/closed.csv"],
    ["month", "nowhere/month.html"], ["find", "--to", "x"], ["balance", "7"], ["undo", LAST, "--why", "a slip"],
    ["correct", "2025-09-25", "--with", f"{WEEK}/friday-do.csv", "--why", "late", "--second"],
    ["change", "100210", "--holder", "5503", "--why", "sold"], ["take-back", "9", "--why", "x"], ["hand-in"],
]  # fmt: skip


def week() -> Iterator[list[str]]:
    """The commands of the week."""
    yield ["label", "--file", "FILES/names.csv", "--why", "a list"]
    for date, names in DAYS:
        if names:
            yield ["hand-in", *(f"{WEEK}/{name}" for name in names)]
        yield from ON_A_DAY if date == "24" else []
        yield ["close", "--date", f"2025-09-{date}", "--second", "--yes"]
    yield from AT_THE_END


class Way:
    """A way to give commands: by a login, from a folder of its own."""

    def __init__(self, login: Login, place: Path, office: Path, files: Path, before: list[str]) -> None:
        self.login, self.place, self.office, self.files, self.before = login, place, office, files, before
        place.mkdir()
        os.chown(place, login.user, login.group)

    def gives(self, words: list[str], behind: list[str], who: str) -> tuple[int, bytes, bytes]:
        """The status, the output and the errors of a command."""
        own = [word.replace("FILES", str(self.files)) for word in words]
        line = self.login.line(TOP / "day", *self.before, *own, *behind)
        env = {"PATH": os.environ["PATH"], "LC_ALL": "C.UTF-8", "LOGNAME": who, "REGISTRY_PROGRAMS": str(TOP)}
        said = subprocess.run(
            line, cwd=self.place, env=env, stdin=subprocess.DEVNULL, capture_output=True, timeout=MOST_SECONDS,
            check=False,
        )  # fmt: skip
        return said.returncode, self.plain(said.stdout), self.plain(said.stderr)

    def plain(self, text: bytes) -> bytes:
        """A text without what each run has otherwise."""
        return OF_ITS_RUN.sub(b"OF ITS RUN", text.replace(os.fsencode(self.office), b"OFFICE"))

    def made(self) -> Iterator[tuple[str, object]]:
        """All that commands have made there, by name."""
        for path in sorted(self.place.rglob("*")):
            name = str(path.relative_to(self.place))
            if path.suffix == ".db":
                with contextlib.closing(sqlite3.connect(path)) as db:
                    yield name, [*db.iterdump()]
            elif path.is_file():
                yield name, self.plain(path.read_bytes())
            else:
                yield name, None


def week_trials(work: Path, owner: Login, anna: Login, at_desk: tuple[Path, Path], office: Path) -> Told:
    """The week by the socket of a desk, whose folder is named beside it, and on a folder of the desk's own login."""
    files = work / "files"
    files.mkdir()
    (files / "names.csv").write_text(NAMES)
    (files / "closed.csv").write_text(NAMES)
    (files / "closed.csv").chmod(0)
    path, there = at_desk
    by_desk = Way(anna, work / "by-desk", there, files, ["--desk", str(path)])
    by_folder = Way(owner, work / "by-folder", office, files, [])
    with ThreadPoolExecutor(1) as beside:
        for words in week():
            of_login = ["--for", anna.name] if words[0] in OF_LOGINS else []
            other = beside.submit(by_folder.gives, words, [*of_login, "--office", str(office)], anna.name)
            found, wanted = by_desk.gives(words, [], anna.name), other.result()
            yield f"by a desk as on a folder: {' '.join(words)}"[:90], found != wanted and f"{found}\nwanted {wanted}"
    found_files, wanted_files = dict(by_desk.made()), dict(by_folder.made())
    yield "the same files", sorted({*found_files} ^ {*wanted_files})
    others = [name for name, content in found_files.items() if content != wanted_files.get(name)]
    yield "the same in each file", others
    yield "many files", len(found_files) < 40 and len(found_files)
    owners = {path.owner() for path in (work / "by-desk").rglob("*")}
    yield "all of it is of who gave the commands", owners ^ {anna.name}
    for place in (by_desk.place, by_folder.place):
        shutil.rmtree(place)
