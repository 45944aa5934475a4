"""Folders that remember their days, for trials: how they are made, what commands say of them, and what SQLite reads in
their file."""
from __future__ import annotations

import contextlib
import hashlib
import os
import re
import sqlite3
import zlib
from collections.abc import Iterator
from pathlib import Path
from typing import Any

from harness import TOP, Said

from registry_tools.output import UNFINISHED

FIRST = TOP / "examples" / "first-transfer.csv"
FILE = "registry.sqlite"
# (what a killed command left of a change that it had not begun stays until the next change)
JOURNAL = f"{FILE}-journal"
KNOWN = {"office.ini", FILE, JOURNAL}
# Without when they were given.
GIVEN_AT = re.compile(rb"[0-9-]{10}T[0-9:]{8}Z")
# What an event has of its own time, and what has the sum of it.
OF_ITS_TIME = {"at", "before", "line"}
# What the last look saw: no answer rests on it.
NO_STATE = "looked"


@contextlib.contextmanager
def inside(work: Path) -> Iterator[None]:
    """The block works in this folder."""
    before = Path.cwd()
    os.chdir(work)
    try:
        yield
    finally:
        os.chdir(before)


def told(status: int, has: list[str], *words: object) -> object:
    """What is wrong with what a command says, if something is: its status, and what it has to say."""
    said = Said(*words)
    lacking = [part for part in has if part not in said.output + said.errors]
    return f"{lacking} lack: {said}" if lacking or said.status != status else None


def must_do(*commands: list[str]) -> None:
    """Runs commands, none of which may fail."""
    for each in commands:
        said = Said(*each)
        assert said.status == 0, said


def must_do_either(*commands: list[str]) -> None:
    """Runs commands that may find something."""
    for words in commands:
        said = Said(*words)
        assert said.status in (0, 1), said


def new_office(work: Path, name: str) -> tuple[Path, list[str]]:
    """A folder with one settled day, and the words that name it."""
    office = work / name
    own = ["--office", str(office)]
    must_do(["init", str(office), str(FIRST)], ["close", "--date", "2025-03-31", "--second", *own])
    return office, own


# What its file has.


def opened(path: Path) -> contextlib.closing[sqlite3.Connection]:
    """The file of a folder, as any program opens it."""
    return contextlib.closing(sqlite3.connect(f"{(path / FILE).absolute().as_uri()}?mode=rw", uri=True))


def rows_of(path: Path, statement: str, *values: object) -> list[tuple[Any, ...]]:
    """What SQL answers of a folder."""
    with opened(path) as db:
        return db.execute(statement, values).fetchall()


def events_of(path: Path, *columns: str, what: str = "") -> list[Any]:
    """These columns of the events of a folder, or the one column; of all kinds, or of one."""
    kind = f" WHERE what = '{what}'" if what else ""
    rows = rows_of(path, f"SELECT {', '.join(columns)} FROM events{kind} ORDER BY id")
    return [row[0] for row in rows] if len(columns) == 1 else rows


def text_of(path: Path, date: str, column: str = "text") -> bytes:
    """A text of a settled day: `text`, `report`, `waiting` or `waits`."""
    statement = f"SELECT packed FROM filed JOIN texts ON texts.sum = filed.{column} WHERE date = ?"
    ((packed,),) = rows_of(path, statement, date)
    return zlib.decompress(packed)


def handed_to(path: Path, date: str, kind: str) -> bytes:
    """What was handed in for a settled day, of a kind, as it came."""
    statement = (
        "SELECT packed FROM handed_for_days AS own JOIN texts ON texts.sum = own.text"
        " WHERE of_date = ? AND kind = ? ORDER BY own.start"
    )
    return b"".join(zlib.decompress(packed) for (packed,) in rows_of(path, statement, date, kind))


def handed_now(path: Path) -> list[tuple[str, str, bytes]]:
    """What is handed in for the next day: the kind, the name and the content of each thing; and of what it was made."""
    statement = (
        "SELECT own.kind, own.name, packed FROM events AS own JOIN texts ON texts.sum = own.text WHERE what IN"
        " ('handed', 'source') AND (own.id IN (SELECT id FROM handed_for_the_next_day)"
        " OR own.of IN (SELECT coalesce(of, id) FROM handed_for_the_next_day) AND what = 'source') ORDER BY own.id"
    )
    return [(kind, name, zlib.decompress(packed)) for kind, name, packed in rows_of(path, statement)]


def content_of(path: Path) -> object:
    """All that a folder has, to the second: its settings, and each row of its file."""
    if not (path / FILE).exists():
        return None
    with opened(path) as db:
        rows = [row for row in db.iterdump() if f'"{NO_STATE}"' not in row]
    return (path / "office.ini").read_bytes(), rows


def unchanged(office: Path, status: int, has: list[str], *words: object) -> object:
    """What is wrong with a command that must leave all as it is, if something is."""
    before = content_of(office)
    wrong = told(status, has, *words)
    return wrong or (None if content_of(office) == before else "it changes something")


def state_of(path: Path) -> object:
    """All that a folder says, without times: its events with their texts, and its tables."""
    if not (path / FILE).exists():
        return None
    with opened(path) as db:
        kept = db.execute("SELECT sum, packed FROM texts")
        texts = {own: without_times(zlib.decompress(packed)) for own, packed in kept}
        found = db.execute("SELECT * FROM events ORDER BY id")
        columns = [own[0] for own in found.description]
        events = [
            tuple(texts.get(value, value) for name, value in zip(columns, row) if name not in OF_ITS_TIME)
            for row in found
        ]
        named = "SELECT name FROM sqlite_master WHERE type = 'table' AND name NOT LIKE 'sqlite_%' ORDER BY name"
        tables = [own for (own,) in db.execute(named) if own not in ("events", "texts", NO_STATE)]
        return events, sorted(texts.values()), {own: db.execute(f"SELECT * FROM {own}").fetchall() for own in tables}


def without_times(content: bytes) -> str:
    """What a text says, whenever it was written."""
    return hashlib.sha256(GIVEN_AT.sub(b"", content)).hexdigest()


def fault_of_file(path: Path, *, may_have_more: bool = False) -> str | None:
    """What SQLite finds wrong with the file of a folder, and whether something lies beside it. (There may be what a
    killed command had begun, until the next one changes the folder.)"""
    with opened(path) as db:
        said = [own for (own,) in db.execute("PRAGMA integrity_check")]
        keys = db.execute("PRAGMA foreign_key_check").fetchall()
    names = {own.name for own in path.iterdir()} - KNOWN
    left = sorted(name for name in names if not may_have_more or not name.endswith(UNFINISHED))
    told_of = f"integrity_check {said}, foreign_key_check {keys}, beside it {left}"
    return told_of if said != ["ok"] or keys or left else None


# What somebody changes by other ways than commands.


def changed(office: Path, *statements: str) -> None:
    """Changes the file of a folder by SQL, with its triggers dropped, and puts them back."""
    with without_triggers(office) as db:
        for statement in statements:
            db.execute(statement)


@contextlib.contextmanager
def without_triggers(office: Path) -> Iterator[sqlite3.Connection]:
    """The file of a folder, for a block that may change all of it."""
    with opened(office) as db:
        triggers = db.execute("SELECT name, sql FROM sqlite_master WHERE type = 'trigger'").fetchall()
        for name, _ in triggers:
            db.execute(f"DROP TRIGGER {name}")
        yield db
        for _, statement in triggers:
            db.execute(statement)
        db.commit()


def chained_anew(office: Path) -> None:
    """Makes the sums of all events anew, so that they are a chain again."""
    with without_triggers(office) as db:
        columns = [own[1] for own in db.execute("PRAGMA table_info(events)")]
        said = ", ".join(own for own in columns if own not in ("id", "line"))
        db.execute("UPDATE events SET before = 'b' || id, line = 'l' || id")
        before = ""
        for (own,) in db.execute("SELECT id FROM events ORDER BY id").fetchall():
            db.execute("UPDATE events SET before = ? WHERE id = ?", (before, own))
            row = db.execute(f"SELECT json_array({said}) FROM events WHERE id = ?", (own,)).fetchone()[0]
            before = hashlib.sha256(row.encode()).hexdigest()
            db.execute("UPDATE events SET line = ? WHERE id = ?", (before, own))
