"""Copies of the file of a folder, also of one in use: made by SQLite's own backup, and whole or not at all."""
import contextlib
import sqlite3
from dataclasses import dataclass
from pathlib import Path

from registry_tools.errors import FileFault
from registry_tools.output import made_aside, must_be_writable
from registry_tools.store import events, file
from registry_tools.store.file import MODE, Store

EARLIER = "a name that is free, or that of an earlier copy of this folder"


@dataclass(frozen=True)
class Copy:
    """What a copy has: how many events and days, and the head of the folder as it then stood."""

    events: int
    days: int
    head: str


def backup(store: Store, path: str) -> Copy:
    """Makes a copy of the file, in place of an earlier copy if there is one. Raises FileFault if something else has
    that name, or if the copy is not what it has to be."""
    must_be_writable(path)
    target_path = Path(path)
    if target_path.exists():
        must_be_earlier(store, target_path)
    with file.telling(target_path), made_aside(target_path, MODE) as beside:
        with contextlib.closing(sqlite3.connect(beside)) as target:
            store.db.backup(target)
        return copy_at(beside, target_path)


def copy_at(place: Path, path: Path) -> Copy:
    """What the copy at a place has. A fault names the path that it is to have."""
    with contextlib.closing(file.connected(place)) as db:
        history = events.read(db, path)
        return Copy(len(history.named(*events.OF_DAYS)), len(history.days), history.head)


def must_be_earlier(store: Store, path: Path) -> None:
    """Ends the command if what has a name is no earlier state of this folder: then it would be lost."""
    file.look_beside(path)
    with contextlib.suppress(sqlite3.Error), contextlib.closing(file.connected(path)) as db:
        last_line = file.last_line(db)
        if last_line in store.events.lines:
            return
    raise FileFault(path, 0, "", "a file that is no earlier copy of this folder", EARLIER)
