"""What a folder of version 1.1 has beside its days: the names, as the lines of its journal added them; and an index,
which has the tables of questions."""
import contextlib
import sqlite3
from collections.abc import Iterator
from pathlib import Path

from registry_tools.errors import FileFault, shown
from registry_tools.older import journal
from registry_tools.older.folder import Folder
from registry_tools.store import daybook
from registry_tools.texts.rows import sum_of

# What the index is called, and which layout it has.
INDEX, LAYOUT = "index.sqlite", 1


def names_of(folder: Folder) -> dict[str, bytes]:
    """What each line of the journal added to the names, by its sum. What nobody knows of is added by the last one that
    changed them; and by none, if no line did."""
    content = folder.labels()
    ends = {sum_of(content[:end]): end for end in ends_of_lines(content)}
    found, begin, last = dict[str, bytes](), 0, ""
    for event in folder.journal.events:
        if event.event == journal.LABELLED:
            end, last = ends.get(event.labels, begin), event.line
            found[last] = content[begin:end] if end > begin else b""
            begin = max(begin, end)
    found[last] = found.get(last, b"") + content[begin:]
    return found


def ends_of_lines(content: bytes) -> Iterator[int]:
    """The places behind the lines of a text, and that of its end."""
    place = content.find(b"\n")
    while place >= 0:
        yield place + 1
        place = content.find(b"\n", place + 1)
    yield len(content)


def differences_from(folder: Folder, made: sqlite3.Connection) -> Iterator[FileFault]:
    """In what the index has other rows than the tables that were made, if there is one that was up to the journal."""
    path = folder.path / INDEX
    if not path.is_file() or path.is_symlink():
        return
    with contextlib.suppress(sqlite3.Error), contextlib.closing(opened(path)) as old:
        lines = old.execute("SELECT date, line FROM filed ORDER BY date").fetchall()
        is_up = lines == [(str(event.date), event.line) for event in folder.journal.filed()]
        if is_up and old.execute("PRAGMA user_version").fetchone()[0] == LAYOUT:
            for table in (*daybook.BY_DATE, *daybook.BY_RECORD):
                yield from rows_unlike(old, made, path, table)


def opened(path: Path) -> sqlite3.Connection:
    """The index, which is only read."""
    return sqlite3.connect(f"{path.absolute().as_uri()}?mode=ro", uri=True)


def rows_unlike(old: sqlite3.Connection, new: sqlite3.Connection, path: Path, table: str) -> Iterator[FileFault]:
    """In what the index has other rows of a table."""
    kept, made = ({*db.execute(f"SELECT * FROM {table}")} for db in (old, new))
    strange, lacking = sorted(kept - made, key=repr), sorted(made - kept, key=repr)
    if strange or lacking:
        found, row = (shown(", ".join(map(str, rows[0]))) if rows else "no such row" for rows in (strange, lacking))
        mend = f"{row}, as the files of the days have it: take {path} away, and it is made anew"
        yield FileFault(path, 0, table, found, mend)
