"""A database of all days, for questions in SQL: the tables of a folder, or those of pairs, in a file of their own."""
import contextlib
import os
import sqlite3
import stat
from dataclasses import dataclass
from pathlib import Path

from registry_tools import voice
from registry_tools.elsewhere import Elsewhere
from registry_tools.errors import FileFault, of_file
from registry_tools.output import made_aside
from registry_tools.questions.days import Days
from registry_tools.store import daybook, file
from registry_tools.texts.rows import is_there, packed_bytes_of

DAYS_IN = "SELECT date, day_sum, report_sum FROM days ORDER BY date"
HAS_DAYS = "SELECT 1 FROM sqlite_master WHERE type = 'table' AND name = 'days'"
# The tables in the order in which their rows refer to each other.
TABLES = ("days", *daybook.BY_RECORD, *daybook.BY_DATE[1:])


@dataclass(frozen=True)
class Made:
    """How many days a database has, and how many of them are new."""

    days: int
    added: int


def make(days: Days, path: str) -> Made:
    """Makes the database, or one with the days that it lacks. Raises FileFault if it has other days."""
    try:
        days_before, days_now = days_there(path), days.database.execute(DAYS_IN).fetchall()
        compare(path, days_before, days_now, days)
        with made_aside(path) as beside:
            if os.path.exists(path):
                os.chmod(beside, stat.S_IMODE(os.stat(path).st_mode))
            with contextlib.closing(sqlite3.connect(beside.as_uri(), isolation_level=None, uri=True)) as target:
                copy(days.database, target)
    except sqlite3.Error as error:
        raise of_file(path, f"this database cannot be written: {error}") from None
    return Made(len(days_now), len(days_now) - len(days_before))


def copy(database: sqlite3.Connection, target: sqlite3.Connection) -> None:
    """Makes a copy of the tables: of a database in memory as it is, and of the file of a folder without all else."""
    _, _, path = database.execute("PRAGMA database_list").fetchone()
    if not path:
        database.backup(target)
        return
    target.executescript(f"BEGIN; {daybook.schema()} COMMIT")
    target.execute("ATTACH ? AS folder", (f"{Path(path).as_uri()}?mode=ro",))
    target.execute("BEGIN")
    for table in TABLES:
        target.execute(f"INSERT INTO main.{table} SELECT * FROM folder.{table}")
    target.execute("COMMIT")


def days_there(path: str) -> list[tuple[str, str, str]]:
    """The days that a database has, with the sums of their texts, if it is there."""
    if not is_there(path):
        return []
    file_path = Path(path)
    if isinstance(path, Elsewhere):
        file_path = path.caller.aside / "there"
        file_path.write_bytes(packed_bytes_of(path))
    file.look_beside(file_path)
    with contextlib.closing(sqlite3.connect(file_path)) as database:
        if not database.execute(HAS_DAYS).fetchone():
            found = f"a file that {voice.command('db')} has not made"
            raise FileFault(path, 0, "", found, "one that it has made, or no such file")
        return database.execute(DAYS_IN).fetchall()


def compare(path: str, days_before: list[tuple[str, str, str]], days: list[tuple[str, str, str]], asked: Days) -> None:
    """Ends the command if the database has another day than these."""
    names = [pair.day for pair in asked.pairs.values()]
    for place, (date, *sums) in enumerate(days_before):
        if place >= len(days):
            raise FileFault(path, 0, "days", f"a day {date}", "only the days that are named: take another FILE")
        if sums != [*days[place][1:]]:
            why = "a day was undone or changed since, so take another FILE"
            expected = f"those of {names[place]} and its report: {why}"
            raise FileFault(path, 0, "SHA-256", f"others of {date}", expected)
