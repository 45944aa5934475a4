"""What is wrong with the file of a folder, whatever it says: pages that can't be read, tables and triggers that lack or
are others, values that can't stand there, and rows that lead nowhere."""
import functools
import sqlite3
from collections.abc import Callable, Iterator
from pathlib import Path

from registry_tools.errors import FileFault, of_file, shown
from registry_tools.store import daybook, file
from registry_tools.store.texts import put_back

# How many faults of pages SQLite tells at most.
MOST_TOLD = 100
Faults = Iterator[FileFault]


def faults_of(db: sqlite3.Connection, path: Path) -> Faults:
    """All of it. Each question is asked by itself: of a broken file some can be answered."""
    # (text that is no UTF-8 would end a question)
    db.text_factory = lambda text: text.decode("utf-8", "surrogateescape")
    for ask in (of_head, of_pages, of_statements, of_keys):
        yield from answers(functools.partial(ask, db, path), path)


def answers(ask: Callable[[], Faults], path: Path) -> Faults:
    """What a question finds; and that it can't be answered, if that is so."""
    try:
        yield from [*ask()]
    except (*file.UNREADABLE, OverflowError) as error:
        yield unreadable(path, error)


def unreadable(path: Path, error: object) -> FileFault:
    """That something of a file can't be told."""
    return of_file(path, f"it cannot be read: {error}", put_back(), "; ")


def of_head(db: sqlite3.Connection, path: Path) -> Faults:
    """What the file says it is."""
    # (with another journal, a copy of the file alone would lack what was done last)
    told = ("application_id", file.APPLICATION), ("user_version", file.LAYOUT), ("journal_mode", "delete")
    for name, expected in told:
        found = db.execute(f"PRAGMA {name}").fetchone()[0]
        if found != expected:
            yield FileFault(path, 0, name, found, str(expected), put_back())


def of_pages(db: sqlite3.Connection, path: Path) -> Faults:
    """What SQLite finds in its pages, and values of other types than their columns have."""
    for (told,) in db.execute(f"PRAGMA integrity_check({MOST_TOLD})"):
        if told != "ok":
            yield FileFault(path, 0, "integrity_check", shown(str(told)), "ok", put_back())


def of_statements(db: sqlite3.Connection, path: Path) -> Faults:
    """The tables, indexes, views and triggers that are not what a new file has."""
    expected, found_here = made_of(file.schema()), statements_in(db)
    for name in sorted({*expected, *found_here}, key=repr):
        statement, wanted = found_here.get(name, ""), expected.get(name, "")
        if statement != wanted:
            found, made = (shown(text) if text else f"no such {name[0]}" for text in (statement, wanted))
            yield FileFault(path, 0, " ".join(name), found, made, put_back())


def made_of(script: str) -> dict[tuple[str, str], str]:
    """The statements of a new file, by what each makes."""
    new = sqlite3.connect(":memory:")
    try:
        new.executescript(script)
        return statements_in(new)
    finally:
        new.close()


def statements_in(db: sqlite3.Connection) -> dict[tuple[str, str], str]:
    """What made the tables of a database and all beside them, and of which table each is, by kind and name."""
    before, db.text_factory = db.text_factory, lambda text: text.decode("utf-8", "replace")
    try:
        made = db.execute("SELECT type, name, tbl_name, coalesce(sql, '') FROM sqlite_master").fetchall()
    finally:
        db.text_factory = before
    return {(str(kind), str(name)): f"{table}: {statement}" for kind, name, table, statement in made}


def of_keys(db: sqlite3.Connection, path: Path) -> Faults:
    """Rows that refer to what is not there."""
    for table, row, parent, _ in db.execute("PRAGMA foreign_key_check").fetchmany(MOST_TOLD):
        which = "a row" if row is None else f"row {row}"
        yield FileFault(path, 0, f"table {table}", f"{which} of no row of {parent}", f"one of {parent}", put_back())


# The tables of questions, which have to be what the texts of the days make.


class Again:
    """The tables of questions made once more, beside those of a file, of the days that are compared."""

    def __init__(self, db: sqlite3.Connection, path: Path) -> None:
        self.db, self.path = db, path
        db.execute("ATTACH '' AS again")
        for statement in daybook.statements(daybook.schema()):
            if "CREATE TABLE" in statement:
                db.execute(statement.replace("CREATE TABLE ", "CREATE TABLE again.", 1))
        db.execute("CREATE TABLE again.compared (date TEXT PRIMARY KEY) STRICT")

    def close(self) -> None:
        """Lets them go."""
        self.db.execute("DETACH again")

    def faults(self) -> Faults:
        """In which tables the file has other rows of a day than its texts make, and of days that are none."""
        for table in (*daybook.BY_DATE, *daybook.BY_RECORD):
            yield from answers(functools.partial(self.faults_of, table), self.path)

    def faults_of(self, table: str) -> Faults:
        """The same of one table: the first row that is strange, and the first that lacks."""
        of_days = "date IN (SELECT date FROM again.compared)"
        of_records = f"record IN (SELECT record FROM {{}}.instructions WHERE {of_days})"
        where = of_days if table in daybook.BY_DATE else of_records
        here, made = (f"SELECT * FROM {place}.{table} WHERE {where.format(place)}" for place in ("main", "again"))
        strange, lacking = (
            self.db.execute(f"{one} EXCEPT {other} LIMIT 1").fetchone() for one, other in ((here, made), (made, here))
        )
        if strange or lacking:
            found, row = (shown(", ".join(map(str, one))) if one else "no such row" for one in (strange, lacking))
            expected = f"{row}, as the texts of the days have it"
            yield FileFault(self.path, 0, f"table {table}", found, expected, put_back())
