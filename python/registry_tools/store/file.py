"""The file of a folder of days, registry.sqlite: opened only by its owner, and never by a link; changed whole or not at
all.

FOLDER and the file belong to one login, and nobody else may write them: so whoever opens the file opens what this login
has made. (A link on the way to FOLDER is followed: whoever names the folder chooses it.)"""
import contextlib
import fcntl
import os
import re
import sqlite3
import stat
import struct
from collections.abc import Iterator
from dataclasses import dataclass
from pathlib import Path

from registry_tools import opening, steps, voice
from registry_tools.errors import FileFault, UnwrittenFault, of_file
from registry_tools.layout import SETTINGS
from registry_tools.opening import LinkFault
from registry_tools.output import BESIDE
from registry_tools.store import events
from registry_tools.store.events import Event, Events
from registry_tools.store.texts import FILES, Pair, Texts
from registry_tools.texts.rows import KeptText

NAME = "registry.sqlite"
# 'REGD', by which `file` tells what this is; and the layout of the tables.
APPLICATION, LAYOUT = 0x52454744, 2
# Who may read and write it: its owner alone.
MODE, FOLDER_MODE = 0o600, 0o700
OTHERS_WRITE = stat.S_IWGRP | stat.S_IWOTH
# How long a reader waits for one that writes, and a command that changes for another one, in milliseconds.
MOST_WAIT, SHORT_WAIT = 60_000, 2_000
# The byte by which SQLite locks a file for those who write; and how the system tells of a lock (struct flock).
RESERVED, FLOCK = 0x40000001, "hhqqi"
# The files of which this process has asked that. They stay open: whoever closes one lets go of all locks that this
# process has of it, also those of other threads.
ASKED: dict[tuple[int, int], int] = {}
# What an open file keeps in memory, in KiB.
CACHE = 64 * 1024
# So ends a journal of SQLite that names another one. (No command changes two files in one step.)
NAMES_ANOTHER = bytes.fromhex("d9d505f920a163d7")
# How SQLite says that another process has a file locked, and that it can't read one. (Its sentences may have bytes of
# it in them.)
LOCKED = "database is locked"
UNREADABLE = (sqlite3.DatabaseError, UnicodeError)
BY_OTHERS = "the file of one login", "who else works with the folder comes by its desk"


@dataclass
class Store:
    """An open file."""

    path: Path
    db: sqlite3.Connection
    texts: Texts
    events: Events

    @property
    def tables(self) -> sqlite3.Connection:
        """What has the tables of questions: the file, also in the block of `trying`."""
        return self.texts.of_file().db

    def add(self, event: Event) -> Event:
        """Adds an event, in a change."""
        return events.add(self.db, self.events, event)

    def kept(self, event: Event, column: str) -> KeptText:
        """A text that an event has in a column, by the name under which faults tell it."""
        text_sum = getattr(event, column)
        return KeptText(voice.path(f"{self.path}/{event.date}/{FILES[column]}"), lambda: self.texts.get(text_sum))

    def pair_of(self, event: Event) -> Pair:
        """The pair of a day that an event filed."""
        return Pair(self.kept(event, "text"), self.kept(event, "report"))

    @contextlib.contextmanager
    def change(self, wait: int = SHORT_WAIT) -> Iterator[None]:
        """One step: all that the block adds, or nothing of it. Raises FileFault if another command changes the file for
        more than `wait` milliseconds, or if it can't be written."""
        with telling(self.path):
            self.begin(wait)
            try:
                yield
                # (a signal that comes from here on waits: what is done is told)
                steps.hold()
                self.db.execute("COMMIT")
            except BaseException:
                self.roll_back()
                raise

    @contextlib.contextmanager
    def reading(self) -> Iterator[None]:
        """All that the block reads is as it is at one moment: a change of others waits for its end."""
        if self.db.in_transaction:
            yield
            return
        self.db.execute("BEGIN")
        try:
            self.read_anew()
            yield
        finally:
            self.db.execute("ROLLBACK")

    @contextlib.contextmanager
    def trying(self) -> Iterator[None]:
        """What the block adds comes into memory alone, and is gone at its end: whoever only looks takes no lock of
        those who write, so neither waits for the other. (The tables of questions are those of the file.)"""
        before = self.db, self.texts, self.events
        with telling(self.path), contextlib.closing(sqlite3.connect(":memory:", isolation_level=None)) as memory:
            if not self.db.in_transaction:
                self.read_anew()
            memory.executescript(f"{schema()} DROP TRIGGER events_follow; BEGIN")
            try:
                self.db, self.texts = memory, Texts(memory, self.path, self.texts)
                self.events = Events(self.path, self.events.rows)
                yield
            finally:
                self.db, self.texts, self.events = before

    def begin(self, wait: int) -> None:
        """Begins a change, and reads what others have done since the file was opened."""
        self.db.execute(f"PRAGMA busy_timeout = {wait}")
        try:
            self.db.execute("BEGIN IMMEDIATE")
        except sqlite3.OperationalError as error:
            if str(error) == LOCKED:
                raise of_file(self.path.parent, "another command changes it just now", "try again") from None
            raise
        finally:
            self.db.execute(f"PRAGMA busy_timeout = {MOST_WAIT}")
        self.read_anew()

    def read_anew(self) -> None:
        """Reads what others have done since the events were read."""
        if last_line(self.db) != self.events.last_line:
            self.events = events.read(self.db, self.path, self.events)

    def roll_back(self) -> None:
        """Takes back what a change has added."""
        if self.db.in_transaction:
            self.db.execute("ROLLBACK")
        steps.let_go()
        count = self.db.execute("SELECT count(*) FROM events").fetchone()[0]
        self.events = Events(self.path, self.events.rows[:count])

    def is_changing(self) -> bool:
        """Whether another process has the lock of those who write. It is only asked for."""
        asked, about = struct.pack(FLOCK, fcntl.F_WRLCK, os.SEEK_SET, RESERVED, 1, 0), os.stat(self.path)
        file = ASKED.get((about.st_dev, about.st_ino))
        if file is None:
            file = ASKED[about.st_dev, about.st_ino] = opening.open_file(self.path, os.O_RDONLY)
        return bool(struct.unpack(FLOCK, fcntl.fcntl(file, fcntl.F_GETLK, asked))[0] != fcntl.F_UNLCK)

    def close(self) -> None:
        """Closes the file."""
        self.db.close()


def last_line(db: sqlite3.Connection) -> str:
    """The line of the last event of a file."""
    row = db.execute("SELECT line FROM events ORDER BY id DESC LIMIT 1").fetchone()
    return str(row[0]) if row else ""


@contextlib.contextmanager
def telling(path: Path) -> Iterator[None]:
    """Has an error of SQLite in the block be a fault of this file."""
    try:
        yield
    except UNREADABLE as error:
        what = str(error)
        if what == LOCKED:
            raise of_file(path, "other commands read or write it for more than a minute", "try again") from None
        if "readonly" in what or "full" in what or "disk I/O" in what or "unable to open" in what:
            raise UnwrittenFault(path, 0, "", f"it cannot be written: {what}", "") from None
        raise of_file(path, f"it cannot be read or written: {what}") from None


# Opening it.


def must_be_own(path: str | Path, about: os.stat_result) -> None:
    """Ends the command if a folder or file belongs to another login, or if others may write it."""
    from_whom = os.geteuid()
    if about.st_uid != from_whom:
        raise FileFault(path, 0, "", "a file or folder of another login", *BY_OTHERS)
    if about.st_mode & OTHERS_WRITE:
        mode = oct(stat.S_IMODE(about.st_mode))[2:]
        raise FileFault(path, 0, "", f"the mode {mode}: others may write it", "no such right", f"chmod go-w {path}")


def look_at(folder: Path) -> Path:
    """The path of the file of a folder, which is a plain file of this login, in a folder of it. Raises FileFault."""
    path = folder / NAME
    opening.guard(folder)
    try:
        must_be_own(folder, os.stat(folder))
        # (it is not opened for that: who closes it would let go of all locks of this process, also of other threads)
        about = os.lstat(path)
    except FileNotFoundError:
        if (folder / "journal.csv").exists():
            way = f"{voice.command('upgrade', 'FOLDER')} makes the file of it"
            raise FileFault(path, 0, "", "no such file", "a folder of version 1.1", way) from None
        raise of_file(path, "it is not there", "put it back from a copy") from None
    except OSError as error:
        raise of_file(path, f"it cannot be read: {error.strerror}") from None
    must_be_plain(path, about)
    look_beside(path)
    opening.must_have_locks(folder / SETTINGS)
    return path


def must_be_plain(path: str | Path, about: os.stat_result) -> None:
    """Ends the command if something is a link, no plain file, one with another name, or one of another login."""
    if not stat.S_ISREG(about.st_mode):
        raise LinkFault(path, "a link" if stat.S_ISLNK(about.st_mode) else "no plain file")
    if about.st_nlink > 1:
        raise LinkFault(path, "a file that has another name elsewhere")
    must_be_own(path, about)


def look_beside(path: Path) -> None:
    """Ends the command if what SQLite would read beside a file is no plain file of this login, or names another file:
    SQLite would take that one away."""
    for name in (f"{path}{end}" for end in BESIDE):
        try:
            about = os.lstat(name)
        except FileNotFoundError:
            continue
        must_be_plain(name, about)
    with contextlib.suppress(FileNotFoundError), open(f"{path}-journal", "rb") as journal:
        journal.seek(max(os.fstat(journal.fileno()).st_size - len(NAMES_ANOTHER), 0))
        if journal.read() == NAMES_ANOTHER:
            raise FileFault(f"{path}-journal", 0, "", "a journal that names another file", "that of one file alone")


def connected(path: Path) -> sqlite3.Connection:
    """A connection to a file that is there."""
    db = sqlite3.connect(f"{path.absolute().as_uri()}?mode=rw", uri=True, isolation_level=None)
    db.execute(f"PRAGMA busy_timeout = {MOST_WAIT}")
    # (a file that somebody changed runs nothing of its own)
    db.execute("PRAGMA trusted_schema = OFF")
    db.execute("PRAGMA cell_size_check = ON")
    db.execute("PRAGMA foreign_keys = ON")
    db.execute("PRAGMA synchronous = FULL")
    db.execute(f"PRAGMA cache_size = -{CACHE}")
    return db


def opened(folder: Path, first: Events | None = None) -> Store:
    """The file of a folder, of which somebody may have read the first events. Raises FileFault if it is none, belongs
    to somebody else, or was changed by other ways."""
    path = look_at(folder)
    with telling(path):
        db = connected(path)
        try:
            must_be_one(db, path)
            must_be_tables(db, path)
            return Store(path, db, Texts(db, path), events.read(db, path, first))
        except BaseException:
            db.close()
            raise


def must_be_one(db: sqlite3.Connection, path: Path) -> None:
    """Ends the command if a database is not the file of a folder."""
    application = db.execute("PRAGMA application_id").fetchone()[0]
    layout = db.execute("PRAGMA user_version").fetchone()[0]
    if application != APPLICATION:
        raise FileFault(path, 0, "application_id", application, f"{APPLICATION}, that of a folder of days")
    if layout != LAYOUT:
        raise FileFault(path, 0, "user_version", layout, f"{LAYOUT}: another version of these tools made it")


def must_be_tables(db: sqlite3.Connection, path: Path) -> None:
    """Ends the command if a view has the name of a table: what it asks may have no end."""
    # (of a file that can't be read others tell more)
    with contextlib.suppress(*UNREADABLE):
        views = {name for (name,) in db.execute("SELECT name FROM sqlite_master WHERE type = 'view'")}
        for name in views & {*re.findall(r"CREATE TABLE (\w+)", schema())}:
            raise FileFault(path, 0, f"table {name}", "a view", "a table: somebody changed the file by other ways")


def schema() -> str:
    """The statements that make all tables. A file has them without their comments: so each letter of it counts."""
    here = Path(__file__)
    text = "".join(here.with_name(name).read_text(encoding="utf-8") for name in ("schema.sql", "daybook.sql"))
    return re.sub(r"\n?[ \t]*--[^\n]*", "", text)


@contextlib.contextmanager
def making(path: Path) -> Iterator[Store]:
    """Makes a new file, in one step, with what the block adds. Raises FileFault."""
    with telling(path):
        os.close(opening.create(path, MODE))
        opening.must_have_locks(path)
        db = connected(path)
        try:
            db.execute("PRAGMA journal_mode = DELETE")
            db.execute(f"PRAGMA application_id = {APPLICATION}")
            db.execute(f"PRAGMA user_version = {LAYOUT}")
            db.executescript(f"BEGIN IMMEDIATE;\n{schema()}")
            yield Store(path, db, Texts(db, path), Events(path))
            db.execute("COMMIT")
        finally:
            db.close()
