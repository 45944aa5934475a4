"""A folder of version 1.1: where its files lie, and whether they are as they were filed.

  FOLDER/journal.csv    what was done to the days (older/journal.py)
  FOLDER/days/DATE/     the files of each settled day, and the tables that were handed in for it
  FOLDER/next/          what was handed in for the next day (older/handed.py)
  FOLDER/labels.csv     the names
"""
import contextlib
import datetime
import fcntl
import os
from collections.abc import Iterator
from dataclasses import dataclass, field
from pathlib import Path

from registry_tools import opening, voice
from registry_tools.errors import FileFault, of_file
from registry_tools.office import settings
from registry_tools.office.settings import Settings
from registry_tools.older import intake, journal, next_day
from registry_tools.older.files import bytes_in, paths_in
from registry_tools.older.intake import HandedIn, Source
from registry_tools.older.journal import FILES, Event, Journal
from registry_tools.opening import LinkFault
from registry_tools.texts.rows import bytes_of, sum_of

SETTINGS, JOURNAL, DAYS, NEXT, LABELS, TABLES, LOCK = (
    "office.ini", "journal.csv", "days", "next", "labels.csv", "tables", "lock",
)  # fmt: skip
# What an interrupted command of version 1.1 leaves, and its next one puts right.
LEFT = ("prepared", ".building", ".done", ".journal.csv.new")
PAPERS = {"statements", "pages"}
MOST_KEPT = 1
PUT_BACK = "put it back as it was filed"


@dataclass
class Folder:
    """An open folder."""

    path: Path
    settings: Settings
    journal: Journal
    # What was read, by the lines of the events and the keys of the files.
    kept: dict[str, dict[str, bytes]] = field(default_factory=dict)

    @property
    def next_folder(self) -> Path:
        """The folder of what was handed in for the next day."""
        return self.path / NEXT

    def day_folder(self, date: datetime.date) -> Path:
        """The folder of a day."""
        return self.path / DAYS / str(date)

    def file(self, event: Event, key: str) -> Path:
        """The path of a file of a filed day."""
        return self.day_folder(event.date) / FILES[key]

    def text(self, event: Event, key: str) -> bytes:
        """A text of a filed day, unpacked. Those of the last two days that were asked for are kept."""
        for line in [*self.kept][: -MOST_KEPT] if event.line not in self.kept else ():
            del self.kept[line]
        texts = self.kept.setdefault(event.line, {})
        if key not in texts:
            texts[key] = bytes_of(str(self.file(event, key)))
        return texts[key]

    def handed_in(self, event: Event) -> HandedIn:
        """What was handed in for a settled day."""
        return intake.read_journal(self.file(event, "handed"))

    def for_the_next_day(self) -> HandedIn:
        """What was handed in for the next day."""
        return next_day.read_next(self.next_folder, self.journal, self.settings.people)

    # What is not as it was filed.

    def changed_files(self, event: Event) -> Iterator[FileFault]:
        """The files of a day that are not as they were filed."""
        folder = self.day_folder(event.date)
        try:
            paths_in(folder)
        except LinkFault as fault:
            yield fault
            return
        except FileFault:
            expected, way = f"the files of a day, as {self.journal.path} says", "put the folder back, from a copy"
            yield FileFault(folder, 0, "", "no folder", expected, way)
            return
        yield from filter(None, (self.changed_file(event, key) for key in FILES))

    def changed_file(self, event: Event, key: str) -> FileFault | None:
        """Whether a file of a day is another one than was filed: what is wrong with it, and what to do."""
        path, filed = self.file(event, key), event.sums.get(key)
        back = f"{PUT_BACK}: {voice.command('mend', event.date)} may make it again, or a copy has it"
        try:
            found = sum_of(bytes_in(path))
        except FileFault as fault:
            return of_file(path, str(fault.found), back, "; ")
        expected = f"{filed}, as {self.journal.path} says: somebody changed it"
        return None if found == filed else FileFault(path, 0, "SHA-256", found, expected, back, "; ")

    def strange_files(self, event: Event) -> Iterator[FileFault]:
        """What lies among the files of a day and is none of them."""
        folder = self.day_folder(event.date)
        tables = {source.file for source in self.sources_of(event)}
        names = {*PAPERS, *FILES.values(), *([TABLES] if tables else [])}
        strange = [path for path in (paths_in(folder) if folder.is_dir() else ()) if path.name not in names]
        if tables and (folder / TABLES).is_dir():
            strange += [path for path in paths_in(folder / TABLES) if path.name not in tables]
        for path in strange:
            yield FileFault(path, 0, "", "a file that does not belong here", "no such file")

    def sources_of(self, event: Event) -> list[Source]:
        """The tables that were handed in for a day; none, if what tells them is not as it was filed."""
        if not self.day_folder(event.date).is_dir() or self.changed_file(event, "handed"):
            return []
        return [*self.handed_in(event).sources()]

    def changed_tables(self, event: Event) -> Iterator[FileFault]:
        """The tables of a day that are not as they were handed in."""
        place = self.day_folder(event.date) / TABLES
        sources = self.sources_of(event)
        yield from filter(None, (intake.changed_source(place / source.file, source) for source in sources))

    def labels(self) -> bytes:
        """The file of names; nothing, if it is not there."""
        path = self.path / LABELS
        return bytes_in(path) if path.exists() else b""

    def changed_labels(self) -> Iterator[FileFault]:
        """Whether the file of names is another one than that of the last line of the journal that has its sum."""
        last = next((event for event in reversed(self.journal.events) if event.event != journal.UNDONE), None)
        found = sum_of(self.labels()) if (self.path / LABELS).exists() else ""
        if last and last.labels and found != last.labels:
            is_labelled = any(event.event == journal.LABELLED for event in self.journal.events)
            by_hand = voice.command("label", "--by-hand", "--why", "WORDS")
            keeps = by_hand if is_labelled else "the next close or release"
            meant = f"if names were meant to change, {keeps} keeps the new ones"
            expected = f"{last.labels}, as {self.journal.path} says of {last.date}: {meant}"
            yield FileFault(self.path / LABELS, 0, "SHA-256", found or "no file", expected)

    def strange_days(self) -> Iterator[FileFault]:
        """What lies among the days, and is none."""
        named = {str(event.date) for event in self.journal.filed()}
        for path in paths_in(self.path / DAYS):
            if path.name not in named:
                found = "something that the journal does not name"
                yield FileFault(path, 0, "", found, "the days of the journal alone")


def opened(path: Path) -> Folder:
    """The folder at a path, with the journal as it lies there: nobody has looked at its lines. Raises FileFault."""
    opening.guard(path)
    text = bytes_in(path / JOURNAL).decode("utf-8", "surrogateescape")
    return Folder(path, settings.read(path / SETTINGS), Journal(path / JOURNAL, text))


@contextlib.contextmanager
def alone(path: Path) -> Iterator[None]:
    """No command of version 1.1 changes the folder in the block. Raises FileFault if one does, or left something."""
    for name in LEFT:
        if os.path.lexists(path / name):
            way = f"{voice.command('status')} of version 1.1 puts it right: upgrade behind it"
            raise FileFault(path / name, 0, "", "what an interrupted command left", "no such thing", way)
    file = opening.open_file(path / LOCK, os.O_RDONLY) if (path / LOCK).exists() else None
    try:
        if file is not None:
            try:
                with opening.telling_of_locks(path / LOCK):
                    fcntl.flock(file, fcntl.LOCK_EX | fcntl.LOCK_NB)
            except BlockingIOError:
                raise of_file(path, "a command of version 1.1 works on it just now", "upgrade behind it") from None
        yield
    finally:
        if file is not None:
            os.close(file)
