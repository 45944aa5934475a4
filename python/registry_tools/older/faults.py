"""What is wrong with a folder of version 1.1, in the words of its audit."""
import datetime
from dataclasses import dataclass, field
from pathlib import Path

from registry_tools import voice
from registry_tools.errors import FileFault
from registry_tools.notes import counted
from registry_tools.older import intake, journal
from registry_tools.older.folder import PUT_BACK, Folder
from registry_tools.older.intake import MERGED, HandedIn
from registry_tools.older.journal import Event
from registry_tools.questions.seams import Found, Given, close_again
from registry_tools.store import events
from registry_tools.texts.day_text import DayText
from registry_tools.texts.rows import KeptText, rows_of_text

# How what is found is mended.
JOURNAL_BACK = "put the journal back from a copy: audit --anchors tells whether it is the right one"
JOURNAL_FIRST = "mend the journal first, and audit again"
FILES_FIRST = "mend the files of this day first, and audit again"
AWAY, NEXT_BACK = "move it to another folder", "put it back from a copy, or take it back and hand it in again"
APPROVES_NOTHING = "take the file away: it approves nothing"
SAY_AGAIN = "take it back, and hand it in once more"
# The files of a day, by the columns of its event.
KEY_OF = {"text": "day", "report": "report", "waiting": "waiting"}


def waits_back() -> str:
    """How what waits behind the last day is had again."""
    anew = f"{voice.command('undo')} and {voice.command('close')} of the last day write it anew"
    return f"put it back from a copy: else {anew}"


@dataclass
class OlderFound(Found):
    """What was found of an older folder: its days are looked at as those of today are, by the names of its files."""

    folder: Folder = field(kw_only=True)
    # The events of the journal by the date of their day, and the days whose files are not as they were filed.
    filed: dict[datetime.date, Event] = field(default_factory=dict)
    changed: set[datetime.date] = field(default_factory=set)
    away: str = AWAY

    def mending(self, date: datetime.date) -> str:
        """How a difference of a day is mended: first the journal or files, if they are not as they were filed."""
        if self.away == JOURNAL_FIRST:
            return JOURNAL_FIRST
        before = [date for date in self.changed if date < date]
        if date in self.changed or not before:
            return FILES_FIRST if date in self.changed else close_again()
        return f"mend the files of {max(before)} first, and audit again"

    def add(self, *faults: FileFault | None, mend: str = "") -> None:
        """Adds what was found, and how it is mended, each once: a file that lacks is missed by each that reads it."""
        for fault in filter(None, faults):
            # (what to do about it is said by the first one alone)
            told = str(fault) if fault.expected else str(fault).partition(";")[0]
            if told not in self.told:
                self.told.add(told)
                self.faults.append(fault)
                if mend and PUT_BACK not in str(fault):
                    fault.add_way(mend)

    def given(self, event: events.Event, day: DayText) -> Given:
        """What was handed in for a day, as its files have it."""
        old = self.filed[event.date]
        texts = {kind: self.folder.text(old, kind).decode("utf-8-sig", "surrogateescape") for kind in MERGED}
        merged = {kind: rows_of_text(kind, text) for kind, text in texts.items()}
        count = self.folder.handed_in(old).count_of_first()
        return Given(None if count is None else day.source.rows[: day.first_do + count], merged)

    def says(self) -> str:
        """What says when a day was filed, and with which records."""
        return str(self.folder.journal.path)

    def summary(self) -> str:
        """The last line, with the counts."""
        journal = self.folder.journal
        counts = f"events {len(journal.events)}, days {len(journal.filed())}, pairs read {self.pairs}"
        return f"{self.folder.path}: {counts}: {counted(len(self.faults), 'difference', 'differences')}"


def look_at_folder(found: OlderFound) -> HandedIn | None:
    """Looks at the journal and at each file. Answers what was handed in for the next day, if it can be read."""
    folder = found.folder
    for fault in journal.faults_of(folder.journal):
        found.add(fault, mend=JOURNAL_BACK)
        found.away = JOURNAL_FIRST
    found.filed = {event.date: event for event in folder.journal.filed()}
    for event in folder.journal.filed():
        changed = [*folder.changed_files(event)]
        found.add(*folder.changed_tables(event))
        if changed:
            found.changed.add(event.date)
        found.add(*changed)
        found.add(*folder.strange_files(event), mend=found.away)
    with found.adding(PUT_BACK):
        found.add(*folder.strange_days(), mend=found.away)
    found.add(*folder.changed_labels())
    with found.adding(NEXT_BACK):
        handed = folder.for_the_next_day()
        found.add(*handed.unsaid, mend=SAY_AGAIN)
        found.add(*handed.unapproved, mend=APPROVES_NOTHING)
        return handed
    return None


def text_of(found: OlderFound, event: events.Event, column: str) -> KeptText:
    """A text of a day by the path of its file."""
    old = found.filed[event.date]
    path = found.folder.file(old, KEY_OF[column])
    return KeptText(str(path), lambda: found.folder.text(old, KEY_OF[column]))


def waits_path(folder: Folder) -> Path:
    """The file of what waits behind the last day."""
    return folder.next_folder / intake.WAITS

