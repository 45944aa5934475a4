"""A folder of days, for programs: what `./day` does with it, as functions that are given and answer data.

    import registry_office as office

    with office.open_folder("out/office") as folder:
        me = office.caller(folder, "ana")
        office.hand_in(folder, me, office.HandIn((office.Given("tuesday-do.csv"),)))
        closed = office.close(folder, me, office.Close(datetime.date(2025, 9, 23)))

They print nothing (what a program that settles says beside its report goes to standard error), and end nothing:
whatever is wrong raises a `Fault`, and then nothing was changed. Its `code` says which kind of fault it is
(docs/OFFICE.md lists them), `parts()` what more there is, and `way` what is done about it, in the words of the
commands. A function may also raise OSError and sqlite3.Error, if the disk or the file fails. A folder is used by the
thread that opened it. A change is one step: an interrupt before it leaves all as it was.

What stands in `__all__` stays as it is until a version says otherwise; `registry_tools`, of which this is made, may
change with each version.
"""
import contextlib
import os
from collections.abc import Iterator
from pathlib import Path

from registry_tools import opening
from registry_tools.errors import Fault, FileFault, LateFault, RightsFault, RowFault, UnwrittenFault, WordsFault
from registry_tools.layout import SETTINGS
from registry_tools.office import folder
from registry_tools.questions.kept_heads import Anchor, anchor_of
from registry_tools.office.approvals import AskedFor
from registry_tools.office.approve import approve_command, approve_places
from registry_tools.office.change import Change, Changed, change_by_hand
from registry_tools.office.close import Close, Closed, Doubts, Outcome, Settled, close
from registry_tools.office.composing import NextDay
from registry_tools.office.correct import Correct, Corrected, Shown, correct
from registry_tools.office.hand_in import Added, HadFault, HandIn, hand_in, look_at
from registry_tools.office.intake import Item, Part
from registry_tools.office.incoming import Forms, Given, TableFault
from registry_tools.office.init import Init, init
from registry_tools.office.label import Named, keep_names, one_name
from registry_tools.office.office import By, Office, by_of
from registry_tools.office.people import People
from registry_tools.office.release import Release, Released, Unproved, release
from registry_tools.office.take_back import TakeBack, take_back
from registry_tools.office.trial import Looked, Tried, try_next
from registry_tools.office.undo import Undo, Undone, undo
from registry_tools.opening import LinkFault
from registry_tools.pairs.edits import Edit, EditFault, edit_of
from registry_tools.progress import progress
from registry_tools.questions.audit import Audit, audit
from registry_tools.questions.balance import balance
from registry_tools.questions.days import Days, at_one_moment
from registry_tools.questions.due import Due, due_until
from registry_tools.questions.find import Find, find
from registry_tools.questions.history import history
from registry_tools.questions.seams import Found
from registry_tools.questions.status import Status, status
from registry_tools.second.days import Instruction
from registry_tools.store import copies
from registry_tools.store.copies import Copy
from registry_tools.store.events import Event
from registry_tools.store.past import PastDay
from registry_tools.tables import VERSION as __version__
from registry_tools.texts.books import Sums
from registry_tools.texts.day_text import DayText
from registry_tools.texts.namebook import Label
from registry_tools.texts.report import LogRow, Report

__all__ = [
    "Added", "Anchor", "AskedFor", "Audit", "By", "Change", "Changed", "Close", "Closed", "Copy", "Correct",
    "Corrected", "DayText", "Days", "Doubts", "Due", "Edit", "EditFault", "Event", "Fault", "FileFault", "Find",
    "Forms", "Found", "Given", "HadFault", "HandIn", "Init", "Instruction", "Item", "Label", "LateFault", "LinkFault",
    "LogRow", "Looked", "Named", "NextDay", "Office", "Outcome", "Part", "PastDay", "Release", "Released", "Report",
    "RightsFault", "RowFault", "Settled", "Shown", "Status", "Sums", "TableFault", "TakeBack", "Tried", "Undo",
    "Undone", "Unproved", "UnwrittenFault", "WordsFault", "__version__", "anchor_of", "approve_command",
    "approve_places", "audit", "backup", "balance", "caller", "change_by_hand", "close", "correct", "days_of",
    "due_until", "edit_of", "find", "hand_in", "history", "init", "keep_names", "look_at", "make_folder", "one_name",
    "open_folder", "release", "status", "take_back", "try_next", "undo",
]  # fmt: skip

# (what is told on a terminal by the second is told by commands)
progress.is_shown = False


def open_folder(path: str | os.PathLike[str]) -> Office:
    """The folder of days at a path, which is closed at the end of a `with`. Raises FileFault if it is none, or belongs
    to somebody else."""
    place = Path(path)
    opening.guard(place)
    if not (place / SETTINGS).is_file():
        raise FileFault(place / SETTINGS, 0, "", "no such file", "that of a folder of days")
    return folder.at(place)


def make_folder(asked: Init, who: str) -> None:
    """Makes a folder of days with its first text, which is not settled by that, by this login: a folder that is made
    knows no people yet. Raises FileFault or WordsFault."""
    init(asked, by_of(People(), who))


def caller(office: Office, who: str, seen: str | None = None) -> By:
    """By whom a change is made: the login of this process, with the name of a person, which is kept beside it. With
    `seen`, a state that `Office.state()` has answered, the change is made only if the folder is still so. Raises
    WordsFault if the name is none."""
    return by_of(office.people, who, seen=seen)


def backup(office: Office, path: str | os.PathLike[str]) -> Copy:
    """Makes a copy of the file of a folder, whole or not at all, also while others work on it. Raises FileFault if
    something else has that name than an earlier copy of it, or if the copy can't be made."""
    return copies.backup(office.store, os.fspath(path))


@contextlib.contextmanager
def days_of(office: Office) -> Iterator[Days]:
    """The settled days of a folder, for questions, as they are at one moment: whoever changes the folder waits for the
    end of the block. Raises FileFault if its file does not have them."""
    with at_one_moment(office.store) as found:
        yield found
