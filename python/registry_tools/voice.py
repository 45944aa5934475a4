"""In whose words something is told: in those of whoever gives commands, or of whoever works at the desk, who has pages
and forms in place of commands and options. What is told is made in these words, so nobody has to look for others in it.

`speaking` says who is told; without it, whoever gives commands.
"""
import contextlib
import datetime
import os
from collections.abc import Iterator
from contextvars import ContextVar
from pathlib import Path

from registry_tools import streams

# A time of the events of a folder.
TIME = "%Y-%m-%dT%H:%M:%SZ"


class Terminal:
    """The words of whoever gives commands."""

    is_desk = False

    def command(self, name: str, *words: object) -> str:
        """A command that does something, with its words, by the name under which this one was started."""
        return " ".join(map(str, (streams.names["./day"], name, *words)))

    def option(self, name: str, *words: object) -> str:
        """What is asked for by an option, with the words behind it."""
        return " ".join(map(str, (f"--{name}", *words)))

    def path(self, path: str | Path) -> str:
        """Where a file lies."""
        return str(path)

    def time(self, at: str) -> str:
        """A time of the events."""
        return at

    def either(self, _terminal: str, _desk: str) -> str:
        """What is told otherwise than by the words above: the first one, or the second one at the desk."""
        return _terminal


class Desk(Terminal):
    """The words of whoever works at the desk of a folder. `aside` is where its uploads lie, which are told by the names
    that they came with."""

    is_desk = True
    # The page on which a command is given.
    pages = {
        "hand-in": "Hand in", "take-back": "The next day", "try": "The next day", "change": "Change", "close": "Close",
        "undo": "Undo", "release": "Release", "status": "Today", "approve": "Today", "audit": "Audit", "send": "Send",
        "next": "The next day", "find": "Find", "history": "Accounts", "compliance": "Compliance", "month": "Months",
        "label": "Names", "form": "Hand in", "correct": "Correct", "db": "The office", "backup": "The office",
        "settings": "The office",
    }  # fmt: skip
    # What the field of a form is called that says what an option says.
    fields = {
        "date": "the day", "day": "the day", "from": "the first day", "to": "the last day", "who": "Your name",
        "why": "Why", "second": "by the second answer", "yes": "a yes", "without": "records that are left out",
        "with": "what is handed in as well",
    }  # fmt: skip

    def __init__(self, folder: Path | None = None, aside: Path | None = None) -> None:
        self.begins = [f"{each}{os.sep}" for each in (folder, aside) if each is not None]
        self.folder = str(folder)

    def command(self, name: str, *words: object) -> str:
        """The page where something is done; what has none is a command."""
        return f"the page {self.pages[name]}" if name in self.pages else f"the command {name}"

    def option(self, name: str, *words: object) -> str:
        """The field of a form that asks for something, with what it says."""
        return " ".join(map(str, (self.fields.get(name, name.replace("-", " ")), *words)))

    def path(self, path: str | Path) -> str:
        """A file by its place in the folder; of others, the name."""
        name = str(path)
        if name == self.folder:
            return "the folder"
        begin = next((own_begin for own_begin in self.begins if name.startswith(own_begin)), "")
        return name.removeprefix(begin)

    def time(self, at: str) -> str:
        """A time of the events, on the clock of this machine."""
        try:
            moment = datetime.datetime.strptime(at, TIME).replace(tzinfo=datetime.timezone.utc)
        except ValueError:
            return at
        return moment.astimezone().strftime("%Y-%m-%d %H:%M")

    def either(self, _terminal: str, _desk: str) -> str:
        """What the desk says."""
        return _desk


TERMINAL = Terminal()
_voice: ContextVar[Terminal] = ContextVar("voice", default=TERMINAL)


@contextlib.contextmanager
def speaking(voice: Terminal) -> Iterator[None]:
    """In the block, all is told in these words."""
    before = _voice.set(voice)
    try:
        yield
    finally:
        _voice.reset(before)


def page_of(command: str) -> str:
    """The page of the desk on which a command is given."""
    return Desk.pages[command]


def is_desk() -> bool:
    """Whether who is told works at the desk."""
    return _voice.get().is_desk


def command(name: str, *words: object) -> str:
    """What does something: a command with its words, or a page."""
    return _voice.get().command(name, *words)


def option(name: str, *words: object) -> str:
    """What asks for something: an option, or the field of a form, with what stands behind it."""
    return _voice.get().option(name, *words)


def path(place: str | Path) -> str:
    """Where a file lies."""
    return _voice.get().path(place)


def time(at: str) -> str:
    """A time of the events of a folder."""
    return _voice.get().time(at)


def either(terminal: str, desk: str) -> str:
    """What is told to who gives commands, or to who works at the desk."""
    return _voice.get().either(terminal, desk)
