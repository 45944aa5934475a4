"""Makes a folder that remembers its days, with the first day text, or puts another first text into one without a
settled day."""
import os
from dataclasses import dataclass
from pathlib import Path

from registry_tools import voice
from registry_tools.errors import FileFault, WordsFault
from registry_tools.office import approvals, intake, people
from registry_tools.office.intake import FIRST, HandedIn
from registry_tools.layout import SETTINGS
from registry_tools.office.office import By, Office
from registry_tools.office.settings import Settings
from registry_tools.output import NewFolder, keep_name, writing
from registry_tools.store import file
from registry_tools.texts.day_text import DayText, day_of
from registry_tools.texts.rows import bytes_of, rows_of_text, text_of_rows


@dataclass(frozen=True)
class Init:
    """A folder to make: its path, that of its first text, and what office.ini says; no `program` is that of ./run."""

    path: Path
    first: str
    program: str = ""
    makes_statements: bool = False
    makes_pages: bool = False

    def settings(self) -> Settings:
        """What office.ini says."""
        return Settings(program_of(self.program), self.makes_statements, self.makes_pages)


def read_first(path: str) -> DayText:
    """The first day text. Raises FileFault if it has a fault."""
    return day_of(rows_of_text(path, bytes_of(path).decode("utf-8-sig", "surrogateescape")))


def init(asked: Init, by: By) -> DayText:
    """Makes a folder, whole or not at all, and answers its first text. Raises FileFault if one of both can't be."""
    first, settings = read_first(asked.first), asked.settings()
    with NewFolder(asked.path) as made:
        os.chmod(made.beside, file.FOLDER_MODE)
        made.write(SETTINGS, settings.text())
        os.chmod(made.beside / SETTINGS, file.MODE)
        with file.making(made.beside / file.NAME) as store:
            office = Office(asked.path, settings, store, by.login, by.who)
            put_first(office, HandedIn(store), first, asked.first)
        with writing(asked.path):
            for path in (made.beside / SETTINGS, made.beside):
                sync(path)
            if made.is_there:
                os.chmod(asked.path, file.FOLDER_MODE)
    keep_name(asked.path)
    return first


def sync(path: Path) -> None:
    """Has a file, or the names in a folder, kept, also if the machine stops. Raises OSError."""
    descriptor = os.open(path, os.O_RDONLY)
    try:
        os.fsync(descriptor)
    finally:
        os.close(descriptor)


def put_first(office: Office, handed_in: HandedIn, first: DayText, path: str) -> None:
    """Hands in a first text."""
    content = text_of_rows(first.source.rows)
    intake.put(office, handed_in, FIRST, content, len(first.instructions), os.path.basename(path))


def change_first(office: Office, asked: Init, by: By) -> DayText:
    """Puts another first text into a folder that has no settled day yet, and answers it."""
    first = read_first(asked.first)
    with office.changing("init", by):
        if office.last():
            path = office.path
            raise FileFault(path, 0, "", "a folder with settled days", "a folder without settled days, or a new one")
        if asked.program or asked.makes_statements or asked.makes_pages:
            raise WordsFault(f"{office.path} is there", f"change its {SETTINGS} with an editor")
        must_need_no_second(office, first)
        old = approvals.handed_in_of(office)
        if any(True for _ in old.items(*(kind for kind in intake.KINDS if kind != FIRST))):
            raise WordsFault("take back first what was handed in", f"{voice.command('status')} shows it")
        put_first(office, old, first, asked.first)
    return first


def program_of(word: str) -> str:
    """The path of the program that a word names, if it names one."""
    if word and not (os.path.isfile(word) and os.access(word, os.X_OK)):
        raise WordsFault(f"--program {word}: found no file that can be run; expected a program, such as ./run")
    return os.path.abspath(word) if word else ""


def must_need_no_second(office: Office, first: DayText) -> None:
    """Ends the command if another first text would change or hand in what this login may not, or not alone."""
    commands = ["change", *(["hand-in"] if first.instructions else [])]
    for command in commands:
        people.must_be_allowed(office.people, office.login, command)
        if approvals.waits(office, command):
            out = f"take {command} out of [{people.FOUR_EYES}] of {SETTINGS} until then, or make a new folder"
            raise WordsFault(f"{command} waits for another login, and a first text cannot", out)
