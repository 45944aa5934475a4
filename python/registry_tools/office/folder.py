"""Finds a folder of days, and opens it.

  FOLDER/office.ini        the layout, the program, what `close` makes, and people
  FOLDER/registry.sqlite   all else (store/schema.sql)
  FOLDER/days/DATE         statements and pages of a day, if office.ini asks for them: they are made of it
"""
import os
from pathlib import Path

from registry_tools import opening, voice
from registry_tools.errors import WordsFault
from registry_tools.office import settings
from registry_tools.layout import SETTINGS
from registry_tools.office.office import Office
from registry_tools.store import file
from registry_tools.store.events import Events

# The variable that names the folder for whoever stands in none, and names none.
VARIABLE = "REGISTRY_OFFICE"
# How the option that names it is explained.
WHERE = f"the folder of days; without it, the one in which the command is run, or that of {VARIABLE}"


def folder_of(word: str | None) -> Path:
    """The folder that a command works on: the named one, or the one in which it is run, or the one that a variable
    names. Raises WordsFault if it is no folder of days."""
    named = os.environ.get(VARIABLE)
    ways = f"--office FOLDER names one, {voice.command('init')} makes one"
    if word is not None:
        path, where = Path(word), voice.either(f"--office {word}", "the folder")
    elif named and not Path(SETTINGS).is_file():
        path, where = Path(named), f"{VARIABLE}={named}"
    else:
        path, where = Path("."), "this folder"
        ways = f"--office FOLDER or {VARIABLE} names one, {voice.command('init')} makes one"
    if not (path / SETTINGS).is_file():
        why = f"{where} is no folder of days: it has no {SETTINGS}"
        raise WordsFault(why, voice.either(ways, ""), "; ")
    opening.guard(path)
    return path


def at(path: Path, first: Events | None = None) -> Office:
    """The folder at a path, of which somebody may have read the first events. Raises FileFault if its settings or its
    file cannot be read."""
    opening.guard(path)
    store = file.opened(path, first)
    return Office(path, settings.read(path / SETTINGS), store)


def opened(word: str | None) -> Office:
    """The folder that a word names."""
    return at(folder_of(word))
