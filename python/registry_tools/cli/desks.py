"""Which desk carries a command out, if one does: the one that the words, a variable or office.ini name."""
import argparse
import contextlib
import os
from typing import NamedTuple

from registry_tools import streams
from registry_tools.errors import FileFault, WordsFault
from registry_tools.layout import SETTINGS, STORE
from registry_tools.office import folder, settings

# The variable that names the socket of a desk for whoever names none, and no folder.
VARIABLE = "REGISTRY_DESK"
# What no desk does, and the way out.
NOT_THERE = {
    "desk": "a desk is started where its folder lies", "link": "./day link --socket PATH prints a link",
    "init": "whoever keeps the folder makes it where it lies", "upgrade": "whoever keeps the folder upgrades it there",
    "backup": "whoever keeps the folder copies its file there; ./day unpack gives all texts",
}  # fmt: skip
# Of these a folder is named, or made, by themselves.
BY_THEMSELVES = ("desk", "link", "init", "upgrade")


class Desk(NamedTuple):
    """Where a desk answers, and whose it has to be, if that is known."""

    path: str
    owner: int | None = None


def desk_for(name: str, words: argparse.Namespace, named: str | None) -> Desk | None:
    """The desk that carries a command out: the named one, or the one that office.ini of the named folder tells to
    whoever may not write there, or that of the variable; nothing, if it is done here. Raises WordsFault."""
    folder = getattr(words, "office", None) or getattr(words, "_office", None)
    if named is not None:
        if name in NOT_THERE:
            raise not_there(name, "--desk")
        if folder is not None:
            raise WordsFault("--desk stands in place of --office")
        return Desk(named) if takes_folder(words) else None
    if name in BY_THEMSELVES or not takes_folder(words):
        return None
    is_in_folder = folder is None and os.path.isfile(SETTINGS)
    path = None if folder is not None or is_in_folder else os.environ.get(VARIABLE)
    found = Desk(path) if path else desk_of_folder(folder)
    if found and name in NOT_THERE:
        raise not_there(name, f"by the desk at {found.path}")
    return found


def not_there(name: str, where: str) -> WordsFault:
    """That no desk does this command, with the way out."""
    why, _, way = streams.in_help(NOT_THERE[name]).partition("; ")
    return WordsFault(f"{where}: {why}", way, "; ")


def takes_folder(words: argparse.Namespace) -> bool:
    """Whether a command is one of a folder, by its words."""
    is_of_folder = hasattr(words, "office") and not getattr(words, "pairs", None)
    return is_of_folder or getattr(words, "_dates", None) is not None


def desk_of_folder(word: str | None) -> Desk | None:
    """The desk that office.ini tells, if this login may not write the folder by itself."""
    # (what is wrong with the folder, the command tells)
    with contextlib.suppress(FileFault, WordsFault, OSError):
        path = folder.folder_of(word)
        if os.access(path / STORE, os.R_OK | os.W_OK):
            return None
        told = settings.read(path / SETTINGS).desk
        return Desk(told, os.stat(path).st_uid) if told else None
    return None
