"""Runs a command with the words of somebody elsewhere, for whom a desk carries it out: what the words name lies with
them, and the folder and the login are those that the desk knows."""
import argparse
import errno
from dataclasses import dataclass

from registry_tools.cli import main, named_day
from registry_tools.cli.desks import NOT_THERE
from registry_tools.cli.options import words_of_files
from registry_tools.elsewhere import Caller, Elsewhere, FileWord, Program
from registry_tools.errors import WordsFault


@dataclass(frozen=True)
class Giver:
    """Who gives a command: on which folder, by which login, with what each file has that the words name, or why it
    could not be read; and where they are."""

    folder: str
    login: str
    files: dict[str, bytes | OSError]
    caller: Caller


def run(name: str, words: list[str], giver: Giver) -> int:
    """Runs a command, and answers its status. Raises WordsFault at what no desk does."""
    if name in NOT_THERE or name not in {**main.OFFICE_COMMANDS, **named_day.TAKES}:
        raise WordsFault("that is no command of a desk")
    module = main.module_of(name)
    parsed = main.parser_of(name, module, name in named_day.TAKES).parse_args(words)
    fit(parsed, giver)
    with named_day.looked_up(name, parsed):
        return module.run(parsed)


def fit(said: argparse.Namespace, giver: Giver) -> None:
    """Puts into the words whose they are, and the folder of the desk, and what lies elsewhere in place of its names."""
    if any(words_of_files(said, Program)) or getattr(said, "by_hand", None) or getattr(said, "beside", None):
        raise WordsFault("a desk runs no program that the words name, and reads no folder of theirs")
    if getattr(said, "whom", None) is not None:
        raise WordsFault("the system says for whom a command is given at a desk")
    if hasattr(said, "office") and not getattr(said, "pairs", None):
        said.office = giver.folder
    elif getattr(said, "_dates", None) is not None:
        said._office = giver.folder  # noqa: SLF001
    else:
        raise WordsFault("that needs no desk: it is of files, and not of a folder")
    if hasattr(said, "whom"):
        said.whom = giver.login
    for option, values in [*vars(said).items()]:
        if isinstance(values, FileWord):
            setattr(said, option, placed(values, giver))
        elif isinstance(values, list):
            setattr(said, option, [placed(value, giver) if isinstance(value, FileWord) else value for value in values])


def placed(word: FileWord, giver: Giver) -> Elsewhere:
    """What a word names, with what came with it."""
    got = giver.files.get(word, PermissionError(errno.EPERM, "it was not sent with the command"))

    def content() -> bytes:
        if isinstance(got, OSError):
            raise got
        return got

    return Elsewhere(word, content, giver.caller)
