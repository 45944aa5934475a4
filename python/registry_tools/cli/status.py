"""Shows how a folder of days stands: the last day, what waits, what was handed in for the next day, and whether
somebody works on it.

With --csv or --json, a row for each thing, all of what waits and was handed in: `what` says which of these it is.

exit status: 0 if the texts of the last day are those that were filed, 1 if one is not.
"""
import argparse
import os
import sys

from registry_tools.cli import answers, words
from registry_tools.errors import FOUND
from registry_tools.notes import LOOK
from registry_tools.office import folder
from registry_tools.questions.status import COLUMNS, Status, status

EXAMPLE = "./day status --office out/office"
BOLD, RED, PLAIN = "\033[1m", "\033[31m", "\033[0m"


def add_words(parser: argparse.ArgumentParser) -> None:
    """Tells a parser the words of the command."""
    answers.add_words(parser)
    words.add_office(parser)


def is_coloured() -> bool:
    """Whether somebody looks at a terminal with colours."""
    return sys.stdout.isatty() and not os.environ.get("NO_COLOR") and os.environ.get("TERM") != "dumb"


def run(said: argparse.Namespace) -> int:
    """Runs the command, and answers the exit status."""
    with folder.opened(said.office) as office:
        stands = status(office)
        answers.show_or_tell(said, COLUMNS, stands.rows, lambda: told_of(stands, said.to is None))
    return FOUND if stands.faults else 0


def told_of(stands: Status, may_be_coloured: bool) -> str:
    """What people are told."""
    bold, red, plain = (BOLD, RED, PLAIN) if may_be_coloured and is_coloured() else ("", "", "")
    told = [f"{bold}{name}:{plain} {what}" if name else f"  {what}" for name, what in stands.lines]
    return "\n".join([*told, *(f"{red}{LOOK}:{plain} {fault}" for fault in stands.faults), ""])
