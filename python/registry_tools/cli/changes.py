"""Lists the changes by hand of a folder: when, by whom, which login approved it if another one had to, why, and which.
Those that are handed in for the next day come last.

With --pairs the rows that went (-) and came (+) between each day and the next one: paths do not tell who changed them.
"""
import argparse

from registry_tools.cli import answers, asked
from registry_tools.errors import WordsFault
from registry_tools.office import folder
from registry_tools.questions import changes, days
from registry_tools.questions.changes import COLUMNS

EXAMPLE = "./day changes --office out/office"


def add_words(parser: argparse.ArgumentParser) -> None:
    """Tells a parser the words of the command."""
    answers.add_words(parser)
    asked.add_words(parser)


def run(said: argparse.Namespace) -> int:
    """Runs the command, and answers the exit status."""
    if said.pairs and said.office is not None:
        raise WordsFault("--pairs stands in place of --office")
    if said.pairs:
        rows = [*changes.changes_of_pairs(days.pairs_named(said.pairs))]
    else:
        with folder.opened(said.office) as office:
            rows = [*changes.changes_of(office)]
    answers.show(said, COLUMNS, rows)
    return 0
