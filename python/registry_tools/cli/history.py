"""Shows all that became of an account: each instruction that touched it with what it then held, and each change by hand
between two days.
"""
import argparse

from registry_tools import tables
from registry_tools.cli import answers, asked
from registry_tools.errors import WordsFault
from registry_tools.texts.namebook import Labels
from registry_tools.questions.history import history

EXAMPLE = "./day history 100377 --office out/office"
COLUMNS = tables.COLUMNS["history"]


def add_words(parser: argparse.ArgumentParser) -> None:
    """Tells a parser the words of the command."""
    parser.add_argument("account", metavar="ACCOUNT", help="an account, by its number or its name")
    answers.add_words(parser)
    asked.add_words(parser)


def run(said: argparse.Namespace) -> int:
    """Runs the command, and answers the exit status."""
    with asked.opened(said) as opened:
        account = asked.number_said("ACCOUNT", said.account, opened.names)
        if not opened.days.dates:
            raise WordsFault("no day is settled yet")
        names = Labels() if answers.is_for_programs(said) else opened.names
        rows = history(opened.days, account, names.account)
    if not rows:
        raise WordsFault(f"no day has had an account {account}")
    answers.show(said, COLUMNS, rows)
    return 0
