"""Shows what an account held after a day, of each kind, and what it had surrendered and deleted: on the last settled
day up to DATE.
"""
import argparse

from registry_tools import tables
from registry_tools.cli import answers, asked
from registry_tools.questions.balance import balance

EXAMPLE = "./day balance 100210 --on 2025-09-24 --office out/office"
COLUMNS = tables.COLUMNS["balance"]


def add_words(parser: argparse.ArgumentParser) -> None:
    """Tells a parser the words of the command."""
    parser.add_argument("account", metavar="ACCOUNT", help="an account, by its number or its name")
    parser.add_argument("--on", metavar="DATE", help="a day; without it, the last settled one")
    answers.add_words(parser)
    asked.add_words(parser)


def run(said: argparse.Namespace) -> int:
    """Runs the command, and answers the exit status."""
    on = asked.date_or("--on", said.on, None)
    with asked.opened(said) as opened:
        rows = balance(opened.days, asked.number_said("ACCOUNT", said.account, opened.names), on)
    answers.show(said, COLUMNS, asked.rows_shown(said, COLUMNS, rows, opened.names))
    return 0
