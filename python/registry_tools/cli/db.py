"""Makes a database of all days, for questions in SQL: of a folder, or of pairs. examples/questions.sql
tells its tables, and has ten questions.

FILE is made if it is not there. If it is, the days that it lacks are added: it is then as if it were made anew. A
database with other days is refused. It is made aside, and gets its name when it is whole: nothing of it is changed if
something is wrong.
"""
import argparse

from registry_tools.cli import asked
from registry_tools.elsewhere import Grown
from registry_tools.output import must_be_writable
from registry_tools.questions import db

EXAMPLE = "./day db out/days.sqlite --office out/office"


def add_words(parser: argparse.ArgumentParser) -> None:
    """Tells a parser the words of the command."""
    parser.add_argument("file", metavar="FILE", type=Grown, help="the database")
    asked.add_words(parser)


def run(said: argparse.Namespace) -> int:
    """Runs the command, and answers the exit status."""
    must_be_writable(said.file)
    with asked.opened(said) as opened:
        made = db.make(opened.days, said.file)
    print(f"{said.file}: days {made.days}, of which {made.added} are new")
    return 0
