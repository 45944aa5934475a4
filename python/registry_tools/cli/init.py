"""Makes a folder that remembers its days, with the first day text. That day is not settled by it: ./day close does
that.

FOLDER is made, or gets another first text, as long as no day of it was settled. The text is looked at as the program
would: if it has a fault, nothing is made, and ./day explain tells all its faults. office.ini in the folder says which
program settles, and whether ./day close makes statements and pages; change it with an editor.
"""
import argparse
from pathlib import Path

from registry_tools import voice
from registry_tools.cli import words
from registry_tools.elsewhere import Source
from registry_tools.office import folder
from registry_tools.office.init import Init, change_first, init
from registry_tools.layout import SETTINGS

EXAMPLE = "./day init out/office examples/week/monday.csv"


def add_words(parser: argparse.ArgumentParser) -> None:
    """Tells a parser the words of the command."""
    parser.add_argument("folder", metavar="FOLDER", help="the folder that is made")
    parser.add_argument("first", metavar="FIRST_DAY", type=Source, help="the first day text")
    without = "the program that settles; without it, the library if it was built, else ./run"
    parser.add_argument("--program", metavar="PATH", default="", help=without)
    parser.add_argument("--statements", action="store_true", help="close makes statements, too")
    parser.add_argument("--pages", action="store_true", help="close makes pages, too")
    words.add_who(parser)


def run(said: argparse.Namespace) -> int:
    """Runs the command, and answers the exit status."""
    path = Path(said.folder)
    asked = Init(path, said.first, said.program, said.statements, said.pages)
    if (path / SETTINGS).is_file():
        with folder.opened(said.folder) as office:
            first = change_first(office, asked, words.by(said, office))
    else:
        first = init(asked, words.by(said, None))
    date, counts = first.head.date, f"accounts {len(first.book)}, instructions {len(first.instructions)}"
    then = f"{voice.command('close', '--date', date)} settles it"
    print(f"{path}: the first text is that of {date}: {counts}. {then}")
    return 0
