"""Makes a copy of a folder's registry.sqlite, also while others work on it, and tells its head, by which ./day audit
--since knows it again.

FILE is made whole or not at all, for its owner alone. An earlier copy of the same folder gives way to it; any other
file is left, and the command ends. To go on with a copy, put it into a folder of its own (chmod 700) as
registry.sqlite, with office.ini beside it.
"""
import argparse

from registry_tools.cli import words
from registry_tools.office import folder
from registry_tools.store.copies import backup

EXAMPLE = "./day backup out/copy.sqlite --office out/office"


def add_words(parser: argparse.ArgumentParser) -> None:
    """Tells a parser the words of the command."""
    parser.add_argument("file", metavar="FILE", help="the copy")
    words.add_office(parser)


def run(said: argparse.Namespace) -> int:
    """Runs the command, and answers the exit status."""
    with folder.opened(said.office) as office:
        made = backup(office.store, said.file)
    print(f"{said.file}: events {made.events}, days {made.days}, head {made.head}")
    return 0
