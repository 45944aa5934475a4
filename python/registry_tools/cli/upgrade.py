"""Makes registry.sqlite of a folder that version 1.1 made: all its days with their texts, who did what, the names, and
what is handed in for the next day. Each sum is compared with that of its journal, and each day is looked at as its
audit did: a folder with a fault is told so in the same words, and nothing is made.

The files of version 1.1 stay as they are, and no command reads them any more. The file begins with the old journal: so
a head or an anchor of before is still one of the folder. Of days that were taken back version 1.1 kept no texts.

exit status: 0 if the folder is upgraded, 3 if it has faults.
"""
import argparse
import sys
from pathlib import Path

from registry_tools.cli.words import user_name
from registry_tools.errors import FILE
from registry_tools.office import people
from registry_tools.older.upgrade import upgrade

EXAMPLE = "./day upgrade out/office"


def add_words(parser: argparse.ArgumentParser) -> None:
    """Tells a parser the words of the command."""
    parser.add_argument("folder", metavar="FOLDER", help="a folder of version 1.1")
    name = "who does it, beside the login; without it, the name of the user"
    parser.add_argument("--who", metavar="NAME", default=user_name(), help=name)


def run(said: argparse.Namespace) -> int:
    """Runs the command, and answers the exit status."""
    made = upgrade(Path(said.folder), people.system_login(), said.who)
    if made.faults:
        print("\n".join([*made.faults, f"{said.folder} is not upgraded: nothing was made"]), file=sys.stderr)
        return FILE
    print(f"{said.folder}: events {made.events}, days {made.days}, head {made.head}; before, {made.old_head}")
    return 0
