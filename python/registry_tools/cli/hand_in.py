"""Hands in instructions, working days, or accounts that are new or changed by hand, for the next day of a folder.

What a file has is told by its first row: do, work or account rows, with or without a row end; or the names of columns,
as ./day form writes them. A table may be csv, .xlsx or .ods, and somebody else's by --mapping (./day import --help
shows one): the folder keeps it as it came, with its sum, beside the rows that are made of it. Each row is looked at. An
instruction that a settled day has done, that waits, or that was handed in is refused, and so is an account that the
folder has had with the same rows: unless --again names the row, by FILE:LINE or by the PLACE of the one that was handed
in. What a settled day refused may come again, and is told. Then the next day is tried as it stands: what would be
refused is told, and stays handed in.

Each instruction, account or working day gets a place, by which ./day take-back takes it back.

exit status: 0 if nothing of it would be refused, 1 if something would.
"""
import argparse

from registry_tools.cli import files, importing, trial, words
from registry_tools.elsewhere import Source
from registry_tools.office import folder, hand_in, intake
from registry_tools.office.hand_in import HandIn
from registry_tools.office.intake import places
from registry_tools.office.incoming import Forms
from registry_tools.sheets.importing import read_mapping

EXAMPLE = "./day hand-in examples/week/tuesday-do.csv examples/week/tuesday-work.csv --office out/office"


def add_words(parser: argparse.ArgumentParser) -> None:
    """Tells a parser the words of the command."""
    what = "do rows, work rows or account blocks, or a table"
    parser.add_argument("files", metavar="FILE", type=Source, nargs="+", help=what)
    again = "a row that is meant once more, by its line, or by the place of the one that was handed in"
    parser.add_argument("--again", metavar="FILE:LINE|PLACE", nargs=1, default=[], help=again)
    kinds = parser.add_mutually_exclusive_group()
    kinds.add_argument("--instructions", action="store_true", help="the rows of a table are instructions")
    kinds.add_argument("--accounts", action="store_true", help="the rows of a table are accounts, as with a column no")
    importing.add_forms(parser)
    files.add_named(parser)
    words.add_office(parser)
    words.add_who(parser)


def run(said: argparse.Namespace) -> int:
    """Runs the command, and answers the exit status."""
    are_accounts = said.accounts if said.accounts or said.instructions else None
    forms = Forms(read_mapping(said.mapping), said.dates, are_accounts)
    asked = HandIn(files.given(said.files, said.called), tuple(said.again), forms)
    with folder.opened(said.office) as office:
        added = hand_in.hand_in(office, words.by(said, office), asked)
    for part in added.parts:
        count, where = f"{intake.NAMES[part.kind]} {part.count}", places(part.start, part.end)
        print(f"handed in: {part.name}: {count}, {where}")
    print("".join(f"{line}\n" for line in (*added.hidden, *added.waits)), end="")
    print("".join(f"again: {line}\n" for line in added.again), end="")
    return trial.tell(added.looked, added.next_day, added.places())
