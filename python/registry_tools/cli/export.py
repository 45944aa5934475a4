"""Writes a table for a spreadsheet, of a day and its report: csv on standard output, or with --xlsx FILE a workbook.

  --instructions  the instructions of the day; ./day import makes the same rows of it
  --accounts      the accounts after the day; ./day import --accounts makes the same rows of it
  --log           what came of each instruction, as ./day log
  --compliance    how operators stand, as ./day compliance --csv; --year names the year, as there
  --figures       the figures that were determined
"""
import argparse

from registry_tools import showing
from registry_tools.elsewhere import Target
from registry_tools.errors import WordsFault
from registry_tools.cli.options import add_pair, add_to, is_same_file
from registry_tools.output import write_answer
from registry_tools.sheets import writing
from registry_tools.sheets import exporting
from registry_tools.sheets.exporting import WHAT
from registry_tools.sheets.writing import Written
from registry_tools.texts.follows import read_pair

EXAMPLE = "./day export examples/week/monday.csv examples/week/monday-report.csv --accounts --xlsx out/accounts.xlsx"


def add_words(parser: argparse.ArgumentParser) -> None:
    """Tells a parser the words of the command."""
    add_pair(parser)
    what = parser.add_mutually_exclusive_group(required=True)
    for name in WHAT:
        what.add_argument(f"--{name}", dest="what", action="store_const", const=name, help=f"the table of {name}")
    parser.add_argument("--year", type=int, metavar="Y", help="the year of --compliance")
    parser.add_argument("--xlsx", metavar="FILE", type=Target, help="write a workbook")
    add_to(parser)


def run(said: argparse.Namespace) -> int:
    """Runs the command, and answers the exit status."""
    if said.year is not None and said.what != "compliance":
        raise WordsFault("--year is for --compliance")
    if said.xlsx and said.to:
        raise WordsFault("--xlsx names the file already: --to is for csv")
    if said.xlsx and any(is_same_file(path, said.xlsx) for path in (said.day, said.report)):
        raise WordsFault(f"--xlsx {said.xlsx} is one of the files that the command reads")
    columns, rows = exporting.table_of(said.what, *read_pair(said.day, said.report), said.year)
    if said.xlsx:
        writing.write_workbook(said.xlsx, Written(said.what, [columns, *rows]))
    else:
        write_answer(showing.as_csv(columns, rows), said.to)
    return 0
