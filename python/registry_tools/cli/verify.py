"""Works a day out once more by the rules in plain Python (tools/rules.py), without the program, and compares the report
with it: the log, the accounts and the totals. Says the first row that differs, and what it has to be. With --program,
PROGRAM must write the same bytes too, or without PROGRAM the library, if it was built.

With --csv or --json, one row: whether it is so, and else where it differs. Of PROGRAM, `found` says all.

exit status: 0 if the report is what the rules make of the day, 1 if a row differs.
"""
import argparse

from registry_tools import showing, tables
from registry_tools.cli import answers
from registry_tools.engine import settler_of
from registry_tools.errors import FOUND
from registry_tools.cli.options import add_engine, add_pair
from registry_tools.pairs.verify import verify

EXAMPLE = "./day verify examples/week/monday.csv examples/week/monday-report.csv"
COLUMNS = tables.COLUMNS["verify"]


def add_words(parser: argparse.ArgumentParser) -> None:
    """Tells a parser the words of the command."""
    add_pair(parser, "what is said to be its report")
    add_engine(parser, "--program", "compare with a program, such as ./run, or the library too")
    answers.add_words(parser)


def run(said: argparse.Namespace) -> int:
    """Runs the command, and answers the exit status."""
    settler = None if said.program is None else lambda: settler_of(said.program, "--program")
    verified = verify(said.day, said.report, settler)
    counts, difference = (verified.instructions, verified.accounts), verified.difference
    row: list[showing.Cell] = [str(said.day), str(said.report), *counts, "no" if difference else "yes"]
    so = f"{said.report} is what the rules make of {said.day}: instructions {counts[0]}, accounts {counts[1]}"
    answers.show_or_tell(said, COLUMNS, [[*row, *showing.fault_row(difference)]], lambda: f"{difference or so}\n")
    return FOUND if difference else 0
