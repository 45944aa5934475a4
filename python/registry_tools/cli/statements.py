"""Writes the statement of every account over a day, in one pass: each in a file ACCOUNT.csv of FOLDER.

A statement is byte for byte what `registry statement ACCOUNT` writes of DAY. With --own it has only what belongs to the
account, so that it can be sent to its holder:

  statement,DATE,NO,KIND,HOLDER,STATUS   stands before its first row; STATUS is that after the day
  log rows                               have the account's own holdings at their end, and no others; PROPOSER and
                                         APPROVER only if they represent the account; of a distribution to several
                                         accounts, an account that receives finds its own amount alone. An instruction
                                         of the account that was refused as UnknownAccount stands here too
  refused,RECORD,DATE                    an instruction of another account that names this one was refused. It stands
                                         here only if its proposer represents one of the two accounts

FOLDER must not be there yet, or be empty. What it gets appears only when all of it is written. REPORT must be what
follows from DAY.
"""
import argparse

from registry_tools.cli.options import add_pair
from registry_tools.elsewhere import NewPlace
from registry_tools.questions import statements
from registry_tools.texts.follows import read_pair

EXAMPLE = (
    "./day statements examples/week/monday.csv examples/week/monday-report.csv out/statements --own "
    "--account 100210 300118"
)


def add_words(parser: argparse.ArgumentParser) -> None:
    """Tells a parser the words of the command."""
    add_pair(parser)
    parser.add_argument("folder", metavar="FOLDER", type=NewPlace, help="the folder that is made")
    parser.add_argument("--own", action="store_true", help="leave out what belongs to others")
    parser.add_argument("--account", type=int, nargs="+", metavar="N", help="only these accounts")


def run(said: argparse.Namespace) -> int:
    """Runs the command, and answers the exit status."""
    statements.make(*read_pair(said.day, said.report), said.folder, said.account, said.own)
    return 0
