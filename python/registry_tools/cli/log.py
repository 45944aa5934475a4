"""Writes the logs of reports as one table: CSV with a header, the reports one after another, a row for each
instruction, and for a distribution a row for each account that receives.

  record, date              the record number, and the settlement day
  proposed, proposer, approver, act
  from                      the account that gives, or the account of the act; empty for a creation
  to                        the account that receives; of a trusted list, the other account
  kind                      the kind of allowance
  amount                    how many allowances; the tonnes of an entry of emissions
  year                      of an entry of emissions, or of an assessment
  outcome, code, name       done, or refused with the code and the name of the check
  figure                    what an assessment determined
  due                       of an addition that was done, the day on which the entry takes effect; with --day, of each
                            other instruction whose accounts are there its due day, and of one that waits the day on
                            which ./day next enters it
  advice                    what to do after a refusal
  status                    the new status, of a change of a status
  record_named              the record number that a reversal names

Each column has values of one kind: where an act has no such thing, the field is empty, and null in JSON. With
--account, only the rows in which this account is FROM or TO. The reports stand in the order of their record numbers,
each once.
"""
import argparse

from registry_tools.cli import answers
from registry_tools.cli.options import is_day_named
from registry_tools.elsewhere import Source
from registry_tools.output import write_answer
from registry_tools.pairs.log import COLUMNS, Log, log
from registry_tools.texts.day_text import read_day
from registry_tools.texts.report import read_report

EXAMPLE = "./day log examples/week/monday-report.csv examples/week/tuesday-report.csv --refused > out/refused.csv"


def add_words(parser: argparse.ArgumentParser) -> None:
    """Tells a parser the words of the command."""
    is_named = is_day_named(parser)
    if not is_named:
        parser.add_argument("reports", metavar="REPORT", type=Source, nargs="+", help="a report")
    parser.add_argument("--refused", action="store_true", help="only what was refused")
    parser.add_argument("--account", type=int, metavar="N", help="only rows with this account")
    texts_of = "the day texts of reports, for due days; or dates of days of a folder, in place of reports"
    if not is_named:
        parser.add_argument("--day", dest="days", metavar="DAY", type=Source, nargs="+", default=[], help=texts_of)
    answers.add_words(parser)


def run(said: argparse.Namespace) -> int:
    """Runs the command, and answers the exit status."""
    reports, days = [*map(read_report, said.reports)], [*map(read_day, said.days)]
    rows = log(reports, days, Log(said.account, said.refused))
    write_answer(answers.for_programs(said, COLUMNS.names, rows), said.to)
    return 0
