"""Writes the texts of a folder as plain files, for whoever has no ./day: `sha256sum -c SHA256SUMS` looks whether they
are whole, and ./run settles a day once more.

  DATE/day.csv, report.csv, waiting.csv, waits.csv   a settled day, its report, what waited before it and waits then
  DATE/do.csv, changes.csv, edits.csv, work.csv      what was handed in for it, as far as it counts
  DATE/by-hand.csv                                   who changed what by hand, and why
  DATE/tables/NUMBER-NAME                            tables and mappings of which rows were made
  undone/EVENT-DATE/..                               the same of a day that was taken back
  next/NUMBER-KIND.csv                               what is handed in for the next day, as it came
  labels.csv, events.csv                             the names; and all that was done, one line an event

DIR must not be there yet, or be empty. With --day only that day is written, also as it was before it was taken back.
"""
import argparse

from registry_tools.cli import asked, words
from registry_tools.elsewhere import NewPlace
from registry_tools.office import folder
from registry_tools.questions.unpack import unpack

EXAMPLE = "./day unpack out/plain --day 2025-09-24 --office out/office"


def add_words(parser: argparse.ArgumentParser) -> None:
    """Tells a parser the words of the command."""
    parser.add_argument("folder", metavar="DIR", type=NewPlace, help="the folder that is made")
    parser.add_argument("--day", metavar="DATE", help="only this day")
    words.add_office(parser)


def run(said: argparse.Namespace) -> int:
    """Runs the command, and answers the exit status."""
    with folder.opened(said.office) as office:
        made = unpack(office, said.folder, asked.date_or("--day", said.day, None))
    print(f"{said.folder}: days {made.days}, files {made.files}, head {made.head}")
    return 0
