"""Words by which commands are told what days they ask: those of a folder, or those of pairs of paths; and names in
place of numbers."""
import argparse
import contextlib
import datetime
import re
from collections.abc import Iterator, Sequence
from dataclasses import dataclass
from typing import TypeVar

from registry_tools import tables
from registry_tools.calendars.dates import date_of
from registry_tools.cli import answers
from registry_tools.elsewhere import Source
from registry_tools.errors import WordsFault, shown
from registry_tools.office import folder
from registry_tools.pairs import naming
from registry_tools.office.office import Office
from registry_tools.texts.namebook import ACCOUNT, Labels
from registry_tools.questions import days
from registry_tools.questions.days import Days
from registry_tools.showing import Cell
from registry_tools.tables import Columns

T = TypeVar("T")
NUMBER = re.compile("-?[0-9]+", re.ASCII)


@dataclass
class Asked:
    """The days that the words ask, the folder that has them, if it is one, and its names."""

    days: Days
    office: Office | None
    names: Labels


def add_words(parser: argparse.ArgumentParser) -> None:
    """Tells a parser the words of the command."""
    parser.add_argument("--office", metavar="FOLDER", help=folder.WHERE)
    pairs = "day texts, each with its report behind it, in place of a folder"
    parser.add_argument("--pairs", metavar="DAY REPORT", type=Source, nargs="+", help=pairs)


@contextlib.contextmanager
def opened(said: argparse.Namespace) -> Iterator[Asked]:
    """The days that the words ask, as they are at one moment."""
    must_be_one_place(said)
    if said.pairs:
        with contextlib.closing(days.of_pairs(days.pairs_named(said.pairs))) as settled:
            yield Asked(settled, None, Labels())
        return
    with folder.opened(said.office) as office, days.at_one_moment(office.store) as settled:
        yield Asked(settled, office, office.names())


def must_be_one_place(said: argparse.Namespace) -> None:
    """Ends the command if it is told two places where the days are: only one of them would be looked at."""
    if said.pairs and said.office is not None:
        raise WordsFault("--pairs stands in place of --office")


# Dates.


def span_of(said: argparse.Namespace) -> tuple[datetime.date, datetime.date]:
    """The first and the last day that --from and --to ask for."""
    begin = date_or("--from", said.begin, datetime.date.min)
    end = date_or("--to", said.end, datetime.date.max)
    if begin > end:
        raise WordsFault(f"--from {begin} is later than --to {end}")
    return begin, end


def date_or(name: str, word: str | None, otherwise: T) -> datetime.date | T:
    """The date that the word behind an option says, if it stands there."""
    return otherwise if word is None else date_of(name, word)


# Names.


def number_or_none(option: str, word: str | None, names: Labels, kind: str = ACCOUNT) -> int | None:
    """The number that a word says, or that of what it names; None, if there is no word."""
    return None if word is None else number_said(option, word, names, kind)


def number_said(option: str, word: str, names: Labels, kind: str = ACCOUNT) -> int:
    """The number that a word says, or that of what it names."""
    if NUMBER.fullmatch(word):
        if int(word[:12]) > tables.MOST_NUMBER:
            raise WordsFault(f"{option}: found {shown(word)}; expected a number up to {tables.MOST_NUMBER}")
        return int(word)
    if not names.named:
        raise WordsFault(f"{option}: found {shown(word)}; expected a number: there are no names")
    return int(names.one(word, kind).number)


def rows_shown(
    said: argparse.Namespace, columns: Columns, rows: Sequence[Sequence[Cell]], names: Labels
) -> Sequence[Sequence[Cell]]:
    """Rows with names beside the numbers: for people. Programs get the numbers alone."""
    return rows if answers.is_for_programs(said) else naming.with_names(columns.names, rows, names)
