"""Shows in what two settled days differ: rules, accounts, balances, and what came of instructions.

Both are days of a folder; or with --with the second one is of another folder: of the date of the first one, if no other
date is named, and without any date the last day of each. With --pairs they are of paths: DAY REPORT DAY REPORT. A cell
is empty where a day has nothing of the kind.

exit status: 0 if they are alike, 1 if something differs.
"""
import argparse
import contextlib
import datetime
from collections.abc import Iterator, Sequence

from registry_tools import showing, tables, voice
from registry_tools.calendars.dates import date_of
from registry_tools.cli import answers, asked
from registry_tools.errors import FOUND, WordsFault
from registry_tools.office import folder
from registry_tools.questions import days, diff
from registry_tools.questions.days import Days
from registry_tools.questions.diff import Side
from registry_tools.texts.namebook import Labels

EXAMPLE = "./day diff 2025-09-22 2025-09-23 --office out/office"
COLUMNS = tables.COLUMNS["diff"]


def add_words(parser: argparse.ArgumentParser) -> None:
    """Tells a parser the words of the command."""
    parser.add_argument("dates", metavar="DATE", nargs="*", help="two settled days")
    parser.add_argument("--with", dest="beside", metavar="FOLDER", help="the second day is of this folder")
    answers.add_words(parser)
    asked.add_words(parser)


def run(said: argparse.Namespace) -> int:
    """Runs the command, and answers the exit status."""
    dates = [date_of("DATE", word) for word in said.dates]
    if len(dates) > 2:
        raise WordsFault(f"found {len(dates)} dates; expected two")
    with sides_of_pairs(said, dates) if said.pairs else sides_of_folders(said, dates) as (first, second, names):
        found = diff.differences_of_days(first, second)
        rows = [[each.what, each.account, each.field, each.first, each.second] for each in found]
    shown = asked.rows_shown(said, COLUMNS, rows, names)
    as_table = showing.as_table(COLUMNS.names, shown, COLUMNS.numbers)
    answers.show_or_tell(said, COLUMNS, shown, lambda: as_table if rows else f"alike: {first.date} and {second.date}\n")
    return FOUND if rows else 0


Sides = Iterator[tuple[Side, Side, Labels]]


@contextlib.contextmanager
def sides_of_pairs(said: argparse.Namespace, dates: Sequence[datetime.date]) -> Sides:
    """The two days of two pairs of paths."""
    asked.must_be_one_place(said)
    pairs = days.pairs_named(said.pairs)
    if len(pairs) != 2 or dates or said.beside:
        raise WordsFault("--pairs takes DAY REPORT DAY REPORT, which are the two days")
    with contextlib.closing(days.of_pairs(pairs[:1])) as one, contextlib.closing(days.of_pairs(pairs[1:])) as other:
        yield Side(one, one.dates[0]), Side(other, other.dates[0]), Labels()


@contextlib.contextmanager
def sides_of_folders(said: argparse.Namespace, dates: Sequence[datetime.date]) -> Sides:
    """The two days of a folder, or of two."""
    if said.beside is None and len(dates) != 2:
        raise WordsFault(f"found {len(dates)} dates; expected two, or {voice.option('with', 'FOLDER')}")
    with contextlib.ExitStack() as open_ones:
        office = open_ones.enter_context(folder.opened(said.office))
        one = other = open_ones.enter_context(days.at_one_moment(office.store))
        if said.beside is not None:
            beside = open_ones.enter_context(folder.opened(said.beside))
            other = open_ones.enter_context(days.at_one_moment(beside.store))
        first, second = side_of(one, dates[:1], office.path), side_of(other, dates[-1:], said.beside or office.path)
        yield first, second, office.names()


def side_of(settled: Days, dates: Sequence[datetime.date], path: object) -> Side:
    """A day by its date, or the last one. Raises WordsFault if there is none."""
    date = [*settled.dates, *dates][-1] if settled.dates else None
    if date is None or date not in settled.pairs:
        which = f"days from {settled.dates[0]} to {settled.dates[-1]}" if settled.dates else "no settled day"
        raise WordsFault(f"{date or 'a day'}: {path} has {which}, and not this one")
    return Side(settled, date)
