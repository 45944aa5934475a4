"""The words `--day DATE` of the commands that take a day and its report: they name a day of a folder in place of two
paths. The words stay as they are given: where they name a day, the parser of the command has no paths to read, and what
it read is looked up in the folder."""
import argparse
import contextlib
import itertools
import os
import re
from collections.abc import Iterator
from typing import Any

from registry_tools.calendars.dates import DATE, date_of, is_date
from registry_tools.errors import Fault, WordsFault
from registry_tools.office import folder
from registry_tools.office.office import Office
from registry_tools.cli.options import A_DATE, Given, Words
from registry_tools.store.events import Event

# The commands that take them, and what each takes of a day.
PAIR, REPORTS, TEXT = "pair", "reports", "text"
TAKES = {
    **dict.fromkeys(("verify", "statements", "compliance", "reconcile", "page", "export"), PAIR),
    "log": REPORTS, "explain": TEXT,
}  # fmt: skip
# Those that show names.
TAKE_NAMES = ("page", "compliance")
DAY, OFFICE = "--day", "--office"
# How other forms of a date look: digits, and what stands between them.
LIKE_A_DATE = re.compile("[0-9][0-9./W-]*")


class Named(Given):
    """The option with the date of a day behind it; that of logs takes several, also if it is given twice."""

    def __call__(
        self, parser: argparse.ArgumentParser, namespace: argparse.Namespace, values: Any,
        option_string: str | None = None,
    ) -> None:  # fmt: skip
        if values is None or values == []:
            raise WordsFault(f"{DAY} has nothing behind it; expected {DATE.expected}")
        for word in values if isinstance(values, list) else [values]:
            date_of(DAY, word)
        super().__call__(parser, namespace, values, option_string)


def add_words(name: str, parser: Words) -> None:
    """Tells the parser of a command that takes days the words by which one is named. Where no day is named they are
    only told."""
    parser.in_place = in_place_of_paths
    group = parser.add_argument_group("of a folder of days, in place of paths")
    if parser.names_day:
        of_one = "*" if TAKES[name] == REPORTS else "?"
        group.add_argument(DAY, metavar=A_DATE, dest="_dates", action=Named, nargs=of_one, default=None)
    elif TAKES[name] != REPORTS:
        group.add_argument(DAY, metavar=A_DATE, dest="_dates", help="a settled day")
    group.add_argument(OFFICE, metavar="FOLDER", dest="_office", default=None, help=folder.WHERE)


def in_place_of_paths(word: str | None = None) -> str:
    """The last day of a folder, as it is named where paths lack; nothing, if there is none."""
    with contextlib.suppress(Fault):
        with folder.opened(word) as office:
            last = office.events.last()
            return f"; {DAY} {last.date} names the last day of the folder" if last else ""
    return ""


def is_named(name: str, arguments: list[str]) -> bool:
    """Whether words name a day of a folder. Behind `--day` of a log there may be paths of day texts, too. Raises
    WordsFault if they name a folder and no day."""
    given = [*itertools.takewhile(lambda word: word != "--", arguments)]
    if name not in TAKES or {"-h", "--help"} & {*given}:
        return False
    parted = ((word.partition("="), behind) for word, behind in itertools.pairwise([*given, ""]))
    offices = [value or behind for (option, _, value), behind in parted if option == OFFICE]
    place = next((place for place, word in enumerate(given) if word.partition("=")[0] == DAY), None)
    if place is None:
        if offices:
            last = in_place_of_paths(offices[0])
            raise WordsFault(f"{OFFICE} FOLDER stands with {DAY} DATE, in place of paths{last}")
        return False
    if TAKES[name] != REPORTS or offices:
        return True
    _, has_value, value = given[place].partition("=")
    word = value if has_value else "".join(given[place + 1 : place + 2])
    # (a date, or a slip in one, and no path)
    return is_date(word) or bool(LIKE_A_DATE.fullmatch(word) and not os.path.exists(word))


@contextlib.contextmanager
def looked_up(name: str, said: argparse.Namespace) -> Iterator[None]:
    """Puts the texts of the days that words name into them, as if their paths had been given: they can be read in the
    block. Raises WordsFault if the folder has no such day."""
    named = getattr(said, "_dates", None)
    if named is None:
        yield
        return
    with folder.opened(said._office) as office:  # noqa: SLF001
        look_up(name, office, named, said)
        yield


def look_up(name: str, office: Office, named: str | list[str], said: argparse.Namespace) -> None:
    """Does so with the days of an open folder."""
    dates = named if isinstance(named, list) else [named]
    if TAKES[name] == REPORTS:
        pairs = [office.store.pair_of(day_named(office, date)) for date in dates]
        said.days, said.reports = [pair.day for pair in pairs], [pair.report for pair in pairs]
        return
    pair = office.store.pair_of(day_named(office, dates[0]))
    said.day = pair.day
    if TAKES[name] == PAIR:
        said.report = pair.report
    if name in TAKE_NAMES:
        said.names = office.names()
    if name == "page":
        look_up_more(office, dates[0], said)


def look_up_more(office: Office, date: str, said: argparse.Namespace) -> None:
    """Puts into the words of `./day page` what a folder knows of a day beside its pair: what waits, the day before, and
    who changed something."""
    day = day_named(office, date)
    before = [event for event in office.store.events.days if event.date < day.date]
    said.pending = said.pending or office.store.kept(day, "waiting")
    if not said.by_hand:
        # (most commands make no page)
        from registry_tools.office import intake
        from registry_tools.pages.settled import told_by

        said.told = told_by(intake.for_a_day(office.store, day).items(intake.CHANGES, intake.EDITS))
    if before and not said.history and not said.before:
        pair = office.store.pair_of(before[-1])
        said.before = [pair.day, pair.report]


def day_named(office: Office, date: str) -> Event:
    """The event that files a day. Raises WordsFault if none does."""
    days = office.store.events.days
    event = next((event for event in days if str(event.date) == date), None)
    if event is None:
        which = f"days from {days[0].date} to {days[-1].date}, {len(days)} of them" if days else "no settled day"
        raise WordsFault(f"--day {date}: {office.path} has {which}, and not this one")
    return event
