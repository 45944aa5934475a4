"""Settled days that are asked: their tables (store/daybook.py), and their texts, by their dates. Those of a folder are
there; those of pairs of paths are read, and their tables made in memory."""
import contextlib
import datetime
import functools
import sqlite3
from collections.abc import Iterator, Sequence
from dataclasses import dataclass, field
from pathlib import Path
from typing import TYPE_CHECKING

from registry_tools import voice
from registry_tools.errors import WordsFault, of_file
from registry_tools.store.file import Store, telling
from registry_tools.store.texts import Pair
from registry_tools.texts.rows import bytes_of, rows_of, sum_of

# (who asks tables alone reads no text, and what does would take a tenth of the time of such a question to load)
if TYPE_CHECKING:
    from registry_tools.store.past import PastDay


@dataclass
class Days:
    """Settled days, by rising date. `head` is that of the folder which has them; of paths it is empty."""

    database: sqlite3.Connection
    pairs: dict[datetime.date, Pair]
    head: str = ""
    # The last one that was read, so that nobody reads it twice.
    read: "dict[datetime.date, PastDay]" = field(default_factory=dict)

    @property
    def dates(self) -> list[datetime.date]:
        """The dates of all days."""
        return [*self.pairs]

    @functools.cached_property
    def first_text(self) -> dict[int, list[str]]:
        """The rows of each account in the text of the first day: no day before it says what accounts held."""
        found: dict[int, list[str]] = {}
        block: list[str] = []
        for row in rows_of(self.pairs[self.dates[0]].day).rows if self.pairs else ():
            if row.startswith("account,"):
                block = found.setdefault(int(row.split(",", 2)[1]), [])
            elif row.startswith(("do,", "end")):
                break
            block.append(row)
        return found

    def first_rows(self, number: int) -> list[str]:
        """The rows of one account in the text of the first day; none, if it was not there."""
        rows, begins = rows_of(self.pairs[self.dates[0]].day).rows if self.pairs else [], f"account,{number},"
        first = next((place for place, row in enumerate(rows) if row.startswith(begins)), len(rows))
        end = next((at for at in range(first + 1, len(rows)) if rows[at].startswith(("account,", "do,", "end"))), first)
        return rows[first:end]

    def close(self) -> None:
        """Lets the tables go."""
        self.database.close()

    def between(self, begin: datetime.date, end: datetime.date) -> list[datetime.date]:
        """The dates of the days from one on, and up to another one."""
        return [date for date in self.pairs if begin <= date <= end]

    def last_until(self, date: datetime.date) -> datetime.date | None:
        """The last day up to a date."""
        return max((settled for settled in self.pairs if settled <= date), default=None)

    def day(self, date: datetime.date) -> "PastDay":
        """A day with its report, and without the day before it. Raises WordsFault if it is not settled here."""
        from registry_tools.store import past

        if date not in self.pairs:
            raise WordsFault(f"{date} is not settled here")
        if date not in self.read:
            self.read = {date: past.PastDay(*past.read(self.pairs[date]), None, [])}
        return self.read[date]


def of_store(store: Store) -> Days:
    """The days of a folder."""
    pairs = {event.date: store.pair_of(event) for event in store.events.days}
    return Days(store.db, pairs, store.events.head)


@contextlib.contextmanager
def at_one_moment(store: Store) -> Iterator[Days]:
    """The days of a folder as they are at one moment: whoever changes the file waits for the end of the block."""
    with telling_of_tables(store.path), store.reading():
        yield of_store(store)


@contextlib.contextmanager
def telling_of_tables(path: Path) -> Iterator[None]:
    """Has tables that do not have what days have be a fault of their file: commands do not leave them so."""
    try:
        with telling(path):
            yield
    except (LookupError, TypeError, ValueError, OverflowError) as error:
        why = f"its tables do not have what the days have ({type(error).__name__} {error})"
        raise of_file(path, why, f"{voice.command('audit')} tells more") from error


def of_pairs(pairs: Sequence[Pair]) -> Days:
    """The days of pairs of paths, of which all are read."""
    from registry_tools.store import daybook
    from registry_tools.store.past import read_all

    found = Days(daybook.in_memory(), {})
    for pair, past_day in zip(pairs, read_all(pairs)):
        daybook.add_day(found.database, past_day, sums_of_pair(pair))
        found.pairs[past_day.date] = pair
        found.read = {past_day.date: past_day}
    return found


def sums_of_pair(pair: Pair) -> tuple[str, str]:
    """The SHA-256 of the two texts of a pair."""
    return sum_of(bytes_of(pair.day)), sum_of(bytes_of(pair.report))


def pairs_named(paths: Sequence[str]) -> list[Pair]:
    """The pairs of which these are the paths."""
    if len(paths) % 2:
        raise WordsFault(f"--pairs has {len(paths)} files: each DAY needs its REPORT behind it")
    return [*map(Pair, paths[::2], paths[1::2])]
