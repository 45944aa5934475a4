"""Whether a folder of days is what it was: nothing in it was changed, and each day follows from the one before it and
from what was handed in. `./day audit --help` tells all that is looked at."""
import contextlib
import datetime
import itertools
import sqlite3
from collections import Counter
from collections.abc import Iterator
from dataclasses import dataclass
from pathlib import Path

from registry_tools import voice
from registry_tools.errors import FileFault, WordsFault, shown
from registry_tools.notes import counted
from registry_tools.office import approvals, intake, settings
from registry_tools.pairs import settlement
from registry_tools.layout import SETTINGS
from registry_tools.office.office import Office
from registry_tools.progress import progress
from registry_tools.questions import kept_heads, rewrites
from registry_tools.questions.seams import Filed, Found, look_at_day, past_day_of
from registry_tools.store import checks, daybook, events, file
from registry_tools.store.checks import Again
from registry_tools.store.events import HANDED, Events
from registry_tools.store.file import Store
from registry_tools.store.texts import Texts, put_back
from registry_tools.texts import settler

NO_ENGINE_NAMED = "days for which the journal names no proved engine"
OTHER_FOLDER = "look for the folder or the copy that has grown from there"


@dataclass(frozen=True)
class Audit:
    """How a folder is looked at: whether each day is settled once more, by the program or by the second answer; from
    which day on the pairs are read; and the heads that were kept elsewhere: one, with the last day of its state if that
    is known, and those of a file."""

    by_program: bool = False
    by_second: bool = False
    begin: datetime.date = datetime.date.min
    since: str | None = None
    since_date: datetime.date | None = None
    anchors: str | None = None


def audit(path: Path, asked: Audit) -> Found:
    """Looks at a folder. Raises FileFault if it can't be looked at, or if it is that of another login."""
    named, place = settings.read(path / SETTINGS), file.look_at(path)
    with file.telling(place), contextlib.closing(file.connected(place)) as db:
        file.must_be_tables(db, place)
        store = Store(place, db, Texts(db, place), Events(place))
        found = Found(Office(path, named, store), store.kept)
        found.add(*checks.faults_of(db, place))
        with found.adding():
            for fault in events.faults_of(db, store.events):
                found.add(fault)
                found.has_events = False
        look_at_heads(found, asked)
        look_at_texts(found, asked.begin)
        look_at_handed(found)
        with found.adding():
            found.office.names()
        look_at_days(found, asked)
        with found.adding():
            found.rewrites = [*rewrites.told(found.office)]
        return found


# Heads that were kept.


def look_at_heads(found: Found, asked: Audit) -> None:
    """Whether the folder has grown from each head that was kept elsewhere."""
    key = found.office.settings.key
    faults: list[FileFault | None] = []
    if asked.since_date is not None and asked.since is None:
        raise WordsFault("--date tells the last day of --since HEAD, which is not there")
    if asked.since is not None:
        faults.append(not_grown(found, kept_heads.head_of(asked.since), asked.since_date))
    for line, anchor in kept_heads.read(asked.anchors) if asked.anchors is not None else ():
        faults.append(not_grown(found, anchor.head, anchor.date))
        wrong = kept_heads.wrong_signature(anchor, key) if key else ""
        if wrong:
            found.add(FileFault(asked.anchors or "", line, "SIGNATURE", wrong, f"one by {key}"))
    found.add(*faults, mend=OTHER_FOLDER)
    if faults:
        found.heads = f", grown from {faults.count(None)} of {counted(len(faults), 'head', 'heads')} kept"


def not_grown(found: Found, head: str, date: datetime.date | None) -> FileFault | None:
    """What shows that a folder has not grown from a head, or that this can't be told; nothing, if it has."""
    with found.adding():
        return kept_heads.not_grown(found.office.store, head, date)
    return checks.unreadable(found.office.store.path, "no head can be looked for")


# Texts, and what was handed in.


def look_at_texts(found: Found, begin: datetime.date) -> None:
    """Whether each text has its sum. Those of the days that are read later are looked at there."""
    filed = (event for event in found.office.events.days if event.date >= begin)
    later = {digest for event in filed for digest in (event.text, event.report)}
    progress.tell("looking at the texts")
    with found.adding():
        texts = found.office.store.texts
        sums = [digest for (digest,) in texts.db.execute("SELECT sum FROM texts ORDER BY sum")]
        found.add(*(texts.fault_of(digest) for digest in sums if digest not in later))


def look_at_handed(found: Found) -> None:
    """Whether what was handed in has as many things as its event says, and what of it waits can be told."""
    store = found.office.store
    for event in store.events.named(HANDED):
        with found.adding(put_back()):
            part = intake.part_by(store, event)
            count = sum(1 for _ in intake.HandedIn(store, [part]).items_of(part))
            if count > event.count or (count < event.count and not is_upgraded(store)):
                where = f"event {event.id}, count"
                found.add(FileFault(store.path, 0, where, event.count, f"{count}: so many stand in it"))
    with found.adding(put_back()):
        approvals.handed_in_of(found.office)


def is_upgraded(store: Store) -> bool:
    """Whether the file was made of a folder of an older version, which kept nothing of what was taken back."""
    return [row.what for row in store.events.rows[:1]] == [events.UPGRADED]


# Days.


def look_at_days(found: Found, asked: Audit) -> None:
    """Each pair by itself, each day with the pair before it, and what the tables have of it."""
    days, store = found.office.events.days, found.office.store
    again: Again | None = None
    with found.adding():
        again = Again(store.db, store.path)
    before: Filed | None = None
    for event in progress.over(days, "looking at the days", len(days), step=1):
        if event.date < asked.begin:
            continue
        filed: Filed | None = None
        with found.adding(found.mending(event.date)):
            filed = look_at_day(found, event, before, asked.by_program, asked.by_second)
        if filed and again and (before or event is days[0]):
            with found.adding():
                add_again(again, filed, before)
        before = filed
    if again:
        with found.adding():
            found.add(*again.faults())
        with found.adding():
            found.add(*strange_days(found))


def add_again(again: Again, filed: Filed, before: Filed | None) -> None:
    """Makes the rows of a day once more."""
    event, day, report = filed
    daybook.add_day(again.db, past_day_of(day, report, before), (event.text, event.report), "again.")
    again.db.execute("INSERT INTO again.compared VALUES (?)", (str(event.date),))


def strange_days(found: Found) -> Iterator[FileFault]:
    """The days of the tables that no event has filed."""
    store, filed = found.office.store, {str(event.date) for event in found.office.events.days}
    for (date,) in store.db.execute("SELECT DISTINCT date FROM days ORDER BY date"):
        if date not in filed:
            expected = "the days of the events alone"
            yield FileFault(store.path, 0, "table days", shown(str(date)), expected, put_back())


# What is no difference, and has to be known.


def engines_told(history: Events, named: str) -> Iterator[str]:
    """How many days no proved engine has settled."""
    days = [day for day in history.days if not settler.is_proved(day.engine)]
    if days:
        what = voice.either("settled by no proved engine, as far as the journal says", NO_ENGINE_NAMED)
        yield f"{what}: {len(days)}, last {days[-1].date}"
    rows = Counter(day.engine for day in history.days)
    doubts = {doubt: count for row, count in rows.items() if (doubt := settlement.doubt_of_sum(row, named))}
    yield from (f"settled by {doubt}: {count}" for doubt, count in doubts.items())


def clock_told(history: Events) -> Iterator[str]:
    """Where an event is earlier than the one before it. (What came from an older version lies before its upgrade.)"""
    begun = next((row.at for row in history.behind(0, len(history.rows[:1])) if row.what == events.UPGRADED), "")
    for before, event in itertools.pairwise(each for each in history.behind(0) if each.at >= begun):
        if event.at < before.at:
            yield f"a clock went back: event {event.id} is of {event.at}, and the one before it of {before.at}"


def people_told(history: Events) -> Iterator[str]:
    """Where office.ini came to name other people, or other commands of four eyes: whoever may write it may do that, and
    nobody would see it later."""
    for before, event in itertools.pairwise(history.named(*events.OF_DAYS)):
        if event.people != before.people:
            what = "other people or commands of four eyes" if before.people else "people, or commands of four eyes"
            named = what if event.people else "nobody any more"
            by = f"{event.what} by {event.who}, login {event.login}, at {event.at}"
            yield f"from here on {SETTINGS} names {named}: {event.date}, {by}"


def has_changed(folder: Path, seen: Events) -> bool:
    """Whether a command has added events since they were read."""
    with contextlib.suppress(sqlite3.Error), contextlib.closing(file.connected(folder / file.NAME)) as db:
        return file.last_line(db) != seen.last_line
    return False
