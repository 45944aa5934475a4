"""What the pages show: read by the functions behind the commands, and kept as long as the folder is the same. Nothing
here writes into the folder."""
import contextlib
import copy
import datetime
import functools
import gc
import os
import threading
import time
from collections import OrderedDict
from collections.abc import Callable, Iterator
from dataclasses import dataclass
from pathlib import Path
from typing import TypeVar, cast

from registry_tools import voice
from registry_tools.calendars.dates import date_of
from registry_tools.errors import Fault
from registry_tools.layout import SETTINGS
from registry_tools.office import approvals, close, composing, folder, intake, trial
from registry_tools.office.composing import NextDay
from registry_tools.office.intake import HandedIn
from registry_tools.office.office import Office, sum_of_outcome
from registry_tools.office.waits import waiting_behind
from registry_tools.pages import compliance as standing, indexed, month, send
from registry_tools.pages.account import own_parts
from registry_tools.pages.html import Frame, Markup, joined, link
from registry_tools.pages.letter import LetterWords
from registry_tools.pages.month import Month
from registry_tools.pages.rulebook import Rulebook, link_to_check
from registry_tools.pages.settled import REFUSED, WAITS, ByHand, Settled, by_hand_before, told_by
from registry_tools.pages.statement import Statement
from registry_tools.pairs import compliance
from registry_tools.pairs.compliance import Standing, Stood
from registry_tools.questions import days, month as months
from registry_tools.questions.days import Days
from registry_tools.store import file, past
from registry_tools.store.events import LABELLED, OF_DAYS, Event
from registry_tools.store.past import PastDay
from registry_tools.texts.checks import checks, form_words
from registry_tools.texts.day_text import DayText
from registry_tools.texts.namebook import Labels
from registry_tools.texts.report import Report

T = TypeVar("T")
# What takes longer than so many seconds is large.
LONG = 1.0
# So many things that were worked out are kept; so many days have a statement of an account, so many rows a table of a
# month, and so many dates a list.
MOST_KEPT, DAYS_OF_STATEMENT, MOST_ROWS, MOST_DATES = 12, 31, 100, 10


class DeskSettled(Settled):
    """A settled day whose accounts have addresses of the desk."""

    def account_address(self, number: int, root: str = "") -> str:
        """Where the page of an account is."""
        return f"/accounts/{number}"


class DeskBook(Rulebook):
    """The words of the rules as the forms of the desk say them."""

    def words(self, sentence: str, root: str = "") -> str:
        """A sentence of the tables."""
        return super().words(form_words(sentence), root)


@dataclass
class Open:
    """The folder as a thread has it open: which files these are, and how its settings were."""

    files: str
    office: Office


class Reading:
    """A folder as it is now."""

    def __init__(self, path: Path, private: Path) -> None:
        self.path, self.private = path, private
        self.lock, self.opened = threading.Lock(), threading.local()
        self.kept: OrderedDict[object, tuple[str, threading.Lock, list[object]]] = OrderedDict()

    def office(self) -> Office:
        """The folder with all that was done, as this thread has it open: as it is now, or, in the block of `moment`, as
        it was at its beginning."""
        held: Open | None = getattr(self.opened, "own", None)
        if held is not None and held.office.store.db.in_transaction:
            return held.office
        path = folder.folder_of(str(self.path))
        files = " ".join(map(stamp_of, (path / SETTINGS, path / file.NAME)))
        if held is None or held.files != files:
            self.let_go()
            held = self.opened.own = Open(files, folder.at(path))
        with file.telling(held.office.store.path), held.office.store.reading():
            return held.office

    def let_go(self) -> None:
        """Closes the folder that this thread has open, if it has."""
        held: Open | None = getattr(self.opened, "own", None)
        self.opened.own = None
        if held is not None:
            held.office.store.close()

    @contextlib.contextmanager
    def moment(self) -> Iterator[None]:
        """All that the block reads is as it is at one moment."""
        office = self.office()
        with file.telling(office.store.path), office.store.reading():
            yield

    @contextlib.contextmanager
    def anew(self) -> Iterator[Office]:
        """The folder, opened once more: for what is tried in it, and then taken back."""
        with folder.at(folder.folder_of(str(self.path)), self.office().events) as office:
            yield self.with_last(office)

    def with_last(self, office: Office) -> Office:
        """The folder with its last day, as that was read here before."""
        last, settled = self.office().last(), self.settled()
        if last is not None and settled is not None:
            office.last_read = last.line, settled.day, settled.report
        return office

    def state(self) -> str:
        """What a change builds on; nothing, if the folder cannot be read."""
        with contextlib.suppress(Fault, OSError):
            return self.office().state()
        return ""

    def all_states(self) -> str:
        """What all depends on that pages show: what was done, and the settings."""
        return f"{self.office().state()} {self.opened.own.files}"

    def once(self, key: object, state: str, work: Callable[[], T]) -> T:
        """What was worked out in this state of the folder: once, also if several ask at a time."""
        with self.lock:
            if key not in self.kept or self.kept[key][0] != state:
                self.kept[key] = (state, threading.Lock(), [])
            self.kept.move_to_end(key)
            while len(self.kept) > MOST_KEPT:
                self.kept.popitem(last=False)
            _, lock, answers = self.kept[key]
        with lock:
            if not answers:
                begun = time.monotonic()
                answers.append(work())
                if time.monotonic() - begun > LONG:
                    # (what takes long is large: it is looked through for circles now, and not while others ask)
                    gc.unfreeze()
                    gc.collect()
                    gc.freeze()
            return cast(T, answers[0])

    def before(self, key: object, of_type: type[T]) -> T | None:
        """What was worked out in an earlier state of the folder; None, if it is gone."""
        kept = self.kept.get(key)
        return kept[2][0] if kept and kept[2] and isinstance(kept[2][0], of_type) else None

    def names(self) -> Labels:
        """The names of users and holders."""
        return self.once("names", self.state_of_names(), self.office().names)

    def state_of_names(self) -> str:
        """What names depend on: the last event that gave some."""
        return self.office().events.last_line_of(LABELLED)

    def state_of_days(self) -> str:
        """What all that tells of settled days depends on: days, names, and the deadlines of the office."""
        return f"{self.office().events.last_line_of(*OF_DAYS)} {self.opened.own.files}"

    # Settled days.

    def of_days(self, ask: Callable[[Days], T]) -> T:
        """What settled days answer. Raises FileFault if their tables are not what they must be."""
        store = self.office().store
        with days.telling_of_tables(store.path):
            return ask(days.of_store(store))

    def settled(self, date: datetime.date | None = None) -> DeskSettled | None:
        """A settled day, or the last one; None if there is none."""
        office = self.office()
        event = office.events.day_of(date) if date else office.last()
        if event is None:
            return None
        key, state = ("settled", event.date), f"{event.line} {self.state_of_names()}"
        pair = self.last_pair(event) if event == office.last() else None
        return self.once(key, state, functools.partial(read_settled, office, event, self.names(), pair))

    def last_pair(self, last: Event) -> tuple[DayText, Report]:
        """The last day and its report: by those of the day before it, if that was read as the last one."""
        pair, before = self.office().store.pair_of(last), self.before("last", PastDay)
        read = self.once("last", last.line, lambda: PastDay(*past.read(pair, before), None, []))
        return read.day, read.report

    def settled_for_holders(self) -> DeskSettled | None:
        """The last settled day in words for holders; None if there is none."""
        settled, last = self.settled(), self.office().last()
        if settled is None or last is None:
            return None
        made = copy.copy(settled)
        made.rulebook = LetterWords()
        return self.once("for holders", f"{last.line} {self.state_of_names()}", lambda: made)

    def accounts_of_holders(self) -> dict[int, list[int]]:
        """The accounts of each holder after the last day. There has to be one."""
        settled = self.settled()
        assert settled is not None
        return self.once("holders", self.state_of_days(), functools.partial(send.accounts_of, settled.report, None))

    def waits_until(self, date: datetime.date, record: int) -> str:
        """Until when an instruction of a day waits, or waited."""
        office = self.office()
        waits = self.once(("waits", date), self.state_of_days(), lambda: waiting_behind(office, date))
        dates = (each.due or each.entered for each in waits if each.record == record)
        due, last = next(dates, None), office.last()
        if due is None:
            return "waits: the calendar has no due day"
        return f"{'waited' if last and due <= last.date else 'waits'} until {due.day} {due:%B} {due.year}"

    def outcome(self, day: str, record: int, outcome: str) -> object:
        """What came of an instruction, as a shown row has it: of one that only waits, until when; its refusal leads to
        the rules."""
        if outcome.startswith(REFUSED):
            name = outcome.removeprefix(REFUSED)
            return Markup(REFUSED + link_to_check(checks()[name].code, name, "/"))
        return self.waits_until(date_of("the day", day), record) if outcome == WAITS else outcome

    def came(self, date: datetime.date) -> str:
        """What came of a day."""
        (day,) = self.of_days(lambda asked: months.month(asked, date, date))
        return f": {day.done} done, {day.refused.total()} refused, {day.waiting} waiting"

    def by_hand(self, date: datetime.date) -> ByHand:
        """What people changed before a settled day."""
        office = self.office()
        filed = [event for event in office.events.days if event.date <= date][-2:]

        def work() -> ByHand:
            *before, last_day = past.read_all([office.store.pair_of(event) for event in filed])
            pair = (before[0].day, before[0].report) if before else None
            items = intake.for_a_day(office.store, filed[-1]).items(intake.CHANGES, intake.EDITS)
            told = [[voice.time(at), *more] for at, *more in told_by(items)]
            return by_hand_before(pair, last_day.day, told)

        return self.once(("by hand", date), filed[-1].line, work)

    def standings(self, year: int) -> list[Standing]:
        """How operators stand for a year, after the last day, those first that lack something. There has to be one."""
        settled, last = self.settled(), self.office().last()
        assert settled is not None and last is not None
        key, day, report = ("standings", year), settled.day, settled.report
        told = compliance.standings(day, report, year, self.before(key, Stood))
        stood: Stood = self.once(key, last.line, lambda: Stood(day, report, sorted(told, key=standing.order)))
        return stood.standings

    def held_over(self, count: int) -> list[tuple[datetime.date, dict[str, int]]]:
        """What all accounts held after each of so many last days."""
        return self.once("held", self.state_of_days(), lambda: self.of_days(lambda days: months.held_over(days, count)))

    def account(self, number: int) -> Markup | None:
        """All that stands on the page of an account; None, if there is no such account."""
        settled = self.settled()
        if settled is None or number not in settled.report.book:
            return None
        told = self.of_days(lambda asked: indexed.days_of(asked, number, DAYS_OF_STATEMENT))
        statement = Statement(settled, number, told, self.waits_until)
        return joined(*own_parts(settled, settled.report.book[number].account(), statement))

    def month(self, asked: Month) -> tuple[str, str, list[Markup]]:
        """Several days together, as the page of ./day month has them."""
        office, last = self.office(), self.settled()

        def parts(days: Days) -> tuple[str, str, list[Markup]]:
            if last is not None:
                # (the last day is read already)
                days.read = {last.head.date: PastDay(last.day, last.report, None, [])}
            return month.parts_of(days, office, self.names(), asked, MOST_ROWS, link, lambda *a: self.standings(a[-1]))

        return self.once(("month", asked), self.state_of_days(), lambda: self.of_days(parts))

    # The next day.

    def handed_in(self) -> HandedIn:
        """What was handed in for the next day."""
        return approvals.handed_in_of(self.office())

    def dates(self) -> list[datetime.date]:
        """The days that may be settled next, the first of which is the one that is expected."""
        office, handed_in = self.office(), self.handed_in()
        last = office.last()
        first = composing.settlement_date(office, handed_in)
        later = composing.working_days(office, last, handed_in) if last else []
        return [first, *(date for date in later if last and last.date < date != first)][:MOST_DATES]

    def of_next(self, name: str, date: datetime.date, work: Callable[[], T]) -> T:
        """What was worked out of the next day, if it is that of this date, or of the last one, as the folder is now."""
        return self.once((name, date), f"{self.all_states()} {date}", work)

    def next_day(self, word: str | None = None) -> NextDay:
        """The next day, as it stands."""
        office, handed_in = self.office(), self.handed_in()
        date = date_of("the day", word) if word else composing.settlement_date(office, handed_in)

        def work() -> NextDay:
            with composing.telling_the_way_out():
                return composing.compose(self.with_last(office), handed_in.until(date), date)

        return self.of_next("composed", date, work)

    def text_of_next(self) -> DayText:
        """The text of the next day as it stands."""
        next_day = self.next_day()
        return self.of_next("text", next_day.date, next_day.day)

    def tried(self, word: str | None) -> tuple[NextDay, list[trial.Looked], list[str]]:
        """The next day, what would come of each instruction, and what the library answers otherwise."""
        next_day = self.next_day(word)

        def work() -> tuple[list[trial.Looked], list[str]]:
            looked = trial.look(next_day, next_day.day(), self.names())
            return looked, trial.of_library(next_day, looked)

        looked, otherwise = self.of_next("tried", next_day.date, work)
        trial.mark_new(self.office(), looked)
        return next_day, looked, otherwise

    def closing(self, word: str | None) -> tuple[tuple[close.Outcome, str], list[str]]:
        """What would come of it if the next day was closed now, by the second answer, with the sum of that, and what is
        left for later."""
        office, next_day = self.office(), self.next_day(word)

        def work() -> tuple[close.Outcome, str]:
            settled = close.settle(office, next_day, by_second=True)
            return close.outcome_of_day(settled), sum_of_outcome([next_day.sum()])

        return self.of_next("closing", next_day.date, work), close.left_for_later(self.handed_in(), next_day.date)


def read_settled(office: Office, event: Event, names: Labels, pair: tuple[DayText, Report] | None) -> DeskSettled:
    """A settled day with its report and the names; of one that was read before, its pair."""
    day = PastDay(*(pair or past.read(office.store.pair_of(event))), None, [])
    earlier = send.waiting_of(office.store.kept(event, "waiting"), day)
    return DeskSettled(day.day, day.report, DeskBook("/"), Frame([]), day.report.book.keys(), earlier, names)


def stamp_of(path: Path) -> str:
    """Which file this is; of the settings, which are read once, also how they were when they were read."""
    try:
        state = os.stat(path)
    except OSError:
        return "-"
    changed = "" if path.name == file.NAME else f" {state.st_size} {state.st_mtime_ns}"
    return f"{state.st_dev} {state.st_ino}{changed}"
