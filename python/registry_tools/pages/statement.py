"""What a statement tells of an account: what came in and went out on its days, what was refused, and what waited and
waits."""
import datetime
from typing import Callable, Iterable, Iterator, Mapping, Protocol, Sequence

from registry_tools.calendars.due_days import NOT_DUE
from registry_tools.pages.html import Cells, Markup, Table, heading, paragraph
from registry_tools.pages.rulebook import ACTS
from registry_tools.pages.settled import NO_DUE_DAY, WAITS, Settled
from registry_tools.second import rules
from registry_tools.texts.day_text import DayText
from registry_tools.texts.in_words import grouped
from registry_tools.texts.own import OwnRow, own_instruction, own_log, users_of
from registry_tools.texts.pending import Waiting
from registry_tools.texts.report import LogRow, Report

ROOT = "../"
KINDS = rules.KINDS
ENTRIES = Table(["Day", "Record", "Entry", "By", "In", "Out", "Balance"], ("In", "Out", "Balance"))
# What an account learns of a refused instruction that is not its own.
OF_ANOTHER = "An instruction of another account"
Until = Callable[[datetime.date, int], str]
# When, and what an account held of each kind then.
Balances = list[tuple[object, dict[str, int]]]


class DayTold(Protocol):
    """What a statement asks of each of its days."""

    date: datetime.date
    rows: Mapping[int, Sequence[OwnRow]]

    def opening(self, number: int) -> dict[str, int] | None:
        """What an account held before the day; None if there was no such account."""

    def users(self, number: int) -> set[str]:
        """The representatives of an account on the day, as they are spelled."""


class DayOfAccounts:
    """A day of the statement: its log rows by account, and what each account held before it."""

    rows: Mapping[int, Sequence[OwnRow]]

    def __init__(self, day: DayText, report: Report) -> None:
        self.day, self.date = day, day.head.date
        self.rows = own_log(day, report)

    def opening(self, number: int) -> dict[str, int] | None:
        """What an account held before the day; None if there was no such account."""
        block = self.day.book.get(number)
        return dict(zip(KINDS, map(int, block.held_fields))) if block else None

    def users(self, number: int) -> set[str]:
        """The representatives of an account on the day, as they are spelled."""
        return users_of(self.day.book.get(number))


class Own:
    """An instruction as an account may see it: of several receivers, only itself, and only its own representatives."""

    def __init__(self, logged: LogRow | Waiting, number: int, users: set[str]) -> None:
        self.fields = own_instruction(logged.instruction, number, users)
        self.number, self.act, self.rest = number, self.fields[3], self.fields[4:]

    @property
    def by(self) -> str:
        """Who proposed and approved it."""
        return ", ".join(filter(None, self.fields[1:3]))

    @property
    def words(self) -> str:
        """What it is, without the amount."""
        name, rest = ACTS[self.act][0].capitalize(), self.rest
        if self.act == "distribute":
            return f"{name} to {', '.join(rest[2::2])}" if rest[0] == str(self.number) else f"{name} from {rest[0]}"
        if self.act in ("transfer", "return", "central"):
            return f"{name} to {rest[1]}" if rest[0] == str(self.number) else f"{name} from {rest[0]}"
        more = {
            "reverse": " of record {1}", "trust": ": {1}", "untrust": ": {1}", "status": ": {1}",
            "emissions": " of {1}: {2} tonnes", "assess": " of {1}",
        }.get(self.act, "")  # fmt: skip
        tonnes = [grouped(rest[2])] if self.act == "emissions" else rest[2:]
        return name + more.format(*rest[:2], *tonnes)

    @property
    def words_with_amount(self) -> str:
        """What it is, with the allowances that it asks to move at the account."""
        rest = self.rest
        if self.act == "distribute":
            amount = sum(map(int, rest[3::2])) if rest[0] == str(self.number) else int(rest[3])
            return f"{self.words}, {grouped(amount)} {rest[1]}"
        if self.act in ("transfer", "return", "central", "surrender", "delete", "create"):
            return f"{self.words}, {grouped(rest[-1])} {rest[-2]}"
        return self.words


class Statement:
    """What happened at an account over one or several days: the entries of each kind of allowance, other entries,
    refusals, and what was not due on its day."""

    def __init__(
        self, settled: Settled, number: int, days: Sequence[DayTold], until: Until = lambda date, record: WAITS
    ) -> None:
        """`until` tells of a day and a record that was not due on it until when it waits."""
        self.settled, self.number, self.days, self.until = settled, number, days, until
        # Its representatives on the day that is followed: By names those, as the own statement of that day does.
        self.users: set[str] = set()
        self.entries: dict[str, list[Cells]] = {kind: [] for kind in KINDS}
        self.others: list[Cells] = []
        self.refused: list[Cells] = []
        self.waited: list[Cells] = []
        self.balances: Balances = []
        # (an account that was opened on a later day than the first one held nothing before)
        self.held = days[0].opening(number) or dict.fromkeys(KINDS, 0)
        self.first_day, self.opening = days[0].date, dict(self.held)
        self.balances.append((f"before {self.first_day}", self.opening))
        for day in days:
            self.follow(day)

    def follow(self, day: DayTold) -> None:
        """Enters a day."""
        opening = day.opening(self.number)
        if opening is None:
            return
        self.users = day.users(self.number)
        for kind in KINDS:
            if opening[kind] != self.held[kind]:
                self.enter((day.date, "", "Changed by hand before this day", ""), kind, opening[kind])
        for own_row in day.rows.get(self.number, ()):
            self.take(day.date, own_row)
        self.balances.append((day.date, dict(self.held)))

    def enter(self, start: tuple[object, ...], kind: str, after: int) -> None:
        """An entry, of whose row `start` holds the first cells."""
        change = after - self.held[kind]
        into, out = (grouped(change), "") if change > 0 else ("", grouped(-change))
        self.entries[kind].append((*start, into, out, grouped(after)))
        self.held[kind] = after

    def take(self, date: datetime.date, own_row: OwnRow) -> None:
        """Enters a log row."""
        logged = own_row.logged
        if logged.name == NOT_DUE:
            words = Own(logged, self.number, self.users).words_with_amount if own_row.is_whole else OF_ANOTHER
            self.waited.append((date, logged.record, words, self.until(date, logged.record)))
            return
        if not own_row.is_whole:
            nothing = ("", "refused", "Nothing: this account did not ask for it.")
            self.refused.append((date, logged.record, OF_ANOTHER, *nothing))
            return
        entry = Own(logged, self.number, self.users)
        if not logged.is_done:
            by = self.users_in_words(entry.by)
            self.refused.append((date, logged.record, entry.words_with_amount, by, *self.refusal(logged)))
            return
        after = logged.held[self.number]
        moved = [kind for kind in KINDS if after[kind] != self.held[kind]]
        for kind in moved:
            self.enter((date, logged.record, entry.words, self.users_in_words(entry.by)), kind, after[kind])
        if not moved:
            figure = "" if logged.figure is None else f": figure {grouped(logged.figure)}"
            self.others.append((date, logged.record, entry.words + figure, self.users_in_words(entry.by)))

    def holder(self, account: rules.Account) -> str:
        """The holder of the account, in words."""
        return self.settled.names.holder(account.holder)

    def user(self, number: int) -> str:
        """A user, in words."""
        return self.settled.names.user(number)

    def users_in_words(self, by: str) -> str:
        """The users of an instruction, in words."""
        return ", ".join(map(self.settled.names.user, by.split(", "))) if by else ""

    def refusal(self, logged: LogRow) -> tuple[str, str]:
        """The check that refused, and what to do."""
        rulebook = self.settled.rulebook
        check = rulebook.checks[logged.code]
        return rulebook.check_link(logged.code, ROOT), rulebook.words(check.advice, ROOT)

    # Parts of the page.

    def table(self, columns: Table, caption: object, rows: Iterable[Cells], foot: Sequence[Cells] = ()) -> Markup:
        """A table of the page, with all its columns."""
        return columns.of(caption, rows, foot)

    def kind_parts(self, kind: str) -> Iterator[Markup]:
        """The entries of a kind of allowance, with the balance."""
        entries = self.entries[kind]
        before, after = self.opening[kind], self.held[kind]
        yield heading(f"{kind.capitalize()} allowances")
        if not entries:
            yield paragraph(f"No entry. The account holds {grouped(after)}, as before the day.")
            return
        first = (self.first_day, "", "Balance before the day", "", "", "", grouped(before))
        last = (self.settled.head.date, "", "Balance after the day", "", "", "", grouped(after))
        caption = f"{kind.capitalize()} allowances: in, out and balance"
        yield self.table(ENTRIES, caption, [first, *entries], [last])

    def waiting(self) -> Iterator[Cells]:
        """What waits of this account, with its due day."""
        for waits in self.settled.waiting:
            if waits.instruction.first == self.number:
                words = Own(waits, self.number, self.users).words_with_amount
                yield waits.record or "", words, waits.instruction.proposed, waits.due or NO_DUE_DAY
