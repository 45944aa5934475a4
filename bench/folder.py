#!/usr/bin/env -S python3 -B
"""Makes a folder of many settled days, for measuring what asks over years.

usage: folder.py FOLDER [--days N] [--accounts N] [--instructions N] [--four-eyes]

The first day is made by `./day init` and `./day close --second`. Each later one is settled by the second answer, which
asks for the accounts that the day touches alone; all other blocks go on as they are. Its texts, events and rows of the
daybook are kept as `close` keeps them, but packed less, and without looking at everything. So `./day audit --second`
must find no difference in the folder. The instructions are transfers, some of which are refused, surrenders, emissions
and additions to trusted lists; nothing waits behind a day. The same arguments always give the same days. A folder that
is there goes on where it ends. With --four-eyes `office.ini` names three people, of whom one handed in each file,
another one approved it and closed the day, and a third one approved that.
"""
import argparse
import contextlib
import datetime
import itertools
import random
import sys
import zlib
from collections.abc import Iterable, Iterator
from concurrent.futures import Future, ThreadPoolExecutor
from pathlib import Path

TOP = Path(__file__).resolve().parents[1]
sys.path[:0] = [str(TOP / "python"), str(TOP / "bench")]

import days  # noqa: E402

from registry_tools import layout, main as commands  # noqa: E402
from registry_tools.office import approvals, folder, intake, people  # noqa: E402
from registry_tools.office.office import Office  # noqa: E402
from registry_tools.second import rules  # noqa: E402
from registry_tools.store import daybook, past  # noqa: E402
from registry_tools.store.events import APPROVED, FILED, HANDED, Event  # noqa: E402
from registry_tools.store.past import PastDay  # noqa: E402
from registry_tools.store.texts import sum_of  # noqa: E402
from registry_tools.texts import pending  # noqa: E402
from registry_tools.texts.settler import SECOND_ANSWER  # noqa: E402

FIRST_DAY, CALENDAR_BEGIN, DECEMBER = datetime.date(2025, 1, 2), datetime.date(2024, 12, 2), (12, 31)
ADMINISTRATORS = 901, 902
# Of so many instructions one is refused, a surrender, emissions, or an addition to a trusted list.
REFUSED, SURRENDERS, EMISSIONS, ADDITIONS = 12, 10, 14, 50
NOBODY = "office"
# Who hands in, closes and approves where two have to; the login that measures may speak for them.
ANNA, BEN, CARLA = "anna", "ben", "carla"
PEOPLE = f"""[people]
{people.system_login()} = Bench: proxy
{ANNA} = Anna: hand in, change
{BEN} = Ben: hand in, change, close
{CARLA} = Carla: hand in, change, close, release
[four eyes]
commands = hand-in, change, close
"""
# How hard days are packed: less than `close` packs them, in a third of the time.
LEVEL = 1


def weekdays(first: datetime.date) -> Iterator[datetime.date]:
    """All weekdays from a day on."""
    days_from = (first + datetime.timedelta(place) for place in itertools.count())
    return (day for day in days_from if day.weekday() < 5)


def calendar_until(last: datetime.date) -> list[datetime.date]:
    """The working days of a folder: all weekdays up to the end of the year of its last day."""
    end = datetime.date(last.year, *DECEMBER)
    return [*itertools.takewhile(lambda day: day <= end, weekdays(CALENDAR_BEGIN))]


def heading(date: datetime.date, first: int, calendar: list[datetime.date]) -> Iterator[str]:
    """The rows before the accounts."""
    yield from ("format,1", f"day,{date},{first}", "period,2021,2030", "lags,0,1,2,60")
    yield from (f"surrender,{kind},general" for kind in ("operator", "aircraft"))
    yield from (f"admin,{user}" for user in ADMINISTRATORS)
    yield from (f"work,{day}" for day in calendar)


def first_accounts(count: int) -> Iterator[str]:
    """The rows of the accounts before the first day."""
    for index in range(count):
        yield days.account(index)
        yield from days.representatives(index)


def instructions(date: datetime.date, accounts: int, count: int) -> Iterator[str]:
    """The instructions of a day, which are all due on it."""
    chance = random.Random(f"{date}")
    for place in range(count):
        source, target = chance.sample(range(accounts), 2)
        proposer, approver = days.users(source)
        proposed = date - datetime.timedelta(7 + place % 13)
        row, number = f"do,{proposed},{proposer},{approver}", days.number(source)
        if place % EMISSIONS == 1:
            year = chance.randint(days.FIRST_YEAR, date.year - 1)
            by = ",".join(map(str, ADMINISTRATORS[:2]))
            yield f"do,{proposed},{by},emissions,{number},{year},{chance.randrange(99_999)}"
        elif place % SURRENDERS == 2:
            yield f"{row},surrender,{number},general,{chance.randint(1, 9_999)}"
        elif place % ADDITIONS == 3:
            yield f"{row},trust,{number},{days.number(target)}"
        else:
            amount = chance.randint(1, 999) if place % REFUSED else 10**12
            yield f"{row},transfer,{number},{days.number(target)},general,{amount}"


def text_of(rows: Iterable[str]) -> bytes:
    return "".join(f"{row}\n" for row in rows).encode()


# What the accounts hold, and have surrendered and deleted, by kind.
Sums = dict[str, list[int]]


def sums_of(account: rules.Account) -> Sums:
    return {
        kind: [account.held[kind], account.retired("surrender", kind), account.retired("deletion", kind)]
        for kind in rules.KINDS
    }


class Blocks(dict[int, rules.Account]):
    """The accounts that a day asks for, each made of its block."""

    def __init__(self, book: dict[int, bytes]) -> None:
        super().__init__()
        self.book = book

    def __missing__(self, number: int) -> rules.Account:
        rows = self.book[number].decode().splitlines()
        self[number] = rules.account_of(row.split(",") for row in rows)
        return self[number]

    def __contains__(self, number: object) -> bool:
        return number in self.book


class Book:
    """All accounts, as the bytes of their blocks, and their sums."""

    def __init__(self, rows: bytes) -> None:
        blocks = [b"account," + block for block in rows.split(b"account,")[1:]]
        self.blocks = {int(block.split(b",", 2)[1]): block for block in blocks}
        self.sums: Sums = {kind: [0, 0, 0] for kind in rules.KINDS}
        made = Blocks(self.blocks)
        for number in self.blocks:
            self.add(sums_of(made.__missing__(number)), 1)

    def add(self, sums: Sums, sign: int) -> None:
        for kind, own in sums.items():
            self.sums[kind] = [old + sign * new for old, new in zip(self.sums[kind], own)]

    def rows(self) -> bytes:
        return b"".join(self.blocks.values())

    def settle(self, day: rules.Day) -> bytes:
        """Settles a day, and answers its report."""
        before, day.accounts = Blocks(self.blocks), Blocks(self.blocks)
        log = [*rules.settle(day)]
        for number in sorted({number for logged in log for number in logged.held}):
            self.add(sums_of(before[number]), -1)
            self.add(sums_of(day.accounts[number]), 1)
            self.blocks[number] = text_of(rules.account_rows(day.accounts[number]))
        totals = [f"totals,{kind},{','.join(map(str, own))}" for kind, own in self.sums.items()]
        next_record = day.next_record + len(log)
        head, tail = [*(logged.line for logged in log), f"book,{next_record}"], [*totals, "end"]
        return text_of(head) + self.rows() + text_of(tail)


class Maker:
    """Adds days to a folder."""

    def __init__(self, path: Path, accounts: int, count: int, dates: list[datetime.date], four_eyes: bool) -> None:
        self.path, self.accounts, self.count, self.dates = path, accounts, count, dates
        self.calendar, self.four_eyes = calendar_until(dates[-1]), four_eyes
        self.pool = ThreadPoolExecutor(4)

    def begin(self) -> None:
        """The first day, by the commands."""
        date = FIRST_DAY
        first = self.path.parent / f"{self.path.name}.first.csv"
        accounts, orders = first_accounts(self.accounts), instructions(date, self.accounts, self.count)
        first.write_bytes(text_of([*heading(date, 1, self.calendar), *accounts, *orders, "end"]))
        own = ["--office", str(self.path)]
        for words in ["init", *own[1:], str(first)], ["close", "--second", "--date", str(date), "--yes", *own]:
            if commands.main(words):
                sys.exit(1)
        first.unlink()
        if self.four_eyes:
            with open(self.path / layout.SETTINGS, "a", encoding="utf-8") as settings:
                settings.write(PEOPLE)

    def go_on(self) -> None:
        """The later days, one after another. What is packed meanwhile is kept ten days at once."""
        with folder.at(self.path) as office:
            last, known = office.last(), {event.date for event in office.events.days}
            dates = [date for date in self.dates if date not in known]
            assert last is not None
            number, rows = accounts_of(office.store.texts.get(last.report))
            self.before = PastDay(*past.read(office.store.pair_of(last)), None, [])
            book, begun = Book(rows), list[Made]()
            for place, date in enumerate(dates, 1):
                do = text_of(instructions(date, self.accounts, self.count))
                day = text_of(heading(date, number, self.calendar)) + book.rows() + do + b"end\n"
                head = [*heading(date, number, self.calendar), *do.decode().splitlines()]
                report = book.settle(rules.day_of_fields(row.split(",") for row in head))
                begun.append((date, number, number + self.count, [self.packed(own) for own in (day, report, do)]))
                number += self.count
                if place % 10 == 0 or date == dates[-1]:
                    with office.store.change():
                        for made in begun:
                            self.keep(office, *made)
                    begun = []
                    print(f"{date}: {place} of {len(dates)}", file=sys.stderr, flush=True)

    def packed(self, content: bytes) -> tuple[bytes, Future[bytes]]:
        """A text, which is packed meanwhile."""
        return content, self.pool.submit(zlib.compress, content, LEVEL)

    def keep(self, office: Office, date: datetime.date, first: int, behind: int, texts: "list[Packed]") -> None:
        """Files a day, in a change of the folder."""
        store = office.store
        sums = [sum_of(content) for content, _ in texts]
        for (content, packed), own in zip(texts, sums):
            store.db.execute("INSERT OR IGNORE INTO texts VALUES (?, ?, ?)", (own, len(content), packed.result()))
        by, closer, second = (ANNA, BEN, CARLA) if self.four_eyes else (NOBODY, NOBODY, "")
        day_sum, report_sum, do_sum = sums
        said = {"kind": intake.DO, "name": f"{date}-do.csv", "start": 1, "count": self.count, "text": do_sum}
        store.add(Event(HANDED, at=f"{date}T08:00:00Z", login=by, who=by, **said))  # type: ignore[arg-type]
        if second:
            there = intake.for_the_next_day(store)
            own, name = approvals.sum_of_part(there, there.parts[0]), intake.places(1, self.count + 1)
            of = there.parts[0].event.id
            store.add(Event(APPROVED, at=f"{date}T09:00:00Z", login=closer, who=closer, of=of, sum=own, name=name))
        waits = [store.texts.put(pending.text_of([], pending.Made(date, own)).encode()) for own in (first, behind)]
        event = store.add(Event(
            FILED, at=f"{date}T17:00:00Z", login=closer, who=closer, date=date, first=first, next=behind, text=day_sum,
            report=report_sum, waiting=waits[0], waits=waits[1], engine=SECOND_ANSWER.row(), approved=second,
            people=office.people.sum() if second else "",
        ))  # fmt: skip
        before = self.before
        read = past.read(store.pair_of(event), before)
        self.before = PastDay(*read, before.report, before.day.heading)
        daybook.add_day(store.db, self.before, (day_sum, report_sum))


# A text with what packs it; and a day: its date, its records, and its text, report and instructions.
Packed = tuple[bytes, Future[bytes]]
Made = tuple[datetime.date, int, int, list[Packed]]


def accounts_of(report: bytes) -> tuple[int, bytes]:
    """The next record number behind a report, and the rows of its accounts."""
    begin = report.index(b"\nbook,") + 1
    row_end = report.index(b"\n", begin)
    return int(report[begin + len(b"book,") : row_end]), report[row_end + 1 : report.index(b"\ntotals,", begin) + 1]


def main() -> None:
    words = argparse.ArgumentParser(description=__doc__, formatter_class=argparse.RawDescriptionHelpFormatter)
    words.add_argument("folder", type=Path)
    words.add_argument("--days", type=int, default=500)
    words.add_argument("--accounts", type=int, default=days.MOST_ACCOUNTS)
    words.add_argument("--instructions", type=int, default=1_000)
    words.add_argument("--four-eyes", action="store_true")
    said = words.parse_args()
    dates = [*itertools.islice(weekdays(FIRST_DAY), said.days)]
    maker = Maker(said.folder, said.accounts, said.instructions, dates, said.four_eyes)
    if not (said.folder / layout.SETTINGS).exists():
        maker.begin()
    with contextlib.suppress(KeyboardInterrupt):
        maker.go_on()


if __name__ == "__main__":
    main()
