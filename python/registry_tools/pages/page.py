"""HTML pages of a settled day, for a browser without a server: the day, compliance, accounts, a page for each account,
and the rules. `./day page --help` tells what is on them."""
import functools
import gc
import multiprocessing
import os
import shlex
import signal
from collections.abc import Collection, Iterator, Sequence
from dataclasses import dataclass, field
from pathlib import Path

from registry_tools.elsewhere import Elsewhere
from registry_tools.errors import FileFault, WordsFault
from registry_tools.texts.namebook import Labels
from registry_tools.output import NewFolder, new_folder
from registry_tools.pages.account import account_page
from registry_tools.pages.compliance import account_list_pages, compliance_pages
from registry_tools.pages.html import Frame
from registry_tools.pages.rulebook import FORMATS, RULES, Rulebook, document_page
from registry_tools.pages.settled import ByHand, Settled, by_hand_before
from registry_tools.pages.statement import DayOfAccounts
from registry_tools.pages.summary import DAY, summary_pages
from registry_tools.pages.workers import workers_page
from registry_tools.progress import progress
from registry_tools.texts.day_text import DayText
from registry_tools.texts.follows import read_pair
from registry_tools.texts.pending import read_pending, waiting_before
from registry_tools.texts.report import Report

FILES = {"day": DAY, "compliance": "compliance.html", "accounts": "accounts.html", "workers": "workers.html"}
NAMES = {"day": "The day", "compliance": "Compliance", "accounts": "Accounts", "workers": "Workers"}
MOST_PROCESSES, SHARE = 4, 500
# What ends the command.
SIGNALS = {signal.SIGINT, signal.SIGHUP, signal.SIGTERM}
MAKING = "making the pages of accounts"
# What several processes do with their shares: it is put here before they begin.
SHARED = []


@dataclass(frozen=True)
class Page:
    """What the pages are made of: the day with its report; all days before it that stand on statements, each with its
    report; the day right before it; what waits since earlier days; and who changed what by hand, and why (at, who, why,
    change). And which accounts have a page, in place of all, the year of compliance, and what the workers did."""

    day: str
    report: str
    history: Sequence[tuple[str, str]] = ()
    before: tuple[str, str] | None = None
    pending: str | None = None
    told: list[list[str]] = field(default_factory=list)
    only: tuple[int, ...] | None = None
    year: int | None = None
    lanes: str | None = None
    names: Labels = field(default_factory=Labels)
    # How the pages name the day and its report.
    note: str = ""


def read_history(history: Sequence[tuple[str, str]], day: DayText) -> list[tuple[DayText, Report]]:
    """The days before the settled one, each with its report."""
    pairs = [read_pair(*pair) for pair in history]
    for (before, report), after in zip(pairs, [*(later for later, _ in pairs[1:]), day]):
        must_be_before(before, report, after)
    return pairs


def must_be_before(before: DayText, report: Report, after: DayText) -> None:
    """Ends the command if a day with its report is not the one right before another."""
    line = after.line_of_tag("day")
    if before.head.date >= after.head.date:
        later = f"a day behind {before.head.date}, that of {before.path}"
        raise FileFault(after.path, line, "DATE", after.head.date, later)
    if report.next_record != after.head.next_record:
        follows = f"{report.next_record}, as {report.path}:{report.book_line}: is a day left out?"
        raise FileFault(after.path, line, "NEXT", after.head.next_record, follows)


def shown_accounts(asked: Page, report: Report) -> Collection[int]:
    """The accounts that have a page."""
    if asked.only is None:
        return report.book.keys()
    for number in asked.only:
        if number not in report.book:
            raise WordsFault(f"--only {number}: {asked.report} has no such account")
    return {*asked.only}


def changed_by_hand(asked: Page, day: DayText, history: list[tuple[DayText, Report]]) -> ByHand:
    """What people changed before the day, if the day before is named."""
    before = history[-1] if history else None
    if asked.before:
        before = read_pair(*asked.before)
        must_be_before(*before, day)
    return by_hand_before(before, day, asked.told)


def pages(asked: Page, settled: Settled, by_hand: ByHand) -> Iterator[tuple[str, str]]:
    """The file and the text of each page."""
    note = asked.note or f"Made by ./day page of {asked.day} and {asked.report}."
    yield from summary_pages(settled, FILES, by_hand, note)
    yield from compliance_pages(settled, FILES, asked.year, note)
    yield from account_list_pages(settled, FILES, note)
    if asked.lanes:
        yield FILES["workers"], workers_page(settled, FILES, asked.lanes, note)
    for page in (RULES, FORMATS):
        yield page, document_page(settled.frame, page)


def write_accounts(folder: NewFolder, settled: Settled, days: list[DayOfAccounts]) -> int:
    """Writes the pages of accounts, and answers how many there are. Many are made by several processes, each a share of
    them."""
    numbers = sorted(settled.shown)
    processes = min(MOST_PROCESSES, len(os.sched_getaffinity(0)), 1 + len(numbers) // SHARE)
    shares = [numbers[first : first + SHARE] for first in range(0, len(numbers), SHARE)]
    write = functools.partial(write_share, folder, settled, days)
    if processes == 1:
        written = map(write, shares)
        return sum(progress.over(written, MAKING, len(shares), step=1))
    # (what was read stays where it is: the processes only look at it)
    gc.freeze()
    SHARED.append(write)
    # (a process that hears a signal before it knows what to do with it would say so)
    signal.pthread_sigmask(signal.SIG_BLOCK, SIGNALS)
    with multiprocessing.get_context("fork").Pool(processes, leave_signals) as pool:
        signal.pthread_sigmask(signal.SIG_UNBLOCK, SIGNALS)
        return sum(progress.over(pool.imap(write_shared, shares), MAKING, len(shares), step=1))


def leave_signals() -> None:
    """Who interrupts the command interrupts all processes: it is the first one that answers, and ends the others."""
    signal.signal(signal.SIGINT, signal.SIG_IGN)
    signal.signal(signal.SIGHUP, signal.SIG_IGN)
    signal.signal(signal.SIGTERM, signal.SIG_DFL)
    signal.pthread_sigmask(signal.SIG_UNBLOCK, SIGNALS)


def write_share(folder: NewFolder, settled: Settled, days: list[DayOfAccounts], numbers: list[int]) -> int:
    """Writes the pages of these accounts, and answers how many."""
    for number in numbers:
        folder.write(f"accounts/{number}.html", account_page(settled, number, days))
    return len(numbers)


def write_shared(numbers: list[int]) -> int:
    """The same, in a process of several."""
    return SHARED[0](numbers)


def must_have_no_pages(path: str | Path) -> None:
    """Says the way out if a folder has the pages of an earlier day."""
    if Path(path, DAY).is_file() and Path(path, "accounts").is_dir():
        fault = FileFault(path, 0, "", "a folder with pages in it", "a folder that is not there yet, or is empty")
        fault.way = f"name another one, or take these away first: rm -r {shlex.quote(str(path))}"
        raise fault


def make(path: str | Path, asked: Page) -> int:
    """Makes the pages in a folder that is not there yet, or empty, and answers how many there are."""
    if not isinstance(path, Elsewhere):
        must_have_no_pages(path)
    with new_folder(path) as folder:
        day, report = read_pair(asked.day, asked.report)
        history = read_history(asked.history, day)
        days = [DayOfAccounts(*pair) for pair in [*history, (day, report)]]
        sections = [(FILES[name], NAMES[name]) for name in FILES if name != "workers" or asked.lanes]
        frame = Frame([*sections, (RULES, "Rules"), (FORMATS, "Texts")])
        earlier = waiting_before(read_pending(asked.pending), day, report) if asked.pending else None
        settled = Settled(day, report, Rulebook(), frame, shown_accounts(asked, report), earlier, asked.names)
        count = 0
        for name, text in pages(asked, settled, changed_by_hand(asked, day, history)):
            folder.write(name, text)
            count += 1
        folder.make("accounts")
        return count + write_accounts(folder, settled, days)
