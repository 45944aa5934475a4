"""Whether days follow from each other: each report from its day, and each day from the report before it. `./day chain
--help` tells what is looked at."""
import itertools

from registry_tools.calendars.due_days import Waits
from registry_tools.calendars.working_days import Calendars
from registry_tools.engine import NotSettled, Settler
from registry_tools.errors import FileFault, of_file, shown
from registry_tools.findings import Findings
from registry_tools.progress import progress
from registry_tools.questions.allowances import Balance, count_changes, look_at_allowances
from registry_tools.second import rules
from registry_tools.texts.accounts import Block
from registry_tools.texts.books import Sums, sums_of
from registry_tools.texts.changes import differences_of, refusals, why_not
from registry_tools.texts.day_text import DayText, read_blocks, read_day, reading_of_any_day
from registry_tools.texts.follows import differences, line_behind
from registry_tools.texts.headings import heading_differences, lost_period
from registry_tools.texts.report import Report, read_report
from registry_tools.texts.rows import bytes_of

# A day and its report.


def settle_again(settler: Settler, day: DayText, report: Report, found: Findings) -> None:
    """Compares the report with what the engine writes."""
    progress.tell(f"settling {day.path}")
    try:
        settled = settler.settle(bytes_of(day.path))
    except NotSettled as fault:
        found.add(of_file(day.path, str(fault)))
        return
    if settled != bytes_of(report.path):
        pairs = enumerate(itertools.zip_longest(settled.split(b"\n"), bytes_of(report.path).split(b"\n")), 1)
        line, (row, other) = next((line, pair) for line, pair in pairs if pair[0] != pair[1])
        expected = f"{row_in_words(row)}, as {settler.name} settles it"
        found.add(FileFault(report.path, line, "row", row_in_words(other), expected))


def row_in_words(row: bytes | None) -> str:
    """A row of a text that was cut at its line ends: the last one is empty if the text ends with a line end."""
    if row is None:
        return "no line end"
    return shown(row.decode("utf-8", "surrogateescape")) if row else "a line end and nothing behind it"


# The next day.


def look_at_next_day(before: DayText, report: Report, day: DayText, changes: "Changes", found: Findings) -> None:
    """Whether a day begins as the report of the day before ends."""
    line = day.line_of_tag("day")
    if day.head.date <= before.head.date:
        later = f"a day after {before.head.date}, that of {before.path}"
        found.add(FileFault(day.path, line, "DATE", day.head.date, later))
    if day.head.next_record != report.next_record:
        expected = f"{report.next_record}, as {report.path}:{report.book_line}"
        found.add(FileFault(day.path, line, "NEXT", day.head.next_record, expected))
    lost = lost_period(before, day)
    if lost:
        found.add(lost)
    for fault in heading_differences(before, day):
        found.add_by_hand(fault)
    if is_copied_from(before, report, day):
        first = next(block for block in day.book.values() if block.rows != report.book[block.number].rows)
        copied = f"the accounts of {before.path}"
        found.add(FileFault(day.path, first.line, "accounts", copied, f"those of {report.path}"))
    for number in sorted({*report.book, *day.book}):
        look_at_account(report, day, number, changes, found)


def is_copied_from(before: DayText, report: Report, day: DayText) -> bool:
    """Whether the accounts of a day are those of the day before, and not those of its report."""
    if before.book.keys() != day.book.keys() or day.book.keys() != report.book.keys():
        return False
    others = [block for block in day.book.values() if block.rows != report.book[block.number].rows]
    return bool(others) and all(block.rows == before.book[block.number].rows for block in others)


def look_at_account(report: Report, day: DayText, number: int, changes: "Changes", found: Findings) -> None:
    """What is different in an account."""
    old, new = report.book.get(number), day.book.get(number)
    if old and new and old.rows == new.rows:
        return
    if new is None:
        if old:
            where = f"account {number} of {report.path}:{old.line}"
            found.add(FileFault(day.path, line_behind(day, number), "account", f"no account {number}", where))
        return
    agreed = changes.place_of(new)
    if old is None:
        is_new = f"account {number}, which is new"
        fault = FileFault(day.path, new.line, "account", is_new, f"the accounts of {report.path}")
        found.add_by_hand(fault, agreed)
        for fault in refusals(None, new):
            found.add(fault)
        return
    for difference in differences_of(old.rows, new.rows):
        place = f"{report.path}:{old.line_of(difference.place_before or 0)}"
        line, why = new.line_of(difference.place_after or 0), why_not(difference)
        name, expected = f"{difference.name} of account {number}", f"{difference.expected}, as {place}"
        fault = FileFault(day.path, line, name, difference.found, expected)
        if why:
            found.add(fault)
        else:
            found.add_by_hand(fault, agreed)


class Changes:
    """The accounts of files of changes, and which of them a day has so."""

    def __init__(self, paths: list[str]) -> None:
        self.blocks: dict[int, list[Block]] = {}
        self.unused = [*paths]
        for path in paths:
            for number, block in read_blocks(path, reading_of_any_day()).items():
                self.blocks.setdefault(number, []).append(block)

    def place_of(self, block: Block) -> str:
        """Where an account stands so in a file of changes; nothing if it does not."""
        same = (other for other in self.blocks.get(block.number, []) if other.rows == block.rows)
        agreed = next(same, None)
        if agreed is None:
            return ""
        path = agreed.source.path
        if str(path) in self.unused:
            self.unused.remove(str(path))
        return f"{path}:{agreed.line}"

    def in_words(self) -> list[str]:
        """A line for each file of which no day has anything."""
        nothing = "nothing of this file was applied: no day has one of its accounts as a change"
        return [f"{path}: {nothing}" for path in self.unused]


# All together.


class Chain:
    """What is found of days that were read one after another, and what there is at the end."""

    def __init__(self, changes: Changes, settler: Settler | None) -> None:
        self.changes, self.settler = changes, settler
        self.found, self.calendars, self.waits = Findings(), Calendars(), Waits()
        self.balances: dict[str, Balance] = {}
        self.end: dict[str, int] = {}
        self.before: tuple[DayText, Report] | None = None

    def follow(self, day_path: str, report_path: str) -> None:
        """Looks at the next day and its report."""
        day = read_day(day_path, self.before and self.before[1].known(self.before[0]))
        report = read_report(report_path, day)
        begin, sums = sums_of(day.book_rows), sums_of(report.book_rows)
        self.look_at_begin(day, begin)
        self.calendars.look_at(day, self.found)
        self.waits.look_at(day, self.found)
        for difference in differences(day, report, sums):
            self.found.add(difference)
        if self.settler:
            settle_again(self.settler, day, report, self.found)
        count_changes(report, self.balances)
        self.end = {kind: sums[kind].allowances for kind in rules.KINDS}
        look_at_allowances(self.balances, report, self.end, self.found)
        self.waits.add(report)
        self.before = day, report

    def look_at_begin(self, day: DayText, begin: dict[str, Sums]) -> None:
        """Whether a day follows from the report before it, if there is one."""
        if self.before is None:
            self.balances = {kind: Balance(begin[kind].allowances) for kind in rules.KINDS}
            return
        look_at_next_day(*self.before, day, self.changes, self.found)
        for kind, balance in self.balances.items():
            balance.by_hand += begin[kind].allowances - self.end[kind]

    def lines(self) -> list[str]:
        """All that is told: what was found, changes by hand, what waits, and the balances."""
        words = (balance.in_words(kind, self.end[kind]) for kind, balance in self.balances.items())
        return [*map(str, self.found.lines), *self.changes.in_words(), *self.waits.in_words(), *words]
