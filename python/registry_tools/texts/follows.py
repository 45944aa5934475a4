"""Whether a report follows from its day: each command that reads a pair asks here.

  the log        has the instructions one by one, under the record numbers from NEXT on, on the day
  a done row     is one that no check refuses on the accounts as they then are. What it says that they hold behind it,
                 and the figure that it determined, is what its act makes of them
  the accounts   one that no done row touches is as it was, row by row; of the others each row is as the acts of the
                 done rows leave it
  the totals     are the sums over the accounts

Whether a refused instruction had to be refused, and by which check, is not looked at: that is to settle the day, as
`./day verify` does.
"""
import bisect
from typing import Iterator

from registry_tools.errors import FileFault, raise_first, shown
from registry_tools.progress import progress
from registry_tools.second import rules
from registry_tools.texts.accounts import Known, WithBook
from registry_tools.texts.books import Sums, sums_of
from registry_tools.texts.changes import differences_of
from registry_tools.texts.day_text import DayText, read_day
from registry_tools.texts.report import LogRow, Report, read_report
from registry_tools.texts.runs import unlike


def differences(day: DayText, report: Report, sums: dict[str, Sums] | None = None) -> Iterator[FileFault]:
    """In what the report is not that of the day: each as a fault of the report, with its line. `sums` are those over
    its accounts, if they are known already."""
    yield from differences_of_log(day, report)
    expected = day.head.next_record + len(day.instructions)
    if report.next_record != expected:
        wanted = f"{expected}, the record number after the day"
        yield FileFault(report.path, report.book_line, "NEXT", report.next_record, wanted)
    replay = Replay(day, report)
    yield from replay.differences_of_log()
    yield from replay.differences_of_accounts()
    yield from differences_of_totals(report, sums or sums_of(report.book_rows))


# The log and the day.


def differences_of_log(day: DayText, report: Report) -> Iterator[FileFault]:
    """Where the log is not that of the instructions of the day."""
    head = day.head
    for place, logged in enumerate(report.log[: len(day.instructions)]):
        expected = head.next_record + place
        if logged.record != expected:
            why = f"{expected}: NEXT of {day.path} is {head.next_record}"
            yield FileFault(report.path, logged.line, "RECORD", logged.record, why)
        if logged.date != head.date:
            yield FileFault(report.path, logged.line, "DATE", logged.date, f"{head.date}, the day of {day.path}")
        instructions = day.instructions[place].fields
        if logged.instruction.fields != instructions:
            where = f"{shown(','.join(instructions))} as in {day.path}:{day.line_of_instruction(place)}"
            yield FileFault(report.path, logged.line, "log row", shown(",".join(logged.instruction.fields)), where)
    if len(report.log) < len(day.instructions):
        lacking = f"a log row for {day.path}:{day.line_of_instruction(len(report.log))}"
        yield FileFault(report.path, report.book_line, "log row", f"{len(report.log)} log rows", lacking)
    for logged in report.log[len(day.instructions) :]:
        no_more = f"no more rows than {day.path} has instructions"
        yield FileFault(report.path, logged.line, "log row", shown(logged.row), no_more)


# What the done rows make of the accounts.


def refusal_of(day: rules.Day, i: rules.Instruction) -> str:
    """The check that refuses an instruction on the accounts as they are; nothing if none does."""
    asked = rules.Asked(day, i)
    return next((rules.name_of(check) for check in rules.CHECKS if check(asked)), "")


class Replay:
    """The accounts of a day, on which the acts of the done rows of a report are carried out one after another."""

    def __init__(self, day: DayText, report: Report) -> None:
        self.day, self.report = day, report
        self.now = day.day()
        # The last done row of each account that was touched.
        self.last: dict[int, LogRow] = {}

    def differences_of_log(self) -> Iterator[FileFault]:
        """Carries out each done row; in what it says something else than comes of it."""
        instructions = self.day.instructions
        rows = progress.over(self.report.log[: len(instructions)], f"following {self.report.path}", len(instructions))
        for i, logged in zip(instructions, rows):
            if not logged.is_done or logged.instruction.fields != i.fields:
                continue
            check = refusal_of(self.now, i)
            if check:
                refused = f"'refused', as {check}, on the accounts as they then are"
                yield FileFault(self.report.path, logged.line, "OUTCOME", "'done'", refused)
                continue
            figure = rules.carry_out(self.now, i, logged.record)
            if logged.figure != figure:
                what = f"{figure}, which is surrendered - emissions + correction"
                yield FileFault(self.report.path, logged.line, "FIGURE", logged.figure, what)
            yield from self.differences_of_held(logged)

    def differences_of_held(self, logged: LogRow) -> Iterator[FileFault]:
        """Where a log row tells another holding than the one that its act leaves."""
        for number, held in logged.held.items():
            account = self.now.accounts[number]
            self.last[number] = logged
            for kind, amount in held.items():
                if amount != account.held[kind]:
                    field = f"{kind.upper()} of account {number}"
                    wanted = f"{account.held[kind]}, which comes of the day before this row and of its act"
                    yield FileFault(self.report.path, logged.line, field, amount, wanted)

    def differences_of_accounts(self) -> Iterator[FileFault]:
        """Where the accounts behind the log are not those that it leaves."""
        day, report = self.day, self.report
        lost, touched = day.book.keys() - report.book.keys(), self.last
        for number in sorted({*unlike(day.book, report.book, report.others), *touched, *lost}):
            block = day.book.get(number)
            if block is None:
                continue
            written = report.book.get(number)
            if written is None:
                where = f"account {number}, which stands in {day.path}:{block.line}"
                yield FileFault(report.path, line_behind(report, number), "account", f"no account {number}", where)
                continue
            logged = self.last.get(number)
            if logged is None and block.rows == written.rows:
                continue
            if logged is None:
                rows, why = block.rows, f"as {day.path}:{block.line}: no done row touches account {number}"
            else:
                rows = [*rules.account_rows(self.now.accounts[number])]
                acts = f"the acts up to {report.path}:{logged.line} leave account {number}"
                why = f"as {day.path}:{block.line} and {acts}"
            for difference in differences_of(rows, written.rows):
                line = written.line_of(difference.place_after or 0)
                yield FileFault(report.path, line, difference.name, difference.found, f"{difference.expected}, {why}")
        for number in sorted(report.book.keys() - day.book.keys()):
            more = f"account {number}"
            yield FileFault(report.path, report.book[number].line, "account", more, f"only accounts of {day.path}")


# The totals.


def differences_of_totals(report: Report, sums: dict[str, Sums]) -> Iterator[FileFault]:
    """Where the totals are not the sums over all accounts."""
    for kind in rules.KINDS:
        for name, found, expected in zip(("HELD", "SURRENDERED", "DELETED"), report.totals[kind], sums[kind]):
            if found != expected:
                line, wanted = report.totals_line(kind), f"{expected}, the sum over all accounts"
                yield FileFault(report.path, line, name, found, wanted)


def line_behind(text: WithBook, number: int) -> int:
    """The line before which an account of this number has to stand."""
    place = bisect.bisect(text.numbers, number)
    if place < len(text.numbers):
        return text.book[text.numbers[place]].line
    last = text.book[text.numbers[-1]] if text.numbers else None
    return text.source.line(last.index + last.count if last else text.first_account)


# Reading a pair.


def read_pair(day_path: str, report_path: str, known: Known | None = None) -> tuple[DayText, Report]:
    """A day text and its report. Ends the command if the report does not follow from the day. That is quicker with the
    `known` book of the report before it."""
    day = read_day(day_path, known)
    report = read_report(report_path, day)
    must_follow(day, report)
    return day, report


def must_follow(day: DayText, report: Report, sums: dict[str, Sums] | None = None) -> None:
    """Ends the command at the first difference. `sums` are those over the accounts of the report, if they are known."""
    raise_first(differences(day, report, sums))
