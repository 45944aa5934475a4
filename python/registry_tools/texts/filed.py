"""Reads a pair that a command has looked at before it was filed, and whose sums are those of its journal: it has no
fault, so only the places of its rows are found. That takes a quarter of the time of reading it for the first time."""
from registry_tools.second import faults, rules
from registry_tools.texts.accounts import Reader
from registry_tools.texts.blocks import Block
from registry_tools.texts.day_text import DayText
from registry_tools.texts.report import LogRow, Report, log_row
from registry_tools.texts.rows import Rows
from registry_tools.texts.runs import runs_of


def book_of(source: Rows, first: int, known: dict[int, Block]) -> tuple[dict[int, Block], int, list[int] | None]:
    """The accounts from this row on, and the place of the row behind them: by those of a text before it, if there is
    one; then also which do not stand so there."""
    rows, book, behind, others = source.rows, dict[int, Block](), first, list[int]()
    if known:
        for run in runs_of(rows, first, [*known.values()]):
            for start, stop in () if run.same else run.places():
                number = int(rows[start].split(",", 2)[1])
                book[number] = Block(number, source, start, stop - start)
                others.append(number)
            run.add_to(book, source)
            behind = run.behind
        return book, behind, others
    behind = behind_accounts(source)
    # (of the rows of accounts, only the first of each begins with this letter)
    starts = [place for place in range(first, behind) if rows[place][0] == "a"]
    for start, end in zip(starts, [*starts[1:], behind]):
        number = int(rows[start].split(",", 2)[1])
        book[number] = Block(number, source, start, end - start)
    return book, behind, None


def behind_accounts(source: Rows) -> int:
    """The place of the row behind all accounts."""
    behind = len(source)
    while source.rows[behind - 1].startswith(("do,", "totals,", "end")):
        behind -= 1
    return behind


def filed_day(source: Rows, before: Report | None = None, has_book: bool = True) -> DayText:
    """The day text of these rows; quicker with the report of the day before, or where nobody asks for its accounts.
    Raises ValueError if it can't be one."""
    first = next((place for place, row in enumerate(source.rows) if row.startswith(("account,", "do,", "end"))), 0)
    head = rules.day_of_fields(row.split(",") for row in source.rows[:first])
    if has_book:
        book, behind, others = book_of(source, first, before.book if before else {})
    else:
        book, behind, others = {}, behind_accounts(source), None
    instructions = [rules.read_instruction(row.split(",")[1:]) for row in source.rows[behind:-1]]
    version = int(source.rows[0].removeprefix("format,"))
    return DayText(source, version, head, book, instructions, first, behind, others)


def filed_report(source: Rows, day: DayText) -> Report:
    """The report of these rows, which is that of a day. Raises ValueError if it can't be one."""
    reader, log, rows = Reader(source, faults.Reading()), list[LogRow](), source.rows
    while rows[len(log)].startswith("log,"):
        log.append(log_row(reader, len(log)))
    book, behind, others = book_of(source, len(log) + 1, day.book)
    totals = {kind: [*map(int, row.split(",")[2:])] for kind, row in zip(rules.KINDS, rows[behind:-1])}
    next_record = int(rows[len(log)].removeprefix("book,"))
    return Report(source, log, next_record, book, totals, len(log) + 1, behind, others)
