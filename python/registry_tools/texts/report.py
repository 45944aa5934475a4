"""Reads reports: log rows, the book behind the day, and the totals, each row with its line."""
import datetime
import re
from collections.abc import Sequence
from dataclasses import dataclass, field, replace
from pathlib import Path

from registry_tools import tables
from registry_tools.errors import shown
from registry_tools.progress import progress
from registry_tools.second import faults, rules
from registry_tools.texts.accounts import Block, Known, Reader, WithBook
from registry_tools.texts.day_text import DayText
from registry_tools.texts.rows import Rows, rows_of


@dataclass
class LogRow:
    """A log row: what was to be done, and what came of it: if it was refused, the `code` and the `name` of the check.
    `figure` is what an assessment determined; `held` is what each account that the instruction touched held behind it,
    if it was done."""

    row: str
    line: int
    record: int
    date: datetime.date
    instruction: rules.Instruction
    is_done: bool
    figure: int | None = None
    code: int = 0
    name: str = ""
    held: dict[int, dict[str, int]] = field(default_factory=dict)

    def touched(self) -> list[int]:
        """The accounts that the instruction read or changed: whose statements have this row."""
        return [] if self.name == UNKNOWN else rules.named(self.instruction)


def outcome_of(logged: LogRow) -> str:
    """What came of an instruction, in words."""
    return f"done as record {logged.record}" if logged.is_done else f"refused as {logged.name}"


@dataclass
class Report(WithBook):
    """A report: its log, the next record number, its accounts by number, and its totals by kind of allowance."""

    source: Rows
    log: list[LogRow]
    next_record: int
    book: dict[int, Block]
    totals: dict[str, list[int]]
    first_account: int
    first_totals: int
    others: list[int] | None = None

    @property
    def book_rows(self) -> list[str]:
        """The rows of all accounts."""
        return self.source.rows[self.first_account : self.first_totals]

    def known(self, day: DayText) -> Known:
        """What is known of the accounts, by which the next text is read more quickly."""
        return Known(self.book, len(day.head.periods), self.next_record)

    @property
    def book_line(self) -> int:
        """The line of the row `book`."""
        return self.source.line(len(self.log))

    def totals_line(self, kind: str) -> int:
        """The line of the totals of a kind of allowance."""
        return self.source.line(self.first_totals + rules.KINDS.index(kind))


CHECK_NAMES = [rules.name_of(check) for check in rules.CHECKS]
UNKNOWN = CHECK_NAMES[0]
RECORD = faults.number("RECORD", 1, tables.MOST_RECORD)
DATE = faults.date("DATE")
OUTCOME = faults.one_of("OUTCOME", ("done", "refused"))
NO_FIGURE = replace(faults.one_of("FIGURE", [""]), expected="nothing: only an assessment has a figure")
FIGURE = faults.signed("FIGURE", tables.MOST_FIGURE)
HELD = (faults.number("GENERAL", 0, tables.MOST_HELD), faults.number("AVIATION", 0, tables.MOST_HELD))
CODE = faults.number("CODE", 1, len(CHECK_NAMES))
BOOK = [faults.number("NEXT", 1, tables.MOST_RECORD + 1)]


def read_sum(word: str) -> int:
    """A sum over all accounts. Raises Fault if it is no number."""
    # (a sum over all accounts may have more digits than any other number)
    if not re.fullmatch("0|[1-9][0-9]{0,20}", word):
        raise faults.Fault("number")
    return int(word)


SUMS = [faults.Field(name, read_sum, "a number, in plain digits") for name in ("HELD", "SURRENDERED", "DELETED")]


class LogFields:
    """The fields of a log row, which are read from the left."""

    def __init__(self, reader: Reader, index: int) -> None:
        self.reader, self.index, self.place = reader, index, 1
        self.fields = reader.source.fields(index)

    def next(self, field: faults.Field[faults.V]) -> faults.V:
        """The next field, which must be such a one."""
        if self.place >= len(self.fields):
            raise self.reader.source.fault(self.index, "log row", f"no field {field.name}", field.expected)
        self.place += 1
        return self.checked(field, self.place - 1)

    def checked(self, field: faults.Field[faults.V], place: int) -> faults.V:
        """What the field at a place says. Raises a fault if it is no such field."""
        try:
            return field.read(self.fields[place])
        except faults.Fault:
            raise self.reader.source.fault(self.index, field.name, shown(self.fields[place]), field.expected) from None

    def act_fields(self) -> list[str]:
        """The fields of the `do` row behind its tag."""
        begun = self.place
        for each in faults.PROPOSAL:
            self.next(each)
        act = self.next(faults.act)
        if act == "distribute":
            rest = self.fields[self.place :]
            count = next((place for place, word in enumerate(rest) if word in ("done", "refused")), len(rest))
        else:
            count = len(faults.ACTS[act])
        fields = faults.fields_of_act(act, count)
        if fields is None:
            found = f"{count} fields behind distribute"
            raise self.reader.source.fault(self.index, "log row", found, faults.forms_of_act(act))
        for each in fields:
            self.next(each)
        return self.fields[begun : self.place]

    def end(self) -> None:
        """Raises a fault if the row has more fields."""
        if self.place < len(self.fields):
            more = f"one more field, {shown(self.fields[self.place])}"
            raise self.reader.source.fault(self.index, "log row", more, "the end of the row")


def log_row(reader: Reader, index: int) -> LogRow:
    """The log row at a place."""
    fields = LogFields(reader, index)
    record, date = fields.next(RECORD), datetime.date.fromisoformat(fields.next(DATE))
    instruction = rules.read_instruction(fields.act_fields())
    is_done = fields.next(OUTCOME) == "done"
    source = reader.source
    logged = LogRow(source.rows[index], source.line(index), record, date, instruction, is_done)
    if is_done:
        if instruction.act == "assess":
            logged.figure = fields.next(FIGURE)
        else:
            fields.next(NO_FIGURE)
        for number in rules.named(instruction):
            fields.next(faults.one_of("NO", [str(number)]))
            logged.held[number] = {kind: fields.next(held) for kind, held in zip(rules.KINDS, HELD)}
    else:
        logged.code = fields.next(CODE)
        logged.name = fields.next(faults.one_of("NAME", [CHECK_NAMES[logged.code - 1]]))
    fields.end()
    return logged


def written_row(source: Rows, index: int, tag: str, fields: Sequence[faults.Field[faults.V]]) -> list[faults.V]:
    """The values of a row that only a report has."""
    if index >= len(source):
        raise source.fault(index, tag, "the end of the file", f"a row {faults.form_of(tag, fields)}")
    words = source.fields(index)
    if words[0] != tag:
        raise source.fault(index, "tag", shown(words[0]), f"a row {faults.form_of(tag, fields)}")
    if len(words) != len(fields) + 1:
        expected = f"{len(fields) + 1} fields: {faults.form_of(tag, fields)}"
        raise source.fault(index, f"{tag} row", f"{len(words)} fields", expected)
    row = LogFields(Reader(source, faults.Reading()), index)
    return [row.checked(field, place) for place, field in enumerate(fields, 1)]


def read_report(path: str | Path, day: DayText | None = None) -> Report:
    """A report without a fault. If it is that of a day which was read before, that is quicker."""
    return report_of(rows_of(path), day)


def report_of(source: Rows, day: DayText | None = None) -> Report:
    """The report of these rows. Raises RowFault or FileFault at the first fault."""
    if source.rows and source.rows[0].startswith("format,"):
        raise source.fault(0, "", "a day text", "a report, whose first row is a log row or book,NEXT")
    # The book of a report is spelled as in a text of version 2; how many periods there were is not written.
    years = [last for _, last in day.head.periods] if day else [*range(tables.MOST_PERIODS)]
    reader = Reader(source, faults.Reading(last="work", version=2, last_years=years))
    log: list[LogRow] = []
    index = 0
    while index < len(source) and source.rows[index].startswith("log,"):
        if index % 1_000 == 0:
            progress.tell(f"reading the log of {source.path}")
        log.append(log_row(reader, index))
        index += 1
    (next_record,) = written_row(source, index, "book", BOOK)
    reader.reading.next_record = next_record
    first_account = index + 1
    book, index, others = reader.blocks(first_account, day.known() if day else None)
    first_totals = index
    totals: dict[str, list[int]] = {}
    for kind in rules.KINDS:
        fields: list[faults.Field[faults.Value]] = [faults.one_of(kind, [kind]), *SUMS]
        totals[kind] = [*map(int, written_row(source, index, "totals", fields)[1:])]
        index += 1
    written_row(source, index, "end", [])
    if index + 1 < len(source):
        raise source.fault(index + 1, "", "a row behind the row end", "the end of the file")
    return Report(source, log, next_record, book, totals, first_account, first_totals, others)
