"""The pending file: instructions that wait for their due day, and those that were entered into a day that is not
settled yet.

  made,DATE,NEXT                                          it was written with the text of DATE, whose records go from
                                                          NEXT
  waits,RECORD,DUE,PROPOSED,PROPOSER,APPROVER,ACT,..      waits; RECORD is the record under which it was refused
  entered,RECORD,DATE,PROPOSED,PROPOSER,APPROVER,ACT,..   was entered into the text of DATE
  end

RECORD is empty if somebody added the row by hand; DUE is empty if the calendar has no due day yet. An `entered` row is
kept until that day is settled: so `./day next` may be run again for the same day, and gives the same text. A file
without the row `made` was written by hand.
"""
import datetime
from dataclasses import dataclass, field
from pathlib import Path
from typing import NamedTuple

from registry_tools import tables
from registry_tools.errors import FileFault, WordsFault, of_file, shown
from registry_tools.output import must_be_writable
from registry_tools.second import faults, rules
from registry_tools.texts.accounts import Reader
from registry_tools.texts.day_text import DayText
from registry_tools.texts.report import RECORD, Report
from registry_tools.texts.rows import Rows, rows_of

MADE, WAITS, ENTERED = "made", "waits", "entered"
FORMS = {
    WAITS: "waits,RECORD,DUE,PROPOSED,PROPOSER,APPROVER,ACT,..",
    ENTERED: "entered,RECORD,DATE,PROPOSED,PROPOSER,APPROVER,ACT,..",
}
FEWEST_FIELDS = 7
MADE_FIELDS: list[faults.Field[faults.Value]] = [faults.date("DATE"), faults.number("NEXT", 1, tables.MOST_RECORD + 1)]


class Made(NamedTuple):
    """With which text a pending file was written: that of this day, whose records go from this number."""

    date: datetime.date
    next_record: int

    def row(self) -> str:
        """The row that says for which day the file was made."""
        return f"{MADE},{self.date},{self.next_record}"


@dataclass
class Waiting:
    """An instruction that waits: the record under which it was refused, if it was, and the day of a text into which it
    was entered, if it was. `place` tells where it stands: in a pending file, or in the log of a report."""

    record: int | None
    instruction: rules.Instruction
    entered: datetime.date | None = None
    due: datetime.date | None = None
    place: str = ""

    def row(self) -> str:
        """The row of the pending file."""
        tag, day = (ENTERED, self.entered) if self.entered else (WAITS, self.due)
        return ",".join([tag, str(self.record or ""), str(day or ""), *self.instruction.fields])


@dataclass
class PendingFile:
    """A pending file as it was read: with which text it was written, if it says so, and its instructions, each with its
    line."""

    path: str
    made: Made | None = None
    rows: list[tuple[Waiting, int]] = field(default_factory=list)


# Which file.


def chosen_path(old: str | None, new: str | None) -> str | None:
    """The path of the pending file: one that is there, or a new one. It is looked at before anything else is done."""
    if old and new:
        both = f"--pending {old} is a file that is there, and --pending-new {new} one that is made"
        raise WordsFault(f"{both}: only one of them")
    if old and not Path(old).exists():
        raise of_file(old, "it is not there, so nobody knows what waits", "the first use says --pending-new FILE")
    if new and Path(new).exists():
        raise of_file(new, "it is there already", "--pending FILE goes on with it")
    path = old or new
    if path:
        must_be_writable(path)
    return path


# Reading.


def waiting_of(source: Rows, index: int) -> Waiting:
    """What a row of the file says."""
    fields = source.fields(index)
    if fields[0] not in (WAITS, ENTERED):
        raise source.fault(index, "tag", shown(fields[0]), f"a row {WAITS}, {ENTERED} or end")
    if len(fields) < FEWEST_FIELDS:
        found = f"{len(fields)} fields in {shown(','.join(fields))}"
        raise source.fault(index, f"{fields[0]} row", found, f"at least {FEWEST_FIELDS} fields: {FORMS[fields[0]]}")
    record, day = fields[1:3]
    for field, word in ((faults.maybe(RECORD), record), (faults.maybe(faults.date("DUE")), day)):
        read_field(source, index, field, word)
    if fields[0] == ENTERED and not day:
        raise source.fault(index, "DATE", shown(day), "the day into whose text it was entered")
    check_instruction(source, index, fields[3:])
    date = datetime.date.fromisoformat(day) if day else None
    entered, due = (date, None) if fields[0] == ENTERED else (None, date)
    place = f"{source.path}:{source.line(index)}"
    return Waiting(int(record) if record else None, rules.read_instruction(fields[3:]), entered, due, place)


def read_field(source: Rows, index: int, field: faults.Field[faults.V], word: str) -> faults.V:
    """What a field says. Raises FileFault if it is no such field."""
    try:
        return field.read(word)
    except faults.Fault:
        raise source.fault(index, field.name, shown(word), field.expected) from None


def check_instruction(source: Rows, index: int, fields: list[str]) -> None:
    """Raises a fault if the fields are no instruction."""
    reader = Reader(source, faults.Reading(last="do"))
    try:
        reader.reading.add(["do", *fields])
    except faults.Fault as fault:
        raise reader.told(index, ["do", *fields], fault) from None


def made_of(source: Rows) -> Made | None:
    """What the first row says, if it is the row `made`."""
    fields = source.fields(0)
    if fields[0] != MADE:
        return None
    if len(fields) != 1 + len(MADE_FIELDS):
        expected = f"{1 + len(MADE_FIELDS)} fields: {faults.form_of(MADE, MADE_FIELDS)}"
        raise source.fault(0, f"{MADE} row", f"{len(fields)} fields", expected)
    date, next_record = (read_field(source, 0, field, word) for field, word in zip(MADE_FIELDS, fields[1:]))
    return Made(datetime.date.fromisoformat(str(date)), int(next_record))


def read_pending(path: str) -> PendingFile:
    """A pending file without a fault."""
    source = rows_of(path)
    if source.rows[-1:] != ["end"]:
        raise source.fault(len(source), "end", "the end of the file", "a row end: the file may be cut")
    made = made_of(source)
    rows = [(waiting_of(source, index), source.line(index)) for index in range(1 if made else 0, len(source) - 1)]
    return PendingFile(path, made, rows)


def read_waits(path: str) -> list[Waiting]:
    """What waits by a pending file, with the due days that it says."""
    return [waits for waits, _ in read_pending(path).rows if waits.entered is None]


# What waits.


@dataclass
class StillWaiting:
    """What a pending file has that waits after a day, what it says was entered into the day that does not have it, and
    what is to be looked at."""

    waiting: list[Waiting] = field(default_factory=list)
    lost: list[Waiting] = field(default_factory=list)
    warnings: list[str] = field(default_factory=list)


def still_waiting(file: PendingFile, day: DayText, report: Report, date: datetime.date) -> StillWaiting:
    """What of a pending file waits after a day, for the text of a date."""
    found = StillWaiting()
    in_day = {tuple(i.fields) for i in day.instructions}
    must_not_be_later(file, report, date)
    must_not_be_of_another_text(file, day, report, in_day)
    entered_later = is_written_behind(file, day, report, date, found)
    for waits, _ in file.rows:
        # (those that were refused on the day itself are taken from its report)
        if (waits.record or 0) >= day.head.next_record:
            continue
        if waits.entered is None or (entered_later if file.made else waits.entered > day.head.date):
            found.waiting.append(Waiting(waits.record, waits.instruction, place=waits.place))
        elif tuple(waits.instruction.fields) not in in_day:
            made = file.made.next_record == day.head.next_record if file.made else waits.entered == day.head.date
            found.lost += [waits] if made else []
    return found


def must_not_be_later(file: PendingFile, report: Report, date: datetime.date) -> None:
    """Ends the command if a file was written behind a later day than the report is of."""
    later = f"the next one of {report.path}: this file belongs to a later day"
    if file.made and file.made.next_record > report.next_record:
        expected = f"at most {report.next_record}, {later}"
        raise FileFault(file.path, 1, "NEXT", file.made.next_record, expected)
    for waits, line in file.rows:
        if (waits.record or 0) >= report.next_record:
            expected = f"a record before {report.next_record}, {later}"
            raise FileFault(file.path, line, "RECORD", waits.record, expected)
        if waits.entered and waits.entered > date and not file.made:
            expected = f"no day after {date}: this file belongs to a later day"
            raise FileFault(file.path, line, "DATE", waits.entered, expected)


def must_not_be_of_another_text(file: PendingFile, day: DayText, report: Report, in_day: set[tuple[str, ...]]) -> None:
    """Ends the command if a file was written with a text in whose place that of the day was settled, as after a slip in
    the date: what one of them entered would be done twice, or not at all."""
    made, head = file.made, day.head
    if made is None or made.next_record != head.next_record or made.date == head.date:
        return
    is_behind = made.next_record == report.next_record and made.date > head.date
    is_taken = any(waits.entered or tuple(waits.instruction.fields) in in_day for waits, _ in file.rows)
    if not is_behind and (made.date > head.date or is_taken):
        expected = f"{head.date}, the day of {day.path}: this file was written with another text of the records from"
        raise FileFault(file.path, 1, "DATE", made.date, f"{expected} {made.next_record}")


def is_written_behind(
    file: PendingFile, day: DayText, report: Report, date: datetime.date, found: StillWaiting
) -> bool:
    """Whether a file was written with a text behind this day: so what it entered was entered into the text that is
    written again now. Warns if that one had another date, and if the file was written before the text of the day."""
    made = file.made
    if made is None:
        return False
    if made.next_record == report.next_record and made.date > day.head.date:
        if made.date != date:
            both = f"with a text of {made.date}, and now with one of {date}"
            found.warnings.append(f"{file.path} was written {both}: the text of {made.date} must not be settled")
        return True
    if (made.next_record, made.date) < (day.head.next_record, day.head.date):
        left_out = "is a day left out? What the days between refused as NotDue is not in it"
        other = f"with the text of {made.date}, and not with {day.path}"
        found.warnings.append(f"{file.path} was written {other}: {left_out}")
    return False


def waiting_before(file: PendingFile, day: DayText, report: Report) -> list[Waiting]:
    """What waits behind a day since earlier days, by a file that was written with its text or with the next one."""
    date = max([day.head.date, *(waits.entered for waits, _ in file.rows if waits.entered)])
    return still_waiting(file, day, report, file.made.date if file.made else date).waiting


def text_of(waiting: list[Waiting], made: Made) -> str:
    """The text of a pending file."""
    return "\n".join([made.row(), *(waits.row() for waits in waiting), "end", ""])
