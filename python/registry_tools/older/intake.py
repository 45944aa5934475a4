"""What was handed in for a day of a folder of version 1.1: the journal of next/, or that of a settled day.

  base,LINE               the line of the folder's journal behind which this stands
  handed,AT,WHO,KIND,PLACE,COUNT,DAY,FILE,SHA-256,NAME,LOGIN
  of,FILE,SOURCE,SHA-256,NAME       the rows of FILE were made of SOURCE, a table or a mapping
  taken,AT,WHO,PLACE,WHY,LOGIN      the item at this place was taken back
  approved,AT,WHO,PLACE,LOGIN       of a settled day: who approved the items from this place on

In next/ asked-*.csv has what somebody asked for, and approved-*.csv what somebody approves, if the system says that it
is a file of the login that it names. If there are files said-*.csv, a LOGIN counts as far as that of its login says it.
"""
import csv
import datetime
import io
import re
from collections.abc import Iterator
from dataclasses import dataclass, field
from pathlib import Path
from typing import NamedTuple

from registry_tools.errors import FileFault, shown
from registry_tools.older.files import bytes_in
from registry_tools.older.journal import csv_row
from registry_tools.texts.rows import rows_of_text, sum_of

NAME, LOOKED, WAITS = "journal.csv", "looked.csv", "waits.csv"
FIRST, DO, CHANGES, EDITS, WORK = KINDS = ("first", "do", "changes", "edits", "work")
# What is one file of each kind of a settled day.
MERGED = (DO, CHANGES, EDITS, WORK)
FILE = re.compile(r"[0-9]{4,}-[a-z]+\.csv", re.ASCII)
SOURCE = re.compile(r"[0-9]{4,}-(table|mapping)\.[a-z]{3,4}", re.ASCII)
FORMS = (
    "handed,AT,WHO,KIND,PLACE,COUNT,DAY,FILE,SHA-256,NAME,LOGIN, of,FILE,SOURCE,SHA-256,NAME,"
    " taken,AT,WHO,PLACE,WHY,LOGIN or approved,AT,WHO,PLACE,LOGIN"
)
BEGINS = {DO: ("do,",), FIRST: ("do,",), CHANGES: ("account,",), EDITS: ("account,", "rules,"), WORK: ("work,",)}


class Source(NamedTuple):
    """A file that lies beside the rows that were made of it."""

    file: str
    sum: str
    name: str


@dataclass
class Part:
    """A file that was handed in."""

    at: str
    who: str
    kind: str
    start: int
    count: int
    earliest: datetime.date | None
    file: str
    sum: str
    name: str
    login: str = ""
    sources: list[Source] = field(default_factory=list)

    def row(self) -> str:
        """Its row."""
        place, count, earliest = str(self.start), str(self.count), str(self.earliest or "")
        fields = ["handed", self.at, self.who, self.kind, place, count, earliest, self.file, self.sum, self.name]
        return csv_row([*fields, self.login])


class Taken(NamedTuple):
    """An item that was taken back."""

    at: str
    who: str
    place: int
    why: str
    login: str = ""

    def row(self) -> str:
        """Its row."""
        return csv_row(["taken", self.at, self.who, str(self.place), self.why, self.login])


class Approved(NamedTuple):
    """Who approved a file, by the place of its first item."""

    at: str
    who: str
    place: int
    login: str


class Asked(NamedTuple):
    """What somebody asked for."""

    at: str
    who: str
    login: str
    command: str
    date: str
    words: str
    state: str
    result: str
    # What it does beside; the first files do not say it.
    beside: str | None = None

    @property
    def sum(self) -> str:
        """The sum of what is asked for, whoever asks and whenever."""
        return sum_of(csv_row([cell for cell in self[3:] if cell is not None]).encode("utf-8", "surrogateescape"))


class Approval(NamedTuple):
    """What somebody approves."""

    at: str
    who: str
    login: str
    sum: str
    what: str


@dataclass
class HandedIn:
    """What such a journal says. In next/ also what was asked for, and what approves something; and what is wrong with
    logins and approvals that do not count."""

    folder: Path
    base: str
    parts: list[Part] = field(default_factory=list)
    taken: list[Taken] = field(default_factory=list)
    approved: list[Approved] = field(default_factory=list)
    asked: list[Asked] = field(default_factory=list)
    approvals: list[Approval] = field(default_factory=list)
    unsaid: list[FileFault] = field(default_factory=list)
    unapproved: list[FileFault] = field(default_factory=list)

    def count_of_first(self) -> int | None:
        """How many instructions the first day text had, if it is here."""
        return next((part.count for part in self.parts if part.kind == FIRST), None)

    def sources(self) -> Iterator[Source]:
        """What the rows of tables were made of."""
        return (source for part in self.parts for source in part.sources)

    def left_of(self, part: Part) -> list[int]:
        """The places of a file that were not taken back."""
        gone = {taking.place for taking in self.taken}
        return [place for place in range(part.start, part.start + part.count) if place not in gone]


def items_in(kind: str, path: Path, content: bytes) -> Iterator[list[str]]:
    """The items of a file, each as its rows."""
    source = rows_of_text(str(path), content.decode("utf-8-sig", "surrogateescape"))
    starts = [place for place, row in enumerate(source.rows) if row.startswith(BEGINS[kind])]
    ends = [*starts[1:], None]
    for start, end in zip(starts, ends):
        behind = (end or len(source.rows)) if kind == CHANGES else start + 1
        yield [row for row in source.rows[start:behind] if row != "end"]


# The journal.


def read_journal(path: Path) -> HandedIn:
    """What the journal at a path says. Raises FileFault at the first row that is none."""
    handed: HandedIn | None = None
    for number, fields in rows_of_journal(path, bytes_in(path)):
        try:
            handed = added(handed, path, fields)
        except (ValueError, IndexError, TypeError):
            expected = f"a row base,LINE, then {FORMS}"
            raise FileFault(path, number, "row", shown(",".join(fields)), expected) from None
    if handed is None:
        raise FileFault(path, 0, "", "an empty file", "a row base,LINE")
    return handed


def added(handed: HandedIn | None, path: Path, fields: list[str]) -> HandedIn:
    """What is handed in with one more row. Raises ValueError, IndexError or TypeError if it is none."""
    tag, *values = fields
    if handed is None:
        (base,) = values
        if tag != "base":
            raise ValueError(tag)
        return HandedIn(path.parent, base)
    if tag == "handed":
        at, who, kind, start, count, day, file, checksum, name, *login = values
        if kind not in KINDS or not FILE.fullmatch(file):
            raise ValueError(kind)
        date = datetime.date.fromisoformat(day) if day else None
        (by,) = login or [""]
        handed.parts.append(Part(at, who, kind, int(start), int(count), date, file, checksum, name, by))
    elif tag == "taken":
        at, who, place, why, *login = values
        handed.taken.append(Taken(at, who, int(place), why, *login))
    elif tag == "of":
        file, source, checksum, name = values
        if not handed.parts or file != handed.parts[-1].file or not SOURCE.fullmatch(source):
            raise ValueError(file)
        handed.parts[-1].sources.append(Source(source, checksum, name))
    elif tag == "approved":
        at, who, place, by = values
        handed.approved.append(Approved(at, who, int(place), by))
    else:
        raise ValueError(tag)
    return handed


def rows_of_journal(path: Path, content: bytes) -> Iterator[tuple[int, list[str]]]:
    """The rows, each with the line on which it ends: the name of a file may have a line end inside."""
    reader = csv.reader(io.StringIO(content.decode("utf-8", "surrogateescape"), newline=""))
    try:
        yield from ((reader.line_num, fields) for fields in reader)
    except csv.Error as error:
        raise FileFault(path, reader.line_num, "row", str(error), "a row of csv") from None


def changed_source(path: Path, source: Source) -> FileFault | None:
    """Whether a source is not as it was handed in."""
    back = f"{source.name}, as it was handed in: whoever handed it in may have it; its rows stand beside it"
    try:
        found = sum_of(bytes_in(path))
    except FileFault as fault:
        return FileFault(path, 0, "", str(fault.found), back)
    return None if found == source.sum else FileFault(path, 0, "SHA-256", found, f"{source.sum}, that of {back}")
