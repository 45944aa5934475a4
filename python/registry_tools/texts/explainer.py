"""Finds all faults of a day text that can be told, and not only the first one: it goes on behind a faulty row as if it
were the one that is expected."""
import re
from dataclasses import dataclass, field
from typing import Iterator, NamedTuple

from registry_tools import tables
from registry_tools.progress import progress
from registry_tools.second import faults
from registry_tools.texts.accounts import Reader, starts_of_blocks
from registry_tools.texts.guesses import OTHER_TEXTS, TAGS, guess, meant_tag
from registry_tools.texts.rows import Rows


# In place of a next record number that no row tells: above every number that a row may have.
UNKNOWN = tables.MOST_U64


@dataclass
class Told:
    """A fault of a row: its place among the rows, its line, the row and the fault, and the version of the text before
    it."""

    place: int
    line: int
    row: list[str]
    fault: faults.Fault
    version: int = 0

    def guess(self) -> str:
        """What may have happened; nothing, if nobody can guess it."""
        if not self.row:
            return "the text was cut, or the row end was left out"
        return guess(self.fault, self.row, self.version)


@dataclass
class Explainer(faults.Reading):
    """Reads all rows, and goes on behind a faulty one as if it were the one that is expected."""

    # The version, if no row tells it.
    likely_version: int = 2
    # The last row with each tag.
    rows_before: dict[str, str] = field(default_factory=dict)
    # The highest record number of a `retired` row.
    highest: int = 0

    def explain(self, row: list[str]) -> list[faults.Fault]:
        """The faults of a row."""
        if row[0] == "do" and self.next_record == UNKNOWN:
            # (nobody knows the record number of an instruction either)
            self.next_record = 0
        try:
            self.add(row)
            return []
        except faults.Fault as fault:
            # (a surrender or deletion is told that has no number below NEXT: then NEXT is too low)
            if row[0] == "retired" and fault.name == "NUMBER" and "next one" in fault.expected:
                fault.highest = self.highest
                # (all later rows above NEXT are the same mistake)
                self.next_record = UNKNOWN
            # (the row before it in its list, if it does not rise above that one)
            fault.earlier = self.rows_before.get(row[0], "") if fault.cause == "order" else ""
            found = [fault, *self.more_faults(fault, row)]
            self.go_on(fault, row)
            return found

    def more_faults(self, first: faults.Fault, row: list[str]) -> Iterator[faults.Fault]:
        """The faults of the fields behind the first faulty one."""
        if not first.place or first.cause in ("tag", "order") or not self.has_fields(row):
            return
        for place, (field, word) in enumerate(zip(self.fields(row[0], row[1:]), row[1:]), 2):
            if place > first.place:
                try:
                    faults.read_field(field, word, place)
                except faults.Fault as fault:
                    fault.earlier = ""
                    yield fault

    def has_fields(self, row: list[str]) -> bool:
        """Whether a row has as many fields as its tag wants."""
        try:
            return bool(self.fields(row[0], row[1:]))
        except faults.Fault:
            return False

    def go_on(self, fault: faults.Fault, row: list[str]) -> None:
        """Makes of the state what a good row would have made of it."""
        tag = meant_tag(row[0])
        if fault.cause == "end" or not tag or (fault.cause == "tag" and self.is_behind(tag)):
            return
        if tag == "day":
            self.next_record = next_record_of(row)
        if tag == "account":
            self.retired = {}
            for other in faults.BLOCK[1:]:
                self.before.pop(other, None)
                self.counts.pop(other, None)
        if fault.cause == "order" and tag != "period":
            values = [field.read(word) for field, word in zip(self.fields(tag, row[1:]), row[1:])]
            self.before[tag] = self.key(tag, values) or ()
        if tag == "period":
            self.last_years.append(max([*self.last_years, tables.FIRST_YEAR]))
        self.last = tag
        self.suppose()

    def is_behind(self, tag: str) -> bool:
        """Whether rows with this tag stand before the last row. Another account may stand behind each row of an
        account."""
        if self.last == "" or (tag == "account" and self.last in faults.BLOCK):
            return False
        return TAGS.index(tag) <= TAGS.index(self.last)

    def suppose(self) -> None:
        """Supposes what a missing or faulty row of the heading would have said, so that it is told once."""
        self.version = self.version or self.likely_version
        place = TAGS.index(self.last)
        if TAGS.index("day") <= place < TAGS.index("do"):
            self.next_record = self.next_record or UNKNOWN
        if place > TAGS.index("period") and not self.last_years:
            self.last_years = [tables.LAST_YEAR] * tables.MOST_PERIODS


def highest_record(source: Rows) -> int:
    """The highest record number of the `retired` rows that can be read."""
    words = (row.split(",", 2)[1] for row in source.rows if row.startswith("retired,"))
    return max((int(word) for word in words if re.fullmatch("[1-9][0-9]{0,15}", word)), default=0)


# Files of ./day next: what stood before their rows, and which rows they have.
PARTS = {
    "do": ("--do", "do", ("do",)), "work": ("--work", "lags", ("work",)),
    "account": ("--changes", "work", faults.BLOCK),
}  # fmt: skip


@dataclass
class PartExplainer(Explainer):
    """Reads a file that has only some rows of a day text, and perhaps `end`."""

    tags: tuple[str, ...] = ()

    def may_follow(self) -> list[str]:
        """The tags that may follow in a file that has only some."""
        return [tag for tag in super().may_follow() if tag in self.tags or tag == "end"]


def part_of(source: Rows) -> str:
    """Which part of a day text a file has: the tag of its first row, if it is one; nothing of a day text."""
    tag = meant_tag(source.fields(0)[0]) if len(source) else ""
    return tag if tag in PARTS and not any(row.startswith("format,") for row in source.rows) else ""


def explainer_of(source: Rows) -> Explainer:
    """What reads the rows of a text: all of them, or those of a part."""
    highest, part = highest_record(source), part_of(source)
    if not part:
        has_current = any(row.startswith("current,") for row in source.rows)
        return Explainer(likely_version=2 if has_current else 1, highest=highest)
    _, last, tags = PARTS[part]
    years = [tables.LAST_YEAR] * tables.MOST_PERIODS
    next_record = 0 if part == "do" else UNKNOWN
    return PartExplainer(last=last, version=2, next_record=next_record, last_years=years, highest=highest, tags=tags)


def next_record_of(row: list[str]) -> int:
    """The next record number that a faulty `day` row tells; 0 if it tells none."""
    try:
        _, _, word = row
        return int(faults.FIELDS["day"][1].read(word))
    except (ValueError, faults.Fault):
        return 0


def all_faults(source: Rows) -> Iterator[Told]:
    """All faults of a text that can be told."""
    explainer = explainer_of(source)
    reader, index = Reader(source, explainer), 0
    blocks: Blocks | None = None
    while index < len(source):
        if index % 1_000 == 0:
            progress.tell("looking at the rows", index, len(source))
        row, version = source.fields(index), explainer.version
        if row[0] == "account" and version and "account" in explainer.may_follow():
            blocks = blocks or blocks_of(source, index, reader)
            # (a row that is cut behind its tag begins no block)
            end = blocks.ends.get(index)
            if end and reader.skip_block(index, end, blocks.pattern, {}):
                explainer.rows_before["account"] = source.rows[index]
                index = end
                continue
        for fault in explainer.explain(row):
            yield Told(index + 1, source.line(index), row, fault, version)
            # (the first row may tell that the file is a text of another kind)
            is_other_text = index == 0 and fault.cause == "tag" and row[0] in OTHER_TEXTS
            if fault.cause == "end" or is_other_text:
                return
        explainer.rows_before[row[0]] = source.rows[index]
        index += 1
    if explainer.last != "end" and not isinstance(explainer, PartExplainer):
        fault = faults.Fault("end", f"a row {' or '.join(explainer.may_follow())}")
        yield Told(len(source) + 1, source.line(len(source)), [], fault)


class Blocks(NamedTuple):
    """Where the block of each `account` row ends, and what the rows of lists look like."""

    ends: dict[int, int]
    pattern: re.Pattern[str]


def blocks_of(source: Rows, first: int, reader: Reader) -> Blocks:
    """Where each account of a text begins and ends."""
    starts, end = starts_of_blocks(source, first)
    ends = dict(zip(starts, [*starts[1:], end]))
    # (an `account` row behind the first `do` row ends with itself)
    later = (index for index in range(end, len(source)) if source.rows[index].startswith("account,"))
    return Blocks(ends | {index: index + 1 for index in later}, reader.pattern())
