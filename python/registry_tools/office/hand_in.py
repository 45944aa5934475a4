"""Hands in instructions, working days, or accounts that are new or changed by hand, for the next day of a folder."""
from collections.abc import Sequence
from dataclasses import dataclass, field, replace
from typing import NamedTuple

from registry_tools import voice
from registry_tools.calendars.due_days import NOT_DUE
from registry_tools.errors import FileFault, WordsFault
from registry_tools.office import approvals, composing, earlier, intake, incoming, people, trial
from registry_tools.office.composing import NextDay
from registry_tools.office.intake import CHANGES, DO, HandedIn, Part
from registry_tools.office.incoming import Forms, Given, Incoming
from registry_tools.office.office import By, Office
from registry_tools.office.waits import waits_of
from registry_tools.store.texts import sum_of


@dataclass(frozen=True)
class HandIn:
    """What is handed in: files, how tables of them are written, and which of their rows are meant once more, by
    FILE:LINE or by the PLACE of what was handed in."""

    files: tuple[Given, ...]
    again: tuple[str, ...] = ()
    forms: Forms = Forms()


@dataclass(frozen=True)
class Added:
    """What was handed in, and the next day as it stands with it."""

    parts: list[Part]
    next_day: NextDay
    looked: list[trial.Looked]
    # What the folder has had before, and may come again.
    again: list[str]
    # What of it waits for another login, and that a spreadsheet hides some of it, in words.
    waits: list[str]
    hidden: list[str]

    def places(self) -> set[int]:
        """The places of all that was added."""
        return {place for part in self.parts for place in range(part.start, part.end)}

    def outcome(self) -> list[str]:
        """What would come of it, in lines, whatever else is handed in."""
        places = self.places()
        return [*self.again, *(f"{tried.said()} {tried.do_row}" for tried in self.looked if tried.place in places)]


def hand_in(office: Office, by: By, asked: HandIn) -> Added:
    """Hands files in, and tries the next day with them. Raises FileFault at a fault of a file, or of the next day as a
    whole, and WordsFault or RightsFault if it may not be so: then nothing is handed in."""
    with office.changing("hand-in", by):
        answer = added(office, asked)
        office.must_be_as_shown(by, answer.outcome())
        return answer


def look_at(office: Office, by: By, asked: HandIn) -> Added:
    """What handing in would give, and nothing is handed in. Raises what `hand_in` does."""
    with office.trying("hand-in", by):
        return added(office, asked)


def added(office: Office, asked: HandIn) -> Added:
    """Hands files in, in a change of the folder."""
    handed_in = approvals.handed_in_of(office)
    here = Here(handed_in, *meant_again([each.path for each in asked.files], asked.again))
    parts = [add(office, here, incoming.read(each, asked.forms)) for each in asked.files]
    date = composing.settlement_date(office, handed_in)
    next_day = composing.compose(office, handed_in.until(date), date)
    looked = trial.look(next_day, next_day.day(), office.names())
    return Added(parts, next_day, looked, here.told, approvals.told_of_new(office, parts), here.hidden)


def meant_again(paths: list[str], words: Sequence[str]) -> tuple[set[tuple[str, int]], set[int]]:
    """The rows that are meant once more: by file and line, and by the place of an equal one."""
    lines, numbers = set(), set()
    for word in words:
        path, _, number = word.rpartition(":")
        if not number.isascii() or not number.isdigit() or (path and path not in paths):
            raise WordsFault(f"--again {word}: found no FILE:LINE of a file that is handed in, and no PLACE")
        if path:
            lines.add((path, int(number)))
        else:
            numbers.add(int(number))
    return lines, numbers


@dataclass
class Here:
    """What was handed in, and by which of the files that this command names, of which nothing counts yet."""

    handed_in: HandedIn
    # What is meant once more.
    lines: set[tuple[str, int]] = field(default_factory=set)
    numbers: set[int] = field(default_factory=set)
    named: list[tuple[Part, str]] = field(default_factory=list)
    # What is told of what comes again, and of what a spreadsheet hides.
    told: list[str] = field(default_factory=list)
    hidden: list[str] = field(default_factory=list)

    def named_as(self, part: Part) -> str:
        """The file of this command that a part is, in words; nothing, if it was handed in before."""
        return next((f"{path}, named in this command" for earlier_part, path in self.named if earlier_part is part), "")

    def takes(self, given: Given, line: int, before: "Before") -> bool:
        """Whether something that the folder has had comes again: if a day refused it, or the words say that it is
        meant."""
        is_meant = (given.path, line) in self.lines or before.place in self.numbers
        if is_meant or before.may_come:
            self.told.append(f"{given.told}:{line}: {before.words}")
        return is_meant or before.may_come


class HadFault(FileFault):
    """The folder has had this row or file before: `of`, the file as it was given, and `at`, its line."""

    code, remedy = "had", "leave it out, or name it as meant once more"
    of, at = Given(""), 0


class Before(NamedTuple):
    """Something that the folder has had before: in words, its place if it was handed in, and whether it may come
    again by itself."""

    words: str
    place: int | None = None
    may_come: bool = False


def add(office: Office, here: Here, incoming: Incoming) -> Part:
    """Hands a file in."""
    meant = (line for path, line in here.lines if path == incoming.given.path)
    for line in (line for line in meant if line not in incoming.begun):
        raise WordsFault(f"--again {incoming.path}:{line}: no instruction or account begins there")
    # (an account that is handed in as a whole is changed by hand; and ./day correct adds what others hand in)
    people.must_be_allowed(office.people, office.login, approvals.COMMAND_OF[incoming.kind])
    if incoming.kind == DO:
        refuse_instructions(office, here, incoming)
    if incoming.kind == CHANGES:
        refuse_accounts(here, incoming)
        refuse_blocks(office, here, incoming)
    name, originals = incoming.given.name, incoming.originals
    part = intake.put(office, here.handed_in, incoming.kind, incoming.content, incoming.count, name, originals)
    if not originals:
        # (what was read of the file is read no second time; the rows of a table have other lines there)
        here.handed_in.rows_of[part.sum] = replace(incoming.rows, path=name)
    here.named.append((part, incoming.path))
    here.hidden += incoming.hidden
    return part


def refuse(office: Office, here: Here, file: Incoming, line: int, what: tuple[str, str], before: Before) -> None:
    """Ends the command at something that the folder has had, unless it may come again. If the whole file is one that it
    has had, that is told."""
    path, handed_in = file.path, here.handed_in
    if here.takes(file.given, line, before):
        return
    checksum = sum_of(file.content)
    same = next((part for part in handed_in.parts if part.sum == checksum and handed_in.left_of(part)), None)
    when = f"by {same.who} at {voice.time(same.at)} as {same.name}" if same else earlier.file_had(office, checksum)
    more = f"{voice.option('again', f'{path}:{line}')} hands in once more what stands there"
    if when:
        found = (same and here.named_as(same)) or f"was handed in {when}"
        fault = HadFault(path, 0, "file", f"the same as {found}", "another file")
    else:
        name, expected = what
        fault = HadFault(path, line, name, before.words, expected)
    fault.of, fault.at, fault.way = file.given, line, more
    raise fault


def refuse_instructions(office: Office, here: Here, file: Incoming) -> None:
    """Ends the command at an instruction that is there already, or is done."""
    source = file.rows
    rows = {row for row in source.rows if row != "end"}
    # (what was refused for good may come again)
    had = {
        row: Before(f"one that {day_had}: {row}", None, day_had.refused not in ("", NOT_DUE))
        for row, day_had in earlier.instructions_had(office, rows).items()
    }
    for row in rows & {waits.instruction.row for waits in waits_of(office)}:
        had[row] = Before(f"one that waits for its due day, and comes by itself: {row}")
    for item in here.handed_in.items(intake.FIRST, DO):
        row = item.rows[0]
        if row in rows:
            named = here.named_as(item.part)
            where = f"stands in {named}" if named else f"was handed in, place {item.place}"
            had[row] = Before(f"one that {where}: {row}", item.place)
    for place, row in enumerate(source.rows):
        if row != "end":
            line = source.line(place)
            if row in had:
                refuse(office, here, file, line, ("do row", "an instruction that is new"), had[row])
            had[row] = Before(f"one as in line {line}: {row}")


def refuse_blocks(office: Office, here: Here, incoming: Incoming) -> None:
    """Ends the command at an account that a settled day has had with the same rows: since then it may have changed."""
    days = earlier.accounts_had(office)
    for line, rows in zip(incoming.begun, earlier.items_of_text(CHANGES, incoming.content)):
        date = days.get(tuple(rows))
        if date:
            before = Before(f"the rows that {date} has had of this account")
            refuse(office, here, incoming, line, ("account", "an account that is new or has changed"), before)


def refuse_accounts(here: Here, file: Incoming) -> None:
    """Ends the command at an account that was handed in before: nobody knows which of its blocks is meant."""
    handed_accounts = {item.rows[0].split(",")[1]: item for item in here.handed_in.items(CHANGES)}
    source = file.rows
    for place, row in enumerate(source.rows):
        tag, _, rest = row.partition(",")
        number = rest.partition(",")[0]
        if tag == "account" and number in handed_accounts:
            item = handed_accounts[number]
            named = here.named_as(item.part)
            where = f"stands in {named}" if named else f"was handed in at place {item.place}"
            found = f"account {number}, which {where}"
            fault = FileFault(file.path, source.line(place), "NO", found, "another account")
            fault.way = "" if named else f"{voice.command('take-back')} takes that one back"
            raise fault
