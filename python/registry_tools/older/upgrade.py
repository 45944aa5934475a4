"""Makes the file of a folder of version 1.1: its texts, its events one by one, and the tables of questions. The old
files are only read, and stay."""
import datetime
import os
import zlib
from collections.abc import Iterator
from dataclasses import dataclass, field, replace
from pathlib import Path

from registry_tools import opening
from registry_tools.errors import FileFault, UnwrittenFault
from registry_tools.office import approvals, intake as todays
from registry_tools.texts.namebook import that_count
from registry_tools.office.office import Office
from registry_tools.office.waits import waits_text
from registry_tools.older import faults, intake, index, journal
from registry_tools.older.faults import OlderFound
from registry_tools.older.files import bytes_in
from registry_tools.older import folder as places, next_day
from registry_tools.older.folder import LABELS, TABLES, Folder
from registry_tools.older.intake import FIRST, KINDS, HandedIn, Part
from registry_tools.output import made_aside
from registry_tools.progress import progress
from registry_tools.questions.seams import Filed, compare_texts, look_at_day, past_day_of
from registry_tools.store import daybook, events, file
from registry_tools.store.events import APPROVED, ASKED, HANDED, LABELLED, NO_DATE, SOURCE, TAKEN, UPGRADED, Event
from registry_tools.store.file import Store
from registry_tools.texts.pending import read_pending
from registry_tools.texts.rows import KeptText, rows_of_text, sum_of, text_of_rows

# How gzip begins what it packs without a name and a time, and how much stands behind it: the sum and the size.
GZIP_HEAD, GZIP_TAIL = 10, 8
ZLIB_HEAD = b"\x78\x9c"


@dataclass(frozen=True)
class Upgraded:
    """What was made: how many events and days, and the heads of before and of now. Or what is wrong with the folder:
    then nothing was made."""

    events: int = 0
    days: int = 0
    old_head: str = ""
    head: str = ""
    faults: list[str] = field(default_factory=list)


def upgrade(path: Path, login: str, who: str) -> Upgraded:
    """Makes the file of a folder of version 1.1, whole or not at all. Raises FileFault if it has one already, belongs
    to another login, or can't be read; what the audit of version 1.1 finds wrong is answered."""
    place = path / file.NAME
    opening.guard(path)
    file.must_be_own(path, os.stat(path))
    if os.path.lexists(place):
        raise FileFault(place, 0, "", "a file that is there already", "no such file: the folder is no older one")
    with places.alone(path):
        folder = places.opened(path)
        try:
            with made_aside(place) as beside, file.making(beside) as store:
                making = Making(folder, store, login, who)
                making.make()
                if making.found.faults:
                    raise Faulty
        except UnwrittenFault as fault:
            raise UnwrittenFault(place, 0, "", fault.found, "") from None
        except Faulty:
            return Upgraded(faults=[*map(str, making.found.faults), making.found.summary()])
        made, old = making.store.events, folder.journal.last_line[: events.HEAD_DIGITS]
        return Upgraded(len(made.named(*events.OF_DAYS)), len(made.days), old, made.head)


class Faulty(Exception):
    """The folder has faults: nothing is made."""


@dataclass
class Making:
    """The file that is made of a folder, and what was found on the way."""

    folder: Folder
    store: Store
    login: str
    who: str

    def __post_init__(self) -> None:
        office = Office(self.folder.path, self.folder.settings, self.store)
        self.found = OlderFound(office, self.text_of, folder=self.folder)
        # The events that were made, by the lines of the journal.
        self.made: dict[str, Event] = {}
        self.before: Filed | None = None

    def text_of(self, event: Event, column: str) -> KeptText:
        """A text of a day by the path of its file."""
        return faults.text_of(self.found, event, column)

    def make(self) -> None:
        """Looks at the folder, and makes all."""
        handed = faults.look_at_folder(self.found)
        old = self.folder.journal
        text = self.store.texts.put(old.text.encode("utf-8", "surrogateescape"))
        self.add(Event(UPGRADED, login=self.login, who=self.who, count=len(old.events), text=text))
        with self.found.adding():
            labels = self.folder.labels().decode("utf-8-sig", "surrogateescape")
            that_count(rows_of_text(self.folder.path / LABELS, labels))
        names = index.names_of(self.folder)
        for event in progress.over(old.events, "upgrading the days", len(old.events), step=1):
            self.add_event(event, names.get(event.line, b""))
        if names.get("", b""):
            self.add(Event(LABELLED, login=self.login, who=self.who, text=self.store.texts.put(names[""])))
        if handed:
            self.add_handed(handed, self.folder.next_folder, self.folder.next_folder)
            self.add_asked(handed)
        if not self.found.faults:
            self.found.add(*index.differences_from(self.folder, self.store.db))

    def add(self, event: Event) -> Event:
        """Adds an event."""
        return self.store.add(event)

    # What the journal has.

    def add_event(self, old: journal.Event, names: bytes) -> None:
        """Adds the event of a line of the journal. Of a day that was taken back, version 1.1 kept no texts."""
        by = Event(old.event, old.at, old.login, old.who, old.why, people=old.people, date=old.date)
        event = replace(by, first=old.first, next=old.next, approved=old.approved)
        if old.event == journal.FILED:
            is_last = self.found.filed.get(old.date) is old
            event = self.filed(old, event) if is_last else self.add(with_engine(event, old))
        elif old.event == journal.LABELLED:
            event = self.add(replace(by, text=self.store.texts.put(names)))
        else:
            days = self.store.events.days
            of = next((day for day in reversed(days) if day.date == old.date), None)
            event = self.add(with_day(event, of))
        self.made[old.line] = event

    def filed(self, old: journal.Event, new: Event) -> Event:
        """Adds what was handed in for a day, and the event that files it, with its texts; and looks whether the day is
        what it has to be. One reading of each text serves all."""
        place, before = self.folder.day_folder(old.date), self.before
        self.before = None
        if not place.is_dir():
            # (it was told with the files)
            return self.add(with_engine(new, old))
        mend = self.found.mending(old.date)
        texts: dict[str, str] = {}
        with self.found.adding(mend):
            texts = self.texts_of(old)
        with self.found.adding(mend):
            self.before = look_at_day(self.found, new, before, by_program=False, by_second=False)
        if self.before:
            with self.found.adding(mend):
                texts["waits"] = self.waits(old, self.before)
        with self.found.adding(mend):
            self.add_handed(self.folder.handed_in(old), place / TABLES, place, old)
        event = self.add(with_engine(new, old, **texts))
        if self.before and not self.found.faults:
            self.add_day(event, self.before, before)
        return event

    def waits(self, old: journal.Event, read: Filed) -> str:
        """The sum of what waits behind a day; of the last one the folder has it already."""
        event, day, report = read
        text = waits_text(day, report, read_pending(self.found.text_of(event, "waiting")))
        if old is self.folder.journal.filed()[-1]:
            path = faults.waits_path(self.folder)
            compare_texts(self.found, path, bytes_in(path), text, f"the day {old.date}", faults.waits_back())
        return self.store.texts.put(text)

    def texts_of(self, old: journal.Event) -> dict[str, str]:
        """The sums of the texts of a day, which are kept as they are packed."""
        sums = {}
        for column, key in faults.KEY_OF.items():
            content, path = self.folder.text(old, key), self.folder.file(old, key)
            sums[column] = self.put(content, bytes_in(path) if path.suffix == ".gz" else b"")
        return sums

    def put(self, content: bytes, packed: bytes) -> str:
        """Keeps a text that gzip packed: what is between its head and its tail is what zlib packs, too."""
        if not is_plain(packed, content):
            return self.store.texts.put(content)
        again = ZLIB_HEAD + packed[GZIP_HEAD:-GZIP_TAIL] + zlib.adler32(content).to_bytes(4, "big")
        digest = sum_of(content)
        statement = "INSERT INTO texts VALUES (?, ?, ?) ON CONFLICT DO NOTHING"
        self.store.db.execute(statement, (digest, len(content), again))
        return digest

    def add_day(self, event: Event, read: Filed, before: Filed | None) -> None:
        """Puts a day into the tables of questions."""
        _, day, report = read
        daybook.add_day(self.store.db, past_day_of(day, report, before), (event.text, event.report))

    # What was handed in.

    def add_handed(self, handed: HandedIn, tables: Path, place: Path, old: journal.Event | None = None) -> None:
        """Adds what was handed in for a day, which `old` filed, or for the next one: its files and its tables lie in
        these folders. Of what was taken back before a day was filed, version 1.1 kept no rows."""
        made: dict[int, Event] = {}
        rows = {kind: self.items(kind, place, old) for kind in KINDS if old is not None and kind != FIRST}
        for part in handed.parts:
            text = self.text_of_part(handed, part, place, rows, old)
            by = Event(HANDED, part.at, part.login, part.who, name=part.name, date=part.earliest or NO_DATE)
            kept = self.store.texts.put(text)
            event = self.add(replace(by, kind=part.kind, start=part.start, count=part.count, text=kept))
            made |= dict.fromkeys(range(part.start, part.start + part.count), event)
            for source in part.sources:
                kept, kind = self.store.texts.put(bytes_in(tables / source.file)), source.file.partition("-")[2]
                self.add(Event(
                    SOURCE, part.at, part.login, part.who, of=event.id, kind=kind, name=source.name, text=kept,
                ))  # fmt: skip
        for taken in handed.taken:
            of = made[taken.place].id if taken.place in made else None
            self.add(Event(TAKEN, taken.at, taken.login, taken.who, taken.why, of=of, start=taken.place))
        for second in handed.approved if old is not None else ():
            if second.place in made:
                where = todays.places(second.place, second.place + made[second.place].count)
                self.add(Event(APPROVED, second.at, second.login, second.who, of=made[second.place].id, name=where))
        if old is None:
            self.add_approvals(handed, made)

    def items(self, kind: str, place: Path, old: journal.Event | None) -> Iterator[list[str]]:
        """The things of a kind that a settled day has, one after another."""
        assert old is not None
        return intake.items_in(kind, place / journal.FILES[kind], self.folder.text(old, kind))

    def text_of_part(
        self, handed: HandedIn, part: Part, place: Path, rows: dict[str, Iterator[list[str]]], old: journal.Event | None
    ) -> bytes:
        """What was handed in together, as far as it is there."""
        if old is None:
            return bytes_in(place / part.file)
        if part.kind == FIRST:
            # (the first text as it was before others handed in more)
            source = rows_of_text("", self.folder.text(old, "day").decode("utf-8", "surrogateescape"))
            first = next(at for at, row in enumerate(source.rows) if row == "end" or row.startswith("do,"))
            return text_of_rows([*source.rows[: first + part.count], "end"])
        left = [next(rows[part.kind], None) for _ in handed.left_of(part)]
        if None in left:
            path = place / journal.FILES[part.kind]
            raise FileFault(path, 0, "", "fewer rows than were handed in", "all of them: it was changed")
        return text_of_rows([row for item in left if item for row in item])

    # Four eyes.

    def add_approvals(self, handed: HandedIn, made: dict[int, Event]) -> None:
        """Adds who approved what is handed in for the next day, as far as it is what was approved."""
        today = todays.for_the_next_day(self.store)
        by_start = {part.start: part for part in today.parts}
        for part in handed.parts:
            asked, new_part = next_day.sum_of_part(handed, part), by_start[part.start]
            for by in handed.approvals:
                if by.sum == asked:
                    of, digest = new_part.event.id, approvals.sum_of_part(today, new_part)
                    self.add(Event(APPROVED, by.at, by.login, by.who, of=of, name=by.what, sum=digest))

    def add_asked(self, handed: HandedIn) -> None:
        """Adds what was asked for, and who approved it."""
        for asked in handed.asked:
            result = self.made[asked.result].line if asked.result in self.made else asked.result
            event = self.add(Event(
                ASKED, asked.at, asked.login, asked.who, date=datetime.date.fromisoformat(asked.date),
                kind=asked.command, name=asked.words, sum=result, beside=asked.beside or "",
            ))  # fmt: skip
            today = approvals.Asked(event, self.store.events.state)
            for by in handed.approvals:
                if by.sum == asked.sum:
                    self.add(Event(APPROVED, by.at, by.login, by.who, of=event.id, name=by.what, sum=today.sum))


def is_plain(packed: bytes, content: bytes) -> bool:
    """Whether gzip packed these bytes once, and without a name: as the commands of version 1.1 do."""
    is_one = packed[:4] == b"\x1f\x8b\x08\0" and len(packed) > GZIP_HEAD + GZIP_TAIL
    return is_one and packed[-4:] == (len(content) & 0xFFFFFFFF).to_bytes(4, "little")


def with_engine(event: Event, old: journal.Event, **texts: str) -> Event:
    """An event that files a day, with what settled it and its texts."""
    return replace(event, engine=old.engine, **texts)


def with_day(event: Event, day: Event | None) -> Event:
    """An event that speaks of a day which was filed."""
    return replace(event, of=day.id if day else None)
