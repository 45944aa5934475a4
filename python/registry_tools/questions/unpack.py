"""The texts of a folder as plain files, with SHA256SUMS that `sha256sum -c` reads: cli/unpack.py tells which there are.
"""
import datetime
import re
from collections.abc import Iterator
from dataclasses import dataclass

from registry_tools.errors import WordsFault
from registry_tools.office import intake
from registry_tools.office.intake import HandedIn
from registry_tools.office.office import Office
from registry_tools.output import new_folder
from registry_tools.progress import progress
from registry_tools.showing import as_csv
from registry_tools.store.events import ALL, FILED, NO_DATE, Event
from registry_tools.store.texts import FILES
from registry_tools.texts.rows import sum_of, text_of_rows

SUMS, BY_HAND = "SHA256SUMS", "by-hand.csv"
TOLD = ("at", "who", "login", "approved", "why", "change")
# What stays of a name that somebody gave, in that of a file.
PLAIN = re.compile("[^A-Za-z0-9._-]+")


@dataclass(frozen=True)
class Unpacked:
    """How many days and files were written, and the head of the folder as it then stood."""

    days: int
    files: int
    head: str


def unpack(office: Office, folder: str, date: datetime.date | None = None) -> Unpacked:
    """Writes the texts of a folder, or of one of its days, into a folder that is not there yet, or empty. Raises
    WordsFault if there is no such day."""
    filed = [event for event in office.events.named(FILED) if event.text]
    wanted = [event for event in filed if date in (None, event.date)]
    if date is not None and not wanted:
        raise WordsFault(f"--day {date}: {office.path} has no such day")
    made = Made(folder)
    with made.new:
        for event in progress.over(wanted, "unpacking the days", len(wanted), step=1):
            counts = event in office.events.days
            place = str(event.date) if counts else f"undone/{event.id:06}-{event.date}"
            made.write_all(place, files_of_day(office, event))
        if date is None:
            made.write_all("next", files_of_next(intake.for_the_next_day(office.store)))
            made.write("labels.csv", office.text_of_names())
            made.write("events.csv", as_csv(ALL, map(row_of, office.events.all)).encode("utf-8", "surrogateescape"))
        made.new.write(SUMS, "".join(f"{digest}  {name}\n" for name, digest in made.sums.items()))
    days = sum(event in office.events.days for event in wanted)
    return Unpacked(days, len(made.sums), office.events.head)


class Made:
    """What was written so far: the SHA-256 of each file, by its name."""

    def __init__(self, folder: str) -> None:
        self.new = new_folder(folder)
        self.sums: dict[str, str] = {}

    def write_all(self, place: str, files: Iterator[tuple[str, bytes]]) -> None:
        """Writes files into a folder below."""
        for name, content in files:
            self.write(f"{place}/{name}", content)

    def write(self, name: str, content: bytes) -> None:
        """Writes a file, and the folders before it."""
        self.new.make_all(name.rpartition("/")[0])
        self.new.write_bytes(name, content)
        self.sums[name] = sum_of(content)


def files_of_day(office: Office, event: Event) -> Iterator[tuple[str, bytes]]:
    """The files of a settled day, with their contents."""
    texts, handed_in = office.store.texts, intake.for_a_day(office.store, event)
    for column, name in FILES.items():
        digest = getattr(event, column)
        if digest:
            yield name, texts.get(digest)
    yield from ((f"{kind}.csv", text_of_rows(given.rows)) for kind, given in handed_in.merged().items())
    rows = by_hand_rows(handed_in)
    yield BY_HAND, as_csv(TOLD, rows).encode("utf-8", "surrogateescape")
    for number, part in enumerate(handed_in.parts, 1):
        for source in part.sources:
            yield f"tables/{number:04}-{plain(source.name, source.kind)}", texts.get(source.text)


def by_hand_rows(handed_in: HandedIn) -> Iterator[tuple[str, ...]]:
    """Who changed what by hand for a day, and why: the rows of a change stand in one field."""
    seconds = {approval.place: approval.login for approval in handed_in.approved}
    for item in handed_in.items(intake.CHANGES, intake.EDITS):
        part = item.part
        yield part.at, part.who, part.login, seconds.get(part.start, ""), part.name, "\n".join(item.rows)


def files_of_next(handed_in: HandedIn) -> Iterator[tuple[str, bytes]]:
    """What is handed in for the next day, as it came, with what it was made of."""
    texts = handed_in.store.texts
    for number, part in enumerate(handed_in.parts, 1):
        yield f"{number:04}-{part.kind}.csv", texts.get(part.sum)
        for source in part.sources:
            yield f"{number:04}-{plain(source.name, source.kind)}", texts.get(source.text)


def plain(name: str, kind: str) -> str:
    """The name of a table as that of a file, with the ending that tells what it is."""
    stem, ending = kind.partition(".")[::2]
    name_kept = PLAIN.sub("-", name.rpartition("/")[2]).strip(".-") or stem
    return name_kept if name_kept.endswith(f".{ending}") else f"{name_kept}.{ending}"


def row_of(event: Event) -> list[object]:
    """An event as a row: all its columns."""
    values = {**vars(event), "date": "" if event.date == NO_DATE else str(event.date)}
    return ["" if values[name] is None else values[name] for name in ALL]
