"""What the library answers for a whole day in one text: of which answers for one account or one report it is made."""
import csv
import re
from collections.abc import Iterator

# The rows behind a heading begin with one of these.
BEHIND_HEADING = ("account", "do", "end")


def accounts_of(report: bytes) -> list[int]:
    """The numbers of the accounts in a report, in their order."""
    return [int(number) for number in re.findall(rb"^account,(\d+),", report, re.M)]


def joined(answers: list[tuple[bytes, bytes]]) -> dict[bytes, bytes]:
    """The texts of each day, one behind another, from pairs of a day and a text."""
    texts: dict[bytes, bytes] = {}
    for day, text in answers:
        texts[day] = texts.get(day, b"") + text
    return texts


def heading_of(day: bytes) -> Iterator[list[str]]:
    """The rows of a day text before its accounts, however they are spelled."""
    for row in csv.reader(day.decode("utf-8-sig").splitlines()):
        if row and row[0] in BEHIND_HEADING:
            return
        if row:
            yield row


def date_of(day: bytes) -> str:
    """The date of a day text."""
    return next(row[1] for row in heading_of(day) if row[0] == "day")


def behind_log(report: bytes) -> bytes:
    """A report without its log."""
    return b"".join(row for row in report.splitlines(True) if not row.startswith(b"log,"))


def next_front(day: bytes, report: bytes, date: str) -> bytes:
    """The text of the next day up to its instructions: the heading of a day text, with the date and the next record
    number, and the accounts of its report."""
    book, _, rows = behind_log(report).partition(b"\n")
    number = book.decode().removeprefix("book,")
    heading = (["day", date, number] if row[0] == "day" else row for row in heading_of(day))
    return "".join(",".join(row) + "\n" for row in heading).encode() + rows[: rows.index(b"totals,")]
