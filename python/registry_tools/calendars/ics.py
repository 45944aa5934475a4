"""Writes a calendar in the form that calendar programs take in (iCalendar, RFC 5545): one entry a day and text."""
import datetime
import hashlib
from collections.abc import Iterable, Iterator

LINE_END = "\r\n"
# A line has at most so many bytes; what is longer goes on behind a space in the next one.
MOST_BYTES = 75


def calendar_of(name: str, entries: Iterable[tuple[datetime.date, str]]) -> str:
    """The text of a calendar with these entries, each of a whole day."""
    made = datetime.datetime.now(datetime.timezone.utc).strftime("%Y%m%dT%H%M%SZ")
    lines = ["BEGIN:VCALENDAR", "VERSION:2.0", "PRODID:-//registry//day due//EN", f"X-WR-CALNAME:{as_value(name)}"]
    for date, text in entries:
        lines += entry_lines(date, text, made)
    return "".join(line + LINE_END for line in folded([*lines, "END:VCALENDAR"]))


def entry_lines(date: datetime.date, text: str, made: str) -> list[str]:
    """An entry. The same date and text give the same UID, so a calendar that is taken in again doubles nothing."""
    name = hashlib.sha256(f"{date} {text}".encode("utf-8", "replace")).hexdigest()[:32]
    following = date + datetime.timedelta(1)
    return [
        "BEGIN:VEVENT", f"UID:{name}@registry", f"DTSTAMP:{made}", f"DTSTART;VALUE=DATE:{date:%Y%m%d}",
        f"DTEND;VALUE=DATE:{following:%Y%m%d}", f"SUMMARY:{as_value(text)}", "TRANSP:TRANSPARENT", "END:VEVENT",
    ]  # fmt: skip


def as_value(text: str) -> str:
    """A text as the value of a property."""
    for letter in ("\\", ";", ","):
        text = text.replace(letter, f"\\{letter}")
    return text.replace("\r\n", "\\n").replace("\n", "\\n").replace("\r", "\\n")


def folded(lines: Iterable[str]) -> Iterator[str]:
    """Lines, each cut where it would be too long. No letter is cut."""
    for line in lines:
        part, length = "", 0
        for letter in line:
            size = len(letter.encode("utf-8", "replace"))
            if length + size > MOST_BYTES:
                yield part
                part, length = " ", 1
            part, length = part + letter, length + size
        yield part
