"""Where the library finds the first fault of a text: its row, its field, the name of the field, and what is wanted.

The second answer tells the same by its own reading of the row, written from docs/FORMATS.md: both are compared on texts
with a field, a row or a byte that was changed at random.
"""
import random
from collections.abc import Iterator
from typing import NamedTuple

from registry_tools.second import faults
from registry_tools.second.days import fields_in

# The words of the causes, by their numbers in the library.
CAUSES = ("end", "tag", "fields", "number", "date", "word", "version", "limit", "order")
# What may stand in a field in place of what stands there.
SPELLINGS = (
    "", "0", "1", "2", "3", "-1", "007", "+5", "1.5", "x", "yes", "open", "general", "operator", "total", "surrender",
    "2025-02-29", "2025-13-01", "2020-12-31", "2101-01-01", "2025-04-30", "999999999", "1000000000", "1000000000000000",
    "1000000000000001", "1000000000002", "4000000000000001", "-4000000000000001", "18446744073709551615",
    "18446744073709551616", "2021", "2100", "2101", "transfer", "distribute", "assess", "caf\u00e9", '"a,b"',
)  # fmt: skip


class Told(NamedTuple):
    """A fault: its row and its cause; its field and the name of this field, or 0 and nothing."""

    row: int
    cause: str
    field: int = 0
    name: str = ""


def told_by_rows(text: bytes) -> Told | None:
    """The first fault of a text by the second answer."""
    reading, place = faults.Reading(), 0
    for place, row in enumerate(fields_in(text), 1):
        try:
            reading.add(row)
        except faults.Fault as fault:
            return Told(place, fault.cause, fault.place, fault.name)
    return None if reading.last == "end" else Told(place + 1, "end")


def changed_field(random_source: random.Random, text: bytes) -> bytes:
    """A text of which one or two fields are others, or a row lacks one or has one more."""
    rows = text.decode("latin-1").split("\n")
    for _ in range(random_source.randint(1, 2)):
        place = random_source.randrange(len(rows))
        fields = rows[place].split(",")
        at, way = random_source.randrange(len(fields)), random_source.randrange(12)
        if way == 0:
            del fields[at]
        elif way == 1:
            fields.insert(at, random_source.choice(SPELLINGS))
        elif way == 2 and place:
            rows[place - 1], fields = rows[place], rows[place - 1].split(",")
        else:
            fields[at] = random_source.choice([*SPELLINGS, random_source.choice(fields)])
        rows[place] = ",".join(fields)
    return "\n".join(rows).encode("utf-8")


def drawn(texts: list[bytes], count: int, seed: int) -> Iterator[bytes]:
    """So many texts with changed fields."""
    random_source = random.Random(seed)
    for _ in range(count):
        yield changed_field(random_source, random_source.choice(texts))
