"""Takes back something that was handed in for the next day of a folder: by its place, by the file with which it came,
or by who handed it in. The folder keeps who took it back, and why."""
import re
from collections.abc import Iterator
from dataclasses import dataclass

from registry_tools import voice
from registry_tools.errors import WordsFault, shown
from registry_tools.office import approvals, intake, people
from registry_tools.office.intake import FIRST, HandedIn, Item, Part
from registry_tools.office.office import By, Office
from registry_tools.store.events import TAKEN

RANGE = re.compile("([0-9]{1,9})(?:-([0-9]{1,9}))?", re.ASCII)


@dataclass(frozen=True)
class TakeBack:
    """What is taken back: all that each of these names. Places are numbers, or ranges as 3-7."""

    why: str
    places: tuple[str, ...] = ()
    file: str | None = None
    handed_by: str | None = None


def take_back(office: Office, by: By, asked: TakeBack) -> list[Item]:
    """Takes something back, and answers what. Raises WordsFault if nothing is left of it, or if a place can't be taken
    back."""
    with office.changing("take-back", by):
        items = chosen(approvals.handed_in_of(office), asked)
        for item in items:
            people.must_be_allowed(office.people, office.login, approvals.COMMAND_OF[item.part.kind])
            office.add(TAKEN, of=item.part.event.id, start=item.place, why=asked.why)
    return items


def chosen(handed_in: HandedIn, asked: TakeBack) -> list[Item]:
    """What is named."""
    parts = [*parts_of(handed_in, asked)]
    items = {item.place: item for item in handed_in.items(*intake.KINDS)}
    named = asked_places(handed_in, asked.places, items) if asked.places else [*items]
    first = [place for place in named if items[place].part.kind == FIRST]
    if first and asked.places:
        way = f"{voice.command('init')} puts in another text"
        raise WordsFault(f"place {first[0]} is an instruction of the first text", way)
    found = [items[place] for place in named if place not in first and items[place].part in parts]
    if not found:
        way = f"{voice.command('status')} shows what is handed in"
        raise WordsFault("nothing is left of what the words name", way)
    return found


def parts_of(handed_in: HandedIn, asked: TakeBack) -> Iterator[Part]:
    """The parts from which something may be taken."""
    for option, name, names in (
        ("--file", asked.file, {part.name for part in handed_in.parts}),
        ("--handed-by", asked.handed_by, {hand for part in handed_in.parts for hand in (part.who, part.login) if hand}),
    ):
        if name is not None and name not in names:
            names_told = ", ".join(map(shown, sorted(names)))
            expected = f"expected one of: {names_told}" if names else "and nothing is handed in"
            raise WordsFault(f"{option}: found {shown(name)}; {expected}")
    for part in handed_in.parts:
        is_file = asked.file in (None, part.name)
        if is_file and asked.handed_by in (None, part.who, *([part.login] if part.login else [])):
            yield part


def asked_places(handed_in: HandedIn, words_of_places: tuple[str, ...], items: dict[int, Item]) -> list[int]:
    """The places that words name, each once. Of a range, what is left there."""
    found: dict[int, None] = {}
    for word in words_of_places:
        match = RANGE.fullmatch(word)
        if match is None:
            raise WordsFault(f"PLACE: found {shown(word)}; expected a number, or two as 3-7")
        first, last = int(match[1]), int(match[2] or match[1])
        if not 1 <= first <= last < handed_in.end:
            raise WordsFault(f"place {word}: there are places from 1 to {handed_in.end - 1}")
        left = [place for place in range(first, last + 1) if place in items]
        if not left:
            raise WordsFault(f"place {word} was taken back before")
        found |= dict.fromkeys(left)
    return [*found]
