"""Approves what another login asked for, where office.ini asks for four eyes: something that was handed in, by its
place, or a close, undo, release or correct, by its day."""
import datetime
from collections.abc import Collection
from dataclasses import dataclass

from registry_tools import voice
from registry_tools.errors import WordsFault
from registry_tools.office import approvals, change, composing, intake, people
from registry_tools.office.approvals import COMMAND_OF, Asked
from registry_tools.office.intake import HandedIn, Part
from registry_tools.office.office import By, Office, sum_of_outcome
from registry_tools.office.people import MAY_WAIT
from registry_tools.store.events import APPROVED

OF_DATES = tuple(name for name in MAY_WAIT if name not in COMMAND_OF.values())


@dataclass(frozen=True)
class ApprovedPart:
    """Something that was handed in and is approved now: its places, who did it, what it was called, its rows, and what
    it becomes."""

    places: str
    by: str
    name: str
    rows: list[str]
    becomes: list[str]


def rows_left(handed_in: HandedIn, part: Part) -> list[str]:
    """The rows of a part that count."""
    return [row for item in handed_in.items_left(part) for row in item.rows]


# What was handed in.


def approve_places(office: Office, by: By, places: tuple[str, ...]) -> list[ApprovedPart]:
    """Approves what was handed in at these places. Raises WordsFault if something there does not wait, or if this login
    may not approve it."""
    done = []
    with office.changing("approve", by):
        handed_in = approvals.handed_in_of(office)
        parts = [part_at(office, handed_in, word) for word in places]
        for part in left_to_approve(office, handed_in, parts):
            where, becomes = intake.places(part.start, part.end), change.look_at_waiting(office, handed_in, part)
            sum_asked = approvals.sum_of_part(handed_in, part)
            office.add(APPROVED, of=part.event.id, sum=sum_asked, name=where)
            by_whom = approvals.who_did(office, part.who, part.login)
            done.append(ApprovedPart(where, by_whom, part.name, rows_left(handed_in, part), becomes))
        office.must_be_as_shown(by, [sum_of_outcome([*part.rows, *part.becomes]) for part in done])
    return done


def part_at(office: Office, handed_in: HandedIn, word: str) -> Part:
    """What waits at a place, and may be approved by this login."""
    part = handed_in.part_at(int(word)) if word.isascii() and word.isdigit() else None
    if part is None:
        expected = f"a place of {voice.command('status')}, or one of {', '.join(OF_DATES)} with {voice.option('date')}"
        raise WordsFault(word, f"expected {expected}")
    if not approvals.needs_second(office, part):
        raise WordsFault(f"place {word} does not wait for another login")
    must_be_other(office, approvals.commands_for(office, part, office.login), part.who, part.login)
    if not handed_in.left_of(part):
        raise WordsFault(f"place {part.start} was taken back")
    return part


def left_to_approve(office: Office, handed_in: HandedIn, parts: list[Part]) -> list[Part]:
    """What is not approved yet, each part once. Ends the command if another login approved one, or this one all."""
    approved = {approval.place: approval for approval in handed_in.approved}
    named = {part.start: part for part in parts}
    left = [part for place, part in named.items() if place not in approved]
    for place in named:
        by = approved.get(place)
        if by is not None and (by.login != office.login or not left):
            raise WordsFault(f"place {place} was approved by {by.login} at {voice.time(by.at)}")
    return left


def must_be_other(office: Office, commands: Collection[str], who: str, login: str) -> None:
    """Ends the command if this login asked for it, passed it on, or may not do it, or if nobody knows who asked."""
    again = "take it back, and hand it in once more"
    if not login:
        raise WordsFault("nobody knows who handed it in, and so nobody is the second one", again)
    person = people.person_of(office.login)
    if people.person_of(login) == person:
        raise WordsFault(f"{approvals.who_did(office, who, login)} asked for it", "another login approves it")
    if person in office.people.hands_of(login):
        passed = f"{person} passed it on when a day was filed or undone"
        way = f"another login approves it, or {again}"
        raise WordsFault(f"{passed}, and who did it is told by {person} alone", way)
    for command in commands:
        people.must_be_allowed(office.people, office.login, command)


# Commands.


def approve_command(office: Office, by: By, command: str, date: datetime.date) -> tuple[Asked, str]:
    """Approves what somebody asked for, and answers it with who asked. Raises WordsFault if nobody asked for it as the
    folder stands now, or if this login may not approve it."""
    with office.changing("approve", by):
        asked_for = [asked for asked in approvals.all_asked(office) if asked.words == (command, str(date))]
        if not asked_for:
            way = f"{voice.command(command)} asks for it"
            raise WordsFault(f"nobody asked for {command} of {date} as the folder stands now", way)
        asked = asked_for[0]
        must_be_other(office, asked.commands, asked.event.who, asked.event.login)
        must_be_same(office, asked)
        if office.login not in approvals.approvers(office, asked):
            office.add(APPROVED, of=asked.event.id, sum=asked.sum, name=str(asked))
        return asked, approvals.who_did(office, asked.event.who, asked.event.login)


def must_be_same(office: Office, asked: Asked) -> None:
    """Ends the command if what is asked for would give another text by now."""
    if asked.event.kind != "close":
        return
    composed = composing.compose(office, approvals.handed_in_of(office).until(asked.event.date), asked.event.date)
    if composed.sum() != asked.event.sum:
        way = f"{voice.command('close')} asks once more"
        raise WordsFault(f"what closing {asked.event.date} gives has changed since it was asked for", way)
