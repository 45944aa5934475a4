"""What became of office.ini: who asked for another one, who approved it, and whether the last one that was approved
lies there."""
from collections.abc import Iterator
from typing import NamedTuple

from registry_tools import opening, voice
from registry_tools.layout import SETTINGS
from registry_tools.office import approvals, people
from registry_tools.office.office import Office
from registry_tools.store.events import APPROVED, ASKED, TAKEN, Event
from registry_tools.store.texts import sum_of


class Asked(NamedTuple):
    """Another office.ini that somebody asked for: the event, the lines that go and come, and what became of it."""

    event: Event
    rows: list[str]
    became: str


def rewrites(office: Office) -> Iterator[Asked]:
    """All of them, one after another."""
    waiting = {event.id for event in approvals.all_rewrites(office)}
    for event in office.events.all:
        if event.what == ASKED and event.kind == people.REWRITE:
            yield Asked(event, approvals.rewritten(office, event), became(office, event, event.id in waiting))


def rows(office: Office) -> list[tuple[object, ...]]:
    """All of them as a table has them, the last one first."""
    return [
        (asked.event.id, voice.time(asked.event.at), approvals.who_did(office, asked.event.who, asked.event.login),
         asked.event.why, "; ".join(asked.rows), asked.became)
        for asked in reversed([*rewrites(office)])
    ]  # fmt: skip


def became(office: Office, event: Event, waits: bool) -> str:
    """What became of it, in words."""
    for look in office.events.looked_at.get(event.id, []):
        behind = office.events.of_id(look.id)
        how, why = {APPROVED: "approved", TAKEN: "taken back"}[behind.what], f": {behind.why}" if behind.why else ""
        return f"{how} by {approvals.who_did(office, behind.who, behind.login)} at {voice.time(behind.at)}{why}"
    if waits:
        return f"waits for {approvals.second_for(office, (people.REWRITE,), event.login)}"
    return f"of another {SETTINGS} than lies there now"


def told(office: Office) -> Iterator[str]:
    """Who approved which office.ini, and whether the last of them lies there."""
    last: Event | None = None
    for asked in rewrites(office):
        done = office.events.looked_at.get(asked.event.id, [])
        if done and done[0].what == APPROVED:
            by = approvals.who_did(office, asked.event.who, asked.event.login)
            last = asked.event
            yield f"{SETTINGS} as event {last.id} asked for, by {by}, was {asked.became}: {'; '.join(asked.rows)}"
    if last is not None and sum_of(opening.read(office.path / SETTINGS)) != last.text:
        yield f"{SETTINGS} is not the one that was approved last, as event {last.id} asked for it: an editor changed it"
