"""Four eyes: what was asked for and waits for another login, and who approved it.

If office.ini lists a command under [four eyes], what it would do waits for `./day approve`. An event `asked` has what
somebody asked for, an event `approved` that somebody approves what has a sum.

The sum is that of all that would be done: the command, its date and words, the state of the folder (the line of the
last event that changed it), and the result (the day's text). Of something that was handed in it is the sum of its event
and of the places that count. So an approval is of nothing else than what was approved; what changed has another sum.

An approval counts if its login may give the command, with all that it does beside, and is another one than the login
that does it. All are gone with the next day that is filed or undone."""
import datetime
import json
from collections.abc import Collection, Iterator
from typing import NamedTuple

from registry_tools import opening, voice
from registry_tools.layout import SETTINGS
from registry_tools.office import intake, people
from registry_tools.office.intake import Approved, HandedIn, Part
from registry_tools.office.office import Office
from registry_tools.store.events import APPROVED, ASKED, Event
from registry_tools.store.texts import sum_of
from registry_tools.texts import sections

# Which command something that was handed in waits for, by what it has.
COMMAND_OF = {intake.DO: "hand-in", intake.WORK: "hand-in", intake.CHANGES: "change", intake.EDITS: "change"}
# What takes days back and closes them waits as these do.
LIKE = {"correct": ("correct", "close", "undo")}
# By these words a command says that it waits.
ASKED_FOR = "is asked for, and waits for"
# Behind this option, the words of a command are the reason.
WHY = "--why "


class Asked(NamedTuple):
    """What somebody asked for: the event that has it, and the state in which it was asked for."""

    event: Event
    state: str

    @property
    def commands(self) -> tuple[str, ...]:
        """All commands that whoever approves it has to be allowed."""
        return (self.event.kind, *self.event.beside.split())

    @property
    def sum(self) -> str:
        """The sum of what is asked for, whoever asks and whenever."""
        event = self.event
        return sum_of_words(event.kind, str(event.date), event.name, self.state, event.sum, event.beside)

    @property
    def words(self) -> tuple[str, str]:
        """The words by which it is approved."""
        return self.event.kind, str(self.event.date)

    def __str__(self) -> str:
        event = self.event
        words, why, reason = event.name.partition(WHY)
        spoken = [voice.option(word[2:]) if word.startswith("--") else word for word in words.split()]
        return " ".join([event.kind, str(event.date), *spoken, *([voice.option("why"), reason] if why else [])])


def sum_of_words(*words: str) -> str:
    """The sum of some words."""
    return sum_of(json.dumps(words).encode("ascii"))


def waits(office: Office, *commands: str) -> bool:
    """Whether one of these commands waits for another login."""
    return any(right in office.people.four_eyes for command in commands for right in LIKE.get(command, (command,)))


# What was asked for, and what approves it.


def all_asked(office: Office) -> list[Asked]:
    """What was asked for, and still would be done as it was asked: of each command and day, what was asked last."""
    state, found = office.events.state, dict[tuple[str, datetime.date], Asked]()
    for event in office.events.behind(office.events.lines.index(state) + 1 if state else 0):
        if event.what == ASKED and event.kind != people.REWRITE:
            found[event.kind, event.date] = Asked(event, state)
    return [found[key] for key in sorted(found)]


def all_rewrites(office: Office) -> list[Event]:
    """What was asked for as office.ini, and still may be approved: since then nobody took it back, and the same one
    lies there."""
    asked = [event for event in office.events.named(ASKED) if event.kind == people.REWRITE]
    text_sum = sum_of(opening.read(office.path / SETTINGS)) if asked else ""
    return [event for event in asked if event.sum == text_sum and event.id not in office.events.looked_at]


def rewritten(office: Office, event: Event) -> list[str]:
    """The lines of office.ini that go and come by what was asked for."""
    old, new = (sections.letters_of(office.store.texts.get(each)) for each in (event.sum, event.text))
    return sections.lines_between(office.path / SETTINGS, old, new)


def all_approvals(office: Office) -> list[Event]:
    """The approvals since the last day was filed or undone."""
    return [event for event in office.events.since(office.events.base) if event.what == APPROVED]


def sum_of_part(handed_in: HandedIn, part: Part) -> str:
    """The sum of something that was handed in, as far as it counts."""
    return sum_of_words(part.event.line, *map(str, handed_in.left_of(part)))


def is_second(office: Office, approval: Event, commands: Collection[str], sum_asked: str, login: str) -> bool:
    """Whether an approval is of this, by another login, which may give the commands. Of what nobody knows who did it,
    nobody is the second one."""
    is_other = bool(login) and people.person_of(approval.login) not in office.people.hands_of(login)
    by = people.owner_of(approval.login)
    speaks = by == approval.login or office.people.may_speak(by)
    may = all(office.people.may(approval.login, command) for command in commands)
    return is_other and speaks and may and approval.sum == sum_asked


def needs_second(office: Office, part: Part) -> bool:
    """Whether something that was handed in counts only if another login approves it: if all such things do, or if
    office.ini names people, and does not let whoever handed it in do so."""
    command = COMMAND_OF.get(part.kind)
    if command is None or waits(office, command):
        return command is not None
    return not (office.people.may_have(part.login, command) or is_own(office, part))


def is_own(office: Office, part: Part, login: str = "") -> bool:
    """Whether a holder's login handed in what names no other user than its own; or whether it names that of another
    login of this holder, which so may approve it."""
    people_there = office.people
    person, other = (people_there.named.get(people.person_of(each)) for each in (part.login, login or part.login))
    if not person or not other or not people_there.may_have(part.login, people.OWN) or part.kind != intake.DO:
        return False
    text = office.store.texts.get(part.sum).decode("utf-8", "surrogateescape")
    users = {user for row in text.splitlines() if row != "end" for user in row.split(",")[2:4] if user}
    tied = [each.tied_to(people.HOLDER) for each in (person, other)]
    return tied[0] == tied[1] and users <= {str(each.tied_to(people.USER)) for each in (person, other)}


def handed_in_of(office: Office) -> HandedIn:
    """What was handed in for the next day: with what waits for another login, and who approved the others."""
    handed_in = intake.for_the_next_day(office.store)
    handed_in.waiting, handed_in.approved = [], []
    asked = [part for part in handed_in.parts if needs_second(office, part) and handed_in.left_of(part)]
    given = all_approvals(office) if asked else []
    for part in asked:
        part_sum = sum_of_part(handed_in, part)
        by = next((each for each in given if is_second(office, each, commands_for(office, part, each.login), part_sum,
                                                       part.login)), None)  # fmt: skip
        if by is None:
            handed_in.waiting.append(part)
        else:
            handed_in.approved.append(Approved(by.at, by.who, part.start, by.login))
    return handed_in


def commands_for(office: Office, part: Part, login: str) -> tuple[str, ...]:
    """What a login has to be allowed that approves a part."""
    command = COMMAND_OF[part.kind]
    return (people.OWN,) if not waits(office, command) and is_own(office, part, login) else (command,)


def approvers(office: Office, asked: Asked) -> list[str]:
    """The logins that approved what is asked for."""
    of_others = asked.commands, asked.sum, asked.event.login
    return [approval.login for approval in all_approvals(office) if is_second(office, approval, *of_others)]


# Asking.


class AskedFor(NamedTuple):
    """Something is not done yet, but asked for: what, by whom it may be approved, and how."""

    asked: Asked
    second: str

    def __str__(self) -> str:
        return f"{self.asked} {ASKED_FOR} {self.second}: {way(self.asked)}"


def let_through(
    office: Office, command: str, date: datetime.date, words: str, result: str, beside: Collection[str] = ()
) -> str | AskedFor:
    """Who approved that this login does this, with what it does beside; nothing, if nobody has to. If it has to wait,
    keeps what is asked for."""
    if not waits(office, command, *beside):
        return ""
    state = office.events.state
    values = {"kind": command, "date": date, "name": words, "sum": result, "beside": " ".join(beside)}
    asked = Asked(Event(ASKED, login=office.login, **values), state)  # type: ignore[arg-type]
    by = approvers(office, asked)
    if by:
        return ", ".join(by)
    kept = Asked(office.add(ASKED, **values), state)
    return AskedFor(kept, second_for(office, kept.commands, kept.event.login))


def way(asked: Asked) -> str:
    """The command that approves what is asked for."""
    return voice.command("approve", asked.event.kind, "--date", asked.event.date)


def second_for(office: Office, commands: Collection[str], login: str) -> str:
    """Who may approve what a login asks for, in words."""
    if not login:
        return "nobody, since nobody knows who handed it in: take it back, and hand it in once more"
    if not office.people.named:
        return f"another login than {' and '.join(sorted(office.people.hands_of(login)))}"
    others = office.people.others_for(commands, login)
    return " or ".join(others) or "somebody else, and office.ini names nobody who may"


# What waits, in words.


class Waits(NamedTuple):
    """Something that waits for another login, in words; what that is, what to do, the words of ./day approve, if it is
    not approved yet, and its part of what was handed in."""

    told: str
    what: str
    way: str
    words: tuple[str, ...]
    part: Part | None = None
    rows: list[str] = []


def all_waiting(office: Office, handed_in: HandedIn) -> Iterator[Waits]:
    """What waits for whom, and what was approved and can be done."""
    for part in handed_in.waiting:
        command, place = COMMAND_OF[part.kind], str(part.start)
        where, by = intake.places(part.start, part.end), who_did(office, part.who, part.login)
        second = second_for(office, (command,), part.login)
        way_of_part = voice.command("approve", place)
        yield Waits(f"{where}, {command} by {by}, waits for {second}", where, way_of_part, (place,), part)
    for asked in all_asked(office):
        asker, others = who_did(office, asked.event.who, asked.event.login), approvers(office, asked)
        if others:
            by = ", ".join(map(office.people.in_words, others))
            again = voice.either("give the command again", "ask for it again, by its page")
            yield Waits(f"{asked}, asked for by {asker}, is approved by {by}", str(asked), again, ())
        else:
            second = second_for(office, asked.commands, asked.event.login)
            line = f"{asked}, asked for by {asker}, waits for {second}"
            yield Waits(line, str(asked), way(asked), asked.words)
    for event in all_rewrites(office):
        what, words = f"event {event.id}, another {SETTINGS}", (people.REWRITE, str(event.id))
        second, by = second_for(office, words[:1], event.login), who_did(office, event.who, event.login)
        line = f"{what}, asked for by {by}: {event.why}: waits for {second}"
        yield Waits(line, what, voice.command("approve", *words), words, rows=rewritten(office, event))


def told_of_new(office: Office, parts: list[Part]) -> list[str]:
    """Which of these parts, that were just handed in, wait, in words."""
    told = []
    for part in parts:
        if needs_second(office, part):
            commands = (COMMAND_OF[part.kind],)
            who, where = second_for(office, commands, office.login), intake.places(part.start, part.end)
            wait, does = ("waits", "does") if part.end == part.start + 1 else ("wait", "do")
            way_of_part = voice.command("approve", part.start)
            told.append(f"{where} {wait} for {who}, and {does} not count before: {way_of_part}")
    return told


def who_did(office: Office, who: str, login: str) -> str:
    """Who did something: the name that was given, and the login if that is another one."""
    if not login:
        return who
    asker = office.people.in_words(login)
    return asker if who in (people.person_of(login), people.owner_of(login)) else f"{who}, login {asker}"
