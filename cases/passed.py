"""What is told of a refusal with its figures, tried by doing it: the instruction with the fields that would pass is put
in the place of the one that was refused, or the day comes on which it would, and it is done. For cases/run-explain."""
from __future__ import annotations

import copy
import re
from collections.abc import Iterator

from drawing import drawn_rows, text_of

from registry_tools import tables
from registry_tools.second import rules
from registry_tools.second.checks import Passing
from registry_tools.second.passing import PASSING

DAYS = 150
FIELDS = {act.word: [name.lower() for name in act.fields.split()] for act in tables.ACTS}
# What no other field of an instruction passes, and no later day: a status, a list or a calendar has to be another one
# first, or nothing is left to do.
BY_NO_FIELD = {
    "SameAccount", "WrongAccountKind", "SourceStatus", "DestinationStatus", "OutsideCalendar", "RowsFull",
    "AlreadyTrusted", "ListFull",
}  # fmt: skip
Told = tuple[str, object]


def passed_trials() -> Iterator[Told]:
    """Over drawn days: what is told passes its check, and of each check that a field or a day passes, one is done."""
    done, seen = set[str](), set[str]()
    for seed in range(DAYS):
        day = rules.day_in(text_of(drawn_rows(seed), seed))
        for name, own, now in settled_until(day):
            seen.add(name)
            if not re.fullmatch(r"[A-Z0-9].*\.", own.found) or "None" in own.found:
                yield f"day {seed}, {name}", f"no sentence: {own.found!r}"
            if own.fields or own.date:
                came = came_of(now, own)
                if came == name:
                    yield f"day {seed}, {now.instructions[0].row}, {name}", f"it still refuses: {own}"
                done |= {name} if came == "done" else set()
        done |= {name for name, own, now in slips_of(seed) if came_of(now, own) == "done"}
    yield "what is told has a function for each check", {check.name for check in tables.CHECKS} ^ {*PASSING} or None
    yield "each check refused in a drawn day", {*PASSING} - seen or None
    yield "what is told is done, by each check", {*PASSING} - BY_NO_FIELD - done or None
    yield "and nothing is told to do where nothing passes", BY_NO_FIELD & done or None


def slips_of(seed: int) -> Iterator[tuple[str, Passing, rules.Day]]:
    """The first instruction of a drawn day that is done, with a digit too many in its first account."""
    day = rules.day_in(text_of(drawn_rows(seed), seed))
    report = rules.settle(copy.deepcopy(day))
    place = next((place for place, own in enumerate(report) if ",done," in own.line), None)
    if place is not None:
        fields = [*day.instructions[place].fields]
        fields[4] += "7"
        before, day.instructions = day.instructions[:place], [rules.read_instruction(fields)]
        for_all = copy.deepcopy(day)
        for_all.instructions = before
        for _ in rules.settle(for_all):
            pass
        for_all.instructions, for_all.next_record = day.instructions, day.next_record + place
        yield from settled_until(for_all)


def settled_until(day: rules.Day) -> Iterator[tuple[str, Passing, rules.Day]]:
    """Each instruction of a day that is refused: by which check, what was found, and the day as it is then."""
    instructions, day.instructions = day.instructions, []
    record = day.next_record
    for place, i in enumerate(instructions):
        day.instructions, day.next_record = [i], record + place
        (logged,) = rules.settle(day, tells=True)
        if logged.passing is not None:
            # (a refusal leaves the day as it was)
            yield logged.line.rpartition(",")[2], logged.passing, day


def came_of(day: rules.Day, own: Passing) -> str:
    """`done`, or the check that refuses the instruction once it is as it is told to be."""
    before = copy.deepcopy(day)
    fields = [*before.instructions[0].fields]
    act = fields[3]
    names = ["proposed", "proposer", "approver", "act", *FIELDS[act]]
    if act == "distribute":
        shares = range(1, (len(fields) - 6) // 2 + 1)
        names[6:] = [f"{name}{place if place > 1 else ''}" for place in shares for name in ("to", "amount")]
    for name, word in own.fields.items():
        fields[names.index(name)] = str(word)
    before.instructions = [rules.read_instruction(fields)]
    if own.date is not None and own.date > before.date:
        before.date = own.date
    (logged,) = rules.settle(before)
    return "done" if ",done," in logged.line else logged.line.rpartition(",")[2]
