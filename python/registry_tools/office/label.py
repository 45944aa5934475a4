"""Names users, holders and accounts of a folder. The folder keeps each name with who gave it, when and why."""
from collections.abc import Iterator
from dataclasses import dataclass

from registry_tools import voice
from registry_tools.errors import WordsFault, shown
from registry_tools.notes import LOOK
from registry_tools.office import approvals, composing
from registry_tools.texts import namebook
from registry_tools.texts.namebook import ACCOUNT, HOLDER, KINDS, USER, Label, Labels, as_looked_up
from registry_tools.office.office import By, Office
from registry_tools.store.events import LABELLED, now
from registry_tools.texts.rows import rows_of_text

# So many slips are told one by one.
MOST_TOLD = 20
SO_ALREADY = "nothing would be changed: it is named so already"


@dataclass(frozen=True)
class Named:
    """Names were kept: which, what each of them was before, and what may be a slip."""

    new: list[Label]
    before: Labels
    doubts: list[str]


def keep_names(office: Office, by: By, asked: list[Label], why: str) -> Named:
    """Keeps the names that are new behind those that are there. Raises WordsFault if there is none."""
    with office.changing("label", by):
        before, at = office.names(), now()
        new = [label._replace(at=at, who=office.who, why=why) for label in new_of(asked, before)]
        office.must_be_as_shown(by, named_so(new, before))
        rows = "".join(f"{label.row()}\n" for label in new).encode("utf-8", "surrogateescape")
        # (ends the command if the names could not be read again)
        list(namebook.rows_in(rows_of_text(office.store.path, rows.decode("utf-8", "surrogateescape"))))
        last = office.last()
        first = None if last else approvals.handed_in_of(office).first_text()
        date = last.date if last else first.head.date if first else None
        assert date is not None  # (a folder without a settled day has a first text)
        office.add(LABELLED, date=date, why=why, text=office.store.texts.put(rows))
        return Named(new, before, [*doubts_of(office, new, before)])


def named_so(new: list[Label], before: Labels) -> list[str]:
    """What would be named how, and was before, in lines."""
    return [f"{label} {before.name_of(label.kind, label.number)}" for label in new]


# What is asked for.


def one_name(kind: str, number: str, name: str, is_gone: bool = False) -> Label:
    """The name that words give. Raises WordsFault if it can't be one."""
    label = Label(kind, number, namebook.tidy(name))
    found, expected = wrong_part(label, is_gone)
    if expected:
        where = voice.either("", "Its number: " if found == label.number else "Its name: ")
        raise WordsFault(f"{where}found {shown(found)}; expected {expected}")
    return label


def wrong_part(label: Label, may_lack: bool) -> tuple[str, str]:
    """What is wrong with a name and what is expected; nothing, if all of it is right."""
    if label.kind not in KINDS:
        return label.kind, f"one of {', '.join(KINDS)}"
    if not namebook.NUMBER.fullmatch(label.number):
        return label.number, "a number in plain digits, as a day text has it"
    if not label.name:
        return "", "" if may_lack else "a name"
    return label.name, namebook.wrong_name(label.name)


# Keeping it.


def new_of(asked: list[Label], before: Labels) -> list[Label]:
    """Those that are asked for and not named so already. Raises WordsFault if there is none."""
    new = [one for one in asked if one.name != (before.named[one[:2]].name if one[:2] in before.named else "")]
    if not new:
        raise WordsFault(SO_ALREADY)
    return new


def doubts_of(office: Office, new: list[Label], before: Labels) -> Iterator[str]:
    """What may be a slip of names that are new behind those of before: a number that nobody has, and a name that
    another one has too."""
    numbers = numbers_of(office)
    named = before.named | {label[:2]: label for label in new}
    now = Labels({key: label for key, label in named.items() if label.name})
    strange = [label for label in new if label.name and int(label.number) not in numbers[label.kind]]
    for label in strange[:MOST_TOLD]:
        yield f"{LOOK}: there is no {label.kind} {label.number} yet"
    for label in new[:MOST_TOLD]:
        like = now.of_words(label.name, label.kind) if label.name else []
        same = [each for each in like if as_looked_up(each.name) == as_looked_up(label.name)]
        for other in (each for each in same if each.number != label.number):
            yield f"{LOOK}: {label.kind} {other.number} has the same name"


def numbers_of(office: Office) -> dict[str, set[int]]:
    """The numbers that the last day, or else the first text, has."""
    if office.last():
        day, report = composing.last_pair(office)
        book, heading = report.book, day.heading
    else:
        first = approvals.handed_in_of(office).first_text()
        assert first is not None
        book, heading = first.book, first.heading
    users = {int(row.split(",")[1]) for row in heading if row.startswith("admin,")}
    for block in book.values():
        users |= {int(row.split(",")[1]) for row in block.list_rows if row.startswith("user,")}
    return {ACCOUNT: {*book}, HOLDER: {block.holder for block in book.values()}, USER: users}
