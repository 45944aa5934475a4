"""What would come of files, of changes by hand, of names and of taking a day back, before somebody says yes: by the
functions behind the commands, whose change of the folder is taken back at once."""
import contextlib
import datetime
from dataclasses import dataclass, field, replace

from registry_tools.cli import change as words_of_change, label as words_of_names
from registry_tools.desk.reading import Reading
from registry_tools.desk.words import label
from registry_tools.errors import Fault, WordsFault
from registry_tools.office import (
    approvals, approve, change, composing, hand_in, intake, label as labelling, trial, undo,
)  # fmt: skip
from registry_tools.office.change import Change, Changed
from registry_tools.office.hand_in import HandIn
from registry_tools.office.intake import HandedIn, Part
from registry_tools.office.incoming import Forms, Given, TableFault
from registry_tools.office.office import By, sum_of_outcome
from registry_tools.office.waits import waits_of
from registry_tools.cli.options import TellingWords
from registry_tools.pages.beside import item_in_words, side_by_side
from registry_tools.pairs.edits import Edit
from registry_tools.texts.in_words import instruction_in_words
from registry_tools.texts.namebook import Label, Labels

# What an instruction that was typed is called.
TYPED = "typed at the desk.csv"
# So many rows are shown of a file without instructions, and so many cells that are wrong are told.
MOST_ROWS, MOST_TOLD = 5, 100
# A change that is only looked at has no reason yet.
NO_REASON = "no reason yet"
Rows = list[tuple[object, ...]]


@dataclass
class Look:
    """What would come of files that somebody wants to hand in."""

    # What is wrong, if something is: then nothing else is known.
    faults: list[str]
    # The file and the line of a row that the folder has had, and that may come once more if it is meant.
    meant: tuple[int, int] | None = None
    # What would be handed in, what would come of its instructions, and the first rows of each file.
    added: hand_in.Added | None = None
    looked: list[trial.Looked] = field(default_factory=list)
    rows: list[tuple[str, list[str]]] = field(default_factory=list)


def look_at_incoming(reading: Reading, by: By, files: list[Given], again: list[tuple[int, int]], forms: Forms) -> Look:
    """What would come of files, with the rows, by file and line, that are meant once more."""
    words = tuple(f"{files[place].path}:{line}" for place, line in again)
    asked = HandIn(tuple(files), words, forms)
    try:
        with reading.anew() as office, office.trying("hand-in", by):
            added = hand_in.added(office, asked)
            handed_in = intake.for_the_next_day(office.store)
            rows = [(part.name, handed_in.rows(part).rows[:MOST_ROWS]) for part in added.parts]
        looked = [tried for tried in added.looked if tried.place in added.places()]
        return Look([], None, added, looked, rows)
    except hand_in.HadFault as fault:
        # (how it may come once more is told by a button)
        return Look([fault.without_way()], (files.index(fault.of), fault.at))
    except TableFault as fault:
        return Look(faults_of_table(fault, is_typed(files)))
    except Fault as fault:
        return Look([str(fault)])


def is_typed(files: list[Given]) -> bool:
    """Whether an instruction was typed: then no file was chosen."""
    return [given.named for given in files] == [TYPED]


def faults_of_table(fault: TableFault, is_of_form: bool) -> list[str]:
    """What is wrong with the cells of a table, a line each; of an instruction that was typed with the labels of its
    fields."""
    if not is_of_form:
        return str(fault).split("\n")
    return [f"{label(cell.field)}: found {cell.found}; expected {cell.expected}" for cell in fault.wrong[:MOST_TOLD]]


def edits_asked(asked: list[tuple[str, str]]) -> list[Edit]:
    """The differences that words of the command ask for. A fault of one is told by the label of its field."""
    parser, made = TellingWords(), list[Edit]()
    words_of_change.add_words(parser)
    for count, (label_of, word) in enumerate(asked, 1):
        if label_of and word.partition("=")[1:] == ("=", ""):
            raise WordsFault(f"{label_of}: it is empty")
        try:
            # (an account alone asks for nothing)
            if label_of:
                made = words_of_change.edits_of(parser.parse_args([word for _, word in asked[:count]]))
        except WordsFault as fault:
            raise WordsFault(f"{label_of}: {str(fault).partition(': ')[2] or fault}") from None
    return made or words_of_change.edits_of(parser.parse_args([word for _, word in asked]))


def look_at_change(reading: Reading, by: By, edits: list[Edit]) -> Changed:
    """What a change by hand would make of the next day."""
    with reading.anew() as office:
        return change.change_by_hand(office, by, Change(tuple(edits), NO_REASON))


@dataclass
class Second:
    """What waits for another login: what it is, the rows of a change before and after, the instructions and working
    days in words with what would come of them, and the sum of all that, by which it is approved as it was shown."""

    waits: approvals.Waits
    rows: Rows = field(default_factory=list)
    items: list[tuple[str, str]] = field(default_factory=list)
    sum: str = ""


def look_at_waiting(reading: Reading, handed_in: HandedIn, waits: approvals.Waits) -> Second:
    """What something that waits for another login makes of the next day."""
    part = waits.part
    if part is None:
        return Second(waits, items=[(row, "") for row in waits.rows])

    def work() -> Second:
        assert part is not None
        office, rows = reading.office(), approve.rows_left(handed_in, part)
        becomes, outcomes = change.look_at_waiting(office, handed_in, part), outcomes_with(reading, handed_in, part)
        items_left = [item for item in handed_in.items_left(part)] if part.kind in (intake.DO, intake.WORK) else []
        items = [(item_in_words(item), outcomes.get(item.place, "")) for item in items_left]
        return Second(waits, [*side_by_side(becomes)], items, sum_of_outcome([*rows, *becomes]))

    return reading.of_next(f"place {part.start}", reading.dates()[0], work)


def outcomes_with(reading: Reading, handed_in: HandedIn, part: Part) -> dict[int, str]:
    """What would come of instructions that wait for another login, by their places, if they counted."""
    if part.kind != intake.DO:
        return {}
    others = [each for each in handed_in.waiting if each.start != part.start]
    # (what keeps them out of the next day is told where that day is made)
    with contextlib.suppress(Fault):
        office = reading.office()
        date = composing.settlement_date(office, handed_in)
        next_day = composing.compose(office, replace(handed_in, waiting=others).until(date), date)
        looked = trial.look(next_day, next_day.day(), reading.names())
        return {tried.place: f"{tried.said()} {tried.why}".rstrip() for tried in looked if tried.place is not None}
    return {}


def look_at_undo(reading: Reading, by: By, last: datetime.date, date: datetime.date) -> tuple[Rows, Rows, str]:
    """What would be handed in again, and what would wait again, if the last day was taken back for this day; and the
    sum of that."""
    with reading.anew() as office, office.trying("undo", by):
        filed = undo.last_of(office, last)
        undo.taken_back(office, filed, date, NO_REASON, "")
        handed_in = approvals.handed_in_of(office)
        rows: Rows = [(i.place, item_in_words(i), i.part.name, i.part.who) for i in handed_in.items(*intake.KINDS)]
        waits = [(str(w.due or ""), w.record, instruction_in_words(w.instruction)) for w in waits_of(office)]
        return rows, [*waits], sum_of_outcome(undo.comes_again(office))


def look_at_names(reading: Reading, asked: list[str]) -> tuple[list[Label], Labels, list[str]]:
    """What names would be new, which there are before, and what may be a slip, by the words of the command. Raises what
    the command does."""
    parser = TellingWords()
    words_of_names.add_words(parser)
    given, before = parser.parse_args(asked), reading.names()
    words_of_names.must_fit(given)
    new = labelling.new_of([*words_of_names.asked_of(given)], before)
    return new, before, [*labelling.doubts_of(reading.office(), new, before)]
