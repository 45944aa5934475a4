"""The next day of a folder as it stands, by the second answer: what would be done, what would be refused and why, what
would wait and until when."""
import datetime
import itertools
from dataclasses import dataclass

from registry_tools.calendars.due_days import NOT_DUE
from registry_tools.elsewhere import bounds
from registry_tools.engine import NotSettled, find_library
from registry_tools.errors import FileFault
from registry_tools.notes import LOOK
from registry_tools.office import approvals, composing
from registry_tools.office.composing import NextDay
from registry_tools.texts.namebook import Labels
from registry_tools.office.office import Office
from registry_tools.second import rules
from registry_tools.texts import checks, in_words
from registry_tools.texts.day_text import DayText

WAITED = "waited"
# How many rows are shown that the library answers otherwise.
MOST_SHOWN = 3


@dataclass
class Looked:
    """What would come of an instruction of the next day: the `outcome` is `done`, or the name of the check that refuses
    it, and then `why` says what it found, with its figures. `words` say what is asked for, `is_new` whether the look
    before this one had another outcome, or none."""

    # Where it was handed in; nothing, if it waited.
    place: int | None
    do_row: str
    words: str
    # `done`, or the name of the check that refuses it.
    outcome: str
    due: str
    # Its log row.
    log_row: str
    # What was found, if it is refused.
    why: str = ""
    is_new: bool = False

    @property
    def waits(self) -> bool:
        """Whether the instruction waits for its due day."""
        return self.outcome == NOT_DUE

    @property
    def is_refused(self) -> bool:
        """Whether it would be refused."""
        return self.outcome != "done" and not self.waits

    def said(self) -> str:
        """Its outcome in words."""
        if self.waits:
            return f"waits until {self.due}"
        return "done" if self.outcome == "done" else f"refused: {self.outcome}"

    def line(self) -> str:
        """What is kept of it for the next look."""
        return f"{self.said()}\t{self.place or WAITED}\t{self.do_row}"


@dataclass(frozen=True)
class Tried:
    """The next day as it would come: what becomes of each instruction, and what the library answers otherwise."""

    next_day: NextDay
    looked: list[Looked]
    otherwise: list[str]


def try_next(office: Office, date: datetime.date | None = None) -> Tried:
    """Tries the next day of a folder, or that of a date, and keeps what was seen for the next look. Raises WordsFault
    or FileFault if the folder can have no such day."""
    handed_in = approvals.handed_in_of(office)
    on = date or composing.settlement_date(office, handed_in)
    with composing.telling_the_way_out():
        next_day = composing.compose(office, handed_in.until(on), on)
    looked = look(next_day, next_day.day(), office.names())
    mark_and_keep(office, looked)
    return Tried(next_day, looked, of_library(next_day, looked))


def look(next_day: NextDay, day: DayText, names: Labels = Labels()) -> list[Looked]:
    """What would come of each instruction, in words with the names of accounts."""
    places = [*(None for _ in next_day.entered), *(item.place for item in next_day.new)]
    looked = []
    for place, instruction, logged in zip(places, day.instructions, rules.settle(day.day(), tells=True)):
        row, words = instruction.row, in_words.instruction_in_words(instruction, names.account)
        outcome = outcome_by_rules(logged, instruction)
        why = logged.passing.found if logged.passing and outcome != NOT_DUE else ""
        looked.append(Looked(place, row, words, outcome, str(logged.due or ""), logged.line, why))
    return looked


def outcome_by_rules(logged: rules.Logged, i: rules.Instruction) -> str:
    """`done`, or the name of the check."""
    behind = logged.line.split(",")[3 + len(i.fields) :]
    return "done" if behind[0] == "done" else behind[2]


def counts_of(looked: list[Looked]) -> str:
    """How many would be done, wait and be refused, in words."""
    done, waiting = sum(tried.outcome == "done" for tried in looked), sum(tried.waits for tried in looked)
    return f"done {done}, waiting {waiting}, refused {sum(tried.is_refused for tried in looked)}"


def whys(looked: list[Looked]) -> dict[str, str]:
    """Of each check that refuses one of these, what it means and what to do."""
    return checks.meanings(tried.outcome for tried in looked if tried.is_refused)


# What was seen at the last look.


def looked_before(office: Office) -> set[str] | None:
    """The outcomes of the last look; None, if there was none since the last day."""
    lines = {line for (line,) in office.store.db.execute("SELECT line FROM looked")}
    return lines or None


def mark_new(office: Office, looked: list[Looked]) -> None:
    """Marks what has another outcome than at the last look."""
    before = looked_before(office)
    for tried in looked:
        tried.is_new = before is not None and tried.line() not in before


def mark_and_keep(office: Office, looked: list[Looked]) -> None:
    """Marks what is new, and keeps this look in place of the last one. Nothing depends on it: so a fault, or another
    command that changes the file, is passed over."""
    mark_new(office, looked)
    if bounds.is_look:
        return
    try:
        with office.store.change(wait=0):
            forget(office)
            rows = [("",), *((tried.line(),) for tried in looked)]
            office.store.db.executemany("INSERT INTO looked VALUES (?)", rows)
    except FileFault:
        pass


def forget(office: Office) -> None:
    """Forgets the last look, in a change: another day is the next one."""
    office.store.db.execute("DELETE FROM looked")


def of_library(next_day: NextDay, looked: list[Looked]) -> list[str]:
    """What the library answers otherwise, if it was built."""
    library = find_library()
    if library is None:
        return []
    try:
        rows = library.log(next_day.text)
    except NotSettled as fault:
        return [f"{LOOK}: {fault}"]
    pairs = itertools.zip_longest((tried.log_row for tried in looked), rows, fillvalue="no row")
    differences = [
        f"{LOOK}: the library says {row}; expected {expected}" for expected, row in pairs if row != expected
    ]
    more = len(differences) - MOST_SHOWN
    return [*differences[:MOST_SHOWN], *([f"and {more} more"] if more > 0 else [])]
