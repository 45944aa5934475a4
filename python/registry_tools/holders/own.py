"""What a holder sees of a folder: their accounts alone.

`Own` is made of rows that are filtered there, by holder: the blocks of the holder's accounts, the log rows that their
own statements have, what waits of them, and what was handed in for them. The desk shows a holder nothing else of the
folder but its name, the date of the last day, its rules and its calendar. No record and no place is told, since both
count what others do, nor an event, a sum or a state: they change with what others do.
"""
import datetime
import re
from collections.abc import Iterable, Mapping, Sequence
from dataclasses import dataclass, replace

from registry_tools.calendars.deadlines import DueDates
from registry_tools.office import approvals, intake, people
from registry_tools.office.intake import HandedIn, Part
from registry_tools.office.office import Office, sum_of_outcome
from registry_tools.pages.html import Cells, Markup, Table
from registry_tools.pages.letter import LetterStatement
from registry_tools.pages.send import DayTold, places_by_number
from registry_tools.pages.settled import Settled
from registry_tools.pages.statement import Own as OwnWords
from registry_tools.pages.tasks import tasks_of
from registry_tools.pairs.compliance import Standing, standings_alone
from registry_tools.questions.accounts import excerpts
from registry_tools.questions.days import Days
from registry_tools.second import rules
from registry_tools.texts.in_words import grouped
from registry_tools.texts.own import OwnRow, users_of
from registry_tools.texts.pending import Waiting

# What counts all instructions of the registry, as columns and in words.
COUNTING, IN_WORDS = {"Record", "As record"}, re.compile(" of record [0-9]+")


class NotTaken(Exception):
    """What a holder asks for can't be. The sentence says nothing of others, and is told as it is; no other fault is."""


class OwnStatement(LetterStatement):
    """The statement of an account as its holder has it at the desk: without what counts what others do."""

    def take(self, date: datetime.date, own_row: OwnRow) -> None:
        """Enters a log row, if the account asked for it or it was done."""
        if own_row.is_whole:
            super().take(date, own_row)

    def table(self, whole: Table, caption: object, rows: Iterable[Cells], foot: Sequence[Cells] = ()) -> Markup:
        """A table without records."""
        kept = [place for place, name in enumerate(whole.columns) if name not in COUNTING]

        def cut(row: Cells) -> Cells:
            return [IN_WORDS.sub("", cell) if type(cell) is str else cell for cell in (row[place] for place in kept)]

        columns = [whole.columns[place] for place in kept]
        right = [name for name in columns if name in whole.right]
        return Table(columns, right).of(caption, map(cut, rows), [*map(cut, foot)])


@dataclass(frozen=True)
class Handed:
    """An instruction of an account of the holder that was handed in for the next day: its account, what it is, when it
    was proposed and by whom, what has to come before it counts, and by what it is approved by this login, if it may
    be."""

    account: int
    words: str
    proposed: str
    by: str
    waits: str
    key: str = ""


class Own:
    """The accounts of a holder behind the last settled day."""

    def __init__(self, settled: Settled, holder: int, of_holders: Mapping[int, Sequence[int]]) -> None:
        """`of_holders` has the accounts of each holder."""
        self.settled, self.holder = settled, holder
        blocks = ((number, settled.report.book[number]) for number in of_holders.get(holder, ()))
        self.book = {number: block for number, block in blocks if block.holder == holder}
        self.report = replace(settled.report, book=self.book, log=[])

    def account(self, number: int) -> rules.Account:
        """An account of the holder. Raises NotTaken alike for one of others and for one that is not there."""
        if number not in self.book:
            raise NotTaken("none of your accounts has this number")
        return self.book[number].account()

    def statements(self, days: Days, most: int) -> dict[int, OwnStatement]:
        """The statement of each account over the last days, at most so many, and from none on that another holder had
        it."""
        dates, numbers = days.dates[-most:], [*self.book]
        told = [*map(DayTold, excerpts(days, dates, numbers))] if numbers else []
        places = places_by_number(told, numbers) if numbers else {}
        return {number: OwnStatement(self.settled, number, [day.told for day in told[place:]])
                for number, place in places.items()}  # fmt: skip

    def standings(self, year: int) -> list[Standing]:
        """How the accounts stand for a year."""
        return [*standings_alone(self.settled.day, self.report, year)]

    def tasks(self, due: DueDates) -> list[str]:
        """What is to be done for the accounts, and by when."""
        tasks = tasks_of(due, self.settled.day, self.report, standings_alone)
        return [str(task) for number in self.book for task in tasks.get(number, [])]

    def handed_in(self, office: Office, login: str) -> list[Handed]:
        """What was handed in for the next day of the accounts."""
        handed_in = approvals.handed_in_of(office)
        return [self.told(office, handed_in, part, row, login) for part, row in self.rows_handed(handed_in)]

    def rows_handed(self, handed_in: HandedIn) -> Iterable[tuple[Part, str]]:
        """The rows of instructions that count, of the accounts, each with its part."""
        for part in handed_in.parts:
            for item in handed_in.items_left(part) if part.kind == intake.DO else ():
                if int(item.rows[0].split(",", 6)[5]) in self.book:
                    yield part, item.rows[0]

    def in_words(self, instruction: rules.Instruction) -> OwnWords:
        """An instruction of an account of the holder, as they may see it."""
        return OwnWords(Waiting(None, instruction), instruction.first, users_of(self.book[instruction.first]))

    def words_of(self, row: str) -> str:
        """What a row asks for, for an account of the holder, with who proposes and approves it, and what the account
        holds."""
        instruction = rules.read_instruction(row.split(",")[1:])
        entry, user = self.in_words(instruction), self.settled.names.user
        by = f"proposed on {instruction.proposed} by {user(instruction.proposer)}"
        approver = f"{user(instruction.approver)} is asked to approve" if instruction.approver else "nobody approves it"
        held = " and ".join(f"{grouped(held)} {kind}" for kind, held in self.account(entry.number).held.items())
        return f"account {entry.number}, {entry.words_with_amount}, {by}; {approver}. The account holds {held}"

    def told(self, office: Office, handed_in: HandedIn, part: Part, row: str, login: str) -> Handed:
        """What a holder is told of an instruction."""
        instruction = rules.read_instruction(row.split(",")[1:])
        number, entry = instruction.first, self.in_words(instruction)
        by = ", ".join(map(self.settled.names.user, filter(None, entry.fields[1:3])))
        waits, key = "", ""
        if part in handed_in.waiting:
            others = {user for user in instruction.fields[1:3] if user} - {str(user_of(office, part.login))}
            names = " or ".join(map(self.settled.names.user, sorted(others & users_of(self.book[number]))))
            waits = f"waits for {names}, or for the office" if names else "waits for the office"
            if may_approve(office, part, login):
                waits, key = "waits for you", sum_of_outcome([row])
        return Handed(number, entry.words_with_amount, str(instruction.proposed), by, waits, key)


def user_of(office: Office, login: str) -> int | None:
    """The user to which a login is tied, if it is to one."""
    person = office.people.named.get(people.person_of(login))
    return person.tied_to(people.USER) if person else None


def may_approve(office: Office, part: Part, login: str) -> bool:
    """Whether a login that is tied to a holder may approve what another one of this holder asked for: if it names this
    one's user."""
    is_other = people.person_of(login) not in office.people.hands_of(part.login)
    return is_other and approvals.commands_for(office, part, login) == (people.OWN,)
