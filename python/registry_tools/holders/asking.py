"""What a holder asks for at the desk: an instruction of an account of theirs, proposed by their own user and by no
other, or a yes to one that names it. It is an event by their login, and waits as what anybody hands in."""
import contextlib
import datetime
from collections.abc import Iterator, Mapping

from registry_tools.errors import shown
from registry_tools.holders.own import Own, NotTaken, may_approve
from registry_tools.office import approvals, approve, composing, hand_in, intake, incoming, people
from registry_tools.office.hand_in import HadFault, Here
from registry_tools.office.incoming import Given, Incoming
from registry_tools.office.office import By, Office, sum_of_outcome
from registry_tools.office.people import HOLDER, OWN, USER, Person
from registry_tools.second import faults, passing, rules
from registry_tools.store.events import APPROVED
from registry_tools.texts.rows import KeptText

# What representatives propose.
ACTS = tuple(act for act in faults.ACT_WORDS if act not in rules.BY_ADMINISTRATORS)
NAME = "at the desk of holders"
# So much may wait that logins of a holder asked for.
MOST = 200
HAD = "the same was handed in before, or is done"
LOOKS = "your login looks, and asks for nothing: office.ini names no user for it"


class AskedBefore(NotTaken):
    """The same instruction was handed in before."""


def own_user(person: Person) -> int:
    """The user as whom a login asks. Raises NotTaken if it has none."""
    user = person.tied_to(USER)
    if user is None:
        raise NotTaken(LOOKS)
    return user


def next_day(office: Office, of_holder: Own) -> datetime.date:
    """The working day behind the last settled day, on which an instruction is proposed: nobody chooses an earlier one,
    by which it would wait for less long."""
    date = of_holder.settled.head.date
    return next((each for each in composing.filed_calendar(office, composing.last_day(office)) if each > date),
                date + datetime.timedelta(1))  # fmt: skip


def approvers(of_holder: Own, person: Person, act: str, number: int) -> list[int]:
    """Who else may approve an act for an account."""
    users = passing.entitled(of_holder.settled.head, of_holder.account(number), act, "approve")
    return [user for user in users if user != person.tied_to(USER)]


def words_asked(of_holder: Own, person: Person, answers: Mapping[str, str], date: datetime.date) -> dict[str, str]:
    """The fields of an instruction, by what a form says. Raises NotTaken if it is of no account of the holder, or names
    somebody else than another representative of it."""
    act, word = answers.get("act", ""), answers.get("account", "")
    if act not in ACTS:
        raise NotTaken("no act was chosen that you may ask for")
    number = int(word) if word.isascii() and word.isdigit() and len(word) < 10 else 0
    of_holder.account(number)
    approver = answers.get("approver", "")
    if approver and approver not in map(str, approvers(of_holder, person, act, number)):
        raise NotTaken(f"{shown(approver)} is nobody else who may approve for account {number}")
    more = {name: word for name, word in answers.items() if name not in ("account", "from", "other_day")}
    return {**more, "proposed": str(date), "proposer": str(own_user(person)), "approver": approver,
            passing.FIRST[act]: str(number)}  # fmt: skip


@contextlib.contextmanager
def asking(office: Office, by: By, of_holder: Own) -> Iterator[Person]:
    """The block changes the folder as a login does that is tied to this holder. Raises NotTaken if it is not."""
    with office.changing(OWN, by):
        person, last = office.people.named.get(people.person_of(office.login)), office.last()
        if person is None or person.tied_to(HOLDER) != of_holder.holder:
            raise NotTaken(LOOKS)
        if last is None or last.date != of_holder.settled.head.date:
            # (an account may be another holder's by now)
            raise NotTaken("another day was settled since you looked: look once more")
        yield person


def ask(office: Office, by: By, of_holder: Own, row: bytes, is_meant: bool) -> None:
    """Hands an instruction in. Raises NotTaken if it is none of the holder's, or there already."""
    with asking(office, by, of_holder) as person:
        came = read(row)
        must_be_own(of_holder, person, came.rows.rows)
        handed_in = approvals.handed_in_of(office)
        own_people = {each.login for each in office.people.named.values() if each.tied_to(HOLDER) == of_holder.holder}
        if sum(people.person_of(part.login) in own_people for part in handed_in.parts) >= MOST:
            raise NotTaken(f"{MOST} instructions of yours wait for the next day: ask for more behind it")
        here = Here(handed_in, {(NAME, line) for line in came.begun if is_meant})
        try:
            hand_in.refuse_instructions(office, here, came)
        except HadFault:
            raise AskedBefore(HAD) from None
        intake.put(office, handed_in, intake.DO, came.content, came.count, NAME)


def must_be_own(of_holder: Own, person: Person, rows: list[str]) -> None:
    """Ends it if the rows are not one instruction of the holder's, proposed by the login's user."""
    instructions = [row.split(",") for row in rows if row != "end"]
    for fields in instructions:
        of_holder.account(int(fields[5]))
    if len(instructions) != 1 or instructions[0][2] != str(own_user(person)) or instructions[0][4] not in ACTS:
        raise NotTaken("one instruction of an account of yours is taken at a time, as your own user")


def read(row: bytes) -> Incoming:
    """What a form hands in. Raises TableFault if a field of it is wrong."""
    return incoming.read(Given(KeptText(NAME, lambda: row), NAME))


def approve_own(office: Office, by: By, of_holder: Own, key: str) -> None:
    """Approves what another login of the holder asked for, by the sum of its row. Raises NotTaken if it does not wait
    for this login."""
    with asking(office, by, of_holder):
        handed_in = approvals.handed_in_of(office)
        waiting = ((part, row) for part, row in of_holder.rows_handed(handed_in) if part in handed_in.waiting)
        found = [part for part, row in waiting if sum_of_outcome([row]) == key]
        if not found or not may_approve(office, found[0], office.login):
            raise NotTaken("this does not wait for you any more")
        part = found[0]
        approve.must_be_other(office, (OWN,), part.who, part.login)
        where = intake.places(part.start, part.end)
        office.add(APPROVED, of=part.event.id, sum=approvals.sum_of_part(handed_in, part), name=where)
