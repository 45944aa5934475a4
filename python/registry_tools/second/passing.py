"""What a check found that refuses an instruction, with the figures of the day, and what would pass it. It was written
from docs/RULES.md, as the checks are; that what it names does pass, trials show by doing it."""
import datetime
from collections.abc import Callable, Iterable, Iterator

from registry_tools.second import checks
from registry_tools.second.checks import (
    BETWEEN, BY_ADMINISTRATORS, NEEDS_STATUS, NOT_CLOSED, OF_KINDS, RETIRES_AS, Asked, Passing,
)  # fmt: skip
from registry_tools.second.days import HOLDERS, Account, Day, Row, known
from registry_tools.tables import ACTS, MOST_HELD, MOST_RETIRED, MOST_ROWS, MOST_TONNES, MOST_TRUSTED

# So many of several are named; and what the first account of an act is called.
MOST_NAMED = 5
FIRST = {act.word: act.fields.partition(" ")[0].lower() for act in ACTS}


PASSING: dict[str, Callable[[Asked], Passing]] = {}


def of_check(told: Callable[[Asked], Passing]) -> Callable[[Asked], Passing]:
    """Makes a function what is told of a refusal: its name is that of its check behind `at_`."""
    PASSING[checks.name_of(told).removeprefix("At")] = told
    return told


def passing(asked: Asked, name: str) -> Passing:
    """What the check of this name found, which refuses the instruction."""
    return PASSING[name](asked)


def several(numbers: Iterable[object]) -> str:
    """Some of several, in words."""
    words = [*map(str, numbers)]
    more = f" and {len(words) - MOST_NAMED:,} more" if len(words) > MOST_NAMED else ""
    return f"{', '.join(words[:MOST_NAMED])}{more}" if words else "nobody"


# Accounts.


@of_check
def at_unknown_account(asked: Asked) -> Passing:
    """Numbers that one slip makes of those that are there may be meant."""
    lacking = [number for number in checks.asked_for(asked.i) if number not in asked.day.accounts]
    others = asked.day.accounts.keys() - {*checks.asked_for(asked.i)}
    near = sorted(others & {*near_to(lacking[0])})
    meant = f": {several(near)} may be meant" if near else ""
    names = [name for name, number in account_fields(asked) if number == lacking[0]]
    return Passing(f"There is no account {several(lacking)}{meant}.", {names[0]: near[0]} if near else {})


def account_fields(asked: Asked) -> Iterator[tuple[str, int]]:
    """The fields of an instruction that name accounts."""
    i = asked.i
    yield FIRST[i.act], i.first
    for place, (to, _) in enumerate(i.shares, 1):
        yield ("to" if place == 1 else f"to{place}"), to
    if i.other is not None:
        yield "other", i.other


def near_to(number: int) -> Iterator[int]:
    """The numbers that are made of one by another digit, two changed ones, one more or one less."""
    word = str(number)
    for place in range(len(word) + 1):
        before, after = word[:place], word[place:]
        made = [f"{before}{digit}{rest}" for digit in "0123456789" for rest in {after, after[1:]}]
        made += [before + after[1:], before + after[1:2] + after[:1] + after[2:]]
        yield from (int(found) for found in made if found and found[0] != "0" and found != word)


@of_check
def at_same_account(asked: Asked) -> Passing:
    """The account that stands twice."""
    numbers = checks.asked_for(asked.i)
    twice = next(number for place, number in enumerate(numbers) if number in numbers[:place])
    return Passing(f"Account {twice} stands there twice.")


@of_check
def at_wrong_account_kind(asked: Asked) -> Passing:
    """Between which kinds the act is."""
    first, act = asked.first, asked.act
    if act not in BETWEEN:
        kinds = several(sorted(OF_KINDS.get(act, HOLDERS)))
        return Passing(f"Account {first.number} is of the kind {first.kind}; this act is for {kinds}.")
    pairs = BETWEEN[act]
    receivers = sorted({to for of, to in pairs if of == first.kind})
    if not receivers:
        kinds = several(sorted({of for of, _ in pairs}))
        return Passing(f"Account {first.number} is of the kind {first.kind}; this act leaves {kinds}.")
    wrong = [f"{to.number} ({to.kind})" for to in asked.receivers if to.kind not in receivers]
    return Passing(f"From {first.kind} this act goes to {several(receivers)}, and not to {several(wrong)}.")


@of_check
def at_source_status(asked: Asked) -> Passing:
    """Which status would do."""
    first = asked.first
    wanted = " or ".join(sorted(NEEDS_STATUS.get(asked.act, NOT_CLOSED)))
    closed = ", and stays so" if first.status == "closed" else ""
    return Passing(f"Account {first.number} is {first.status}{closed}; this act needs {wanted}.")


@of_check
def at_destination_status(asked: Asked) -> Passing:
    """Which of those that receive is closed."""
    receivers = [asked.first] if asked.act == "create" else asked.receivers
    closed = several(to.number for to in receivers if to.status == "closed")
    return Passing(f"Account {closed} is closed, and stays so.")


# Users.


def entitled(day: Day, account: Account, act: str, right: str) -> list[int]:
    """Who may propose, or approve, an act for an account."""
    if act in BY_ADMINISTRATORS:
        return sorted(day.admins)
    return [user for user, has in sorted(account.users.items()) if has in (right, "both")]


def of_users(asked: Asked, what: str, right: str, other: int | None) -> Passing:
    """Who has a right for the account, besides the other one of both."""
    users = [user for user in entitled(asked.day, asked.first, asked.act, right) if user != other]
    whose = "this act" if asked.act in BY_ADMINISTRATORS else f"account {asked.first.number}"
    role = {"propose": "proposer", "approve": "approver"}[right]
    found = f"{what}; for {whose} {several(users)} may {right}{'' if other is None else f', besides {other}'}."
    return Passing(found, {role: users[0]} if users else {})


@of_check
def at_not_proposer(asked: Asked) -> Passing:
    """Who may propose."""
    return of_users(asked, f"User {asked.i.proposer} may not propose", "propose", asked.i.approver)


@of_check
def at_approval_missing(asked: Asked) -> Passing:
    """Who may approve."""
    return of_users(asked, "Nobody approves", "approve", asked.i.proposer)


@of_check
def at_same_representative(asked: Asked) -> Passing:
    """Who may approve in place of who proposes."""
    return of_users(asked, f"User {asked.i.proposer} proposes and approves", "approve", asked.i.proposer)


@of_check
def at_not_approver(asked: Asked) -> Passing:
    """Who may approve."""
    return of_users(asked, f"User {asked.i.approver} may not approve", "approve", asked.i.proposer)


# Lists, and days.


@of_check
def at_not_trusted(asked: Asked) -> Passing:
    """Whom the account trusts, and from when on."""
    first, to = asked.first, asked.receivers[0].number
    entries = [f"{other} from {date} on" for other, date in sorted(first.trusted.items())]
    listed = f"its list has {several(entries)}" if entries else "its list is empty"
    found = f"Account {first.number} does not trust {to} on {asked.day.date}: {listed}."
    return Passing(found, date=first.trusted.get(to))


@of_check
def at_outside_calendar(asked: Asked) -> Passing:
    """Up to when the calendar goes."""
    days = asked.day.working_days
    lag = asked.day.lags["list"] if asked.due() is not None else asked.lag()
    since = asked.i.proposed if asked.due() is None else asked.day.date
    last = f"ends on {days[-1]}" if days else "has no working day"
    return Passing(f"The calendar {last}; {lag + 1} working days from {since} on are needed.")


@of_check
def at_not_due(asked: Asked) -> Passing:
    """When it is due."""
    due = known(asked.due())
    return Passing(f"It is due on {due:%A} {due}.", date=due)


# Allowances.


@of_check
def at_kind_not_allowed(asked: Asked) -> Passing:
    """Which kinds the account may surrender."""
    kinds = sorted(kind for of, kind in asked.day.pairs if of == asked.first.kind)
    may = several(kinds) if kinds else "nothing"
    found = f"Account {asked.first.number} is of the kind {asked.first.kind}, which may surrender {may}."
    return Passing(found, {"kind": kinds[0]} if kinds else {})


@of_check
def at_zero_amount(asked: Asked) -> Passing:
    """At least 1."""
    place = asked.i.amounts.index(0) + 1
    which = f"Amount {place} of {len(asked.i.amounts)}" if len(asked.i.amounts) > 1 else "The amount"
    return Passing(f"{which} is 0; at least 1 passes.", {"amount" if place == 1 else f"amount{place}": 1})


@of_check
def at_not_enough(asked: Asked) -> Passing:
    """How much is there, and lacks."""
    held, wanted = asked.first.held[known(asked.i.kind)], sum(asked.i.amounts)
    found = f"Account {asked.first.number} holds {held:,} {asked.i.kind}, {wanted:,} are asked: {wanted - held:,} lack."
    return Passing(found, {"amount": held} if held and len(asked.i.amounts) == 1 else {})


def room_for(asked: Asked, account: Account, kind: str, amount: int) -> Passing:
    """How much more an account may hold."""
    room = MOST_HELD - account.held[kind]
    found = f"Account {account.number} may hold {room:,} more {kind}, and would get {amount:,}."
    return Passing(found, {"amount": room} if room and len(asked.i.amounts) == 1 else {})


@of_check
def at_holding_too_large(asked: Asked) -> Passing:
    """How much more the account may hold that would hold too much."""
    if asked.act == "reverse":
        return room_for(asked, asked.first, asked.row().kind, asked.row().amount)
    kind = known(asked.i.kind)
    if asked.act == "create":
        return room_for(asked, asked.first, kind, asked.i.amounts[0])
    pairs = [*zip(asked.receivers, asked.i.amounts)]
    return next(room_for(asked, to, kind, amount) for to, amount in pairs if to.held[kind] + amount > MOST_HELD)


@of_check
def at_retired_too_large(asked: Asked) -> Passing:
    """How much more may be surrendered or deleted."""
    what = RETIRES_AS[asked.act]
    room = MOST_RETIRED - asked.first.retired(what, known(asked.i.kind))
    found = f"Each {what} of account {asked.first.number} together has room for {room:,} more {asked.i.kind}."
    return Passing(found, {"amount": room} if room else {})


@of_check
def at_rows_full(asked: Asked) -> Passing:
    """How many surrenders and deletions there are."""
    count = len(asked.first.rows)
    return Passing(f"Account {asked.first.number} has {count:,} surrenders and deletions, of {MOST_ROWS:,}.")


# Reversals.


def may_be_reversed(asked: Asked) -> list[tuple[int, Row]]:
    """The surrenders and deletions of the account that may be reversed on the day."""
    lag, day = asked.day.lags["reversal"], asked.day
    return [(number, row) for number, row in sorted(asked.first.rows.items())
            if not row.is_reversed and (day.due(row.date, lag) or datetime.date.max) >= day.date
            and not (row.what == "surrender" and checks.takes_too_much(asked, row))]  # fmt: skip


def of_rows(asked: Asked, what: str) -> Passing:
    """Which records may be reversed."""
    rows = may_be_reversed(asked)
    told = [f"{number} ({row.what} of {row.amount:,} {row.kind} on {row.date})" for number, row in rows]
    may = f"these may be reversed: {several(told)}" if told else "none may be reversed"
    return Passing(f"{what}; of account {asked.first.number} {may}.", {"number": rows[0][0]} if rows else {})


@of_check
def at_unknown_transaction(asked: Asked) -> Passing:
    """The record that is not there."""
    return of_rows(asked, f"There is no record {asked.i.number}")


@of_check
def at_already_reversed(asked: Asked) -> Passing:
    """The record that was reversed."""
    return of_rows(asked, f"Record {asked.i.number} was reversed before")


@of_check
def at_window_closed(asked: Asked) -> Passing:
    """When the window ended."""
    last = known(asked.day.due(asked.row().date, asked.day.lags["reversal"]))
    return of_rows(asked, f"Record {asked.i.number} could be reversed up to {last}")


@of_check
def at_would_become_non_compliant(asked: Asked) -> Passing:
    """How much may be taken back."""
    now = known(checks.figure_before(asked, asked.row()))
    return of_rows(asked, f"The figure is {now:,}, and {asked.row().amount:,} would be taken back")


# Trusted lists, and years.


@of_check
def at_already_trusted(asked: Asked) -> Passing:
    """From when on it counts."""
    other = known(asked.i.other)
    return Passing(f"Account {other} is on the list of {asked.first.number} from {asked.first.trusted[other]} on.")


@of_check
def at_not_on_list(asked: Asked) -> Passing:
    """Who is on the list."""
    others = sorted(asked.first.trusted)
    found = f"The list of account {asked.first.number} has {several(others) if others else 'no account'}."
    return Passing(found, {"other": others[0]} if others else {})


@of_check
def at_list_full(asked: Asked) -> Passing:
    """How many are on the list."""
    count = len(asked.first.trusted)
    return Passing(f"The list of account {asked.first.number} has {count:,} accounts, of {MOST_TRUSTED:,}.")


@of_check
def at_year_outside_period(asked: Asked) -> Passing:
    """Which years there are."""
    periods, year = asked.day.periods, known(asked.i.year)
    near = min((edge for first, last in periods for edge in (first, last)), key=lambda edge: abs(edge - year))
    told = several(f"{first} to {last}" for first, last in periods)
    return Passing(f"{year} is in no period; they are {told}.", {"year": near})


@of_check
def at_amount_too_large(asked: Asked) -> Passing:
    """How many tonnes may be entered."""
    return Passing(f"{asked.i.tonnes:,} tonnes are more than {MOST_TONNES:,}.", {"tonnes": MOST_TONNES})


@of_check
def at_emissions_missing(asked: Asked) -> Passing:
    """Which years lack emissions."""
    year = known(asked.i.year)
    first = asked.day.periods[known(asked.day.period_of(year)) - 1][0]
    lacking = [lacked for lacked in range(first, year + 1) if lacked not in asked.first.emissions]
    years = [past for past in range(first, year) if asked.day.figure(asked.first, past) is not None]
    known_years = f"; there is a figure up to {years[-1]}" if years else ""
    found = f"Account {asked.first.number} has no emissions for {several(lacking)}{known_years}."
    return Passing(found, {"year": years[-1]} if years else {})
