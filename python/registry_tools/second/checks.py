"""The checks of docs/RULES.md once more, in plain Python and in their order: each is a function, whose name is that of
the check. It was written from the rules in words, and not from the program or its definitions."""
import datetime
import functools
from dataclasses import dataclass, field
from typing import Callable

from registry_tools.second.days import HOLDERS, OPERATORS, Account, Day, Instruction, Row, known
from registry_tools.tables import MOST_HELD, MOST_RETIRED, MOST_ROWS, MOST_TONNES, MOST_TRUSTED

BY_ADMINISTRATORS = {"reverse", "create", "central", "distribute", "status", "emissions", "assess"}
LEAVES = {"transfer", "surrender", "delete", "return", "central", "distribute"}
# From which kinds of account to which; an act that is not here has one account.
BETWEEN = {
    "transfer": {(first, to) for first in HOLDERS for to in HOLDERS},
    "return": {(first, "allocation") for first in OPERATORS},
    "central": {
        ("total", "allocation"), ("allocation", "total"), ("allocation", "operator"), ("allocation", "aircraft"),
    },
    "distribute": {("allocation", to) for to in OPERATORS},
}  # fmt: skip
OF_KINDS = {"surrender": OPERATORS, "emissions": OPERATORS, "assess": OPERATORS, "create": {"total"}}
NEEDS_STATUS = {"transfer": {"open"}, "delete": {"open"}, "assess": {"open", "blocked"}}
NOT_CLOSED = {"open", "blocked", "excluded"}
RETIRES_AS = {"surrender": "surrender", "delete": "deletion"}


@dataclass(frozen=True)
class Passing:
    """What was found, in sentences; the fields of the instruction, by their names, that would pass the check; and the
    first settlement day on which it would."""

    found: str
    fields: dict[str, int | str] = field(default_factory=dict)
    date: datetime.date | None = None


class Asked:
    """What the checks ask about: an instruction, and the accounts as the instructions before it left them."""

    def __init__(self, day: Day, i: Instruction) -> None:
        self.day, self.i, self.act = day, i, i.act

    # (the first check refuses what names an account that is not there: no other one is asked then)

    @functools.cached_property
    def first(self) -> Account:
        """The account that the instruction names first."""
        return self.day.accounts[self.i.first]

    @functools.cached_property
    def receivers(self) -> list[Account]:
        """The accounts that receive something."""
        return [self.day.accounts[to] for to, _ in self.i.shares]

    def is_entitled(self, user: int, right: str) -> bool:
        """Whether the user may propose, or approve, the act."""
        if self.act in BY_ADMINISTRATORS:
            return user in self.day.admins
        return self.first.users.get(user) in (right, "both")

    def trusts(self) -> bool:
        """Whether it is a transfer to a trusted account."""
        return self.act == "transfer" and self.first.trusts(self.receivers[0], self.day.date)

    def lag(self) -> int:
        """How many working days it waits."""
        return 0 if self.act != "transfer" else self.day.lags["trusted" if self.trusts() else "other"]

    def due(self) -> datetime.date | None:
        """The due day; None if the calendar does not have it."""
        return self.day.due(self.i.proposed, self.lag())

    def row(self) -> Row:
        """What is to be reversed."""
        return self.first.rows[known(self.i.number)]


def asked_for(i: Instruction) -> list[int]:
    """The accounts that must be in the book."""
    other = [known(i.other)] if i.act == "trust" else []
    return [i.first, *(to for to, _ in i.shares), *other]


# The checks in their order, which is that of their functions below: each is asked only if all before it pass.
CHECKS: list[Callable[[Asked], bool]] = []


def check(fails: Callable[[Asked], bool]) -> Callable[[Asked], bool]:
    """Makes a function the next check: it says whether the check fails."""
    CHECKS.append(fails)
    return fails


@check
def unknown_account(asked: Asked) -> bool:
    """Whether an account that is named does not exist."""
    return any(number not in asked.day.accounts for number in asked_for(asked.i))


@check
def same_account(asked: Asked) -> bool:
    """Whether an account is named twice."""
    return len({*asked_for(asked.i)}) < len(asked_for(asked.i))


@check
def wrong_account_kind(asked: Asked) -> bool:
    """Whether the act is not for this kind of account."""
    if asked.act in BETWEEN:
        return any((asked.first.kind, to.kind) not in BETWEEN[asked.act] for to in asked.receivers)
    return asked.first.kind not in OF_KINDS.get(asked.act, HOLDERS)


@check
def source_status(asked: Asked) -> bool:
    """Whether the status of the first account does not allow the act."""
    return asked.act != "create" and asked.first.status not in NEEDS_STATUS.get(asked.act, NOT_CLOSED)


@check
def destination_status(asked: Asked) -> bool:
    """Whether an account that receives is closed."""
    return any(to.status == "closed" for to in ([asked.first] if asked.act == "create" else asked.receivers))


@check
def not_proposer(asked: Asked) -> bool:
    """Whether the proposer may not propose for the account."""
    return not asked.is_entitled(asked.i.proposer, "propose")


@check
def approval_missing(asked: Asked) -> bool:
    """Whether nobody approves what needs approval."""
    return asked.i.approver is None and not (asked.trusts() and asked.first.waiver)


@check
def same_representative(asked: Asked) -> bool:
    """Whether one user proposes and approves."""
    return asked.i.approver == asked.i.proposer


@check
def not_approver(asked: Asked) -> bool:
    """Whether the approver may not approve for the account."""
    return asked.i.approver is not None and not asked.is_entitled(asked.i.approver, "approve")


@check
def not_trusted(asked: Asked) -> bool:
    """Whether the transfer is to no trusted account, and the account makes no others."""
    return asked.act == "transfer" and not asked.trusts() and not asked.first.outside


@check
def outside_calendar(asked: Asked) -> bool:
    """Whether the calendar does not have the due day, or that of an entry of the list."""
    return asked.due() is None or (
        asked.act == "trust" and asked.day.due(asked.day.date, asked.day.lags["list"]) is None
    )


@check
def not_due(asked: Asked) -> bool:
    """Whether the due day is still to come."""
    return known(asked.due()) > asked.day.date


@check
def kind_not_allowed(asked: Asked) -> bool:
    """Whether the account may not surrender this kind of allowance."""
    return asked.act == "surrender" and (asked.first.kind, asked.i.kind) not in asked.day.pairs


@check
def zero_amount(asked: Asked) -> bool:
    """Whether an amount is 0."""
    return 0 in asked.i.amounts


@check
def unknown_transaction(asked: Asked) -> bool:
    """Whether there is no such row to reverse."""
    return asked.act == "reverse" and asked.i.number not in asked.first.rows


@check
def already_reversed(asked: Asked) -> bool:
    """Whether the row is reversed already."""
    return asked.act == "reverse" and asked.row().is_reversed


@check
def window_closed(asked: Asked) -> bool:
    """Whether the window for a reversal is over."""
    last = asked.day.due(asked.row().date, asked.day.lags["reversal"]) if asked.act == "reverse" else None
    return last is not None and last < asked.day.date


@check
def not_enough(asked: Asked) -> bool:
    """Whether the account holds less than the amount."""
    return asked.act in LEAVES and asked.first.held[known(asked.i.kind)] < sum(asked.i.amounts)


@check
def holding_too_large(asked: Asked) -> bool:
    """Whether an account would hold too much."""
    if asked.act == "reverse":
        return asked.first.held[asked.row().kind] + asked.row().amount > MOST_HELD
    if asked.act == "create":
        return asked.first.held[known(asked.i.kind)] + asked.i.amounts[0] > MOST_HELD
    pairs = zip(asked.receivers, asked.i.shares)
    return any(to.held[known(asked.i.kind)] + amount > MOST_HELD for to, (_, amount) in pairs)


@check
def retired_too_large(asked: Asked) -> bool:
    """Whether too much would be surrendered or deleted."""
    return (
        asked.act in RETIRES_AS
        and asked.first.retired(RETIRES_AS[asked.act], known(asked.i.kind)) + asked.i.amounts[0] > MOST_RETIRED
    )


@check
def rows_full(asked: Asked) -> bool:
    """Whether the account has no room for one more row."""
    return asked.act in RETIRES_AS and len(asked.first.rows) >= MOST_ROWS


@check
def would_become_non_compliant(asked: Asked) -> bool:
    """Whether the account would no longer have surrendered enough."""
    if asked.act != "reverse" or asked.row().what != "surrender":
        return False
    return takes_too_much(asked, asked.row())


def takes_too_much(asked: Asked, row: Row) -> bool:
    """Whether a surrender cannot be taken back, since the figure would fall below 0."""
    now = figure_before(asked, row)
    return now is not None and 0 <= now < row.amount


def figure_before(asked: Asked, row: Row) -> int | None:
    """The figure of the last determined year in the period of a surrender, as it is now."""
    first, last = asked.day.periods[known(row.period) - 1]
    years = [year for year in asked.first.figures if first <= year <= last]
    return asked.day.figure(asked.first, max(years)) if years else None


@check
def already_trusted(asked: Asked) -> bool:
    """Whether the account is on the list already."""
    return asked.act == "trust" and asked.i.other in asked.first.trusted


@check
def not_on_list(asked: Asked) -> bool:
    """Whether the account is not on the list."""
    return asked.act == "untrust" and asked.i.other not in asked.first.trusted


@check
def list_full(asked: Asked) -> bool:
    """Whether the list has no room for one more account."""
    return asked.act == "trust" and len(asked.first.trusted) >= MOST_TRUSTED


@check
def year_outside_period(asked: Asked) -> bool:
    """Whether the year is in no period."""
    return asked.act in ("emissions", "assess") and asked.day.period_of(known(asked.i.year)) is None


@check
def amount_too_large(asked: Asked) -> bool:
    """Whether the emissions are too many tonnes."""
    return asked.act == "emissions" and known(asked.i.tonnes) > MOST_TONNES


@check
def emissions_missing(asked: Asked) -> bool:
    """Whether the account has no figure for the year."""
    return asked.act == "assess" and asked.day.figure(asked.first, known(asked.i.year)) is None


def name_of(check: Callable[..., object]) -> str:
    """The name of a check, by that of its function."""
    return "".join(word.capitalize() for word in check.__name__.split("_"))
