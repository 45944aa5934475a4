"""The rows of day texts and reports as typed values."""
from __future__ import annotations

from dataclasses import dataclass, field
from datetime import date
from enum import Enum
from typing import Any, Optional, Sequence, Union

from registry import native
from registry.advice import advice_for


class Act(Enum):
    """What an instruction asks for, by its word in a text."""

    TRANSFER = "transfer"
    RETURN = "return"
    SURRENDER = "surrender"
    DELETE = "delete"
    REVERSE = "reverse"
    CREATE = "create"
    CENTRAL = "central"
    DISTRIBUTE = "distribute"
    TRUST = "trust"
    UNTRUST = "untrust"
    STATUS = "status"
    EMISSIONS = "emissions"
    ASSESS = "assess"


# What the fields behind the word of an act say, in their order. Behind those of a distribution stand its shares.
FIELDS: dict[Act, tuple[str, ...]] = {
    Act.TRANSFER: ("from_account", "to", "kind", "amount"),
    Act.RETURN: ("from_account", "to", "kind", "amount"),
    Act.SURRENDER: ("from_account", "kind", "amount"),
    Act.DELETE: ("from_account", "kind", "amount"),
    Act.REVERSE: ("from_account", "record_named"),
    Act.CREATE: ("to", "kind", "amount"),
    Act.CENTRAL: ("from_account", "to", "kind", "amount"),
    Act.DISTRIBUTE: ("from_account", "kind"),
    Act.TRUST: ("from_account", "to"),
    Act.UNTRUST: ("from_account", "to"),
    Act.STATUS: ("from_account", "status"),
    Act.EMISSIONS: ("from_account", "year", "amount"),
    Act.ASSESS: ("from_account", "year"),
}
_WORDS = {"kind", "status"}


@dataclass(frozen=True)
class Share:
    """What an account receives of a distribution."""

    to: int
    amount: int


@dataclass(frozen=True)
class Instruction:
    """A row `do`: what `./day log` has in columns. What the act does not name is None."""

    proposed: date
    proposer: int
    approver: Optional[int]
    act: Act
    # The account that gives, or the one whose list, status, emissions or figure the act changes.
    from_account: Optional[int] = None
    # The account that receives, or the one that a trusted list names.
    to: Optional[int] = None
    kind: Optional[str] = None
    # In allowances: of a distribution all that it gives. In tonnes of an entry of emissions.
    amount: Optional[int] = None
    year: Optional[int] = None
    status: Optional[str] = None
    # The record number of the surrender or the deletion that is reversed.
    record_named: Optional[int] = None
    # Of a distribution: who receives how much.
    shares: tuple[Share, ...] = ()

    @classmethod
    def of(cls, fields: Sequence[str]) -> Instruction:
        proposed, proposer, approver, word, *rest = fields
        names = FIELDS[Act(word)]
        said: dict[str, Any] = {
            name: value if name in _WORDS else int(value) for name, value in zip(names, rest)
        }
        numbers = [int(value) for value in rest[len(names) :]]
        shares = tuple(Share(*pair) for pair in zip(numbers[::2], numbers[1::2]))
        if shares:
            said["amount"] = sum(share.amount for share in shares)
        day, user = date.fromisoformat(proposed), int(approver) if approver else None
        return cls(day, int(proposer), user, Act(word), **said, shares=shares)


@dataclass(frozen=True)
class Holding:
    """What an account holds, in allowances."""

    account: int
    general: int
    aviation: int


@dataclass(frozen=True)
class Done:
    """An instruction was done: what an assessment determined, in tonnes, and what the accounts of the act then held."""

    closing: tuple[Holding, ...]
    figure: Optional[int] = None


@dataclass(frozen=True)
class Refused:
    """An instruction was refused: the code and the name of the first check that failed."""

    code: int
    name: str

    @property
    def sentence(self) -> str:
        """Why this check refuses an instruction, in a sentence of the engine."""
        return native.refusal_sentence(self.code)

    @property
    def what_to_do(self) -> str:
        """What to do about it."""
        return advice_for(self.code)


@dataclass(frozen=True)
class LogRow:
    """A row of the log."""

    record: int
    day: date
    instruction: Instruction
    outcome: Union[Done, Refused]

    @property
    def is_done(self) -> bool:
        return isinstance(self.outcome, Done)

    @staticmethod
    def of(row: str) -> LogRow:
        _, record, day, *rest = row.split(",")
        # (no field of an act is one of these words)
        end = next(place for place, value in enumerate(rest) if value in ("done", "refused"))
        outcome, behind = rest[end], rest[end + 1 :]
        number, settled, instruction = int(record), date.fromisoformat(day), Instruction.of(rest[:end])
        if outcome == "done":
            return LogRow(number, settled, instruction, _done(behind))
        return RefusedRow(number, settled, instruction, Refused(int(behind[0]), behind[1]))


@dataclass(frozen=True)
class RefusedRow(LogRow):
    """A row of the log whose instruction was refused."""

    outcome: Refused


def _done(fields: Sequence[str]) -> Done:
    figure, *closing = fields
    numbers = [int(value) for value in closing]
    holdings = tuple(Holding(*numbers[start : start + 3]) for start in range(0, len(numbers), 3))
    return Done(holdings, int(figure) if figure else None)


@dataclass(frozen=True)
class Retired:
    """A surrender or a deletion of an account. `period` is that of a surrender, and None for a deletion."""

    record: int
    what: str
    kind: str
    amount: int
    day: date
    is_reversed: bool
    period: Optional[int]

    @classmethod
    def of(cls, fields: Sequence[str]) -> Retired:
        record, what, kind, amount, day, is_reversed, *period = fields
        of_period = None if what == "deletion" else int(period[0]) if period else 1
        return cls(int(record), what, kind, int(amount), date.fromisoformat(day), is_reversed == "yes", of_period)


@dataclass
class Account:
    """An account with the rows of its lists. Amounts are allowances; corrections, emissions and figures are tonnes."""

    number: int
    kind: str
    holder: int
    status: str
    allows_outside: bool
    has_waiver: bool
    general: int
    aviation: int
    # By period.
    corrections: dict[int, int]
    # The right of each representative.
    users: dict[int, str] = field(default_factory=dict)
    # The day on which each entry of the trusted list takes effect.
    trusted: dict[int, date] = field(default_factory=dict)
    retired: list[Retired] = field(default_factory=list)
    # By year.
    emissions: dict[int, int] = field(default_factory=dict)
    figures: dict[int, int] = field(default_factory=dict)

    @classmethod
    def of(cls, fields: Sequence[str]) -> Account:
        number, kind, holder, status, outside, waiver, correction, general, aviation = fields
        is_outside, has_waiver = outside == "yes", waiver == "yes"
        corrections = {1: int(correction)}
        return cls(
            int(number), kind, int(holder), status, is_outside, has_waiver, int(general), int(aviation), corrections
        )

    def add(self, tag: str, fields: Sequence[str]) -> None:
        """Takes a row of one of its lists."""
        if tag == "user":
            self.users[int(fields[0])] = fields[1]
        elif tag == "trusted":
            self.trusted[int(fields[0])] = date.fromisoformat(fields[1])
        elif tag == "retired":
            self.retired.append(Retired.of(fields))
        else:
            numbers = {"correction": self.corrections, "emissions": self.emissions, "figure": self.figures}[tag]
            numbers[int(fields[0])] = int(fields[1])


@dataclass(frozen=True)
class Totals:
    """What all accounts together hold, have surrendered and have deleted of a kind of allowance."""

    kind: str
    held: int
    surrendered: int
    deleted: int


@dataclass(frozen=True)
class Task:
    """The place of an instruction in the plan: it waits for those of lower levels that the arrows name."""

    place: int
    level: int
    # The places that it waits for, each with the account that both touch.
    waits_for: tuple[tuple[int, int], ...]


@dataclass(frozen=True)
class Determined:
    """A determined compliance figure, in tonnes."""

    account: int
    year: int
    figure: int
