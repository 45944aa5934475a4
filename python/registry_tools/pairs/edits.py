"""Changes by hand as differences: of the account after the last day, and of the first rows of the last day's text.

  account,NO,open,KIND,HOLDER      a new account
  account,NO,put,FIELD,VALUE       a field of the `account` row gets another value
  account,NO,add,TAG,FIELDS        a row of a list, in place of the one with the same first field if there is one
  account,NO,drop,TAG,KEY          the row of a list with this first field is left out
  rules,add,ROW   rules,drop,ROW   a row period, surrender, admin or work is added, or left out
  rules,put,ROW                    the row current or lags gets other values

A difference stays right if the day before it is undone and closed again: it is laid over what that day then leaves.
"""
from typing import Iterable, NamedTuple

from registry_tools import tables, voice
from registry_tools.errors import WordsFault, shown
from registry_tools.second import faults, rules
from registry_tools.texts import changes
from registry_tools.texts.report import Report

ACCOUNT, RULES = "account", "rules"
OPEN, PUT, ADD, DROP = "open", "put", "add", "drop"
ACCOUNT_FIELDS = {field.name: field for field in faults.FIELDS["account"]}
# The rows of a later period are looked at once more in the day, which knows its periods.
PERIOD = faults.number("PERIOD", 1, tables.MOST_PERIODS)
FIELDS: dict[str, list[faults.Field[faults.Value]]] = {
    **faults.FIELDS,
    "current": [PERIOD],
    "correction": [PERIOD, faults.signed("FACTOR", tables.MOST_CORRECTION, may_be_zero=False)],
}
ACCOUNT_PLACES = {field.name: place for place, field in enumerate(faults.FIELDS["account"], 1)}
# The rows of rules that may be added or left out, and those that are there once.
LISTED, SINGLE = ("period", "surrender", "admin", "work"), ("current", "lags")
HEADING = ("format", "day", "period", "current", "lags", "surrender", "admin", "work")
# A new account holds nothing, and has no correction.
NEW_ACCOUNT = "account,{number},{kind},{holder},open,no,no,0,0,0"


class Edit(NamedTuple):
    """A difference: of an account, or of the rules, for which the number is 0."""

    number: int
    how: str
    words: tuple[str, ...]

    def row(self) -> str:
        """The row that says it."""
        start = [ACCOUNT, str(self.number)] if self.number else [RULES]
        return ",".join([*start, self.how, *self.words])


class EditFault(WordsFault):
    """A change by hand cannot be laid over what is there: the `edit`, and `why`."""

    code, remedy = "edit", "take it back, if it was handed in, or change something else"

    def __init__(self, edit: Edit, why: str, place: int | None = None) -> None:
        back = f"{voice.command('take-back', place)} takes it back"
        super().__init__(why if place is None else f"place {place}: {why}; {back}")
        self.edit, self.why = edit, why


def edit_of(row: str) -> Edit:
    """The difference that a row says. Raises WordsFault if it says none."""
    what, *words = row.split(",")
    if what == ACCOUNT and len(words) >= 3 and words[1] in (OPEN, PUT, ADD, DROP):
        return Edit(account_number(words[0]), words[1], tuple(words[2:]))
    if what == RULES and len(words) >= 2 and words[0] in (PUT, ADD, DROP):
        return Edit(0, words[0], tuple(words[1:]))
    raise WordsFault(f"{row} is no change by hand", f"see {voice.command('change', '--help')}")


def account_number(word: str) -> int:
    """The number of an account. Raises WordsFault if it is none."""
    return int(value_of(ACCOUNT_FIELDS["NO"], word))


def value_of(field: faults.Field[faults.V], word: str) -> faults.V:
    """What a field says. Ends the command if it is no such field."""
    try:
        return field.read(word)
    except faults.Fault:
        raise WordsFault(f"{field.name}: found {shown(word)}; expected {field.expected}") from None


def must_be_readable(edit: Edit) -> None:
    """Ends the command if a word of a difference is no such field."""
    if edit.how == OPEN:
        fields = [ACCOUNT_FIELDS["KIND"], ACCOUNT_FIELDS["HOLDER"]]
        words: tuple[str, ...] = edit.words
    elif edit.how == PUT and edit.number:
        name, words = edit.words[0], edit.words[1:]
        if name not in ACCOUNT_FIELDS:
            raise WordsFault(f"no account has a field {name}")
        fields = [ACCOUNT_FIELDS[name]]
    else:
        tag, words = edit.words[0], edit.words[1:]
        if tag not in (faults.BLOCK[1:] if edit.number else FIELDS):
            raise WordsFault(f"there are no rows {tag} that can be changed by hand")
        # (of a row that is left out, the first field is enough)
        fields = FIELDS[tag][: max(len(words), 1)] if edit.how == DROP and edit.number else FIELDS[tag]
    if len(fields) != len(words):
        wanted = f"{len(fields)} are wanted: {', '.join(field.name for field in fields)}"
        raise WordsFault(f"{edit.row()} has {len(words)} fields where {wanted}")
    for field, word in zip(fields, words):
        value_of(field, word)


# Accounts.


def edited_blocks(edits: Iterable[Edit], report: Report, changes: dict[int, list[str]]) -> dict[int, list[str]]:
    """The rows of each account that is changed: by whole blocks, and then by differences."""
    blocks = dict(changes)
    for edit in edits:
        if edit.number:
            before = blocks.get(edit.number)
            if before is None and edit.number in report.book:
                before = report.book[edit.number].rows
            try:
                blocks[edit.number] = edited(edit, before)
            except WordsFault as fault:
                raise EditFault(edit, str(fault)) from None
    return dict(sorted(blocks.items()))


def edited(edit: Edit, rows: list[str] | None) -> list[str]:
    """The rows of an account after a difference."""
    if edit.how == OPEN:
        if rows is not None:
            raise WordsFault(f"account {edit.number} is there already, and cannot be opened")
        kind, holder = edit.words
        return [NEW_ACCOUNT.format(number=edit.number, kind=kind, holder=holder)]
    if rows is None:
        raise WordsFault(f"there is no account {edit.number}", f"{voice.option('open-account')} opens one")
    return {PUT: put_field, ADD: add_row, DROP: drop_row}[edit.how](edit, rows)


def put_field(edit: Edit, rows: list[str]) -> list[str]:
    """The rows with another value of a field."""
    name, value = edit.words
    fields = rows[0].split(",")
    fields[ACCOUNT_PLACES[name]] = value
    return [",".join(fields), *rows[1:]]


def add_row(edit: Edit, rows: list[str]) -> list[str]:
    """The rows with one more in its place: the lists stand in their order, and each rises by its first field."""
    tag, key, *_ = edit.words
    others = [row for row in rows[1:] if row.split(",")[:2] != [tag, key]]
    return [rows[0], *sorted([*others, ",".join(edit.words)], key=place_of_row)]


def drop_row(edit: Edit, rows: list[str]) -> list[str]:
    """The rows without one of a list. Raises WordsFault if there is none."""
    tag, key = edit.words[:2]
    left = [row for row in rows if row.split(",")[:2] != [tag, key]]
    if len(left) == len(rows):
        raise WordsFault(f"account {edit.number} has no row {tag},{key}: nothing to leave out")
    return left


def place_of_row(row: str) -> tuple[int, int]:
    """Where a row of a list stands in its account."""
    tag, key, *_ = row.split(",")
    return faults.BLOCK.index(tag), int(key)


# Rules.


def edited_heading(edits: Iterable[Edit], heading: list[str]) -> list[str]:
    """The rows before the accounts after all differences of the rules. A second period makes a text of version 2."""
    rows = list(heading)
    for edit in edits:
        if edit.number == 0:
            try:
                rows = {PUT: put_rule, ADD: add_rule, DROP: drop_rule}[edit.how](edit, rows)
            except WordsFault as fault:
                raise EditFault(edit, str(fault)) from None
    periods = sum(row.startswith("period,") for row in rows)
    named = any(row.startswith("current,") for row in rows)
    if periods > 1 and "format,1" in rows:
        rows[rows.index("format,1")] = "format,2"
        rows += [] if named else ["current,1"]
    elif named and "format,1" in rows:
        adds = voice.either("--period FIRST-LAST", "One more period")
        raise WordsFault("the one period is the current one", f"{adds} adds another")
    return sorted(rows, key=place_of_rule)


def place_of_rule(row: str) -> tuple[int, tuple[int, int] | str]:
    """Where a row stands: the tags in their order, and each list rising."""
    tag, *fields = row.split(",")
    place = HEADING.index(tag)
    if tag == "surrender":
        return place, (faults.ACCOUNT_KINDS.index(fields[0]), rules.KINDS.index(fields[1]))
    return place, (int(fields[0]), 0) if tag in ("admin", "period") else fields[0]


def must_be(edit: Edit, tags: tuple[str, ...]) -> None:
    """Raises WordsFault if a difference is not of rows with these tags."""
    if edit.words[0] not in tags:
        raise WordsFault(f"{edit.row()}: only rows {', '.join(tags)} can be changed so")


def put_rule(edit: Edit, rows: list[str]) -> list[str]:
    """The rows with other values of one that is there once."""
    must_be(edit, SINGLE)
    return [*(row for row in rows if row.split(",")[0] != edit.words[0]), ",".join(edit.words)]


def add_rule(edit: Edit, rows: list[str]) -> list[str]:
    """The rows with one more. Raises WordsFault if it is there already."""
    must_be(edit, LISTED)
    row = ",".join(edit.words)
    if row in rows:
        raise WordsFault(f"the row {row} is there already")
    return [*rows, row]


def drop_rule(edit: Edit, rows: list[str]) -> list[str]:
    """The rows without this one. Raises WordsFault if there is none."""
    must_be(edit, LISTED)
    row = ",".join(edit.words)
    if row not in rows:
        raise WordsFault(f"there is no row {row}: nothing to leave out")
    return [other for other in rows if other != row]


# What is shown.


def rows_gone_and_come(before: list[str], after: list[str]) -> list[str]:
    """The rows that went and those that came, each with its sign."""
    return [change.words for change in changes.rows_changed(None, before, after)]
