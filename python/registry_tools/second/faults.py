"""The faults of a day text once more, in plain Python: its first faulty row and the cause.

It was written from docs/FORMATS.md, and not from the program or its definitions: so it is a second answer, to compare
the program with (`cases/run-second-answer`). The commands of `./day` read each row by it, and say what it expected.
The fields of each row stand in `fields`.
"""
from dataclasses import dataclass, field
from typing import Sequence

from registry_tools import tables
from registry_tools.second.days import KINDS, OPERATORS, fields_in
from registry_tools.second.fields import (
    ACCOUNT_KINDS, ACTS, ACT_WORDS, BLOCK, DISTRIBUTE, FIELDS, LISTS, PROPOSAL, RISING, STATUSES, Fault, Field, V,
    Value, act, date, fields_of_act, form_of, forms_of_act, maybe, number, one_of, signed,
)  # fmt: skip
from registry_tools.tables import MOST_CORRECTION, MOST_PERIODS, MOST_RECORD, MOST_RETIRED, MOST_U64

__all__ = [
    "ACCOUNT_KINDS", "ACTS", "ACT_WORDS", "BLOCK", "DISTRIBUTE", "FIELDS", "LISTS", "MOST", "PROPOSAL", "RISING",
    "STATUSES", "Fault", "Field", "Reading", "V", "Value", "act", "date", "fields_of_act", "first_fault", "form_of",
    "forms_of_act", "maybe", "number", "one_of", "read_field", "signed", "words_of_key",
]  # fmt: skip

# The most rows of a list; of all others, and of the years of an account, there may be any number.
MOST = {
    "admin": tables.MOST_ADMINISTRATORS, "account": tables.MOST_ACCOUNTS, "user": tables.MOST_REPRESENTATIVES,
    "trusted": tables.MOST_TRUSTED, "retired": tables.MOST_ROWS, "do": tables.MOST_INSTRUCTIONS,
}  # fmt: skip

# By what the rows of a list rise: a number, a date as it is spelled, or two words by their places.
Key = tuple[Value, ...]


@dataclass
class Reading:
    """What the rows so far say, as far as a later row depends on it."""

    last: str = ""
    version: int = 0
    next_record: int = 0
    last_years: list[int] = field(default_factory=list)
    # By tag: the key of the last row of a list, and how many rows it has.
    before: dict[str, Key] = field(default_factory=dict)
    counts: dict[str, int] = field(default_factory=dict)
    retired: dict[tuple[str, str], int] = field(default_factory=dict)

    def may_follow(self) -> list[str]:
        """The tags of rows that may stand behind the last row, in their order."""
        heading = {"": ["format"], "format": ["day"], "day": ["period"], "current": ["lags"]}
        heading["period"] = ["lags"] if self.version == 1 else ["period", "current"]
        if self.last in heading:
            return heading[self.last]
        if self.last == "end":
            return []
        if self.last == "do":
            return ["do", "end"]
        rows = LISTS if self.last in LISTS else BLOCK
        later = [tag for tag in rows[rows.index(self.last) :] if tag not in ("lags", "account")]
        if self.version == 1 and "correction" in later:
            later.remove("correction")
        return [*later, "account", "do", "end"]

    def forms(self, tag: str) -> list[list[Field[Value]]]:
        """The fields that a row may have: of a surrender in version 2, also those with its period."""
        periods = len(self.last_years)
        if tag == "current":
            return [[number("PERIOD", 1, periods)]]
        if tag == "correction":
            return [[number("PERIOD", 2, periods), signed("FACTOR", MOST_CORRECTION, may_be_zero=False)]]
        if tag == "retired" and self.version == 2:
            return [FIELDS[tag], [*FIELDS[tag], number("PERIOD", 2, periods)]]
        return [FIELDS[tag]]

    def fields(self, tag: str, words: list[str]) -> list[Field[Value]]:
        """The fields of a row, or the cause why there are too many or too few of them."""
        if tag == "do":
            return self.fields_of_instruction(words)
        forms = self.forms(tag)
        for fields in forms:
            if len(fields) == len(words):
                return fields
        raise Fault("fields", f"{len(forms[0]) + 1} fields: {form_of(tag, forms[0])}")

    def fields_of_instruction(self, words: list[str]) -> list[Field[Value]]:
        """The fields of a `do` row. Raises Fault if it has no act, or too few or too many fields."""
        if len(words) < 4:
            raise Fault("fields", "at least 5 fields: " + form_of("do", [*PROPOSAL, act]) + ",..")
        if words[3] not in ACT_WORDS:
            raise Fault("word", act.expected, 5, act.name)
        more = fields_of_act(words[3], len(words) - 4)
        if more is None:
            raise Fault("fields", forms_of_act(words[3]))
        return [*PROPOSAL, act, *more]

    def key(self, tag: str, values: list[Value]) -> Key | None:
        """By what the rows of a list rise."""
        if tag == "surrender":
            return ACCOUNT_KINDS.index(values[0]), KINDS.index(values[1])
        return (values[0],) if tag in RISING else None

    def add(self, row: Sequence[str]) -> None:
        """Adds what a row says, if it has no fault."""
        tag, *words = row
        allowed = self.may_follow()
        if not allowed:
            raise Fault("end", "no row behind the row end")
        if tag not in allowed:
            raise Fault("tag", f"a row {' or '.join(allowed)}", 1, "tag")
        fields = self.fields(tag, words)
        values = [read_field(field, word, place) for place, (field, word) in enumerate(zip(fields, words), 2)]
        if tag == "surrender" and values[0] not in OPERATORS:
            raise Fault("word", "operator or aircraft", 2, "ACCOUNTKIND")
        if tag == "retired" and values[1] == "deletion" and len(values) == 7:
            raise Fault("limit", "no period, since a deletion is of none", 8, "PERIOD")
        self.add_to_list(tag, values, fields[0].name if fields else "")
        if tag == "format":
            self.version = int(values[0])
        elif tag == "day":
            self.next_record = int(values[1])
        self.last = tag

    def add_to_list(self, tag: str, values: list[Value], name: str) -> None:
        """Adds a row of a list. Raises Fault if it does not rise, or is one too many."""
        key, count = self.key(tag, values), self.counts.get(tag, 0)
        if key is not None and tag in self.before and key <= self.before[tag]:
            expected = f"{tag} rows that rise: this one stands behind {tag},{words_of_key(tag, self.before[tag])}"
            raise Fault("order", expected, 2, name)
        if tag == "period":
            self.add_period(*map(int, values))
        if count >= MOST.get(tag, MOST_U64):
            raise Fault("limit", f"at most {MOST[tag]} {tag} rows{' of an account' if tag in BLOCK[1:] else ''}")
        if tag == "do" and self.next_record + count > MOST_RECORD:
            record = self.next_record + count
            raise Fault("limit", f"record numbers up to {MOST_RECORD}: this instruction would get {record}")
        if tag == "retired":
            number, what, kind, amount, _, is_reversed = values[:6]
            self.add_retired(int(number), str(what), str(kind), int(amount), is_reversed == "yes")
        if tag == "account":
            # The lists of the account before are over.
            self.retired = {}
            for other in BLOCK[1:]:
                self.before.pop(other, None)
                self.counts.pop(other, None)
        if key is not None:
            self.before[tag] = key
        self.counts[tag] = count + 1

    def add_period(self, first: int, last: int) -> None:
        """Adds a period. Raises Fault if it does not rise, or is one too many."""
        if last < first:
            raise Fault("order", f"a last year from {first} on", 3, "LAST")
        if self.last_years and first <= self.last_years[-1]:
            before = f"{self.last_years[-1]}, the last one of the period before"
            raise Fault("order", f"a first year after {before}", 2, "FIRST")
        if len(self.last_years) >= MOST_PERIODS:
            raise Fault("limit", f"at most {MOST_PERIODS} period rows")
        self.last_years.append(last)

    def add_retired(self, number: int, what: str, kind: str, amount: int, is_reversed: bool) -> None:
        """Adds a surrender or deletion. Raises Fault if its number is too high, or the sum too large."""
        together = self.retired.get((what, kind), 0) + (0 if is_reversed else amount)
        if number >= self.next_record:
            raise Fault("limit", f"a record number below the next one, {self.next_record}", 2, "NUMBER")
        if together > MOST_RETIRED:
            most = f"at most {MOST_RETIRED} {kind} allowances in all {what} rows that are not reversed"
            raise Fault("limit", most, 5, "AMOUNT")
        self.retired[what, kind] = together


def read_field(expected: Field[V], word: str, place: int) -> V:
    """What a field says. A fault gets the field's place, counted from 1."""
    try:
        return expected.read(word)
    except Fault as fault:
        raise Fault(fault.cause, expected.expected, place, expected.name) from None


def words_of_key(tag: str, key: Key) -> str:
    """A key as the fields of its row say it."""
    return f"{ACCOUNT_KINDS[int(key[0])]},{KINDS[int(key[1])]}" if tag == "surrender" else str(key[0])


def first_fault(text: bytes) -> str:
    """The line that the program has to write on standard error of a day text, which is given as bytes; nothing if the
    text has no fault."""
    reading, place = Reading(), 0
    for place, row in enumerate(fields_in(text), 1):
        try:
            reading.add(row)
        except Fault as fault:
            return f"row {place}: {fault.cause}\n"
    return "" if reading.last == "end" else f"row {place + 1}: end\n"
