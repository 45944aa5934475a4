"""Names of users, holders and accounts, which a folder of days keeps: each event `labelled` adds rows.

  KIND,NUMBER,NAME,AT,WHO,WHY    as ./day label adds it, behind all rows before it: the last one of a number counts,
                                 and without a NAME it has none any more
  KIND,NUMBER,NAME               as somebody writes it into a file, once for each number

KIND is `user`, `holder` or `account`.
"""
import csv
import io
import re
import unicodedata
from collections.abc import Iterator
from dataclasses import dataclass, field
from pathlib import Path
from typing import NamedTuple

from registry_tools import voice
from registry_tools.errors import WordsFault, escaped, shown
from registry_tools.texts.rows import Rows, rows_of

USER, HOLDER, ACCOUNT = KINDS = ("user", "holder", "account")
# The columns of a table of names.
COLUMNS = ("kind", "number", "name")
# A byte that is no UTF-8, as it is read: the pages in which a name stands are UTF-8.
NO_UTF_8 = re.compile("[\udc80-\udcff]")
# A number as texts spell it: the name of another spelling would stand nowhere.
NUMBER = re.compile("[1-9][0-9]{0,8}")
FORM = ",NAME or ".join(f"{kind},NUMBER" for kind in KINDS) + ",NAME"
# What nobody sees and what some scripts need between letters.
JOINERS = "\N{ZERO WIDTH NON-JOINER}\N{ZERO WIDTH JOINER}"
MOST_LETTERS = 200


class Label(NamedTuple):
    """A name, whose it is, and who gave it when and why, if a command did."""

    kind: str
    number: str
    name: str
    at: str = ""
    who: str = ""
    why: str = ""

    def row(self) -> str:
        """Its line, in csv."""
        buffer = io.StringIO()
        csv.writer(buffer, lineterminator="\n").writerow(self)
        return buffer.getvalue().removesuffix("\n")

    def __str__(self) -> str:
        return f"{self.kind} {self.number}, {in_sight(self.name)}"


@dataclass
class Labels:
    """The names that count, by the kinds and the numbers of what they name."""

    named: dict[tuple[str, str], Label] = field(default_factory=dict)

    def user(self, number: object) -> str:
        """A user, in words."""
        return self.words(USER, number)

    def holder(self, number: object) -> str:
        """A holder, in words."""
        return self.words(HOLDER, number)

    def account(self, number: object) -> str:
        """An account, in words."""
        return self.words(ACCOUNT, number)

    def words(self, kind: str, number: object) -> str:
        """The name with the number; without a name, the number alone."""
        label = self.named.get((kind, str(number)))
        return f"{in_sight(label.name)} ({number})" if label else str(number)

    def name_of(self, kind: str, number: object) -> str:
        """The name alone; nothing, if there is none."""
        label = self.named.get((kind, str(number)))
        return in_sight(label.name) if label else ""

    def has(self, kind: str) -> bool:
        """Whether something of this kind has a name."""
        return any(other == kind for other, _ in self.named)

    def of_words(self, word: str, *kinds: str) -> list[Label]:
        """What is called so: what has exactly this name, or else what has the word in its name, whatever the
        capitals."""
        labels = [label for label in self.named.values() if label.kind in (kinds or KINDS)]
        sought = as_looked_up(word)
        exact = [label for label in labels if as_looked_up(label.name) == sought]
        return exact or [label for label in labels if sought and sought in as_looked_up(label.name)]

    def one(self, word: str, *kinds: str) -> Label:
        """The one that is called so. Raises WordsFault if nothing is, or several are."""
        found = self.of_words(word, *kinds)
        if not found:
            what = " or ".join(kinds or KINDS)
            raise WordsFault(f"{shown(word)} names no {what}", f"{voice.command('label')} lists the names")
        if len(found) > 1:
            several = "; ".join(map(str, found))
            raise WordsFault(f"{shown(word)} may be {several}", "say more of the name, or the number")
        return found[0]


def in_sight(name: str) -> str:
    """A name, with what nobody sees made visible: a mark that turns letters round would show another name."""
    return name if name.isprintable() else "".join(
        letter if letter.isprintable() or is_joiner(name, place) else escaped(letter)
        for place, letter in enumerate(name)
    )


def is_joiner(name: str, place: int) -> bool:
    """Whether a letter only joins or parts those beside it, as some scripts need it."""
    beside = name[max(place - 1, 0) : place] + name[place + 1 : place + 2]
    is_between = len(beside) == 2 and all(unicodedata.category(letter)[0] in "LM" for letter in beside)
    return name[place] in JOINERS and is_between


def tidy(name: str) -> str:
    """A name without the blanks around it, and with one blank at a time."""
    return " ".join(name.split())


def wrong_name(name: str) -> str:
    """What a name should be, if it is none; nothing, if it is one."""
    if in_sight(name) != name:
        return "a name whose letters can all be seen"
    return f"a name of at most {MOST_LETTERS} letters" if len(name) > MOST_LETTERS else ""


def read(path: str | Path) -> Labels:
    """The names of a file that count."""
    return that_count(rows_of(path))


def that_count(source: Rows) -> Labels:
    """The names of these rows that count."""
    labels = Labels()
    for label in rows_in(source):
        key = label.kind, label.number
        if label.name:
            labels.named[key] = label
        else:
            labels.named.pop(key, None)
    return labels


def rows_in(source: Rows) -> Iterator[Label]:
    """The rows of a file. Raises FileFault at the first one that is none."""
    labels: dict[tuple[str, str], Label] = {}
    for index in range(len(source)):
        fields = source.fields(index)
        if NO_UTF_8.search(source.rows[index]):
            raise source.fault(index, "row", shown(",".join(fields)), "UTF-8", "save it so")
        if len(fields) not in (3, 6) or fields[0] not in KINDS or not (fields[2].strip() or fields[3:]):
            raise source.fault(index, "row", shown(",".join(fields)), FORM)
        label = Label(*fields)
        if not NUMBER.fullmatch(label.number):
            # (another spelling would stand for nobody)
            raise source.fault(index, "NUMBER", shown(label.number), "a number in plain digits, as a day text has it")
        before = labels.get((label.kind, label.number))
        if before and not label.at:
            expected = f"another {label.kind}: this one is named {before.name}"
            raise source.fault(index, "NUMBER", shown(label.number), expected)
        labels[label.kind, label.number] = label
        yield label


def as_looked_up(word: str) -> str:
    """A name, a heading or another word as it is looked up: without capitals, and each blank in it a single one."""
    return " ".join(word.split()).casefold()
