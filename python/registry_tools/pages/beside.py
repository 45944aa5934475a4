"""What people changed by hand, in words: fields by their names, and what stood there before beside what stands there
after."""
import re
from typing import Collection

from registry_tools import tables
from registry_tools.office import intake
from registry_tools.pairs import edits
from registry_tools.office.intake import Item
from registry_tools.texts import in_words

# What words of the texts are called, and what a change by hand does.
HOW = {edits.PUT: "set", edits.ADD: "add", edits.DROP: "leave out"}
CALLED = {"both": "propose and approve", **tables.KINDS, **{act.word: act.name for act in tables.ACTS}}
# What the fields of an account and of the lags are called, in the order of their rows.
FIELDS_OF = {
    "account": ["number", "kind", "holder", "status", "transfers outside the list", "waiver of approval", "correction",
                "general", "aviation"],
    "lags": ["lag of trusted transfers", "lag of other transfers", "lag of additions", "window of reversals"],
}  # fmt: skip
BESIDE = ["Of", "Before", "After"]
# A row of a difference, as commands write it: behind the number of an account, or behind a line that names it.
ROW = re.compile("(by hand: the rules: )?(?:([0-9]+): | *)([-+] (?!do,|log,)[a-z]+,.*)")
ABOUT = re.compile(".*account ([0-9]+), which stands in .*|by hand: .*")


def called(word: str) -> str:
    """What a word of the texts is called."""
    return CALLED.get(word, word)


def item_in_words(item: Item) -> str:
    """Something that was handed in."""
    fields = item.rows[0].split(",")
    if item.part.kind in (intake.DO, intake.FIRST):
        return in_words.words_of(fields[4], fields[5:])
    if item.part.kind == intake.WORK:
        return f"working day {fields[1]}"
    return change_in_words(item.rows)


def change_in_words(rows: list[str]) -> str:
    """A change by hand, of its rows: an account as a whole, or a difference."""
    fields = rows[0].split(",")
    if fields[0] != edits.ACCOUNT or fields[2] in (edits.OPEN, edits.PUT, edits.ADD, edits.DROP):
        return edit_in_words(rows[0])
    more = f" and {len(rows) - 1} rows" if len(rows) > 1 else ""
    return f"account {fields[1]}, as a whole{more}"


def edit_in_words(row: str) -> str:
    """A change by hand, of its row."""
    edit = edits.edit_of(row)
    of = f"account {edit.number}" if edit.number else "the rules"
    if edit.how == edits.OPEN:
        return f"{of} is new: {called(edit.words[0])}, holder {edit.words[1]}"
    return f"{of}: {HOW[edit.how]} {words_of_row(','.join(edit.words))}"


def side_by_side(rows: list[str]) -> list[tuple[str, str, str]]:
    """What rows of a change are about, and what stood there before and stands there after. The rows begin with the
    number of an account, if they are of one, and with - or +."""
    found: dict[tuple[str, ...], list[str]] = {}
    for line in rows:
        number, sign, row = re.fullmatch("(?:([0-9]+): )?([-+]) (.*)", line).groups()  # type: ignore[union-attr]
        tag, *fields = row.split(",")
        key = (f"account {number}" if number else "the rules", tag, *fields[: key_length(tag)])
        found.setdefault(key, ["", ""])[sign == "+"] = row
    return [(key[0], *pair_in_words(*both)) for key, both in found.items()]


def key_length(tag: str) -> int:
    """How many fields say which row of a list it is."""
    return {"account": 0, "lags": 0, "current": 0, "format": 0, "surrender": 2, "retired": 1}.get(tag, 1)


def pair_in_words(before: str, after: str) -> tuple[str, str]:
    """Two rows in words; of an account or of lags that stay, only what differs."""
    old, new = before.split(","), after.split(",")
    same = {place for place, (one, other) in enumerate(zip(old, new)) if before and after and one == other}
    return words_of_row(before, same), words_of_row(after, same)


def words_of_row(row: str, left_out: Collection[int] = ()) -> str:
    """A row of an account or of the rules. Where each field has a name, those at some places may be left out."""
    tag, *fields = row.split(",")
    if tag in FIELDS_OF:
        named = enumerate(zip(FIELDS_OF[tag], fields), 1)
        return ", ".join(f"{name}: {field}" for place, (name, field) in named if place not in left_out)
    more = ": " + " ".join(map(called, fields[1:])) if len(fields) > 1 else ""
    return f"{tag} {fields[0]}{more}" if fields else "nothing"


def apart(lines: list[str]) -> tuple[list[str], list[tuple[str, str, str]]]:
    """Lines of a command or notes: those in words, and what rows of a difference among them say, side by side."""
    told: list[str] = []
    rows, about = [], ""
    for line in lines:
        row = ROW.fullmatch(line)
        if row:
            number = "" if row[1] else row[2] or about
            rows.append(f"{number}: {row[3]}" if number else row[3])
        else:
            named = ABOUT.fullmatch(line)
            about = (named[1] or "") if named else about
            told.append(line)
    return told, side_by_side(rows)
