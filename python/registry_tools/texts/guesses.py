"""What may have happened where a day text has a fault: a guess in words for whoever wrote the row. None is a value to
take."""
import calendar
import difflib
import re
from collections.abc import Iterable

from registry_tools import voice
from registry_tools.errors import shown
from registry_tools.second import faults
from registry_tools.second.faults import Fault
from registry_tools.texts.mending import stripped

TAGS = ("format", "day", "period", "current", "lags", "surrender", "admin", "work", *faults.BLOCK, "do", "end")
# A misspelled tag has no more letters.
MOST_LETTERS = 20
ONLY_VERSION_2 = {"current", "correction"}
# Tags of other texts of the program, and columns of ./day log.
OTHER_TEXTS = {
    "log": "a report", "book": "a report", "totals": "a report", "opening": "a statement", "closing": "a statement",
    "statement": "a statement", "task": "a plan", "arrow": "a plan", "determined": "the figures",
    "record": "the table of {}", "waits": "a pending file", "entered": "a pending file",
}  # fmt: skip
YES = dict.fromkeys(("true", "y", "1", "ja", "oui"), "yes") | dict.fromkeys(("false", "n", "0", "nein", "non"), "no")
OTHER_WORDS = {"delete": "deletion", "deletion": "delete", "surrendered": "surrender", "deleted": "deletion"}
SEPARATED = re.compile(r"-?[0-9]{1,3}([.,'_\u00a0\u202f\u2009 ][0-9]{3})+")
# What several guesses say.
OTHER_SEPARATOR = "semicolons or tabs stand between the fields of this row: it needs commas"
NO_APPROVER = "APPROVER was left out: if there is none, leave its field empty, and its two commas stand"
UNSEEN = "blanks or characters that nobody sees stand in this field"


def guess(fault: Fault, row: list[str], version: int) -> str:
    """A guess for a fault of a row, given as its fields; nothing if there is no likely one."""
    if any("\n" in word for word in row):
        return "a double quote is not closed: the field goes on over the lines behind it"
    by_cause = {
        "tag": of_tag, "fields": of_fields, "number": of_number, "date": of_date, "word": of_word, "order": of_order,
    }  # fmt: skip
    if fault.cause in by_cause:
        return by_cause[fault.cause](fault, row, version)
    if fault.cause == "version":
        return "write format,1 or format,2" if stripped(row[1]) in ("1", "2") else "there are no other versions"
    return of_limit(fault, row)


def near(word: str, words: Iterable[str]) -> str:
    """The word that is meant, if it is written with capitals or a slip."""
    plain = stripped(word).lower()
    if plain in words:
        return plain
    return next(iter(difflib.get_close_matches(plain, words, 1, 0.7)), "")


def meant_tag(tag: str) -> str:
    """The tag that is meant: this one, or one of which this is a misspelling; nothing if there is none."""
    return tag if tag in TAGS else near(tag, TAGS) if len(tag) <= MOST_LETTERS else ""


def of_tag(fault: Fault, row: list[str], version: int) -> str:
    """A guess at a row whose tag is not the expected one."""
    tag = row[0]
    if ";" in tag or "\t" in tag:
        return OTHER_SEPARATOR
    if tag in ONLY_VERSION_2 and version == 1:
        return f"a row {tag} is only in version 2: write format,2 and a row current, or leave it out"
    if tag == "period" and version == 1 and fault.expected.endswith("lags"):
        return "a second period is only in version 2: write format,2, and a row current behind the periods"
    if tag in OTHER_TEXTS:
        other = OTHER_TEXTS[tag].format(voice.command("log"))
        return f"this is a row of {other}, and not of a day text"
    if tag in TAGS:
        return of_known_tag(fault, tag)
    meant = meant_tag(tag)
    if meant:
        return f"write {meant}" + (", in small letters" if stripped(tag).lower() == meant else "?")
    if len(row) == 1 and "," in tag:
        return "the whole row stands in double quotes: take them away"
    if fault.expected.endswith("format"):
        return f"a header row: a day text has none. {voice.command('import')} reads a table with one"
    return ""


def of_known_tag(fault: Fault, tag: str) -> str:
    """A guess at a row that stands at the wrong place."""
    expected = fault.expected.removeprefix("a row ").split(" or ")
    if expected == ["period", "current"] and TAGS.index(tag) > TAGS.index("current"):
        return "the row current is missing: version 2 has one behind the periods"
    if len(expected) == 1:
        return f"the row {expected[0]} is missing, or this row stands too early"
    return "this row stands at another place: the rows of a day text have an order"


def of_fields(_fault: Fault, row: list[str], version: int) -> str:
    """A guess at a row with too few or too many fields."""
    if row[0] == "format" and len(row) > 9:
        return "all rows stand in one line: the line ends are lost"
    if row[0] == "retired" and len(row) == 8 and version == 1:
        return "a period in a retired row is only in version 2"
    if row[0] == "do" and len(row) > 3 and row[3] in faults.ACT_WORDS:
        return NO_APPROVER
    if len(row) == 1 and (";" in row[0] or "\t" in row[0]):
        return OTHER_SEPARATOR
    if not row[-1]:
        return "empty fields stand at the end of the row, as a spreadsheet writes them"
    pairs = zip(row[1:], row[2:])
    if any(re.fullmatch("-?[1-9][0-9]{0,2}", one) and re.fullmatch("[0-9]{3}", other) for one, other in pairs):
        return "a comma in a number, as it groups digits? Write the digits alone"
    return ""


def of_number(fault: Fault, row: list[str], _version: int) -> str:
    """A guess at a field that is no number."""
    word = row[fault.place - 1]
    guess = by_pattern(NUMBERS, word)
    if guess:
        return guess
    if word != stripped(word):
        return UNSEEN
    if word and re.fullmatch("[0-9OoIl]+", word):
        return "a letter in place of a digit: O for 0, or l for 1?"
    return ""


NUMBERS = [
    ("", "a number is missing"),
    (SEPARATED.pattern, "digits in groups: write them without separators"),
    (r"-?[0-9]+[.,]0+", "decimals: write whole numbers without a point or comma"),
    (r"-?[0-9]+[.,][0-9]+", "decimals: only whole numbers can be written"),
    (r"-?[0-9.,]+[eE][+-]?[0-9]+", "a spreadsheet shortened this number, and its last digits are lost"),
    (r"\+[0-9]+", "write no plus sign"),
    (r"-0", "zero is 0"),
    (r"-?0[0-9]+", "write no zeros in front"),
    (r"-[0-9]+", "this number cannot be below 0"),
    (r"[\u2212\u2013\u2014][0-9]+", "a long dash in place of a minus sign"),
    (r"[0-9]{4}-[0-9]{2}-[0-9]{2}", "this is a date: a field before it may be left out or doubled"),
    (r"[0-9]{20,}", "a number cannot have so many digits"),
    (r"(general|aviation)", "this is a kind of allowance: a field before it may be left out or doubled"),
]  # fmt: skip
DATES = [
    ("", "a date is missing"),
    (r"[0-9]{1,2}[./-][0-9]{1,2}[./-][0-9]{4}", "the year comes first: YYYY-MM-DD"),
    (r"[0-9]{4}[./][0-9]{1,2}[./][0-9]{1,2}", "write hyphens: YYYY-MM-DD"),
    (r"[0-9]{8}", "write hyphens: YYYY-MM-DD"),
    (r"[0-9]{4}-[0-9]{1,2}-[0-9]{1,2}", "month and day have two digits each: YYYY-MM-DD"),
    (r"[0-9]{1,2}[./-][0-9]{1,2}[./-][0-9]{1,2}", "the year has four digits and comes first: YYYY-MM-DD"),
    (r"[0-9]{5}", "a spreadsheet wrote its own number of the day: give the column the format of a date"),
    (r"[0-9]{4}-[0-9]{2}-[0-9]{2}[T ].*", "the time of day stands behind the date: leave it out"),
    (r"[0-9]{4}[\u2010-\u2015\u2212][0-9]{2}[\u2010-\u2015\u2212][0-9]{2}", "long dashes in place of hyphens"),
    (r"[0-9]{1,3}", "this is a number: a field before it may be left out or doubled"),
]  # fmt: skip


def of_date(fault: Fault, row: list[str], _version: int) -> str:
    """A guess at a field that is no date."""
    word = row[fault.place - 1]
    if re.fullmatch("[0-9]{4}-[0-9]{2}-[0-9]{2}", word):
        return of_missing_day(*map(int, word.split("-")))
    return by_pattern(DATES, word) or (UNSEEN if word != stripped(word) else "")


def by_pattern(guesses: list[tuple[str, str]], word: str) -> str:
    """The guess of the first pattern that a word has; nothing if it has none."""
    return next((guess for pattern, guess in guesses if re.fullmatch(pattern, word)), "")


def of_missing_day(year: int, month: int, day: int) -> str:
    """A guess at a date that does not exist."""
    if not 1 <= month <= 12:
        return "months are 01 to 12: are month and day exchanged?"
    days = calendar.monthrange(year or 2000, month)[1]
    return f"{calendar.month_name[month]} {year} has {days} days" if day else "days are 01 to 31"


def of_word(fault: Fault, row: list[str], _version: int) -> str:
    """A guess at a field that is none of its words."""
    word = row[fault.place - 1]
    if fault.name == "ACT" and len(row) > 3 and row[3] in faults.ACT_WORDS:
        return NO_APPROVER
    words = fault.expected.removeprefix("one of the words ").split(", ")
    for meant in (YES.get(word.lower()), OTHER_WORDS.get(word.lower())):
        if meant in words:
            return f"write {meant}"
    if not word:
        return "a word is missing"
    if word != stripped(word):
        return UNSEEN
    meant = near(word, words)
    if meant:
        return f"write {meant}" + (", in small letters" if word.lower() == meant else "?")
    return "this is a number: a field before it may be left out or doubled" if word.isdecimal() else ""


def of_order(fault: Fault, row: list[str], _version: int) -> str:
    """A guess at a row that does not rise."""
    if row[0] == "period" or not fault.earlier:
        return ""
    if fault.earlier == ",".join(row):
        return "this row stands twice: leave one out"
    # (the row before may be cut behind its tag)
    if fault.earlier.split(",")[1:2] == row[1:2] and row[0] != "surrender":
        return f"{row[1]} stands twice: {shown(fault.earlier)} is another row of it"
    return "the rows are not sorted: sort them, or move this one"


def of_limit(fault: Fault, row: list[str]) -> str:
    """A guess at a value past a limit."""
    if fault.name == "NUMBER" and row[0] == "retired" and "next one" in fault.expected:
        above = f": at least {fault.highest + 1}" if fault.highest else ""
        return f"is NEXT of the day row that of an earlier day? It is above all record numbers that were used{above}"
    word = row[fault.place - 1] if fault.place else ""
    if re.fullmatch("[0-9]{4}-[0-9]{2}-[0-9]{2}", word):
        return "the day exists, but is outside the limits: a slip in the year?"
    if word == "0":
        return "0 is not allowed here"
    return ""
