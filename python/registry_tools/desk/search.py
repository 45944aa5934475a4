"""What one field finds: accounts, holders, users, names, records, amounts, and the checks that refuse."""
from collections.abc import Iterator, Sequence

from werkzeug.wrappers import Response

from registry_tools import tables
from registry_tools.desk import questions
from registry_tools.desk.gate import Served
from registry_tools.desk.questions import LogCells, cells_of_log
from registry_tools.desk.reading import Reading
from registry_tools.desk.shown import asked, show_page
from registry_tools.notes import counted
from registry_tools.pages.html import Markup, link
from registry_tools.pages.rulebook import link_to_check
from registry_tools.pages.settled import joined_words
from registry_tools.questions.days import Days
from registry_tools.questions.records import count_logged, logged
from registry_tools.texts.checks import Check, checks
from registry_tools.texts.namebook import ACCOUNT, HOLDER
from registry_tools.texts.report import LogRow

# So many names are told, and the log rows that a number or a check names.
MOST_NAMES = 20
OF_NUMBER = (
    "SELECT :amount UNION SELECT record FROM instructions WHERE amount = :amount"
    " UNION SELECT record FROM shares WHERE amount = :amount"
)
# What may stand between the digits of an amount that somebody types.
BETWEEN = str.maketrans("", "", ",.' \u00a0\u202f")


def page(served: Served) -> Response:
    """The page of what a word finds."""
    reading, word = served.reading, asked("q")
    found = [*whats_of(reading, word)] if word else []
    rows = log_rows_named(reading, word) if word else []
    return show_page(
        "search", "Search", q=word, found=found, rows=rows, shown_row=lambda row: cells_of_log(reading, row),
    )  # fmt: skip


def number_of(word: str) -> int | None:
    """The number that somebody typed, perhaps with separators; None, if it is none that a text can have."""
    digits = word.translate(BETWEEN)
    return int(digits) if digits.isascii() and digits.isdigit() and len(digits) <= len(str(tables.MOST_HELD)) else None


def checks_named(word: str) -> list[Check]:
    """The checks whose names have the word in them, in letters of either size."""
    return [check for check in checks().values() if len(word) > 2 and word.casefold() in check.name.casefold()]


def whats_of(reading: Reading, word: str) -> Iterator[Markup]:
    """What has this number, or this name, each with a link."""
    settled, number = reading.settled(), number_of(word)
    if settled is not None and number is not None:
        rows = [*questions.account_rows(settled, str(number))]
        if number in settled.report.book:
            yield joined_words(link(f"/accounts/{number}", f"Account {number}"))
        held = sum(row[-1] == number for row in rows)
        if held:
            holder = link(f"/accounts?q={number}", f"Holder {reading.names().holder(number)}")
            yield joined_words(holder, counted(held, "account", "accounts"))
        user = reading.names().user(number)
        yield joined_words(link(f"/find?user={number}", f"What user {user} proposed and approved"))
    labels = [it for it in reading.names().named.values() if number is None and word.casefold() in it.name.casefold()]
    ways = {ACCOUNT: "/accounts/{}", HOLDER: "/accounts?q={}"}
    for it in labels[:MOST_NAMES]:
        way = ways.get(it.kind, "/find?user={}").format(it.number)
        yield joined_words(link(way, f"{it.kind.capitalize()} {reading.names().words(it.kind, it.number)}"))
    if len(labels) > MOST_NAMES:
        yield joined_words(link("/names", f"and {len(labels) - MOST_NAMES:,} more names"))
    for check in checks_named(word):
        yield joined_words(link_to_check(check.code, f"Check {check.name}", "/"), check.meaning)


def log_rows_named(reading: Reading, word: str) -> Sequence[LogCells]:
    """The log rows of a record, or of an amount, or those that a check refused."""
    codes, number = ", ".join(str(check.code) for check in checks_named(word)), number_of(word)
    if number is None and not codes:
        return []
    # (all instructions are gone through once: what is counted, and what is shown, names records alone)
    meant = reading.of_days(lambda days: records_meant(days, codes, number))
    where = [f"i.record IN ({meant})"]

    def read(days: Days, places: range | None = None) -> list[LogRow]:
        return [*logged(days, where, {}, places)]

    return questions.rows_of_log(reading, ("searched", word), lambda days: count_logged(days, where, {}), read)


def records_meant(days: Days, codes: str, number: int | None) -> str:
    """For a condition, the records that a number names, or those that these checks refused."""
    if number is None:
        return f"SELECT record FROM log WHERE code IN ({codes})"
    return ", ".join(str(record) for (record,) in days.database.execute(OF_NUMBER, {"amount": number}))
