"""What forms offer, and what they say: of one instruction a table with one row, as a spreadsheet would save it; of a
change by hand the words of ./day change. What is right of it, the commands look at."""
import contextlib
import csv
import io
import itertools
import re
from dataclasses import dataclass
from typing import Iterable, Iterator, Mapping, Sequence

from registry_tools.calendars import years
from registry_tools.desk.reading import Reading
from registry_tools.desk.words import LAGS, label
from registry_tools.errors import WordsFault, shown
from registry_tools.texts.namebook import ACCOUNT, USER, Labels
from registry_tools.pages.beside import called
from registry_tools.second import faults, passing, rules
from registry_tools.sheets import columns as sheets
from registry_tools.sheets import importing
from registry_tools.sheets.sheets import read_content
from registry_tools.tables import RIGHTS, YES_NO
from registry_tools.texts.accounts import Block
from registry_tools.texts.day_text import DayText
from registry_tools.texts.in_words import grouped
from registry_tools.texts.rows import text_of_rows

# What may be chosen for a field of an instruction, and which fields are accounts.
CHOICES = {"kind": rules.KINDS, "status": faults.STATUSES}
OF_ACCOUNTS = {"from", "account", "other", "to", *(f"to{place}" for place in sheets.LATER_SHARES)}
LATER = {f"{name}{place}" for name in ("to", "amount") for place in sheets.LATER_SHARES}
# How many working days before the next day, and behind it, are offered as the day of a proposal.
BEFORE, BEHIND = 15, 5
OTHER, KEEP, DROP = "another day", "keep", "leave out"
OTHER_ROWS = ("emissions", "figure")
NUMERIC, NEEDED = 'inputmode="numeric"', 'inputmode="numeric" required'
# How the last day of a year may be written in a spreadsheet.
DATES = ["", "31.12.2026", "31/12/2026", "12/31/2026"]
# So many working days are offered that are to be none any more, and so many accounts.
MOST_WORKING, MOST_OFFERED = 30, 1_000
YEAR = re.compile("[0-9]{4}", re.ASCII)
Said = Mapping[str, str]


@dataclass(frozen=True)
class Field:
    """A field of a form: its name, its label, what is there now, and what may be chosen. A change has the word of a
    command that asks for something else, and perhaps the one that leaves it out."""

    name: str
    label: str
    now: object = ""
    options: Sequence[object] = ()
    word: str = ""
    drop: str = ""
    more: str = NUMERIC


def accounts_offered(reading: Reading) -> list[tuple[int, str]]:
    """The numbers of accounts with what somebody knows them by, and what they hold."""
    settled, names = reading.settled(), reading.names()
    blocks = itertools.islice(settled.report.book.values() if settled else [], MOST_OFFERED)
    rows = (block.rows[0].split(",") for block in blocks)
    return [(int(row[1]), account_offered(row, names)) for row in rows]


def cut_told(reading: Reading) -> str:
    """That not all accounts are offered, and how the others are found; nothing, if all are."""
    settled = reading.settled()
    count = len(settled.report.book) if settled else 0
    return f"The first {MOST_OFFERED:,} of {count:,} accounts are offered here." if count > MOST_OFFERED else ""


def account_offered(row: Sequence[str], names: Labels) -> str:
    """What somebody knows an account by, and what it holds, by the fields of its row."""
    kinds = f"{row[2]} of {names.holder(row[3])}, {row[4]}: general {grouped(row[8])}, aviation {grouped(row[9])}"
    return ", ".join(filter(None, [names.name_of(ACCOUNT, row[1]), kinds]))


NEW_USER = "One more user"
RIGHT_OF_NEW = Field("new_right", "who may", "both", RIGHTS)
# What is asked for of a new account.
OF_NEW = [
    Field("number_of_account", "Number of the new account", more=NEEDED),
    Field("kind", "Kind", "trading", faults.ACCOUNT_KINDS), Field("holder", "Holder", more=NEEDED),
    Field("new_user", "Its first user, if it has one"), RIGHT_OF_NEW,
]  # fmt: skip


def account_meant(reading: Reading, word: str) -> int | None:
    """The account that a word names by its number or its name; None, if it names none that is there."""
    with contextlib.suppress(WordsFault):
        number = int(word) if word.isascii() and word.isdigit() else int(reading.names().one(word, ACCOUNT).number)
        return number if number in reading.text_of_next().book else None
    return None


def users_entitled(reading: Reading, act: str, number: int | None) -> dict[str, list[tuple[int, str]]]:
    """Who may propose and approve an act for an account, with their names; nobody, if none is named."""
    if number is None:
        return {right: [] for right in ("propose", "approve")}
    day, names = reading.text_of_next(), reading.names()
    account = day.book[number].account()
    users_of = {right: passing.entitled(day.head, account, act, right) for right in ("propose", "approve")}
    return {right: [(user, names.user(user)) for user in users] for right, users in users_of.items()}


def told_of_account(reading: Reading, number: int) -> str:
    """What somebody knows an account by, and what it holds before the next day."""
    row = reading.text_of_next().book[number].rows[0].split(",")
    return f"{number}: {account_offered(row, reading.names())}"


def numbers_in(fields: Said, names: Labels) -> dict[str, str]:
    """What a form says, with the numbers of accounts and users in place of their names. Raises WordsFault if something
    has no such name, or several have."""
    kinds = {**dict.fromkeys(OF_ACCOUNTS, ACCOUNT), "proposer": USER, "approver": USER}
    found = {name: word.strip() for name, word in fields.items()}
    for name, kind in kinds.items():
        word = found.get(name, "")
        if word and not word.isdigit() and names.named:
            try:
                found[name] = names.one(word, kind).number
            except WordsFault as fault:
                raise WordsFault(f"{label(name)}: {fault}") from None
    return found


def instruction_fields(reading: Reading, act: str, of: int | None = None) -> list[Field]:
    """What the form of an instruction asks for, with the account that it is of, if one is named."""
    now: object = OTHER
    proposed = [now]
    # (where the next day cannot be made, its own page says why)
    with contextlib.suppress(WordsFault):
        day = reading.text_of_next().head
        before, behind = ([*filter(is_so, day.working_days)] for is_so in (day.date.__gt__, day.date.__lt__))
        now, proposed = day.date, [*before[-BEFORE:], day.date, *behind[:BEHIND], OTHER]
    columns = sheets.columns_of_act(act)
    return [
        Field("proposed", label("proposed"), now, proposed),
        Field("other_day", "Another day, as 2025-09-24, if it is none of these", more=""),
        Field("proposer", label("proposer"), more='required list="propose"'),
        Field("approver", "User who approves, if there is one", more='list="approve"'),
        *(Field(name, label(name), of or "" if name == passing.FIRST[act] else "", CHOICES.get(name, ()),
                more='list="accounts"' if name in OF_ACCOUNTS else NUMERIC) for name in columns),
    ]  # fmt: skip


def rows_of_instruction(fields: Said) -> bytes:
    """The rows of the table that the form of an instruction says; one with something wrong as it is, so that it is
    told. Raises WordsFault if it says no act."""
    act = fields.get("act", "")
    if act not in faults.ACT_WORDS:
        raise WordsFault("no act was chosen")
    columns = [*sheets.PROPOSAL, *sheets.columns_of_act(act)]
    cells = {name: fields.get(name, "").strip() for name in columns}
    # (a day that was typed counts, whatever stands in the list above it)
    other_day = fields.get("other_day", "").strip()
    if other_day or cells["proposed"] == OTHER:
        cells["proposed"] = other_day
    filled = [name for name in columns if cells[name] or name in sheets.PROPOSAL]
    stream = io.StringIO()
    csv.writer(stream, lineterminator="\n").writerows([filled, [cells[name] for name in filled]])
    content = stream.getvalue().encode("utf-8", "replace")
    made = importing.imported(read_content("typed", content), False, None)
    return content if made.wrong else text_of_rows(made.rows)


def rows_of_year(year: str, but: str, calendar: bytes) -> bytes:
    """The rows of the working days of a year: all weekdays but those that were typed, and those of a calendar. Raises
    WordsFault."""
    if not YEAR.fullmatch(year):
        raise WordsFault(f"Year: found {shown(year)}; expected one as 2027")
    gone = {*years.dates_in(but), *(years.days_of_ics(calendar) if calendar else [])}
    return text_of_rows([f"work,{date}" for date in years.weekdays_but(int(year), gone)])


def account_fields(block: Block, periods: int) -> Iterator[Field]:
    """What may be changed of an account, with a correction for each of so many periods."""
    row, lists = block.rows[0].split(","), [list_row.split(",") for list_row in block.list_rows]
    yield Field("holder", "Holder", row[3], word="--holder={}")
    yield Field("outside", "Transfers outside the trusted list", row[5], YES_NO, "--outside={}")
    yield Field("waiver", "Waiver of approval", row[6], YES_NO, "--waiver={}")
    for user, right in (cells[1:3] for cells in lists if cells[0] == "user"):
        options = [KEEP, *(other for other in RIGHTS if other != right), DROP]
        words = f"--user=+{user}:{{}}", f"--user=-{user}"
        yield Field(f"user-{user}", f"User {user} may {called(right)}", KEEP, options, *words)
    yield Field("new_user", NEW_USER)
    yield RIGHT_OF_NEW
    corrections = {"1": row[7], **{cells[1]: cells[2] for cells in lists if cells[0] == "correction"}}
    for period in map(str, range(1, periods + 1)):
        label, word = f"Correction factor of period {period}", f"--correction={period}:{{}}"
        yield Field(f"correction-{period}", label, corrections.get(period, "0"), word=word)
    for tag, year, value in (cells[:3] for cells in lists if cells[0] in OTHER_ROWS):
        label = f"{tag.capitalize()} of {year}: {grouped(value)}"
        yield Field(f"{tag}-{year}", label, KEEP, [KEEP, DROP], drop=f"--leave-out={tag}:{year}")


def rule_fields(day: DayText) -> Iterator[Field]:
    """What may be changed of the rules."""
    rows, head = [row.split(",") for row in day.heading], day.head
    for admin in (row[1] for row in rows if row[0] == "admin"):
        yield Field(f"admin-{admin}", f"Administrator {admin}", KEEP, [KEEP, DROP], drop=f"--admin=-{admin}")
    yield Field("new_admin", "One more administrator", word="--admin=+{}")
    yield Field("first", "One more period: its first year")
    yield Field("last", "and its last year")
    yield Field("current", "The current period", head.current, word="--current={}")
    yield from (Field(f"lag-{lag}", LAGS[lag], days, word=f"--lag={lag}:{{}}") for lag, days in head.lags.items())
    for of, kind in itertools.product(faults.ACCOUNT_KINDS, rules.KINDS):
        is_there = ["surrender", of, kind] in rows
        label, word = f"Accounts of the kind {of} may surrender {kind} allowances", f"{'-+'[not is_there]}{of}:{kind}"
        yield Field(f"pair-{of}-{kind}", label, YES_NO[not is_there], YES_NO, f"--surrender={word}")
    yield Field("working", "A day that becomes a working day, as 2025-12-29", word="--working={}", more="")
    later = [*filter(head.date.__lt__, head.working_days)][:MOST_WORKING]
    yield Field("not_working", "A day that is no working day any more", "", ["", *later], "--not-working={}")


def words_of_change(answers: Said, reading: Reading) -> Iterator[tuple[str, str]]:
    """The words of ./day change for what a form says otherwise than it is, each with the label of its field. WordsFault
    if there is no such account."""
    day, of, number = reading.text_of_next(), answers.get("of", ""), answers.get("account", "")
    fields: Iterable[Field] = rule_fields(day) if of == "rules" else ()
    if of == "account":
        if not number.isascii() or not number.isdigit() or int(number[:10]) not in day.book:
            raise WordsFault("there is no such account in the next day's text")
        yield "", number
        fields = account_fields(day.book[int(number)], len(day.head.periods))
    for field in fields:
        asked = answers.get(field.name, str(field.now))
        if field.options and asked not in map(str, field.options):
            expected = f"one of {', '.join(map(str, field.options))}"
            raise WordsFault(f"{field.label}: found {shown(asked)}; expected {expected}")
        word = field.drop if asked == DROP else field.word.format(asked)
        if word and asked != str(field.now):
            yield field.label, word
    if of == "rules" and (answers.get("first") or answers.get("last")):
        yield "The years of one more period", f"--period={answers.get('first', '')}-{answers.get('last', '')}"
    if of == "new":
        made = [answers.get(each.name, "") for each in OF_NEW[:3]]
        # (the first that is no number is told)
        label = next((each.label for each, word in zip(OF_NEW, made) if not each.options and not word.isdigit()), "")
        yield label, f"--open-account={','.join(made)}"
    if of != "rules" and answers.get("new_user"):
        user, right = answers["new_user"], answers.get("new_right", "")
        yield OF_NEW[3].label if of == "new" else NEW_USER, f"--user=+{user}:{right}"
