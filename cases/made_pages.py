"""Pages that `./day page` makes of a day, and what has to hold of each day's pages: form, tables, statements, and that
nothing stands on the page of an account that belongs to another one.

A trial asserts what has to be. `trials_of` gives those of a day.
"""
from __future__ import annotations

import contextlib
import io
import re
from collections.abc import Iterator, Sequence
from pathlib import Path

from harness import Trial

from registry_tools import tables
from registry_tools.errors import WordsFault
from registry_tools.main import main as day_main
from registry_tools.pages import index
from registry_tools.pages.plan import MOST_BOXES
from registry_tools.pages.rulebook import ACTS
from registry_tools.pages.summary import MOST_SHOWN
from registry_tools.pairs import compliance
from registry_tools.second import rules
from registry_tools.texts.outdated import Entries
from registry_tools.texts.follows import read_pair
from registry_tools.texts.report import LogRow
from reread import Page, Table
from registry_tools.texts.in_words import grouped
from unique_days import Day

from sample_days import due_behind

NUMBER = re.compile(r"[0-9][0-9,]*")


def run(*words: object) -> tuple[int | str | None, str]:
    """Runs `./day page`: its exit status, and what it says."""
    written = io.BytesIO()
    said = io.TextIOWrapper(written, encoding="utf-8")
    with contextlib.redirect_stderr(said), contextlib.redirect_stdout(said):
        try:
            status: int | str | None = day_main(["page", *map(str, words)])
        except SystemExit as end:
            status = end.code
    said.flush()
    return status, written.getvalue().decode()


class Made:
    """A day whose pages were made: its texts, what the report says, and the pages."""

    def __init__(self, work: Path, name: str, text: bytes | str, *words: object, file: str = "day.csv") -> None:
        self.name, self.text = name, text if isinstance(text, bytes) else text.encode()
        self.folder = work / name
        self.folder.mkdir()
        self.day_path, self.report_path = self.folder / file, self.folder / "report.csv"
        self.answers = rules.answers(self.text)
        self.day_path.write_bytes(self.text)
        self.report_path.write_text(self.answers["settle"])
        self.pages_folder = self.folder / "pages"
        status, said = run(self.day_path, self.report_path, self.pages_folder, *words)
        assert status == 0, f"{name}: status {status}: {said}"
        self.day, self.report = read_pair(str(self.day_path), str(self.report_path))
        files = sorted(self.pages_folder.rglob("*.html"))
        self.texts = {str(file.relative_to(self.pages_folder)): file.read_text() for file in files}
        self.pages = {file: Page(text) for file, text in self.texts.items()}

    def page(self, file: str = "index.html") -> Page:
        return self.pages[file]


# The form of pages.


def form_of(made: Made) -> None:
    """Each page is well formed, and its links lead somewhere."""
    for file, page in made.pages.items():
        assert not page.faults, f"{file}: {page.faults[:3]}"
        assert file in ("rules.html", "formats.html") or all(
            table.caption for table in page.tables
        ), f"{file}: a table without caption"
        assert not page.arrows_behind_boxes(), f"{file}: {page.arrows_behind_boxes()[:3]}"
        for href in page.hrefs:
            target, _, anchor = href.partition("#")
            folder = Path(file).parent
            there = (
                str((made.pages_folder / folder / target).resolve().relative_to(made.pages_folder.resolve()))
                if target
                else file
            )
            assert there in made.pages, f"{file}: nothing is at {href}"
            assert not anchor or anchor in made.pages[there].ids, f"{file}: no {anchor} for {href}"


# The day.


def acts_of(made: Made) -> None:
    """The counts of each act are those of the log, and their sums are right."""
    expected = []
    for act, (name, _) in ACTS.items():
        own = [logged for logged in made.report.log if logged.instruction.act == act]
        if own:
            expected.append([name, *map(grouped, (*outcomes_of(own), len(own)))])
    if not made.report.log:
        assert not any(table.caption == "Instructions by act" for table in made.page().tables)
        return
    all_acts = ["all acts", *map(grouped, (*outcomes_of(made.report.log), len(made.report.log)))]
    assert made.page().table("Instructions by act").rows == [*expected, all_acts]


def outcomes_of(log: list[LogRow]) -> tuple[int, int, int]:
    """How many instructions were done and refused, and wait for their due day."""
    done, waits = sum(logged.is_done for logged in log), sum(logged.name == "NotDue" for logged in log)
    return done, len(log) - done - waits, waits


def totals_of(made: Made) -> None:
    """The totals are those of both texts, and add up."""
    before = [row.split(",")[2:] for row in rules.totals(rules.day_in(made.text).accounts.values())]
    after = [row.split(",")[2:] for row in made.answers["totals"].splitlines()[:2]]
    table = {
        row[0]: [int(each.replace(",", "")) for each in row[1:]]
        for row in made.page().table("Allowances before and after").rows
    }
    for place in range(2):
        told = {name: numbers[place] for name, numbers in table.items()}
        assert [told["Held before the day"], told["Surrendered before the day"]] == [*map(int, before[place][:2])]
        assert [told["Held after the day"], told["Surrendered after the day"]] == [*map(int, after[place][:2])]
        assert told["Together before the day"] == sum(map(int, before[place][:2]))
        changes = told["Created"] + told["Deleted"] + told["Deletions reversed"]
        assert (
            told["Together before the day"] + changes
            == told["Together after the day"]
            == sum(map(int, after[place][:2]))
        )
    deleted = made.page().table("Deleted allowances").columns("General", "Aviation")
    assert deleted == [tuple(grouped(account[2]) for account in book) for book in (before, after)]
    assert made.page().text.count("It adds up.") == 2


def in_plain_words(markdown: str) -> str:
    """A cell of RULES.md without its marks, as another page has it."""
    return re.sub(r"\[([^]]+)\]\([^)]*\)", r"\1", markdown.replace("[below]", "[the rules]")).replace("`", "")


def refusals_of(made: Made) -> None:
    """Each refusal stands under its check, with the meaning and the remedy of the rules, and a link to the check."""
    refused: dict[int, list[str]] = {}
    for logged in made.report.log:
        if not logged.is_done and logged.name != "NotDue":
            refused.setdefault(logged.code, []).append(str(logged.record))
    page, told = made.page(), re.findall("(?:It refuses if|What to do): .*", made.page().text_by_lines)
    expected = []
    for code, check in enumerate(tables.CHECKS, 1):
        records = refused.get(code)
        if records is None:
            continue
        assert [row[0] for row in page.table(f"Refused as {check.name}").rows] == records[:MOST_SHOWN], check.name
        assert (
            f"{code} {check.name}: {grouped(len(records))} instruction{'s' * (len(records) > 1)}" in page.headings
        )
        assert f"rules.html#check-{code}" in page.hrefs
        expected += [f"It refuses if: {in_plain_words(check.meaning)}", f"What to do: {in_plain_words(check.advice)}"]
    assert told == expected, f"{told} and not {expected}"
    assert sum(table.caption.startswith("Refused as") for table in page.tables) == len(refused)


def due_day_told(made: Made, i: rules.Instruction) -> str:
    """The due day of an instruction that waits behind the day, as its row tells it."""
    accounts = {number: account.account() for number, account in made.report.book.items()}
    return str(due_behind(made.day.head, accounts, i) or "none in the calendar")


def waiting_of(made: Made) -> None:
    """What was refused as NotDue waits, with the due day that the rules give behind the day."""
    expected = {
        str(logged.record): due_day_told(made, logged.instruction)
        for logged in made.report.log
        if logged.name == "NotDue"
    }
    if not expected:
        assert not any(table.caption.startswith("Instructions that wait") for table in made.page().tables)
        return
    told = made.page().table("Instructions that wait").columns("Record", "Due")
    assert {record: day for record, day in told} == expected


def plan_of(made: Made) -> None:
    """The plan is that of the rules: each level, and each arrow with its account."""
    rows = [row.split(",") for row in made.answers["plan"].splitlines()[:-1]]
    first = made.day.head.next_record
    levels = {str(first + int(row[1]) - 1): row[2] for row in rows if row[0] == "task"}
    if not levels:
        return
    assert f"This day has {grouped(len({*levels.values()}))} level" in made.page().text
    if len(levels) > MOST_BOXES:
        chain = made.page().table("The chain in words")
        assert all(levels[record] == level for record, level in chain.columns("Record", "Level"))
        return
    arrows = set()
    for _, tail, head, *more in (row for row in rows if row[0] == "arrow"):
        arrows |= {(str(first + int(head) - 1), str(first + int(tail) - 1), account) for account in more}
    table = made.page().table("The plan in words")
    assert {record: level for record, level in table.columns("Record", "Level")} == levels
    told = set()
    for head, words in table.columns("Record", "Waits for (account)"):
        for tail, accounts in re.findall(r"([0-9]+) \(([^)]*)\)", words):
            told |= {(head, tail, account) for account in accounts.split(", ")}
    assert told == arrows, told ^ arrows


def done_of(made: Made) -> None:
    """Each instruction that was done stands on the page of the day, or, if they are many, on pages of their own."""
    expected = [str(logged.record) for logged in made.report.log if logged.is_done]
    captions = [
        table.caption for table in made.page().tables if table.caption.startswith("Instructions that were done")
    ]
    if len(expected) <= MOST_SHOWN:
        told = [record for (record,) in made.page().table(captions[0]).columns("Record")] if captions else []
        assert told == expected
        return
    files = [page for page in made.pages if re.fullmatch("done(-[0-9]+)?.html", page)]
    every = [
        row
        for file in sorted(files, key=len)
        for row in made.page(file).table("Instructions that were done").columns("Record")
    ]
    assert [record for (record,) in every] == expected and "done.html" in made.page().hrefs
    assert captions == [f"Instructions that were done: the first {MOST_SHOWN} of {grouped(len(expected))}"]


RANGE = re.compile('<a href="(accounts[^"#]*)(?:#account-([0-9]+))?">(?:([0-9]+) to )?([0-9]+)</a>')


def found_by_index(made: Made, number: int, file: str = "index.html") -> str:
    """The page that the index leads to for an account: range by range."""
    start = made.texts[file].index(index.WORDS)
    links = RANGE.finditer(made.texts[file][start : made.texts[file].index("</nav>", start)])
    link = next(link for link in links if int(link[3] or link[4]) <= number <= int(link[4]))
    target, at = str(link[1]), link[2]
    if target.startswith("accounts/"):
        return target
    ((shown,),) = [
        column for column in made.page(target).table("All accounts").columns("Account") if column == (str(number),)
    ]
    assert not at or (f"account-{at}" in made.page(target).ids and int(at) <= int(shown))
    return target


def index_of(made: Made) -> None:
    """The index on the page of the day leads to each account."""
    for number in made.report.book:
        assert found_by_index(made, number)
    assert made.report.book or index.WORDS not in made.texts["index.html"]


def all_of_log_are_told(made: Made) -> None:
    """The lead says the record numbers, and how many were done and refused, and wait."""
    log, text = made.report.log, made.page().text
    done, refused, waits = outcomes_of(log)
    waiting = f", {grouped(waits)} waiting for their due day" if waits else ""
    assert f"The next record number is {'still ' * (not log)}{made.report.next_record}." in text.replace(
        "still ", "" if log else "still "
    ) or (f"The next record number is {made.report.next_record}." in text)
    if log:
        assert str(log[0].record) in text and str(log[-1].record) in text
        assert f"{grouped(done)} done, {grouped(refused)} refused{waiting}." in text


# Compliance, and the list of accounts.

BAR = re.compile(
    "<title>surrendered ([0-9,]+), emissions ([0-9,]+)( without those of [^<]*)?</title>"
    '<rect class="bar" x="1" y="4" width="([0-9]+)" height="6"/>'
    '<path class="frame" d="M([0-9]+),1H1V13H([0-9]+)(V1)?"/>'
)


def bars_of(made: Made) -> None:
    """The bar of an account is as long as what was surrendered, and its frame as its emissions. Where emissions are
    missing the frame is open, and the bar is never more than half as long."""
    try:
        rows = [*compliance.standings(made.day, made.report, compliance.last_year_over(made.day.head))]
    except WordsFault:
        return
    found = BAR.findall(made.texts["compliance.html"])
    assert len(found) == len(rows)
    missing = sum(bool(row.years_without_emissions) for row in rows)
    assert sum(bool(without) for _, _, without, *_ in found) == missing
    for surrendered, emissions, without, bar, frame, back, closed in found:
        assert frame == back and bool(closed) == (not without)
        frame_length, bar_length = int(frame) - 1, int(bar)
        if without:
            assert 2 * bar_length <= frame_length, f"{bar} of {frame}"
        elif emissions != "0":
            share = int(surrendered.replace(",", "")) / int(emissions.replace(",", ""))
            assert (
                abs(bar_length - min(share, 1) * max(frame_length, bar_length)) <= 1 + share
            ), f"{bar} of {frame}: {share}"


def compliance_of(made: Made) -> None:
    """The table of compliance is that of `./day compliance`, those first of whom most is missing."""
    try:
        year = compliance.last_year_over(made.day.head)
    except WordsFault as fault:
        assert str(fault) in made.page("compliance.html").text
        return
    expected = {}
    for standing in compliance.standings(made.day, made.report, year):
        numbers = (standing.surrendered, standing.emissions, standing.correction, standing.determined, standing.figure)
        expected[str(standing.account.number)] = (
            *("" if number is None else grouped(number) for number in numbers),
            standing.verdict_in_words,
        )
    table = made.page("compliance.html").table("Compliance for")
    told = table.columns("Account", "Surrendered", "Emissions", "Correction", "Determined", "Figure now", "Verdict")
    assert {row[0]: row[1:] for row in told} == expected
    missing = [max(0, -int(row[5].replace(",", ""))) if row[5] and row[6] != "excluded" else 0 for row in told]
    assert missing == sorted(missing, reverse=True)
    closed = sum(
        made.report.book[int(number)].account().status == "closed" and row[-1] != "compliant"
        for number, row in expected.items()
    )
    assert (f"{closed} account{'s' * (closed > 1)} that" in made.page("compliance.html").text) == bool(closed), closed
    verdicts = made.page("compliance.html").table("Accounts by verdict").columns("Accounts") if expected else []
    assert sum(int(verdict.replace(",", "")) for (verdict,) in verdicts) == len(expected)


def accounts_of(made: Made) -> None:
    """The list of accounts is the book, and each has its page."""
    expected = []
    for account in made.report.book.values():
        own = account.account()
        counts = outcomes_of([logged for logged in made.report.log if own.number in logged.touched()])
        expected.append(
            [str(own.number), own.kind, str(own.holder), own.status, *map(grouped, (*own.held.values(), *counts))]
        )
    assert made.page("accounts.html").table("All accounts").rows == expected
    files = {f"accounts/{number}.html" for number in made.report.book}
    assert (
        files
        == {page for page in made.pages if page.startswith("accounts/")}
        == {*made.page("accounts.html").hrefs} & files
    )
    operators = {
        f"accounts/{account.number}.html" for account in made.report.book.values() if account.kind in rules.OPERATORS
    }
    linked = {href for href in made.page("compliance.html").hrefs if href.startswith("accounts/")}
    assert linked == operators or not any(
        table.caption.startswith("Compliance for") for table in made.page("compliance.html").tables
    )


# Accounts.


def pages_of_accounts(made: Made) -> list[tuple[rules.Account, Page]]:
    """Each account with its page."""
    return [(account.account(), made.page(f"accounts/{number}.html")) for number, account in made.report.book.items()]


def seen_by(made: Made, number: int) -> Iterator[tuple[LogRow, bool]]:
    """The log rows that the holder of an account may see something of, each with whether it is all that belongs to the
    account."""
    users = {account: block.account().users for account, block in made.day.book.items()}
    for logged in made.report.log:
        i = logged.instruction
        if number in rules.named(i):
            if logged.is_done or i.first == number:
                yield logged, True
            elif i.proposer in users[number] or i.proposer in users.get(i.first, ()):
                yield logged, False


def statements_of(made: Made) -> None:
    """In, out and balance of each account are those of the statement, and each row of it stands on the page once."""
    for account, page in pages_of_accounts(made):
        rows = [row.split(",") for row in made.answers[f"statement {account.number}"].splitlines()[:-1]]
        told = []
        for kind in rules.KINDS:
            told += entries_of(page, kind, rows)
        for caption in ("Entries that move no", "Instructions that were refused", "Each is entered again by itself"):
            if any(table.caption.startswith(caption) for table in page.tables):
                told += [row for (row,) in page.table(caption).columns("Record")]
        assert {*told} == {str(each.record) for each, _ in seen_by(made, account.number)}, f"{account.number}: {told}"


def entries_of(page: Page, kind: str, rows: list[list[str]]) -> list[str]:
    """The records of the entries of a kind, whose balances go from the first row to the last."""
    place = 2 + rules.KINDS.index(kind)
    opening, closing = rows[0][place], rows[-1][place]
    captions = [table.caption for table in page.tables if table.caption.startswith(f"{kind.capitalize()} allowances: ")]
    if not captions:
        assert opening == closing and f"No entry. The account holds {grouped(closing)}" in page.text
        return []
    entries = page.table(captions[0]).columns("Record", "In", "Out", "Balance")
    assert entries[0] == ("", "", "", grouped(opening)) and entries[-1] == ("", "", "", grouped(closing))
    held = int(opening)
    for record, into, out, balance in entries[1:-1]:
        held += int(into.replace(",", "") or 0) - int(out.replace(",", "") or 0)
        assert grouped(held) == balance and (into == "") != (out == ""), f"{record}: {into} {out} {balance}"
        (logged,) = [row for row in rows if row[:2] == ["log", record]]
        number = rows[0][1]
        ends = [each for each in range(logged.index("done"), len(logged)) if logged[each] == number]
        assert grouped(logged[ends[-1] + place - 1]) == balance
    assert held == int(closing)
    return [entry[0] for entry in entries[1:-1]]


def lists_of_accounts(made: Made) -> None:
    """Trusted lists, representatives, surrenders and deletions, and the years of each account are those of the book."""
    for account, page in pages_of_accounts(made):
        tables = {table.caption: table for table in page.tables}
        states = {True: "in effect", False: "not in effect yet"}
        trusted = [
            (str(number), str(date), states[date <= made.day.head.date]) for number, date in account.trusted.items()
        ]
        own = tables.get("Accounts that this account trusts")
        assert (own.columns("Account", "In effect from", "State") if own else []) == trusted
        users = [(str(user), right) for user, right in account.users.items()]
        own = tables.get("Who may propose and approve for this account")
        assert (own.columns("User", "Right") if own else []) == users
        retired = [
            (str(number), row.what, row.kind, grouped(row.amount), "reversed" if row.is_reversed else "no")
            for number, row in account.rows.items()
        ]
        own = tables.get("All surrenders and deletions of the account")
        assert (own.columns("Record", "What", "Kind", "Amount", "Reversed") if own else []) == retired
        periods_of(made.day.head, account, own)
        years_of(made, account, [table for caption, table in tables.items() if caption.startswith("Period ")])


def periods_of(head: rules.Day, account: rules.Account, table: Table | None) -> None:
    """If there are several periods, the years of that of each surrender stand in the table of surrenders and
    deletions."""
    if table and len(head.periods) > 1:
        years = {None: ""} | {
            number: f"{first} to {last}" if first < last else str(first)
            for number, (first, last) in enumerate(head.periods, 1)
        }
        assert [period for (period,) in table.columns("For the period")] == [
            years[row.period] for row in account.rows.values()
        ]


def years_of(made: Made, account: rules.Account, tables: Sequence[Table]) -> None:
    """The years are all of each period up to the last that is over or has an entry, and their figures are those of
    compliance."""
    if account.kind not in rules.OPERATORS:
        assert not tables
        return
    expected, head, entries = [], made.day.head, Entries(made.day, made.report)
    for first, last in head.periods:
        told = [year for year in {*account.emissions, *account.figures, head.date.year - 1} if first <= year <= last]
        told += [last] if last < head.date.year else []
        for year in range(first, max(told, default=first - 1) + 1):
            standing = compliance.standing_of(head, account, year, entries)
            numbers = (
                account.emissions.get(year),
                standing.emissions,
                standing.surrendered,
                standing.correction,
                standing.determined,
                standing.figure,
            )
            told_numbers = ["" if number is None else grouped(number) for number in numbers]
            expected.append([str(year), *told_numbers, standing.verdict_in_words])
    assert [row for table in tables for row in table.rows] == expected, f"{account.number}: {tables}"


def refusals_of_accounts(made: Made) -> None:
    """The refusals of each account stand on its page with what it has to do, those of other accounts without any more;
    and what waits stands there with its due day."""
    advice = {check.name: in_plain_words(check.advice) for check in tables.CHECKS}
    for account, page in pages_of_accounts(made):
        by_caption = {table.caption: table for table in page.tables}
        expected: list[tuple[str, str | None, str, str, str]] = []
        for logged, is_whole in seen_by(made, account.number):
            by = ", ".join(field for field in logged.instruction.fields[1:3] if field and int(field) in account.users)
            if not is_whole and logged.name != "NotDue":
                expected.append(
                    (
                        str(logged.record),
                        "An instruction of another account",
                        "",
                        "refused",
                        "Nothing: this account did not ask for it.",
                    )
                )
            elif not logged.is_done and logged.name != "NotDue":
                expected.append((str(logged.record), None, by, logged.name, advice[logged.name]))
        table = by_caption.get("Instructions that were refused")
        told = table.columns("Record", "Instruction", "By", "Refused as", "What to do") if table else []
        assert [
            (row[0], row[1] if other[1] else None, *row[2:]) for row, other in zip(told, expected)
        ] == expected, account.number
        assert len(told) == len(expected), account.number
        waits = [
            logged
            for logged in made.report.log
            if logged.name == "NotDue" and logged.instruction.first == account.number
        ]
        due = {str(wait.record): due_day_told(made, wait.instruction) for wait in waits}
        table = next(
            (table for caption, table in by_caption.items() if caption.startswith("These are entered again")), None
        )
        told = table.columns("Record", "Due") if table else []
        assert {record: day for record, day in told} == due, account.number


def facts_of_accounts(made: Made) -> None:
    """The holder, the kind and the status of each account stand on its page."""
    kinds = {"total": "EU total quantity", "allocation": "EU allocation", "operator": "operator holding",
             "aircraft": "aircraft operator holding", "trading": "trading"}  # fmt: skip
    for account, page in pages_of_accounts(made):
        start = f"Account {account.number} Holder {account.holder} Kind {kinds[account.kind]} account "
        start += f"Status {account.status} What it allows "
        assert start in " ".join(page.text_by_tags), page.text_by_tags[:20]


def nothing_of_others(made: Made, drawn: Day) -> None:
    """No number on the page of an account belongs to another one, except amounts that the account gave or received."""
    for account, page in pages_of_accounts(made):
        allowed = set(drawn.accounts[account.number].own)
        for logged in (each for each, is_whole in seen_by(made, account.number) if is_whole):
            i = logged.instruction
            amounts = (
                i.amounts
                if not i.shares or account.number == i.first
                else [share for to, share in i.shares if to == account.number]
            )
            held = logged.held.get(account.number, {})
            allowed |= {*amounts, sum(amounts), i.tonnes or 0, *held.values(), logged.figure or 0}
        others = {number for other in drawn.accounts.values() if other.number != account.number for number in other.own}
        others |= {
            *drawn.admins,
            *(
                held
                for logged in made.report.log
                for number, own in logged.held.items()
                if number != account.number
                for held in own.values()
            ),
        }
        others |= {
            amount
            for logged in made.report.log
            if account.number not in logged.touched()
            for amount in logged.instruction.amounts
        }
        others |= {
            amount
            for logged in made.report.log
            for to, amount in logged.instruction.shares
            if account.number not in (to, logged.instruction.first)
        }
        numbers = {
            int(found.replace(",", "")) for found in NUMBER.findall(made.texts[f"accounts/{account.number}.html"])
        }
        found = numbers & (others - allowed)
        assert not found, f"{account.number}: {found}"


# What is tried of which day.

OF_EACH = (
    form_of, acts_of, totals_of, refusals_of, waiting_of, plan_of, done_of, index_of, all_of_log_are_told,
    compliance_of, bars_of, accounts_of, statements_of, lists_of_accounts, refusals_of_accounts, facts_of_accounts,
)  # fmt: skip


def trials_of(made: Made) -> Iterator[tuple[str, Trial]]:
    for trial in OF_EACH:
        yield f"{made.name}: {trial.__doc__}", lambda trial=trial: trial(made)
