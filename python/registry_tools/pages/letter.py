"""The page of a holder, to print or to send: all accounts of the holder, in words for somebody outside, with nothing on
it that belongs to others."""
import datetime
import re
from collections.abc import Iterator, Sequence
from dataclasses import dataclass

from registry_tools import tables
from registry_tools.calendars.due_days import NOT_DUE
from registry_tools.texts.sender import Sender
from registry_tools.texts.namebook import ACCOUNT
from registry_tools.pages.account import entry_parts, facts_of, refused_parts, standing_parts, waiting_parts
from registry_tools.pages.html import (
    HEAD, PARTS, Cells, Markup, Table, facts, heading, items, joined, paragraph, style_of, tag,
)  # fmt: skip
from registry_tools.pages.rulebook import Rulebook
from registry_tools.pages.settled import Settled, long_date
from registry_tools.pages.tasks import Task
from registry_tools.pages.statement import OF_ANOTHER, DayTold, Own, Statement
from registry_tools.texts.checks import MEANING, Check, form_words, without_marks
from registry_tools.texts.own import OwnRow
from registry_tools.texts.report import LogRow

DONE_LATER = Table(["Asked for on", "Record", "Instruction", "Why not then", "Done on", "As record"])
NOT_DUE_YET = "It was not due yet."
# The checks that find something of the account alone, and of no other account, user or list.
OF_ITSELF = {check.name for check in tables.CHECKS if check.of_itself}
# What the lines of a table are, by their first fields.
LINES = {
    "statement": "the last day, and the account with its kind, holder and status behind it",
    "opening": "what the account held before: its number, general and aviation allowances",
    "log": (
        "an instruction: its record, day and day of proposal, who proposed and approved it if they represent the "
        "account, what was asked, what came of it, and what the account then held"
    ),
    "refused": "the record and the day of an instruction of somebody else that was refused",
    "closing": "what the account held after",
    "end": "nothing more comes, so the table is whole",
}
TO_DO, NOTHING_TO_DO = "What to do", "Nothing has to be done."
KEPT = "Keep this page: by its head an auditor sees whether a day up to it was changed later."
# Sentences that only an administrator can do something about.
OF_OFFICE = re.compile(
    r"\s*(An act of administrators: [^.]*\.|For an act of administrators: [^.]*\.|See docs/\S+|: see docs/\S+\.?)"
)
# What a holder does otherwise.
ADVICE = {
    "OutsideCalendar": "Ask the registry for more working days, and enter it again.",
    "YearOutsidePeriod": "Check the year.",
}
STYLE = (
    "@page{size:A4;margin:18mm 15mm 20mm;@bottom-center{content:counter(page) ' / ' counter(pages)}}"
    "table.sheet{width:100%;border:0}p.sum{overflow-wrap:anywhere}"
    "table.sheet>thead>tr>td,table.sheet>tbody>tr>td{border:0;padding:0;background:none}"
    "table.sheet>thead>tr>td{padding-bottom:.6rem;font-weight:600}"
    "@media screen{table.sheet,table.sheet>*,table.sheet>*>tr,table.sheet>*>tr>td{display:block}"
    "table.sheet{max-width:none}"
    "table.sheet>thead{display:none}}table.sheet table thead th{font-weight:700}"
    "@media print{section+section{break-before:page}table.sheet>tbody>tr{break-inside:auto}}"
)


class LetterWords(Rulebook):
    """The words of the rules as they stand in a letter: without links, and without what only the registry does."""

    def check_link(self, code: int, root: str = "") -> str:
        """What a check means: a letter has no rules to lead to."""
        return meaning_of(self.checks[code])

    def words(self, markdown: str, root: str = "") -> str:
        """What to do after a refusal, in words for a holder."""
        name = next((check.name for check in self.checks.values() if check.advice == markdown), "")
        return ADVICE.get(name) or letter_words(without_marks(markdown))


def meaning_of(check: Check) -> str:
    """Why the check refuses, in a letter."""
    return MEANING.get(check.name) or letter_words(without_marks(check.meaning))


def letter_words(text: str) -> str:
    """A sentence of the rules without what only the office does."""
    return form_words(OF_OFFICE.sub("", text).rstrip(".") + ".")


class LetterStatement(Statement):
    """The statement of an account in a letter: what was not due is no refusal, but waits; and what was not done at
    first and was done later is told as done later."""

    def __init__(self, settled: Settled, number: int, days: Sequence[DayTold]) -> None:
        # The tries of what was not done, by its fields: it is the same instruction if all of them are the same.
        self.asked: dict[tuple[str, ...], list[list[LogRow]]] = {}
        self.done_later: list[Cells] = []
        # What waits behind the last day and is of others, as far as the own statement tells it.
        self.of_others: list[Cells] = []
        super().__init__(settled, number, days)

    def take(self, date: datetime.date, own_row: OwnRow) -> None:
        """Enters a log row; of equal instructions the later ones tell what became of them."""
        logged = own_row.logged
        if own_row.is_whole:
            equal = self.asked.setdefault(tuple(logged.instruction.fields), [])
            tries = tries_before(equal, logged)
            if logged.is_done:
                self.tell_done_later(tries, date, logged)
            else:
                equal.append([*tries, logged])
        if logged.name != NOT_DUE:
            super().take(date, own_row)
        elif not own_row.is_whole and date == self.days[-1].date:
            self.of_others.append((logged.record, OF_ANOTHER, "", ""))

    def waiting(self) -> Iterator[Cells]:
        """What waits of this account with its due day, and that something of others waits."""
        yield from super().waiting()
        yield from self.of_others

    def tell_done_later(self, before: list[LogRow], date: datetime.date, done: LogRow) -> None:
        """Takes what was refused and is done now out of the refusals."""
        records = {row.record for row in before}
        self.refused[:] = [row for row in self.refused if row[1] not in records]
        what = Own(done, self.number, self.users).words_with_amount
        for row in before:
            why = NOT_DUE_YET if row.name == NOT_DUE else self.refusal(row)[0]
            self.done_later.append((row.date, row.record, what, why, date, done.record))

    def refusal(self, logged: LogRow) -> tuple[str, str]:
        """What refused an instruction, and what to do; with what was found, if that is of this account alone."""
        book = self.settled.rulebook
        is_own = logged.instruction.first == self.number and logged.name in OF_ITSELF
        found = self.settled.found.get(logged.record, "") if is_own else ""
        return book.check_link(logged.code), f"{found} {book.words(book.checks[logged.code].advice)}".lstrip()


def tries_before(equal: list[list[LogRow]], logged: LogRow) -> list[LogRow]:
    """Takes the earlier tries of an instruction out of those of all that are equal to it. If several were asked for on
    a day, each of them is tried again on a later one, in their order."""
    place = next((place for place, tries in enumerate(equal) if tries[-1].date < logged.date), None)
    if place is None and equal and logged.is_done:
        place = 0
    return [] if place is None else equal.pop(place)


def parts_of(settled: Settled, statement: LetterStatement) -> Iterator[Markup]:
    """What a holder has to know comes first: what waits, what was refused, and what was done later than it was asked
    for."""
    account = settled.report.book[statement.number].account()
    yield facts_of(settled, account, statement)
    yield from waiting_parts(statement)
    yield from refused_parts(statement)
    if statement.done_later:
        yield heading("Done later")
        told = "These were not done when they were asked for, and were done later"
        yield statement.table(DONE_LATER, told, statement.done_later)
    yield from entry_parts(statement)
    yield from standing_parts(settled, account, statement)


def section_of(
    settled: Settled, statement: LetterStatement, holder: str, is_taken_over: bool, table: tuple[str, str],
    is_last: bool,
) -> Markup:  # fmt: skip
    """An account: its number and holder stand at the head of each page on which it is printed. Its last line tells the
    name of its statement as a table, and the sum of that; behind the last account, what the lines of a table are."""
    label = settled.names.name_of(ACCOUNT, statement.number)
    name = ", ".join(filter(None, [f"Account {statement.number}", label, holder]))
    since = f"This account has had another holder: its statement begins on {long_date(statement.first_day)}."
    lead = [tag("p", since)] if is_taken_over else []
    name_of_table, sum_of_table = table
    told = tag("p", f"The statement as a table: {name_of_table}, whose SHA-256 is {sum_of_table}.", class_="sum")
    lines = [heading("The lines of a table"), facts(LINES.items())] if is_last else []
    content = joined(tag("h2", f"Account {statement.number}"), *lead, *parts_of(settled, statement), told, *lines)
    head = f"<thead><tr><td>{tag('span', name)}</td></tr></thead>"
    sheet = f"<table class='sheet'>{head}<tbody><tr><td>{content}</td></tr></tbody></table>"
    return Markup(f"<section>{sheet}</section>")


def page_of(title: str, lead: str, sections: list[Markup], above: tuple[Markup, ...] = ()) -> str:
    """A page that leads nowhere else, and that prints."""
    body = f"<main id='main'>\n{joined(*above, tag('h1', title), tag('p', lead), *sections)}\n</main>"
    style = style_of("colours", "style") + "".join(make() for name, make in PARTS.items() if name in body) + STYLE
    head = f"{HEAD}<title>{tag('x', title)[3:-4]}</title>\n<style>{style}</style>\n</head>\n"
    return f"{head}<body>\n{body}\n</body>\n</html>\n"


@dataclass
class Letter:
    """The page of a holder, and what it begins with: its title, of which days it is, and what is to be done."""

    title: str
    lead: str
    tasks: list[str]
    page: str = ""


def letter(
    settled: Settled, days: Sequence[DayTold], holder: int, places: dict[int, int], head: str,
    tables: dict[int, tuple[str, str]], sender: Sender, tasks: dict[int, list[Task]],
) -> Letter:  # fmt: skip
    """The page of a holder: each account from the day at its place on, with the name and the sum of its table; the head
    of the folder that it was made of, who sends it, and what is to be done for each account."""
    name = settled.names.holder(holder)
    sections: list[Markup] = []
    todo: list[str] = []
    for number, place in places.items():
        statement = LetterStatement(settled, number, days[place:])
        is_last = len(sections) + 1 == len(places)
        sections.append(section_of(settled, statement, name, place > 0, tables[number], is_last))
        todo += [str(task) for task in tasks.get(number, [])]
        if statement.refused:
            todo.append(f"Read below what was refused, and what to do (account {number}).")
    begin, end = days[0].date, days[-1].date
    lead = f"From {long_date(begin)} to {long_date(end)}." if begin != end else f"{long_date(end)}."
    lead = f"{lead} {head_in_words(head)}{f' {KEPT}' if head else ''}".rstrip()
    made = Letter(f"Holder {name}", lead, todo or [NOTHING_TO_DO])
    todo_parts = [heading(TO_DO), items(made.tasks)]
    made.page = page_of(made.title, lead, [*todo_parts, *sections], (paragraph(f"From {sender}."),))
    return made


def head_in_words(head: str) -> str:
    """The head of the folder that a page was made of, for whoever keeps the page; nothing of paths."""
    return f"Head of the registry: {head}." if head else ""
