"""The page of the day, and the pages of its refusals, if there are many."""
from collections import Counter
from dataclasses import dataclass
from typing import Callable, Iterator

from registry_tools.pages import index
from registry_tools.pages.html import Cells, Markup, Table, link, paragraph, table, tag
from registry_tools.pages.plan import plan_parts
from registry_tools.pages.rulebook import ACTS
from registry_tools.pages.settled import (
    NO_DUE_DAY, OUTCOMES, ByHand, LongTable, Settled, by_hand_parts, count_of, kind_of, long_date, record_in_words,
)  # fmt: skip
from registry_tools.second.rules import KINDS
from registry_tools.texts.books import Movements, sums_of
from registry_tools.texts.checks import Check
from registry_tools.texts.in_words import grouped, instruction_in_words
from registry_tools.texts.report import LogRow

# Of more instructions that a check refused, that were done or that wait, the page of the day shows the first ones.
MOST_SHOWN = 100
LOG_COLUMNS = ["Record", "Accounts", "Instruction", "Proposed", "Proposer", "Approver"]
DONE, DONE_CAPTION = "done.html", "Instructions that were done"
WAITING, WAITING_COLUMNS = "waiting.html", ["Record", "Instruction", "Proposed", "Due"]
WAITING_CAPTION = "Instructions that wait for their due day"
DAY, WAY_BACK = "index.html", "The page of the day"
ENTERED_AGAIN = "./day next and ./day close enter each of them again on its due day, with its old date of proposal."
ELSEWHERE = "What waits since earlier days stands in the pending file of ./day next."


def lead(settled: Settled) -> Markup:
    """The first sentences of the page."""
    log, next_one = settled.log, f"The next record number is {settled.report.next_record}."
    if not log:
        return paragraph(f"The day has no instruction. {next_one}", class_="lead")
    count = Counter(map(kind_of, log))
    numbers = f"numbers {log[0].record} to {log[-1].record}" if len(log) > 1 else f"number {log[0].record}"
    outcome = f"{grouped(count['done'])} done, {grouped(count['refused'])} refused"
    waiting = f", {grouped(count['waiting'])} waiting for their due day" if count["waiting"] else ""
    got = f"{count_of(len(log), 'instruction', 'instructions')} got the record {numbers}"
    return paragraph(f"{got}: {outcome}{waiting}. {next_one}", class_="lead")


def acts_table(settled: Settled) -> Markup:
    """How many instructions of each act were done and refused, and how many wait."""
    count = Counter((logged.instruction.act, kind) for logged in settled.log for kind in (kind_of(logged), "all"))
    columns = (*OUTCOMES, "all")
    acts = [act for act in ACTS if count[act, "all"]]
    rows = [(settled.rulebook.act_link(act), *(grouped(count[act, kind]) for kind in columns)) for act in acts]
    foot = ("all acts", *(grouped(sum(count[act, kind] for act in acts)) for kind in columns))
    heads = ["Act", *(kind.capitalize() for kind in columns)]
    return table("Instructions by act", heads, rows, right=heads[1:], foot=[foot], is_short=True)


def totals_parts(settled: Settled) -> list[Markup]:
    """The totals before and after the day, as a sum that adds up."""
    before, moved = sums_of(settled.day.book_rows), Movements(settled.report)
    after = {kind: settled.report.totals[kind] for kind in KINDS}
    steps = [
        ("Held before the day", lambda kind: before[kind].held),
        ("Surrendered before the day", lambda kind: before[kind].surrendered),
        ("Together before the day", lambda kind: before[kind].allowances),
        ("Created", lambda kind: moved.created[kind]),
        ("Deleted", lambda kind: -moved.deleted[kind]),
        ("Deletions reversed", lambda kind: moved.undeleted[kind]),
        ("Together after the day", lambda kind: after[kind][0] + after[kind][1]),
        ("Held after the day", lambda kind: after[kind][0]),
        ("Surrendered after the day", lambda kind: after[kind][1]),
    ]
    kept = [("Before the day", lambda kind: before[kind].deleted), ("After the day", lambda kind: after[kind][2])]
    return [
        amounts_table("Allowances before and after the day", steps),
        *(equation(kind, before[kind].allowances, moved, after[kind][0] + after[kind][1]) for kind in KINDS),
        amounts_table("Deleted allowances, without those of reversed deletions", kept),
    ]


def amounts_table(caption: str, steps: list[tuple[str, Callable[[str], int]]]) -> Markup:
    """A table with a row for each step, and a column for each kind of allowance. Sums are bold."""
    rows = [(name, *(grouped(amount(kind)) for kind in KINDS)) for name, amount in steps]
    columns = ["Allowances", *(kind.capitalize() for kind in KINDS)]
    shown = (row if not row[0].startswith("Together") else [tag("strong", cell) for cell in row] for row in rows)
    return table(caption, columns, shown, right=columns[1:], is_short=True)


def equation(kind: str, before: int, moved: Movements, after: int) -> Markup:
    """The equation of conservation in a line, and whether it holds."""
    created, deleted, undeleted = moved.created[kind], moved.deleted[kind], moved.undeleted[kind]
    expected = before + created - deleted + undeleted
    added = f"{grouped(before)} + {grouped(created)} - {grouped(deleted)} + {grouped(undeleted)} = {grouped(expected)}"
    verdict = "It adds up." if expected == after else f"It does not add up: the report has {grouped(after)}."
    told = tag("strong", verdict, class_=None if expected == after else "alert")
    return paragraph(f"{kind.capitalize()}: {added}. ", told)


def log_cells(settled: Settled, logged: LogRow) -> Cells:
    """An instruction as a row of LOG_COLUMNS. Of an assessment that was done, with its figure."""
    i = logged.instruction
    figure = "" if logged.figure is None else f": figure {grouped(logged.figure)}"
    proposer, approver = (("" if user is None else settled.names.user(user)) for user in (i.proposer, i.approver))
    accounts, words = settled.accounts_of(logged), record_in_words(logged) + figure
    return logged.record, accounts, words, i.proposed, proposer, approver


@dataclass
class Shown:
    """Instructions of which the page of the day shows all, or if they are many the first ones, and pages of their own
    all: the file of these, their title and what stands first on them; and how the link to them goes on."""

    file: str
    title: str
    caption: str
    columns: list[str]
    rows: list[Cells]
    lead: list[Markup]
    which: str

    def parts(self) -> Iterator[Markup]:
        """The table on the page of the day."""
        count = grouped(len(self.rows))
        first = f": the first {MOST_SHOWN} of {count}" if len(self.rows) > MOST_SHOWN else ""
        yield table(self.caption + first, self.columns, self.rows[:MOST_SHOWN])
        if first:
            yield paragraph(link(self.file, f"All {count} that {self.which}"))

    def pages(self, settled: Settled, note: str) -> Iterator[tuple[str, str]]:
        """The pages of all of them, if the page of the day does not show all."""
        if len(self.rows) > MOST_SHOWN:
            table = LongTable(self.file, self.title, Table(self.columns), self.caption, self.rows, self.lead)
            yield from table.pages(settled.frame, note=note)


def way_back(anchor: str = "") -> Markup:
    """The link to the page of the day."""
    return paragraph(link(f"{DAY}{anchor}", WAY_BACK))


def done_of(settled: Settled) -> Shown:
    """What was done."""
    rows = [log_cells(settled, logged) for logged in settled.log if logged.is_done]
    return Shown(DONE, f"Done on {settled.head.date}", DONE_CAPTION, LOG_COLUMNS, rows, [way_back()], "were done")


def done_parts(settled: Settled) -> list[Markup]:
    """The instructions that were done; of many, the first ones."""
    shown = done_of(settled)
    return [*shown.parts()] if shown.rows else [paragraph("No instruction was done.")]


def refused_by(settled: Settled, code: int, refused: list[LogRow]) -> Shown:
    """What a check refused."""
    check, rows = settled.rulebook.checks[code], [log_cells(settled, logged) for logged in refused]
    caption, lead = f"Refused as {check.name}", [way_back(f"#refused-{code}"), *meaning(settled, check)]
    title, which = f"{caption} on {settled.head.date}", f"were refused as {check.name}"
    return Shown(f"refused-{code}.html", title, caption, LOG_COLUMNS, rows, lead, which)


def refusals_of(settled: Settled, code: int, log: list[LogRow]) -> Iterator[Markup]:
    """A check with its meaning, its remedy and the instructions that it refused."""
    count, name = count_of(len(log), "instruction", "instructions"), settled.rulebook.check_link(code)
    yield tag("h3", f"{code} ", name, f": {count}", id=f"refused-{code}")
    yield from meaning(settled, settled.rulebook.checks[code])
    yield from refused_by(settled, code, log).parts()


def meaning(settled: Settled, check: Check) -> Iterator[Markup]:
    """When a check refuses, and what to do then."""
    yield paragraph(tag("strong", "It refuses if: "), settled.rulebook.words(check.meaning))
    yield paragraph(tag("strong", "What to do: "), settled.rulebook.words(check.advice))


def refusals_parts(settled: Settled) -> list[Markup]:
    """The refusals: how many of each check, and then each check with its instructions."""
    refused = settled.refused()
    if not refused:
        return [paragraph("No instruction was refused.")]
    names = {code: settled.rulebook.checks[code].name for code in refused}
    rows = ((link(f"#refused-{code}", f"{code} {names[code]}"), grouped(len(log))) for code, log in refused.items())
    return [
        table("Refusals by check", ["Check", "Refused"], rows, right=("Refused",), is_short=True),
        *(part for code, log in refused.items() for part in refusals_of(settled, code, log)),
    ]


def waiting_note(settled: Settled) -> str:
    """Since when the instructions of the table wait."""
    if settled.has_pending:
        return f"They were refused as NotDue on this day or before. {ENTERED_AGAIN}"
    return f"They were refused as NotDue on this day. {ENTERED_AGAIN} {ELSEWHERE}"


def waiting_rows(settled: Settled) -> list[Cells]:
    """The instructions that wait, those first that are due first."""
    pairs = ((waits, waits.instruction) for waits in settled.waiting)
    return [(waits.record or "", instruction_in_words(i), i.proposed, waits.due or NO_DUE_DAY) for waits, i in pairs]


def waiting_of(settled: Settled) -> Shown:
    """What waits."""
    rows, lead = waiting_rows(settled), [way_back(), paragraph(waiting_note(settled))]
    title = f"Waiting after {settled.head.date}"
    return Shown(WAITING, title, WAITING_CAPTION, WAITING_COLUMNS, rows, lead, "wait")


def waiting_instructions(settled: Settled) -> list[Markup]:
    """The instructions that wait for their due day; of many, the first ones."""
    shown = waiting_of(settled)
    if not shown.rows:
        none = "No instruction waits." if settled.has_pending else f"No instruction of this day waits. {ELSEWHERE}"
        return [paragraph(none)]
    return [paragraph(waiting_note(settled)), *shown.parts()]


def sections(settled: Settled, files: dict[str, str], by_hand: ByHand) -> Iterator[tuple[str, list[Markup]]]:
    """The headings of the page, and what stands under each."""
    yield "Accounts", [index.of_all(settled, files["accounts"])] if settled.report.numbers else []
    yield "Instructions", [acts_table(settled)] if settled.log else []
    yield "Allowances", totals_parts(settled)
    yield "Refused", refusals_parts(settled) if settled.log else []
    yield "Waiting for their due day", waiting_instructions(settled) if settled.log or settled.waiting else []
    yield "Changed by hand", by_hand_parts(settled, by_hand)
    yield "Done", done_parts(settled) if settled.log else []
    yield "The order of the instructions", plan_parts(settled) if settled.log else []


def summary_pages(settled: Settled, files: dict[str, str], by_hand: ByHand, note: str) -> Iterator[tuple[str, str]]:
    """The file and the text of each page of the day."""
    filled = ((name, inside) for name, inside in sections(settled, files, by_hand) if inside)
    parts = [part for name, inside in filled for part in (tag("h2", name), *inside)]
    title = f"Settlement day: {long_date(settled.head.date)}"
    yield files["day"], settled.frame.page(title, lead(settled), *parts, current=files["day"], note=note)
    checks = (refused_by(settled, code, log) for code, log in settled.refused().items())
    for shown in (waiting_of(settled), done_of(settled), *checks):
        yield from shown.pages(settled, note)
