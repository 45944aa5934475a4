"""The page of compliance: how each operator and aircraft operator stands for a year, and the list of all accounts."""
from collections import Counter
from typing import Iterator, Sequence

from registry_tools.errors import WordsFault
from registry_tools.texts.namebook import ACCOUNT
from registry_tools.pages import index
from registry_tools.pages.html import Cells, Markup, Table, link, paragraph, table, tag, words_in_cell
from registry_tools.pages.rulebook import RULES
from registry_tools.pages.settled import OUTCOMES, LongTable, Settled, count_of, kind_of, rows_of_parts
from registry_tools.pairs import compliance
from registry_tools.pairs.compliance import Standing
from registry_tools.texts.in_words import grouped

COLUMNS = [
    "Account", "Kind", "Holder", "Status", "Surrendered", "Emissions", "Surrendered of emissions", "Correction",
    "Determined", "Figure now", "Verdict",
]  # fmt: skip
NUMBERS = ("Surrendered", "Emissions", "Correction", "Determined", "Figure now")
BAR_WIDTH, BAR_HEIGHT = 96, 14
# What each verdict means, and what to do.
MEANING = {
    compliance.MISSING: "Allowances are missing now: surrender them, and assess the year again.",
    compliance.NO_EMISSIONS: "Of these years there is no entry, so there is no figure: enter them, and assess the "
    "year.",
    compliance.SHORT: "Allowances are missing now, and no figure of the year was determined: surrender them, and "
    "assess the year.",
    compliance.NOT_ASSESSED: "No figure of the year was determined, and nothing is missing: assess the year.",
    compliance.SINCE: "The determined figure is below 0, and as much was surrendered since, also for later years: "
    "assess the year again.",
    compliance.OUTDATED: "Emissions up to the year, or the correction factor, changed after the figure was determined: "
    "assess the year again.",
    compliance.COMPLIANT: "The determined figure is 0 or more, and so is the one of now. Nothing is left to do.",
    compliance.EXCLUDED: "No figure is determined for an excluded account.",
}


def bar(standing: Standing) -> Markup:
    """A frame as long as the emissions, and a bar in it as long as what was surrendered. The longer of both has the
    full width. If emissions are missing, nobody knows how long the frame is: it stays open, and the bar is at most half
    as long as it.
    """
    is_open, width = bool(standing.years_without_emissions), BAR_WIDTH - 2
    most = (2 if is_open else 1) * max(standing.surrendered, standing.emissions, 1)
    filled, frame = standing.surrendered * width // most, width if is_open else standing.emissions * width // most
    emitted = f"emissions {grouped(standing.emissions)}"
    missing = f" without those of {', '.join(map(str, standing.years_without_emissions))}, which are missing"
    title = f"surrendered {grouped(standing.surrendered)}, {emitted}{missing if is_open else ''}"
    end = "" if is_open else "V1"
    return Markup(
        f'<svg role="img" viewBox="0 0 {BAR_WIDTH} {BAR_HEIGHT}" width="{BAR_WIDTH}"><title>{title}</title>'
        f'<rect class="bar" x="1" y="4" width="{filled}" height="6"/>'
        f'<path class="frame" d="M{1 + frame},1H1V13H{1 + frame}{end}"/></svg>'
    )


def amount(number: int | None) -> str:
    """A number; nothing, if it is none."""
    return "" if number is None else grouped(number)


def order(standing: Standing) -> tuple[object, ...]:
    """Those of whom most is missing stand first; behind them, those of whom nobody knows, and those who lack an
    assessment."""
    is_settled, is_known = standing.verdict in compliance.SETTLED, standing.verdict != compliance.NO_EMISSIONS
    return -(standing.missing or 0), is_settled, is_known, standing.account.number


def operator_cells(settled: Settled, standing: Standing) -> Cells:
    """The cells of an operator."""
    account, verdict = standing.account, standing.verdict_in_words
    shown = verdict if standing.verdict in compliance.SETTLED else tag("strong", verdict)
    surrendered, emissions, *others = map(amount, standing.figures)
    start = settled.named_account(account.number), account.kind, settled.names.holder(account.holder), account.status
    return (*start, surrendered, emissions, bar(standing), *others, shown)


def counts_table(rows: list[Standing]) -> Markup:
    """How many accounts have each verdict."""
    count = {verdict: sum(standing.verdict == verdict for standing in rows) for verdict in MEANING}
    shown = ((verdict, grouped(count[verdict]), meaning) for verdict, meaning in MEANING.items() if count[verdict])
    return table("Accounts by verdict", ["Verdict", "Accounts", "What it means"], shown, right=("Accounts",))


def year_of(settled: Settled, year: int | None) -> tuple[int | None, str]:
    """The year of the page, or why there is none."""
    try:
        return compliance.last_year_over(settled.head) if year is None else year, ""
    except WordsFault as fault:
        return None, str(fault)


def compliance_pages(settled: Settled, files: dict[str, str], year: int | None, note: str) -> Iterator[tuple[str, str]]:
    """The file and the text of each page of compliance."""
    year, why = year_of(settled, year)
    if year is None:
        page = settled.frame.page("Compliance", paragraph(f"{why}."), current=files["compliance"], note=note)
        yield files["compliance"], page
        return
    rows = sorted(compliance.standings(settled.day, settled.report, year), key=order)
    period = settled.period_in_words(compliance.period_of(settled.head, year))
    missing = sum(standing.missing or 0 for standing in rows)
    lead = [
        paragraph(
            f"After {settled.head.date}, of the period {period}: {count_of(len(rows), 'account', 'accounts')} of "
            f"operators and aircraft operators. {count_of(missing, 'allowance is', 'allowances are')} missing, as far "
            "as there are figures.",
            class_="lead",
        ),
        *([counts_table(rows)] if rows else []),
        paragraph(
            "Surrendered is all that was surrendered for the period up to this day; emissions are those of the period "
            "up to and including the year. The ", link(f"{RULES}#the-compliance-figure", "compliance figure"),
            " is surrendered - emissions + correction. A frame that is open at its end lacks emissions: nobody knows "
            "how long it is. Accounts of which most is missing stand first.",
        ),
        *(paragraph(f"{line}.") for line in compliance.closed_words(rows)),
    ]  # fmt: skip
    shown = [operator_cells(settled, standing) for standing in rows]
    title = f"Compliance for {year}"
    table = LongTable(files["compliance"], title, Table(COLUMNS, NUMBERS), title, shown, lead)
    yield from table.pages(settled.frame, note=note, is_across=True)


ACCOUNT_COLUMNS = ["Account", "Kind", "Holder", "Status", "General", "Aviation", "Done", "Refused", "Waiting"]
NUMBERS_OF_ACCOUNT = ACCOUNT_COLUMNS[4:]
NAME = "Name"


def account_rows(settled: Settled) -> Iterator[Cells]:
    """What each account holds, and how many instructions about it were done and refused, and wait."""
    count = Counter((number, kind_of(logged)) for logged in settled.log for number in logged.touched())
    parts = rows_of_parts(settled.report.numbers)
    starts = {first for part in parts for first, _ in index.ranges(part, index.RANGE)}
    for number, block in settled.report.book.items():
        _, _, kind, holder, status, *_ = block.rows[0].split(",", 5)
        general, aviation = block.held_fields
        touched = (grouped(count[number, outcome]) for outcome in OUTCOMES)
        named = [settled.names.name_of(ACCOUNT, number)] if settled.names.has(ACCOUNT) else []
        yield (
            index.cell(settled, number, number in starts), *named, kind, settled.names.holder(holder), status,
            grouped(general), grouped(aviation), *touched,
        )  # fmt: skip


def account_list_pages(settled: Settled, files: dict[str, str], note: str) -> Iterator[tuple[str, str]]:
    """All accounts after the day."""
    rows = [*account_rows(settled)]
    lead = paragraph(
        f"{count_of(len(rows), 'account', 'accounts')} after {settled.head.date}: what each holds, and how many "
        "instructions of the day that move its allowances or are about it were done and refused, and wait for their "
        "due day. What was refused as "
        "UnknownAccount is counted at no account.",
        class_="lead",
    )

    def before(file: str, part: Sequence[Cells]) -> Markup:
        return index.of_page(file, [int(words_in_cell(row[0])) for row in part])

    first, *others = ACCOUNT_COLUMNS
    columns = [first, NAME, *others] if settled.names.has(ACCOUNT) else ACCOUNT_COLUMNS
    table_of = Table(columns, NUMBERS_OF_ACCOUNT)
    table = LongTable(files["accounts"], "Accounts", table_of, "All accounts", rows, [lead], before)
    yield from table.pages(settled.frame, note=note)
