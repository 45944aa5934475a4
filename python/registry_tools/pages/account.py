"""The pages of accounts: a statement for each holder, with nothing on it that belongs to others."""
from typing import Iterator, Sequence

from registry_tools.texts.namebook import ACCOUNT
from registry_tools.pages.compliance import amount
from registry_tools.notes import counted
from registry_tools.pages.html import Cells, Markup, Table, facts, heading, paragraph
from registry_tools.pages.plan import figure
from registry_tools.pages.settled import Settled, long_date
from registry_tools.pages.statement import KINDS, ROOT, Balances, DayTold, Statement
from registry_tools.pairs import compliance
from registry_tools.second import rules
from registry_tools.texts.in_words import grouped

NOTE = (
    "This page shows only what belongs to the account. What other accounts hold is left out, and so are users who do "
    "not represent it; By names only its representatives."
)
OTHERS = Table(["Day", "Record", "Entry", "By"])
REFUSED = Table(["Day", "Record", "Instruction", "By", "Refused as", "What to do"])
WAITED = Table(["Day", "Record", "Instruction", "Outcome"])
WAITING = Table(["Record", "Instruction", "Proposed", "Due"])
FIGURES = ["Emissions of the year", "Emissions so far", "Surrendered", "Correction", "Determined", "Figure now"]
YEARS = Table(["Year", *FIGURES, "Verdict"], FIGURES)
YEARS_NOTE = paragraph(
    "The figure of a year is surrendered - emissions so far + correction. Figure now is what it would be if the year "
    "was assessed now: it counts all that was surrendered for the period up to this day."
)
TRUSTED = Table(["Account", "In effect from", "State"])
USERS = Table(["User", "Right"])
RETIRED_COLUMNS = ["Record", "Day", "What", "Kind", "Amount", "Reversed"]
RETIRED = Table(RETIRED_COLUMNS, ("Amount",))
RETIRED_FOR_PERIODS = Table([*RETIRED_COLUMNS, "For the period"], ("Amount",))
BALANCES = Table(["Day", *(kind.capitalize() for kind in KINDS)], [kind.capitalize() for kind in KINDS])
CHART_WIDTH, CHART_HEIGHT, LEFT, TOP = 460, 130, 8, 22


def chart(kind: str, balances: Balances) -> Markup:
    """The balance of a kind over the days, as a line of steps."""
    amounts = [held[kind] for _, held in balances]
    most = max([*amounts, 1])
    width = (CHART_WIDTH - 2 * LEFT) / len(amounts)
    floor = TOP + CHART_HEIGHT

    def y(number: int) -> str:
        return f"{floor - CHART_HEIGHT * number / most:.1f}"

    steps = "".join(f"V{y(number)}H{LEFT + width * place:.1f}" for place, number in enumerate(amounts, 1))
    title = f"The balance of {kind} allowances, {balances[0][0]} to {balances[-1][0]}"
    return Markup(
        f'<svg role="img" viewBox="0 0 {CHART_WIDTH} {floor + 20}" width="{CHART_WIDTH}"><title>{title}</title>'
        f'<path class="axis" d="M{LEFT},{TOP}H{CHART_WIDTH - LEFT}M{LEFT},{floor}H{CHART_WIDTH - LEFT}"/>'
        f'<text x="{LEFT}" y="{TOP - 6}">{grouped(most)}</text>'
        f'<text x="{LEFT}" y="{floor + 14}">{balances[0][0]}</text>'
        f'<text x="{CHART_WIDTH - LEFT}" y="{floor + 14}" text-anchor="end">{balances[-1][0]}</text>'
        f'<path class="line" d="M{LEFT},{y(amounts[0])}{steps}"/></svg>'
    )


def history_parts(statement: Statement) -> Iterator[Markup]:
    """The balance over several days, as a line for each kind and as a table."""
    balances = statement.balances
    yield heading("Balance over the days")
    for kind in KINDS:
        if any(held[kind] for _, held in balances):
            yield figure(f"{kind.capitalize()} allowances after each day", chart(kind, balances))
    changed = [after for after, before in zip(balances, [None, *balances]) if before is None or after[1] != before[1]]
    rows = [(date, *(grouped(held[kind]) for kind in KINDS)) for date, held in changed]
    yield BALANCES.of("The balance after each day that changed it", rows)
    if len(changed) < len(balances):
        yield paragraph(f"On {counted(len(balances) - len(changed), 'other day', 'other days')} it stayed as it was.")


def years_of(head: rules.Day, account: rules.Account, period: tuple[int, int]) -> range:
    """The years of a period that are told of an account: from the first one up to the last that is over or has an
    entry."""
    first, last = period
    told = (year for year in (*account.emissions, *account.figures) if first <= year <= last)
    return range(first, max([min(last, head.date.year - 1), *told]) + 1)


def year_row(settled: Settled, account: rules.Account, year: int) -> Cells:
    """The cells of a year."""
    standing = compliance.standing_of(settled.head, account, year, settled.entries)
    surrendered, so_far, *others = standing.figures
    numbers = (account.emissions.get(year), so_far, surrendered, *others)
    return (year, *map(amount, numbers), standing.verdict_in_words)


def years_parts(settled: Settled, account: rules.Account) -> Iterator[Markup]:
    """Compliance by year, a table for each period."""
    head, are_any = settled.head, False
    yield heading("Compliance by year")
    for number, period in enumerate(head.periods, 1):
        rows = [year_row(settled, account, year) for year in years_of(head, account, period)]
        if rows:
            if not are_any:
                yield YEARS_NOTE
            are_any = True
            yield YEARS.of(f"Period {settled.period_in_words(number)}, in tonnes and allowances", rows)
    if not are_any:
        yield paragraph("No year of the periods is over, and nothing was entered.")


def trusted_parts(settled: Settled, account: rules.Account) -> Iterator[Markup]:
    """The trusted list."""
    yield heading("Trusted list")
    if not account.trusted:
        yield paragraph("The list is empty.")
        return
    day, dates = settled.head.date, account.trusted.items()
    rows = ((number, date, "in effect" if date <= day else "not in effect yet") for number, date in dates)
    yield TRUSTED.of("Accounts that this account trusts", rows)


def retired_parts(settled: Settled, account: rules.Account, statement: Statement) -> Iterator[Markup]:
    """The surrenders and deletions; if there are several periods, with that of each surrender."""
    if not account.rows:
        return
    yield heading("Surrenders and deletions")
    plain = RETIRED if len(settled.head.periods) == 1 else RETIRED_FOR_PERIODS
    rows = (
        (
            number, row.date, row.what, row.kind, grouped(row.amount), "reversed" if row.is_reversed else "no",
            settled.period_in_words(row.period) if row.period else "",
        )
        for number, row in account.rows.items()
    )  # fmt: skip
    told = "All surrenders and deletions of the account"
    yield statement.table(plain, told, [row[: len(plain.columns)] for row in rows])


def users_parts(account: rules.Account, statement: Statement) -> Iterator[Markup]:
    """The representatives."""
    yield heading("Representatives")
    if account.users:
        rows = ((statement.user(user), right) for user, right in account.users.items())
        yield USERS.of("Who may propose and approve for this account", rows)
    else:
        yield paragraph("The account has none.")


def facts_of(settled: Settled, account: rules.Account, statement: Statement) -> Markup:
    """What the account is."""
    return facts([
        ("Name", settled.names.name_of(ACCOUNT, account.number)),
        ("Holder", statement.holder(account)),
        ("Kind", settled.rulebook.kinds[account.kind]),
        ("Status", account.status),
        ("What it allows", settled.rulebook.statuses[account.status]),
        ("Settlement day", long_date(settled.head.date)),
        ("Transfers outside the list", rules.yes_or_no(account.outside)),
        ("Waiver of approval", rules.yes_or_no(account.waiver)),
    ])  # fmt: skip


def entry_parts(statement: Statement) -> Iterator[Markup]:
    """What moved allowances, and what else was done."""
    for kind in KINDS:
        yield from statement.kind_parts(kind)
    if statement.others:
        yield heading("Other entries")
        yield statement.table(OTHERS, "Entries that move no allowances", statement.others)


def refused_parts(statement: Statement) -> Iterator[Markup]:
    """What was refused, if something was."""
    if statement.refused:
        yield heading("Refused")
        yield statement.table(REFUSED, "Instructions that were refused", statement.refused)


def waited_parts(statement: Statement) -> Iterator[Markup]:
    """What was not due on its day, if something was."""
    if statement.waited:
        yield heading("Not due on its day")
        yield statement.table(WAITED, "Each is entered again by itself on its due day", statement.waited)


def waiting_parts(statement: Statement) -> Iterator[Markup]:
    """What waits for its due day, if something does."""
    waiting = [*statement.waiting()]
    if waiting:
        yield heading("Waiting for their due day")
        told = "These are entered again on their due day, with their old dates of proposal"
        yield statement.table(WAITING, told, waiting)


def standing_parts(settled: Settled, account: rules.Account, statement: Statement) -> Iterator[Markup]:
    """What the account is and has, beside its entries."""
    if len(statement.days) > 1:
        yield from history_parts(statement)
    if account.kind in rules.OPERATORS:
        yield from years_parts(settled, account)
    yield from retired_parts(settled, account, statement)
    yield from trusted_parts(settled, account)
    yield from users_parts(account, statement)


def own_parts(settled: Settled, account: rules.Account, statement: Statement) -> Iterator[Markup]:
    """All that stands on the page of an account."""
    yield facts_of(settled, account, statement)
    yield from entry_parts(statement)
    yield from refused_parts(statement)
    yield from waited_parts(statement)
    yield from waiting_parts(statement)
    yield from standing_parts(settled, account, statement)


def account_page(settled: Settled, number: int, days: Sequence[DayTold]) -> str:
    """The page of an account; `days` are those of the statement, of which the last one is the settled day."""
    account = settled.report.book[number].account()
    statement = Statement(settled, number, days)
    parts = own_parts(settled, account, statement)
    return settled.frame.page(f"Account {number}", *parts, root=ROOT, note=NOTE)
