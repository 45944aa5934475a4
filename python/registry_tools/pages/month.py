"""One page of several days for a director: how many operators are compliant, who is missing how much until which
deadline, the totals as lines over the days, what was refused and why, what waits, and what was changed by hand."""
import datetime
from collections import Counter
from collections.abc import Iterator
from dataclasses import dataclass

from registry_tools.calendars.deadlines import DueDates
from registry_tools.errors import WordsFault
from registry_tools.office.office import Office
from registry_tools.texts.namebook import Labels
from registry_tools.office.waits import waiting_behind
from registry_tools.pages import letter
from registry_tools.pages.account import chart
from registry_tools.pages.beside import words_of_row
from registry_tools.pages.html import Markup, Table, heading, paragraph
from registry_tools.pages.month_standing import Way, compliance_parts, first_rows_of, no_way
from registry_tools.pages.plan import figure
from registry_tools.pages.settled import NO_DUE_DAY, OUTCOMES, long_date
from registry_tools.pairs.compliance import Stand, standings
from registry_tools.questions.days import Days
from registry_tools.questions.month import DayOfMonth, month
from registry_tools.second import rules
from registry_tools.store.events import UNDONE
from registry_tools.texts import changes as by_hand
from registry_tools.texts.checks import checks
from registry_tools.texts.in_words import grouped, instruction_in_words
from registry_tools.texts.pending import Waiting

REFUSALS = Table(["Refused", "How often", "Why"], ("How often",))
BY_HAND = Table(["Day", "Account", "Change"])
OF_RULES, WORK = "the rules", "work,"
KIND_COLUMNS = [f"{kind.capitalize()} allowances" for kind in rules.KINDS]
NUMBERS_OF_DAY = (*map(str.capitalize, OUTCOMES), *KIND_COLUMNS)
DAYS = Table(["Day", *NUMBERS_OF_DAY], NUMBERS_OF_DAY)
WAITING = Table(["Due", "Record", "Instruction"])
NOTHING = "Nothing."


@dataclass(frozen=True)
class Month:
    """Which days stand on the page: from one on, and up to another one. Compliance is that of the year, or of the last
    one that is over; the deadline is the one of the office, if no other is named."""

    begin: datetime.date = datetime.date.min
    end: datetime.date = datetime.date.max
    year: int | None = None
    deadline: datetime.date | None = None


def totals_parts(days: list[DayOfMonth], way: Way) -> Iterator[Markup]:
    """How many allowances there are, held and surrendered together, after each day."""
    yield heading("Allowances")
    balances: list[tuple[object, dict[str, int]]] = [(day.date, day.allowances) for day in days]
    for kind in rules.KINDS:
        if len(balances) > 1 and any(held[kind] for _, held in balances):
            yield figure(f"{kind.capitalize()} allowances, held and surrendered together", chart(kind, balances))
    numbers = (
        (day, (day.done, day.refused.total(), day.waiting, *(day.allowances[kind] for kind in rules.KINDS)))
        for day in days
    )
    busy = ((day, amounts) for day, amounts in numbers if any(amounts[:3]))
    rows = [(way(f"/days/{day.date}", day.date), *map(grouped, amounts)) for day, amounts in busy]
    yield DAYS.of("Each day with instructions, and what there is after it", rows)
    if len(rows) < len(days):
        yield paragraph(f"Days without instructions: {len(days) - len(rows)}.")


def refusal_parts(days: list[DayOfMonth]) -> Iterator[Markup]:
    """The refusals by reason."""
    yield heading("Refusals")
    count = sum((day.refused for day in days), Counter[str]())
    if not count:
        yield paragraph(NOTHING)
        return
    rows = [(name, grouped(often), letter.meaning_of(checks()[name])) for name, often in count.most_common()]
    yield REFUSALS.of("By reason", rows)


def still_waiting(waiting: list[Waiting], names: Labels, most: int | None) -> Iterator[Markup]:
    """What waits behind the last day, at most so many."""
    yield heading("Waiting")
    dated = ((str(waits.due or waits.entered or NO_DUE_DAY), waits) for waits in waiting)
    due = sorted(dated, key=lambda pair: pair[0])
    rows = [(day, waits.record or "", instruction_in_words(waits.instruction, names.account)) for day, waits in due]
    if rows:
        yield from first_rows_of(WAITING, "What waits behind the last day", rows, most)
    else:
        yield paragraph(NOTHING)


def lead_of(days: list[DayOfMonth], office: Office | None, waiting: list[Waiting]) -> str:
    """What came of the days, in a line: of a folder also what waits behind them, and how often one was taken back."""
    done, refused = sum(day.done for day in days), sum(day.refused.total() for day in days)
    waits, back = "", 0
    if office:
        waits = f", waiting {grouped(len(waiting))}"
        span = days[0].date, days[-1].date
        back = sum(span[0] <= event.date <= span[1] for event in office.store.events.named(UNDONE))
    taken = f" Closings taken back: {back}." if back else ""
    return f"Days: {len(days)}. Done {grouped(done)}, refused {grouped(refused)}{waits}.{taken}"


def hand_rows(days: list[DayOfMonth], names: Labels, way: Way) -> Iterator[tuple[object, object, str]]:
    """What people changed before each of the days. Of a calendar, only how many days came or went."""
    for day in days:
        for sign, what in ((by_hand.GONE, "no working days any more"), (by_hand.NEW, "new working days")):
            rows = [change.row for change in day.changes if change.sign == sign]
            dates = [row.removeprefix(WORK) for row in rows if row.startswith(WORK)]
            if dates:
                words = f"{sign} {what}: {len(dates)}, from {dates[0]} to {dates[-1]}"
                yield way(f"/days/{day.date}", day.date), OF_RULES, words
        changes = (change for change in day.changes if not change.row.startswith(WORK))
        for change in changes:
            of = way(f"/accounts/{change.account}", names.account(change.account)) if change.account else OF_RULES
            yield way(f"/days/{day.date}", day.date), of, f"{change.sign} {words_of_row(change.row)}"


def hand_parts(days: list[DayOfMonth], names: Labels, most: int | None, way: Way) -> Iterator[Markup]:
    """The changes by hand, at most so many."""
    yield heading("Changes by hand")
    rows = [*hand_rows(days, names, way)]
    if rows:
        yield from first_rows_of(BY_HAND, "Rows that people changed", rows, most)
    else:
        yield paragraph(NOTHING)


def parts_of(
    days: Days, office: Office | None, names: Labels, asked: Month, most: int | None = None, way: Way = no_way,
    ask: Stand = standings,
) -> tuple[str, str, list[Markup]]:  # fmt: skip
    """What stands on the page: its title, its first line, and its parts, with at most so many rows in a table. Of all
    days only the last one is unpacked, with what waits behind it; `ask` says how operators stand after it. Raises
    WordsFault if there is no day."""
    found = month(days, asked.begin, asked.end)
    if not found:
        raise WordsFault("no day was settled in this time")
    last, due = days.day(found[-1].date), office.settings.due if office else DueDates()
    waiting = waiting_behind(office, last.date) if office else []
    compliance = compliance_parts(last, asked.year, asked.deadline, due, names, most, way, ask)
    parts = [*compliance, *totals_parts(found, way), *refusal_parts(found)]
    parts += still_waiting(waiting, names, most) if office else []
    parts += hand_parts(found, names, most, way)
    return f"{long_date(found[0].date)} to {long_date(last.date)}", lead_of(found, office, waiting), parts


def page_of(days: Days, office: Office | None, names: Labels, asked: Month) -> tuple[str, str]:
    """The first line of the page, and its text."""
    title, lead, parts = parts_of(days, office, names, asked)
    head = letter.head_in_words(days.head) if days.head else ""
    return lead, letter.page_of(title, f"{lead} {head}".rstrip(), parts)
