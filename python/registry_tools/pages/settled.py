"""A settled day as the pages show it: a day text with its report, and what is worked out from both."""
import dataclasses
import datetime
import functools
from pathlib import Path
from typing import Any, Callable, Collection, Iterable, Iterator, Sequence, TypeVar

from registry_tools import voice
from registry_tools.calendars.due_days import NOT_DUE, due_day_after, head_after
from registry_tools.errors import shown
from registry_tools.office.intake import Item
from registry_tools.texts.namebook import ACCOUNT, Labels
from registry_tools.pages import beside
from registry_tools.pages.html import Cells, Frame, Markup, Table, joined, link, markup, paragraph, tag, words_in_cell
from registry_tools.pages.rulebook import Rulebook
from registry_tools.questions.unpack import BY_HAND, TOLD
from registry_tools.second import rules
from registry_tools.texts import changes
from registry_tools.texts.changes import HandChange
from registry_tools.texts.day_text import DayText
from registry_tools.texts.in_words import grouped, instruction_in_words
from registry_tools.texts.outdated import Entries
from registry_tools.texts.pending import Waiting
from registry_tools.texts.report import LogRow, Report
from registry_tools.texts.rows import rows_of

Row = TypeVar("Row")
# What becomes of an instruction.
OUTCOMES = ("done", "refused", "waiting")
WAITS, REFUSED = "waits for its due day", "refused: "
# In how many rows a table is cut into pages.
ROWS_OF_PAGE = 1_000
NO_DUE_DAY = "none in the calendar"
CHANGED = Table(beside.BESIDE)
WHO = Table(["At", "Who", "Why", "Change"])
NOT_KNOWN = (
    "What people changed before this day is told if the day before is named, by --before or --history of ./day page."
)
# Of more changes by hand, the first ones are shown.
MOST_CHANGES = 500


def record_in_words(logged: LogRow) -> str:
    """An instruction in words."""
    return instruction_in_words(logged.instruction)


def outcome_in_words(logged: LogRow) -> str:
    """What came of an instruction."""
    if not logged.is_done:
        return WAITS if logged.name == NOT_DUE else f"{REFUSED}{logged.name}"
    return "done" if logged.figure is None else f"done, figure {grouped(logged.figure)}"


def kind_of(logged: LogRow) -> str:
    """Which of the outcomes it is: an instruction was done or refused, or only waits for its due day."""
    return "done" if logged.is_done else "waiting" if logged.name == NOT_DUE else "refused"


@functools.lru_cache(maxsize=1_000)
def long_date(date: datetime.date) -> str:
    """A date as people write it."""
    return f"{date:%A} {date.day} {date:%B} {date.year}"


def count_of(number: int, one: str, many: str) -> str:
    """A number with its word."""
    return f"{grouped(number)} {one if number == 1 else many}"


class Settled:
    """A day with its report, the words of the rules, and the frame of the pages."""

    def __init__(
        self, day: DayText, report: Report, rulebook: Rulebook, frame: Frame, shown: Collection[int],
        earlier: list[Waiting] | None, names: Labels = Labels(),
    ) -> None:  # fmt: skip
        self.day, self.report, self.rulebook, self.frame = day, report, rulebook, frame
        # The accounts that have a page, and the names of accounts, holders and users.
        self.shown, self.names = shown, names
        self.head, self.log = day.head, report.log
        self.entries = Entries(day, report)
        # Whether it is known what waits since earlier days.
        self.has_pending = earlier is not None
        self.waiting = self.find_waiting(earlier or [])

    @functools.cached_property
    def found(self) -> dict[int, str]:
        """What was found where an instruction of the day was refused, by its record, as the second answer says it."""
        if all(logged.is_done for logged in self.log):
            return {}
        log = enumerate(rules.settle(self.day.day(), tells=True), self.head.next_record)
        return {record: logged.passing.found for record, logged in log if logged.passing}

    def find_waiting(self, earlier: Iterable[Waiting]) -> list[Waiting]:
        """What waits behind the day: since earlier days, and refused as NotDue on it; those first that are due
        first."""
        head = head_after(self.day, self.report)
        refused = (Waiting(logged.record, logged.instruction) for logged in self.log if logged.name == NOT_DUE)
        left = (*earlier, *refused)
        waiting = (dataclasses.replace(waits, due=due_day_after(head, waits.instruction)) for waits in left)
        return sorted(waiting, key=lambda waits: (waits.due or datetime.date.max, waits.record or 0))

    def account_link(self, number: int, root: str = "") -> Markup | str:
        """The number of an account, which leads to its page if it has one."""
        if number not in self.shown:
            return str(number)
        return Markup(f'<a href="{self.account_address(number, root)}">{number}</a>')

    def account_address(self, number: int, root: str = "") -> str:
        """Where the page of an account is, from a page from which `root` leads to the folder."""
        return f"{root}accounts/{number}.html"

    def accounts_of(self, logged: LogRow) -> Markup:
        """The accounts that an instruction names as its own: those that receive stand behind the first one."""
        return Markup(", ".join(markup(self.named_account(number)) for number in rules.named(logged.instruction)))

    def named_account(self, number: int) -> Markup | str:
        """An account by its number, which leads to its page if it has one, and by its name."""
        name = self.names.name_of(ACCOUNT, number)
        return joined_words(self.account_link(number), name) if name else self.account_link(number)

    def period_in_words(self, period: int) -> str:
        """The years of a period."""
        first, last = self.head.periods[period - 1]
        return f"{first} to {last}" if first != last else str(first)

    def refused(self) -> dict[int, list[LogRow]]:
        """The refused instructions by the code of the check, in the order of the checks. What only waits for its due
        day is none of them."""
        found: dict[int, list[LogRow]] = {}
        for logged in self.log:
            if kind_of(logged) == "refused":
                found.setdefault(logged.code, []).append(logged)
        return dict(sorted(found.items()))


def joined_words(*words: object) -> Markup:
    """Texts or elements one behind the other, with a blank between them."""
    return Markup(" ".join(map(markup, words)))


def page_name(file: str, number: int) -> str:
    """The file of a page of several, counted from 1."""
    stem = file.removesuffix(".html")
    return file if number == 1 else f"{stem}-{number}.html"


def rows_of_parts(rows: Sequence[Row], size: int | None = None) -> Iterator[Sequence[Row]]:
    """The rows of each of several pages, or of other parts of this size."""
    size = size or ROWS_OF_PAGE
    return (rows[place : place + size] for place in range(0, len(rows), size))


def ways(file: str, number: int, words_of_pages: list[str]) -> Markup:
    """Links between the pages of a table: each is named by the first row that it shows."""
    items = (
        tag("li", tag("strong", words) if place == number else link(page_name(file, place), words))
        for place, words in enumerate(words_of_pages, 1)
    )
    words = f"Page {number} of {len(words_of_pages)}. Each page by its first row:"
    return tag("nav", tag("p", words), tag("ol", *items), aria_label="Parts", class_="parts")


@dataclasses.dataclass
class LongTable:
    """A table of many rows, which goes on in further pages. `lead` stands on the first of them, and what `before`
    answers for its rows before each part."""

    file: str
    title: str
    table: Table
    caption: str
    rows: Sequence[Cells]
    lead: Sequence[Markup] = ()
    before: Callable[[str, Sequence[Cells]], Markup] | None = None

    def pages(self, frame: Frame, **more: Any) -> Iterator[tuple[str, str]]:
        """The file and the text of each page; `more` goes to the frame."""
        parts = [*rows_of_parts(self.rows)] or [[]]
        first_words = [words_in_cell(part[0][0]) if part else "" for part in parts]
        for number, part in enumerate(parts, 1):
            caption = self.caption if len(parts) == 1 else f"{self.caption}, part {number} of {len(parts)}"
            file = page_name(self.file, number)
            links = [ways(self.file, number, first_words)] if len(parts) > 1 else []
            before = [self.before(file, part)] if self.before else []
            body = joined(*(self.lead if number == 1 else []), *links, *before, self.table.of(caption, part))
            yield file, frame.page(self.title, body, current=self.file, **more)


# What people changed by hand before a day: row by row, and of a day of a folder who did it and why.


@dataclasses.dataclass
class ByHand:
    """What is known of changes by hand: nothing, if the day before is not. `told` are the lines of a folder: at, who,
    why, change."""

    rows: list[HandChange] | None = None
    told: list[list[str]] = dataclasses.field(default_factory=list)


def by_hand_before(before: tuple[DayText, Report] | None, day: DayText, told: list[list[str]]) -> ByHand:
    """The changes between two days; `told` says who made them."""
    rows = [*changes.between(before[0].heading, before[1], day)] if before else None
    return ByHand(rows, told)


def told_by(items: Iterable[Item]) -> list[list[str]]:
    """Who changed what and why, of what was handed in."""
    return [[item.part.at, item.part.who, item.part.name, beside.change_in_words(item.rows)] for item in items]


def told_in(folder: str) -> list[list[str]]:
    """The same, by the file that `./day unpack` puts beside the texts of a day. Raises FileFault if it is none."""
    source = rows_of(Path(folder) / BY_HAND)
    told = [source.fields(place) for place in range(len(source))]
    for place, fields in enumerate(told):
        if len(fields) != len(TOLD) or (not place and fields != [*TOLD]):
            expected = f"{','.join(TOLD)}, as {voice.command('unpack')} writes it"
            raise source.fault(place, "row", shown(",".join(fields)), expected)
    return [[at, who, why, beside.change_in_words(change.split("\n"))] for at, who, _, _, why, change in told[1:]]


def by_hand_parts(settled: Settled, by_hand: ByHand) -> list[Markup]:
    """The tables of what people changed before a day, or a sentence that tells why there is none."""
    if by_hand.rows is None:
        return [paragraph(NOT_KNOWN)]
    if not by_hand.rows:
        return [paragraph("Nothing was changed by hand before this day.")]
    shown = [f"{row.account}: {row.words}" if row.account else row.words for row in by_hand.rows[:MOST_CHANGES]]
    rows = [(linked(settled, of), *both) for of, *both in beside.side_by_side(shown)]
    first = f": the first {MOST_CHANGES} of {len(by_hand.rows)}" if len(by_hand.rows) > MOST_CHANGES else ""
    found = [CHANGED.of(f"What people changed before this day{first}", rows)]
    if by_hand.told:
        found.append(WHO.of("Who changed it, and why", by_hand.told[:MOST_CHANGES]))
    return found


def linked(settled: Settled, of: str) -> object:
    """What a change is of: the rules, or an account by its number and its name."""
    number = of.removeprefix("account ")
    return joined_words("account", settled.named_account(int(number))) if number.isdigit() else of
