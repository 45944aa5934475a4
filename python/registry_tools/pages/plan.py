"""The plan of a day on its page: which instructions wait for which others, as a picture and as a table."""
from collections import Counter
from collections.abc import Collection, Iterable, Iterator, Sequence
from dataclasses import dataclass, field

from registry_tools.pages import grid
from registry_tools.pages.html import Markup, joined, markup, paragraph, table, tag
from registry_tools.pages.settled import OUTCOMES, Settled, count_of, kind_of, outcome_in_words, record_in_words
from registry_tools.texts.in_words import box_lines, grouped
from registry_tools.texts.report import LogRow

# A day with more instructions is told by its longest chain and its busiest accounts.
MOST_BOXES = 40
# A longer chain is drawn with its first and last instructions, so many of each.
CHAIN_ENDS = 6
BUSIEST = 10
WIDE, NARROW = 4, 2


@dataclass
class Task:
    """An instruction in the plan: its level, and the record of each that it waits for, with the account."""

    logged: LogRow
    level: int
    tails: list[tuple[int, int]] = field(default_factory=list)

    def accounts(self) -> dict[int, list[str]]:
        """The accounts at which it waits, by the record that it waits for."""
        found: dict[int, list[str]] = {}
        for tail, account in self.tails:
            found.setdefault(tail, []).append(str(account))
        return found


def plan_of(log: Iterable[LogRow]) -> dict[int, Task]:
    """The tasks by record number. An instruction waits for the one before it at each account that it touches."""
    last: dict[int, int] = {}
    tasks: dict[int, Task] = {}
    for logged in log:
        accounts = logged.touched()
        tails = sorted((last[number], number) for number in accounts if number in last)
        level = 1 + max((tasks[tail].level for tail, _ in tails), default=0)
        tasks[logged.record] = Task(logged, level, tails)
        last.update(dict.fromkeys(accounts, logged.record))
    return tasks


def box_of(logged: LogRow, column: int, row: int) -> grid.Box:
    """The box of an instruction."""
    note = f"{logged.record}: {record_in_words(logged)}; {outcome_in_words(logged)}"
    outcome = f"refused, check {logged.code}" if kind_of(logged) == "refused" else kind_of(logged)
    lines = [*box_lines(logged.record, logged.instruction), outcome]
    return grid.Box(column, row, lines, note, str(logged.record), not logged.is_done)


def arrows_of(tasks: dict[int, Task], records: Collection[int]) -> Iterator[grid.Arrow]:
    """The arrows between these records; one for each pair, with its accounts."""
    for head in records:
        for tail, accounts in tasks[head].accounts().items():
            if tail in records:
                more = f" +{len(accounts) - 1}" if len(accounts) > 1 else ""
                note = f"{head} waits for {tail}: account {', '.join(accounts)}"
                yield grid.Arrow(tail, head, accounts[0] + more, note)


def both(title: str, boxes: dict[int, grid.Box], arrows: list[grid.Arrow], names: grid.Names = grid.Names()) -> Markup:
    """A picture twice: for wide windows and paper, and for narrow windows. They differ in how many columns stand side
    by side."""
    return joined(*(grid.picture(title, boxes, arrows, *form, names) for form in ((WIDE, "wide"), (NARROW, "narrow"))))


def figure(caption: str, drawing: Markup) -> Markup:
    """A drawing with its caption."""
    return tag("figure", tag("figcaption", caption), drawing)


def places_in_levels(tasks: dict[int, Task]) -> dict[int, tuple[int, int]]:
    """The column and row of each record: in each level, those below stand where what they wait for stands."""
    levels: dict[int, list[int]] = {}
    row_of: dict[int, int] = {}
    for record, task in tasks.items():
        levels.setdefault(task.level, []).append(record)
    for level in sorted(levels):
        records = levels[level]
        tails = {record: [row_of[tail] for tail, _ in tasks[record].tails] for record in records}
        middle = {record: sum(rows) / len(rows) if rows else records.index(record) for record, rows in tails.items()}
        placed = sorted(records, key=lambda each: (middle[each], each))
        row_of.update({record: row for row, record in enumerate(placed)})
    return {record: (tasks[record].level - 1, row) for record, row in row_of.items()}


def waits_in_words(task: Task) -> str:
    """For which instructions a task waits, and at which accounts."""
    return "; ".join(f"{tail} ({', '.join(accounts)})" for tail, accounts in sorted(task.accounts().items()))


def plan_table(tasks: Iterable[Task], caption: str) -> Markup:
    """What the picture shows, a row for each instruction, by levels."""
    by_level = sorted(tasks, key=lambda task: (task.level, task.logged.record))
    rows = (
        (logged.record, task.level, record_in_words(logged), outcome_in_words(logged), waits_in_words(task))
        for task, logged in ((task, task.logged) for task in by_level)
    )
    columns = ["Record", "Level", "Instruction", "Outcome", "Waits for (account)"]
    return table(caption, columns, rows, right=("Level",))


def whole_plan(settled: Settled, tasks: dict[int, Task]) -> list[Markup]:
    """The drawing of a whole plan, and its table."""
    places = places_in_levels(tasks)
    boxes = {record: box_of(task.logged, *places[record]) for record, task in tasks.items()}
    names = grid.Names(columns=[f"level {level}" for level in range(1, 1 + max(task.level for task in tasks.values()))])
    count = count_of(len(tasks), "instruction", "instructions")
    title = f"The plan of {settled.head.date}: {count} in columns, a column for each level"
    return [
        figure("The plan, a column for each level", both(title, boxes, [*arrows_of(tasks, tasks)], names)),
        plan_table(tasks.values(), "The plan in words"),
    ]


def longest_chain(tasks: dict[int, Task]) -> list[int]:
    """The records of a longest chain, of which each waits for the one before it."""
    record = max(tasks, key=lambda each: (tasks[each].level, -each))
    chain = [record]
    while tasks[record].tails:
        record = max((tail for tail, _ in tasks[record].tails), key=lambda each: (tasks[each].level, -each))
        chain.append(record)
    return chain[::-1]


def chain_parts(tasks: dict[int, Task]) -> list[Markup]:
    """The longest chain as a picture and a table; of a long one, its first and its last instructions."""
    chain = longest_chain(tasks)
    if len(chain) == 1:
        return [paragraph("No instruction waits for another one.")]
    length = count_of(len(chain), "instruction", "instructions")
    is_cut = len(chain) > 2 * CHAIN_ENDS
    drawn = [*chain[:CHAIN_ENDS], *chain[-CHAIN_ENDS:]] if is_cut else chain
    boxes = {record: box_of(tasks[record].logged, column, 0) for column, record in enumerate(drawn)}
    arrows = [*arrows_of(tasks, drawn)]
    caption = f"The longest chain: {length}, of which each waits for the one before it"
    if is_cut:
        left_out = f"{grouped(len(chain) - len(drawn))} more"
        arrows.append(grid.Arrow(drawn[CHAIN_ENDS - 1], drawn[CHAIN_ENDS], left_out, "the middle of the chain"))
        caption += f". Its first {CHAIN_ENDS} and its last {CHAIN_ENDS} are shown"
    table_of_chain = plan_table([tasks[record] for record in drawn], "The chain in words")
    return [figure(caption, both(caption, boxes, arrows)), table_of_chain]


def bars(title: str, rows: Sequence[tuple[object, int]]) -> Markup:
    """A bar for each name, as long as its number."""
    most = max(number for _, number in rows)
    width, step, start = 480, 20, 90
    parts = []
    for place, (name, number) in enumerate(rows):
        y, length = place * step + 4, max(1, number * (width - start - 70) // most)
        parts.append(f'<text x="{start - 8}" y="{y + 11}" text-anchor="end">{markup(name)}</text>')
        parts.append(f'<rect class="bar" x="{start}" y="{y}" width="{length}" height="14"/>')
        parts.append(f'<text x="{start + length + 6}" y="{y + 11}">{grouped(number)}</text>')
    height = len(rows) * step + 8
    head = f'<svg role="img" viewBox="0 0 {width} {height}" width="{width}"><title>{markup(title)}</title>'
    return Markup(head + "".join(parts) + "</svg>")


def busiest_parts(settled: Settled) -> list[Markup]:
    """The accounts that most instructions touch."""
    all_touched = Counter(number for logged in settled.log for number in logged.touched())
    count = Counter((number, kind_of(logged)) for logged in settled.log for number in logged.touched())
    busiest = sorted(all_touched.items(), key=lambda touched: (-touched[1], touched[0]))[:BUSIEST]
    if not busiest:
        return []
    title = "The busiest accounts, by how many instructions touch them"
    counts = ((account, (of, *(count[account, kind] for kind in OUTCOMES))) for account, of in busiest)
    rows = [(settled.account_link(account), *map(grouped, row)) for account, row in counts]
    columns = ["Account", "Instructions", "Done", "Refused", "Waiting"]
    numbers = table("The busiest accounts in numbers", columns, rows, right=columns[1:])
    return [figure(title, bars(title, busiest)), numbers]


def plan_parts(settled: Settled) -> list[Markup]:
    """The section of the plan."""
    tasks = plan_of(settled.log)
    if not tasks:
        return [paragraph("There is nothing to plan.")]
    levels = Counter(task.level for task in tasks.values())
    lead = paragraph(
        "Instructions that touch the same account are settled one after another. The others can be settled at the same "
        f"time: those of one level. This day has {count_of(len(levels), 'level', 'levels')}; the largest has "
        f"{count_of(max(levels.values()), 'instruction', 'instructions')}."
    )
    if len(tasks) <= MOST_BOXES:
        return [lead, *whole_plan(settled, tasks)]
    return [lead, *chain_parts(tasks), *busiest_parts(settled)]
