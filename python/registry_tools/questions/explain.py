"""What is wrong with a day text, for whoever has it open: where each fault stands, what was found there, what is
expected, and a guess what happened."""
import itertools
from collections.abc import Iterator

from registry_tools.errors import RowFault, shown
from registry_tools.texts.day_text import DayText, day_of
from registry_tools.texts.explainer import Told, all_faults
from registry_tools.texts.mending import Mended
from registry_tools.texts.rows import rows_of

# More faults are only counted, and more than these are not looked for: one mistake may be in every row.
MOST_TOLD, MOST_COUNTED = 20, 1_000
STILL_WRONG = "With that mended, this is still wrong:"


def day_or_fault(path: str) -> DayText | str:
    """The day of a text; or what the program says of its first fault."""
    try:
        return day_of(rows_of(path))
    except RowFault as fault:
        return fault.as_program()


def where(told: Told, text: Mended) -> str:
    """Where a fault stands, in words."""
    place = f"row {told.place}, line {told.line}"
    if not told.row:
        return f"{place}: behind the last row"
    tag = told.row[0]
    if not told.fault.place:
        return f"{place}: the {shown(tag)[1:-1]} row" if tag else f"{place}: the row"
    field = told.fault.place
    if text.is_plain:
        raw = text.raw_fields(told.place - 1)
        place += f", character {1 + sum(len(word) + 1 for word in raw[: field - 1])}"
    of_row = "" if field == 1 else f" of the {shown(tag)[1:-1]} row"
    return f"{place}, field {field}: {told.fault.name}{of_row}"


def found_words(told: Told) -> str:
    """What stands where a fault is."""
    if not told.row:
        return "the end of the file"
    if told.fault.place:
        return shown(told.row[told.fault.place - 1])
    row = shown(",".join(told.row))
    return f"{len(told.row)} fields: {row}" if told.fault.cause == "fields" else row


def lines_of(told: Told, text: Mended) -> Iterator[str]:
    """The lines that explain a fault."""
    yield where(told, text)
    yield f"  found:    {found_words(told)}"
    yield f"  expected: {told.fault.expected}"
    perhaps = told.guess()
    if perhaps:
        yield f"  perhaps:  {perhaps}"


def explained(text: Mended) -> tuple[list[str], int]:
    """All lines behind the first one, and how many faults there are."""
    lines = [f"line {line}: {change}" for line, change in text.changes]
    if text.changes:
        lines.append("  perhaps:  a spreadsheet or an editor did that. --mend writes the text without it")
    all_told = [*itertools.islice(all_faults(text.source), MOST_COUNTED)]
    if text.changes and all_told:
        lines.append(STILL_WRONG)
    for told in all_told[:MOST_TOLD]:
        lines += lines_of(told, text)
    if len(all_told) > MOST_TOLD:
        end = ", and perhaps others behind them" if len(all_told) == MOST_COUNTED else ""
        lines.append(f"and {len(all_told) - MOST_TOLD} more faults{end}")
    return lines, len(all_told)
