"""Says what is wrong with a day text, for whoever has it open. The first line is what the program says of it, such as
`row 12: date`; or that it has no fault. Then, for each fault that can be told: where it stands, what was found there,
with what nobody sees made visible, what is expected, and a guess what happened, where one is likely. Of a text without
a fault it tells the weekdays that its calendar leaves out: are they holidays? And it tells what would be refused, with
what was found, by the second answer.

It takes also a file that ./day next takes as --do, --work or --changes: its first row says which of them it is.

With --mend it writes the text to standard output without what a spreadsheet did to it: UTF-16, semicolons or tabs,
blanks round fields, empty fields at the ends of rows, empty rows. Standard error tells what was changed, and what is
still wrong. It never guesses a value.

exit status: 0 if the text has no fault (with --mend: if none is left), else 1.
"""
import argparse
import sys
from collections.abc import Iterator

from registry_tools.calendars import working_days
from registry_tools.errors import FOUND
from registry_tools.cli.options import add_day_text, add_to
from registry_tools.notes import first_of
from registry_tools.output import write_answer
from registry_tools.questions.explain import STILL_WRONG, day_or_fault, explained
from registry_tools.second import rules
from registry_tools.texts.day_text import DayText
from registry_tools.texts import explainer
from registry_tools.texts.explainer import PARTS
from registry_tools.texts.mending import Mended, mended

# So many refusals are told.
MOST_REFUSED = 20
EXAMPLE = "./day explain examples/wrong-date.csv\n  ./day explain examples/first-transfer.csv --mend > out/day.csv"


def add_words(parser: argparse.ArgumentParser) -> None:
    """Tells a parser the words of the command."""
    add_day_text(parser, "a day text that has a fault, or may have one; or a file of ./day next")
    add_to(parser)
    parser.add_argument("--mend", action="store_true", help="write the text without what a spreadsheet did to it")


def mend(text: Mended, to: str | None) -> int:
    """Writes the mended text, tells what was mended and what is left, and answers the exit status."""
    lines, left = explained(text)
    write_answer(text.text(), to)
    changed = [f"mended: line {line}: {change}" for line, change in text.changes] or ["nothing was to mend"]
    begin = lines.index(STILL_WRONG) if text.changes and left else len(text.changes)
    rest = lines[begin:]
    print("\n".join([*changed, *(rest if left else [])]), file=sys.stderr)
    return FOUND if left else 0


def explain_part(path: str, text: Mended, part: str, to: str | None) -> int:
    """Explains a file of ./day next."""
    option = PARTS[part][0]
    lines, count = explained(text)
    if lines:
        first = next((told for told in explainer.all_faults(text.source)), None)
        start = f"row {first.place}: {first.fault.cause}" if first else f"{path} has faults that --mend mends"
        write_answer("\n".join([start, f"read as a file of {option}, since its first row is {part}", *lines, ""]), to)
        return FOUND
    rows = sum(not row.startswith("end") for row in text.source.rows)
    write_answer(f"{path} has no fault as a file of {option}: rows {rows}\n", to)
    return 0


def refused(day: DayText) -> Iterator[str]:
    """What of a day would be refused, with what was found."""
    for record, logged in enumerate(rules.settle(day.day(), tells=True), day.head.next_record):
        if logged.passing is not None:
            name = logged.line.rpartition(",")[2]
            yield f"record {record} would be refused, {name}: {logged.passing.found}"


def run(words: argparse.Namespace) -> int:
    """Runs the command, and answers the exit status."""
    text = mended(words.day)
    if words.mend:
        return mend(text, words.to)
    part = explainer.part_of(text.source)
    if part:
        return explain_part(words.day, text, part, words.to)
    day = day_or_fault(words.day)
    if isinstance(day, DayText):
        counts = f"rows {len(day.source)}, accounts {len(day.book)}, instructions {len(day.instructions)}"
        lines = [f"{words.day} has no fault: {counts}"]
        left_out = working_days.left_out(day.head.working_days)
        if left_out:
            lines.append(f"weekdays without a work row: {working_days.days_in_words(left_out)}")
        write_answer("\n".join([*lines, *first_of([*refused(day)], MOST_REFUSED), ""]), words.to)
        return 0
    lines, _ = explained(text)
    write_answer("\n".join([day, *lines, ""]), words.to)
    return FOUND
