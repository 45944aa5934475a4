"""Settles the next day of a folder, and files it: its text is made of the last day and of what was handed in, the
program settles it, the second answer works out the log once more and the accounts that the day touches, all others have
to stand as before, and both texts are kept. With --verify, or verify = yes in office.ini, the second answer works out
all accounts. If something is to be looked at first, such as a date that is no working day, that is told, and the day is
filed with --yes.

The first day has its own date. --second settles by the second answer (tools/rules.py) in place of the program: then
nothing is proved. If office.ini says so, statements and pages are made, in FOLDER/days/DATE/statements and pages.
Nothing is changed if something is wrong; what was refused is told, and is no reason not to close. What the program says
beside the report, such as that it is not proved, is told too. So is what the program of after_close in office.ini says,
which is run behind a day that is filed, with its date and the head of the folder.

exit status: 0 if the day is filed, 1 if something is to be looked at first.
"""
import argparse
import sys

from registry_tools import voice
from registry_tools.calendars import dates
from registry_tools.cli import hooks, papers, words
from registry_tools.errors import FOUND, WordsFault
from registry_tools.office import close as closing, folder
from registry_tools.office.approvals import AskedFor
from registry_tools.office.close import Close, Doubts, Outcome
from registry_tools.second import rules
from registry_tools.texts.books import Sums
from registry_tools.texts.checks import checks_told
from registry_tools.texts.in_words import grouped

EXAMPLE = "./day close --date 2025-09-22 --second --office out/office"


def add_words(parser: argparse.ArgumentParser) -> None:
    """Tells a parser the words of the command."""
    without = "without it, the command says which one comes next"
    parser.add_argument("day", metavar="DATE", nargs="?", help=f"the settlement day; {without}")
    parser.add_argument("--date", metavar="DATE", help="the same")
    parser.add_argument("--verify", action="store_true", help="work out all accounts once more")
    parser.add_argument("--second", action="store_true", help="settle by the second answer, without the program")
    parser.add_argument("--yes", action="store_true", help="file it, whatever is to be looked at")
    words.add_office(parser)
    words.add_who(parser)


def run(said: argparse.Namespace) -> int:
    """Runs the command, and answers the exit status."""
    if said.day is not None and said.date is not None:
        twice = f"the day stands twice, as {said.day} and as {voice.option('date', said.date)}"
        raise WordsFault(twice, "name it once")
    named = said.day if said.date is None else said.date
    date = None if named is None else dates.date_of(voice.option("date"), named)
    with folder.opened(said.office) as office:
        has_program = bool(office.settings.after_close)
        if has_program:
            hooks.must_be_safe(office)
        came = closing.close(office, words.by(said, office), Close(date, said.second, said.verify, said.yes))
        if isinstance(came, AskedFor):
            return words.tell_asked_for(came)
        if isinstance(came, Doubts):
            print("\n".join([*came.lines, f"{came.date} is not filed, without {voice.option('yes')}"]))
            return FOUND
        # (it is another one on each machine, and the answer is not)
        words.to_errors(f"settled by {came.settled.engine}\nhead: {office.events.head}")
        print("\n".join([*summary(came.outcome, said.second), *came.left]))
        papers.make_papers(office, came.event)
        sys.stdout.flush()
        for line in hooks.after_close(office, came.event) if has_program else ():
            words.to_errors(line)
    return 0


def summary(outcome: Outcome, by_second: bool) -> list[str]:
    """What is told at the end."""
    first, last = outcome.first, outcome.next - 1
    records = "no records" if first > last else f"record {first}" if first == last else f"records {first} to {last}"
    how = " by the second answer" if by_second else ""
    lines = [*outcome.notes, f"{outcome.date} is settled{how} and filed: {records}, done {outcome.done}"]
    lines += [f"refused {count}: {name}: {checks_told()[name].meaning}" for name, count in outcome.refused.items()]
    lines.append(f"waiting: {outcome.waiting}")
    for kind in rules.KINDS:
        pairs = zip(Sums._fields, outcome.before[kind], outcome.after[kind])
        lines.append(f"{kind}: {', '.join(f'{name} {before_and_after(old, new)}' for name, old, new in pairs)}")
    return [*lines, *compliant_told(outcome)]


def compliant_told(outcome: Outcome) -> list[str]:
    """How many operators are compliant, in a line, if a year is over."""
    if outcome.compliant is None:
        return []
    year, share, count = outcome.compliant
    return [f"compliant for {year}: {share} of {count} accounts of operators and aircraft operators"]


def before_and_after(old: int, new: int) -> str:
    """Two numbers, or one if they are equal."""
    return grouped(new) if old == new else f"{grouped(old)} before, {grouped(new)} after"
