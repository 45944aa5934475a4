"""Shows the next day of a folder as it stands, by the second answer: what would be done, what would be refused and why,
what would wait and until when. Nothing is settled. Where the library was built, it is asked too, and whatever it
answers otherwise is told.

Each instruction has the place at which it was handed in; one that waited since an earlier day has none. What has
another outcome than at the last look is marked with a *.

exit status: 0 if everything would be done or wait, 1 if something would be refused, or the library answers otherwise.
"""
import argparse

from registry_tools import voice
from registry_tools.calendars import dates
from registry_tools.cli import words
from registry_tools.errors import FOUND
from registry_tools.notes import worth_telling
from registry_tools.office import folder, trial
from registry_tools.office.composing import NextDay
from registry_tools.office.trial import Looked
from registry_tools.texts import in_words

EXAMPLE = "./day try --office out/office"
COLUMNS = ["", "place", "instruction", "outcome"]


def add_words(parser: argparse.ArgumentParser) -> None:
    """Tells a parser the words of the command."""
    parser.add_argument("--date", metavar="DATE", help="the settlement day; without it, the next working day")
    words.add_office(parser)


def run(said: argparse.Namespace) -> int:
    """Runs the command, and answers the exit status."""
    date = None if said.date is None else dates.date_of(voice.option("date"), said.date)
    with folder.opened(said.office) as office:
        tried = trial.try_next(office, date)
    done = [instruction for instruction in tried.looked if instruction.outcome == "done"]
    if done:
        print("\n".join(table_of(done)))
    status = tell(tried.looked, tried.next_day)
    print("".join(f"{line}\n" for line in tried.otherwise), end="")
    return max(status, FOUND if tried.otherwise else 0)


def table_of(looked: list[Looked]) -> list[str]:
    """The lines of a table of instructions."""
    rows = [
        ["*" if tried.is_new else "", str(tried.place or trial.WAITED), tried.words, tried.said()]
        for tried in looked
    ]
    return in_words.table_lines(COLUMNS, rows, {"place"})


def tell(looked: list[Looked], next_day: NextDay, places: set[int] | None = None) -> int:
    """Tells what would be refused or wait, of all instructions or of those at these places, and answers the exit
    status."""
    shown = [tried for tried in looked if places is None or tried.place in places]
    refused = [tried for tried in shown if tried.is_refused]
    for note in worth_telling(next_day.notes):
        print(note)
    if any(tried.outcome != "done" for tried in shown):
        print("\n".join(table_of([tried for tried in shown if tried.outcome != "done"])))
    print("".join(f"{tried.place or trial.WAITED}: {tried.why}\n" for tried in refused), end="")
    print("".join(f"{name}: {meaning}\n" for name, meaning in trial.whys(shown).items()), end="")
    if shown or places is None:
        print(f"{'' if places is None else 'of these, '}as it stands, on {next_day.date}: {trial.counts_of(shown)}")
    return FOUND if refused else 0
