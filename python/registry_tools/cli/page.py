"""Makes HTML pages of a settled day, for a browser without a server: the day, compliance, accounts, a page for each
account, and the rules.

FOLDER is made, and must not be there before, except if it is empty. Begin with FOLDER/index.html.

  index.html       the day: where to find an account by its number, counts, totals, refusals with what to do, what waits
                   for its due day, what people changed by hand, what was done, the plan
  compliance.html  how each operator and aircraft operator stands for a year, those first of whom most is missing
  accounts.html    all accounts
  accounts/N.html  a statement of account N to print or send, with nothing on it that belongs to others
  workers.html     who executed what; only with --lanes
  rules.html       docs/RULES.md, to whose checks the refusals lead; and formats.html

A check that refused more than 100 instructions has a page of its own, and so has what waits and what was done, if it is
more. A table of more than 1,000 rows goes on in further pages, such as compliance-2.html, except on the page of an
account. REPORT must be that of DAY. Of a day of a folder (--day DATE), what waits since earlier days and what people
changed is known, and by whom and why.
"""
import argparse
import sys

from registry_tools.cli import named
from registry_tools.elsewhere import NewPlace, Source
from registry_tools.errors import WordsFault
from registry_tools.cli.options import add_pair
from registry_tools.pages import page
from registry_tools.pages.page import FILES, Page
from registry_tools.pages.settled import count_of, told_in
from registry_tools.progress import progress

EXAMPLE = "./day page examples/week/monday.csv examples/week/monday-report.csv out/pages --only 100210 100377"


def add_words(parser: argparse.ArgumentParser) -> None:
    """Tells a parser the words of the command."""
    add_pair(parser)
    parser.add_argument("folder", metavar="FOLDER", type=NewPlace, help="the folder that is made")
    only = "make pages of these accounts only, in place of all"
    parser.add_argument("--only", type=int, nargs="+", metavar="ACCOUNT", help=only)
    year = "the year of compliance.html; else the last one that is over, of any period"
    parser.add_argument("--year", type=int, metavar="Y", help=year)
    history = "all days before DAY from one on, each with its report: the statements begin with them"
    parser.add_argument("--history", type=Source, nargs="+", default=[], metavar="DAY REPORT", help=history)
    waits = "the pending file of ./day next: what waits since earlier days is shown too"
    parser.add_argument("--pending", metavar="FILE", type=Source, help=waits)
    before = "the day before: what people changed between is shown"
    parser.add_argument("--before", type=Source, nargs=2, metavar=("DAY", "REPORT"), help=before)
    who = "the folder of the day in a folder of days: who changed something, and why"
    parser.add_argument("--by-hand", metavar="FOLDER", help=who)
    lanes = "who executed what, as `bench_workers lanes WORKERS` writes it"
    parser.add_argument("--lanes", metavar="FILE", type=Source, help=lanes)
    named.add_words(parser)


def run(said: argparse.Namespace) -> int:
    """Runs the command, and answers the exit status."""
    if len(said.history) % 2:
        raise WordsFault("--history takes pairs: a day and its report, and the next ones behind them")
    history = [*zip(said.history[::2], said.history[1::2])]
    before = (said.before[0], said.before[1]) if said.before else None
    only, told = None if said.only is None else tuple(said.only), getattr(said, "told", [])
    count = page.make(said.folder, Page(
        said.day, said.report, history, before, said.pending, told or (told_in(said.by_hand) if said.by_hand else []),
        only, said.year, said.lanes, named.labels_of(said),
    ))  # fmt: skip
    progress.clear()
    print(f"{count_of(count, 'page', 'pages')}: begin with {said.folder}/{FILES['day']}", file=sys.stderr)
    return 0
