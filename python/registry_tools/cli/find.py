"""Finds log rows over all days of a folder: of an account, of a user, of an act, what was refused, between two days.

A distribution has a row for each account that receives; with --account of an account that does, only its own. The
amount of an entry of emissions are its tonnes. Names stand beside the numbers (./day label gives them). With --refused
it tells below the table why, and what to do. JSON and csv have the columns of the table, and numbers alone.

exit status: 0 if something was found, 1 if nothing was.
"""
import argparse
from collections.abc import Sequence
from dataclasses import replace

from registry_tools import showing, tables
from registry_tools.cli import answers, asked
from registry_tools.cli.asked import Asked
from registry_tools.errors import FOUND, WordsFault
from registry_tools.texts.namebook import USER
from registry_tools.questions import find
from registry_tools.questions.find import Find
from registry_tools.second import faults
from registry_tools.showing import Cell
from registry_tools.texts.checks import meanings

EXAMPLE = "./day find --account 100210 --refused --office out/office"
COLUMNS = tables.COLUMNS["find"]


def add_words(parser: argparse.ArgumentParser) -> None:
    """Tells a parser the words of the command."""
    parser.add_argument("--account", metavar="N", help="rows that name this account, by its number or its name")
    parser.add_argument("--user", metavar="N", help="rows that this user proposed or approved")
    named = "rows about what is called so: an account, a user, or all accounts that a holder has had"
    parser.add_argument("--name", metavar="NAME", help=named)
    parser.add_argument("--act", choices=faults.ACT_WORDS, help="rows of this act")
    parser.add_argument("--refused", action="store_true", help="only what was refused")
    parser.add_argument("--no-waiting", action="store_true", help="leave out what only waited for its due day")
    parser.add_argument("--from", dest="begin", metavar="DATE", help="from this day on")
    parser.add_argument("--to", dest="end", metavar="DATE", help="up to this day")
    # (--to is a day here)
    answers.add_forms(parser)
    parser.set_defaults(to=None)
    asked.add_words(parser)


def run(said: argparse.Namespace) -> int:
    """Runs the command, and answers the exit status."""
    asked.span_of(said)
    with asked.opened(said) as opened:
        wanted = find_of(said, opened)
        meant = find.accounts_meant(opened.days, wanted)
        rows = [cells for logged in find.find(opened.days, wanted) for cells in find.cells_of(logged, meant)]
    shown = asked.rows_shown(said, COLUMNS, rows, opened.names)
    answers.show_or_tell(said, COLUMNS, shown, lambda: told_of(shown, said.refused))
    return 0 if rows else FOUND


def find_of(said: argparse.Namespace, opened: Asked) -> Find:
    """What the words look for. Raises WordsFault if nothing has a name that they say."""
    account = asked.number_or_none("--account", said.account, opened.names)
    user = asked.number_or_none("--user", said.user, opened.names, USER)
    begin, end = asked.span_of(said)
    wanted = Find(account, None, user, said.act, said.refused, said.no_waiting, begin, end)
    if said.name is None:
        return wanted
    if said.pairs:
        raise WordsFault("--name is for a folder: paths have no names")
    label = opened.names.one(said.name)
    if getattr(wanted, label.kind) not in (None, int(label.number)):
        raise WordsFault(f"--name {said.name} is {label}, and --{label.kind} another one")
    return replace(wanted, **{label.kind: int(label.number)})


def told_of(rows: Sequence[Sequence[Cell]], has_whys: bool) -> str:
    """What people are told of these rows; of each check that refused one, also what it means and what to do."""
    outcomes = [str(row[COLUMNS.names.index("outcome")]) for row in rows]
    why = [f"{name}: {meaning}\n" for name, meaning in meanings(outcomes).items()] if has_whys else []
    return "".join([showing.as_table(COLUMNS.names, rows, COLUMNS.numbers), *why])
