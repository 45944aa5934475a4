"""Changes an account or the rules of the day by hand, as a difference that comes into the next day's text of a folder.

The difference is shown first, with what it was and what it will be. It counts with --yes, and is then handed in with
who and why. What an act does, and what no hand may do, is refused with the field and the act.

  ./day change 100377 --user -5201 --user +5204:approve --why "a letter of 22 September" --yes
  ./day change --open-account 300126,trading,9017 --user +4201:both --why ".." --yes     makes an account with a user
  ./day change --not-working 2026-12-28 --admin +903 --why ".."        shows a change of the rules

A value that begins with - and a letter stands behind =, as --surrender=-aircraft:aviation.

With --pairs DAY REPORT nothing is kept: the whole blocks of the accounts that are changed are written, for
./day next --changes.
"""
import argparse
import sys
from collections.abc import Iterator

from registry_tools import tables, voice
from registry_tools.cli import asked as asking, words
from registry_tools.elsewhere import Source
from registry_tools.errors import FOUND, WordsFault
from registry_tools.office import change, folder, intake
from registry_tools.pairs import edits
from registry_tools.office.change import LAG, LAGS, Change
from registry_tools.pairs.edits import ADD, DROP, OPEN, PUT, Edit
from registry_tools.texts.namebook import Labels
from registry_tools.cli.options import add_to
from registry_tools.output import write_answer
from registry_tools.texts.follows import read_pair

EXAMPLE = './day change 100210 --holder 5503 --why "sold" --office out/office'
FIELDS = {"holder": "HOLDER", "outside": "OUTSIDE", "waiver": "WAIVER"}
FIRST_PERIOD = "1"


def add_words(parser: argparse.ArgumentParser) -> None:
    """Tells a parser the words of the command."""
    account = "the account that is changed, by its number or its name"
    parser.add_argument("account", metavar="ACCOUNT", nargs="?", help=account)
    group = parser.add_argument_group("of the account")
    adds = "+USER:RIGHT adds or changes a representative, -USER leaves one out"
    group.add_argument("--user", metavar="±USER:RIGHT", nargs=1, default=[], help=adds)
    factor = "a correction factor; an empty VALUE leaves it out"
    group.add_argument("--correction", metavar="PERIOD:VALUE", nargs=1, default=[], help=factor)
    group.add_argument("--holder", metavar="N", help="another holder")
    group.add_argument("--outside", choices=tables.YES_NO, help="transfers outside the trusted list")
    group.add_argument("--waiver", choices=tables.YES_NO, help="waiver of approval")
    wrong = "emissions:YEAR or figure:YEAR, of a wrong year or account"
    group.add_argument("--leave-out", metavar="ROW:YEAR", nargs=1, default=[], help=wrong)
    rules = parser.add_argument_group("of the rules, and new accounts")
    rules.add_argument("--open-account", metavar="NUMBER,KIND,HOLDER", nargs=1, default=[], help="opens an account")
    rules.add_argument("--admin", metavar="±USER", nargs=1, default=[], help="an administrator")
    rules.add_argument("--period", metavar="FIRST-LAST", nargs=1, default=[], help="one more period")
    rules.add_argument("--current", metavar="PERIOD", help="the current period")
    rules.add_argument("--lag", metavar="NAME:DAYS", nargs=1, default=[], help=f"another lag: {', '.join(LAGS)}")
    pair = "a kind of account and a kind of allowance"
    rules.add_argument("--surrender", metavar="±KIND:KIND", nargs=1, default=[], help=pair)
    rules.add_argument("--working", metavar="DATE", nargs=1, default=[], help="a working day")
    rules.add_argument("--not-working", metavar="DATE", nargs=1, default=[], help="no working day")
    parser.add_argument("--yes", action="store_true", help="make the change count")
    words.add_office(parser)
    paths = "a day with its report, in place of a folder"
    parser.add_argument("--pairs", metavar=("DAY", "REPORT"), type=Source, nargs=2, help=paths)
    words.add_who(parser)
    parser.add_argument("--why", metavar="WORDS", help="the reason, which is kept: a folder needs it")
    add_to(parser)


def signed(option: str, word: str) -> tuple[bool, str]:
    """Whether a word adds something, and what."""
    if word[:1] not in ("+", "-"):
        raise WordsFault(f"{voice.option(option, word)} has to begin with + or -")
    return word[0] == "+", word[1:]


def account_edits(said: argparse.Namespace, number: int) -> Iterator[Edit]:
    """The differences of an account that the words ask for. Raises WordsFault."""
    for asked in said.user:
        is_added, word = signed("user", asked)
        user, has_right, right = word.partition(":")
        if is_added != bool(has_right):
            raise WordsFault(f"{voice.option('user', asked)}: +USER:RIGHT or -USER")
        yield Edit(number, ADD, ("user", user, right)) if is_added else Edit(number, DROP, ("user", user))
    for factor in said.correction:
        period, has_value, value = factor.partition(":")
        if not has_value:
            raise WordsFault(f"{voice.option('correction', factor)}: PERIOD:VALUE")
        if period == FIRST_PERIOD:
            yield Edit(number, PUT, ("CORRECTION", value or "0"))
        else:
            row = ("correction", period)
            yield Edit(number, ADD, (*row, value)) if value else Edit(number, DROP, row)
    for name, field in FIELDS.items():
        if getattr(said, name) is not None:
            yield Edit(number, PUT, (field, getattr(said, name)))
    for left_out in said.leave_out:
        tag, _, year = left_out.partition(":")
        if tag not in ("emissions", "figure"):
            raise WordsFault(f"{voice.option('leave-out', left_out)}: emissions:YEAR or figure:YEAR")
        yield Edit(number, DROP, (tag, year))


def account_of(said: argparse.Namespace, names: Labels) -> int:
    """The account that is changed: the named one, or the only one that is opened; 0 if there is none."""
    if said.account is None and len(said.open_account) == 1:
        return opened_by(said.open_account[0]).number
    number = asking.number_or_none("ACCOUNT", said.account, names)
    return 0 if number is None else edits.account_number(str(number))


def opened_by(word: str) -> Edit:
    """The difference that makes an account. Raises WordsFault if the word names none."""
    number, *rest = word.split(",")
    if len(rest) != 2:
        raise WordsFault(f"{voice.option('open-account', word)}: NUMBER,KIND,HOLDER")
    return Edit(edits.account_number(number), OPEN, tuple(rest))


def rule_edits(said: argparse.Namespace) -> Iterator[Edit]:
    """The differences of the rules that the words ask for. Raises WordsFault."""
    for admin in said.admin:
        is_added, user = signed("admin", admin)
        yield Edit(0, ADD if is_added else DROP, ("admin", user))
    for years in said.period:
        yield Edit(0, ADD, ("period", *years.split("-")))
    if said.current is not None:
        yield Edit(0, PUT, ("current", said.current))
    for lag in said.lag:
        name, _, days = lag.partition(":")
        if name not in LAGS:
            raise WordsFault(f"{voice.option('lag', lag)}: one of {', '.join(LAGS)}, with :DAYS")
        yield Edit(0, PUT, (LAG, name, days))
    for allowed in said.surrender:
        is_added, pair = signed("surrender", allowed)
        yield Edit(0, ADD if is_added else DROP, ("surrender", *pair.split(":")))
    yield from (Edit(0, ADD, ("work", day)) for day in said.working)
    yield from (Edit(0, DROP, ("work", day)) for day in said.not_working)


def edits_of(said: argparse.Namespace, names: Labels = Labels()) -> list[Edit]:
    """All differences that the words ask for, by the names of the folder. An account is opened before anything else of
    it."""
    number = account_of(said, names)
    of_account = [*account_edits(said, number)]
    if of_account and not number:
        raise WordsFault("name the ACCOUNT that is changed")
    made = [*map(opened_by, said.open_account), *of_account, *rule_edits(said)]
    for edit in made:
        if edit.words[0] != LAG:
            edits.must_be_readable(edit)
    if not made:
        way = f"{voice.command('change', '--help')} tells what can be"
        raise WordsFault("nothing to change", voice.either(way, "the form says what is there"))
    return made


def run(said: argparse.Namespace) -> int:
    """Runs the command, and answers the exit status."""
    if said.pairs and said.office is not None:
        raise WordsFault("--pairs stands in place of --office")
    if said.pairs:
        return on_paths(said)
    if said.why is None:
        raise WordsFault("--why is needed: it is kept with the change")
    if said.to is not None:
        raise WordsFault("--to is for --pairs: a folder keeps the change itself")
    why = words.one_line("why", said.why)
    with folder.opened(said.office) as office:
        asked = Change(tuple(edits_of(said, office.names())), why, said.yes)
        came = change.change_by_hand(office, words.by(said, office), asked)
    print("\n".join([*came.rows, *came.notes]))
    if came.part is None:
        print(f"this would be changed for {came.date}; nothing is, without {voice.option('yes')}")
        return FOUND
    print(f"handed in for {came.date}: {intake.places(came.part.start, came.part.end)}")
    print("".join(f"{line}\n" for line in came.waits), end="")
    return 0


def on_paths(said: argparse.Namespace) -> int:
    """Shows the differences from a report, and writes the whole blocks of the accounts that are changed."""
    text, rows = change.on_pair(*read_pair(*said.pairs), edits_of(said))
    print("\n".join(rows), file=sys.stderr)
    write_answer(text.decode("utf-8", "surrogateescape"), said.to)
    return 0
