"""Words that the commands of a folder share."""
import argparse
import contextlib
import getpass
import os
import sys
from collections.abc import Sequence
from dataclasses import replace

from registry_tools import outcomes, voice
from registry_tools.errors import FOUND, WordsFault, shown
from registry_tools.notes import LOOK
from registry_tools.office.approvals import AskedFor
from registry_tools.office.folder import WHERE
from registry_tools.office.office import By, Office, by_of
from registry_tools.office.people import People, one_line as one_line
from registry_tools.store import events

# An event has no number of so many digits.
MOST_DIGITS = 10


def user_name() -> str:
    """Who gives the command, if no word says it."""
    with contextlib.suppress(KeyError, OSError, ImportError):
        return getpass.getuser()
    return f"user {os.getuid()}"


def add_office(parser: argparse.ArgumentParser) -> None:
    """The option that names the folder."""
    parser.add_argument("--office", metavar="FOLDER", help=WHERE)


def add_who(parser: argparse.ArgumentParser) -> None:
    """The option that says who does it."""
    name = "who does it, beside the login; without it, the name of the user"
    parser.add_argument("--who", metavar="NAME", default=user_name(), help=name)
    # (of somebody who looked at the folder before: `./day desk` says it)
    parser.add_argument("--seen", metavar="STATE", help=argparse.SUPPRESS)
    # (and of what would have come of it then: if that comes of it now, nothing else counts)
    parser.add_argument("--shown", metavar="SUM", help=argparse.SUPPRESS)
    # (of a desk behind a proxy that office.ini lets speak for others)
    parser.add_argument("--for", dest="whom", metavar="LOGIN", help=argparse.SUPPRESS)


def add_why(parser: argparse.ArgumentParser) -> None:
    """The option that gives the reason."""
    parser.add_argument("--why", metavar="WORDS", required=True, help="the reason, which is kept")


def add_day(parser: argparse.ArgumentParser, what: str) -> None:
    """The word that names a settled day."""
    without = "without it, the command says which it would be"
    parser.add_argument("day", metavar="DATE", nargs="?", help=f"{what}; {without}")


def by(said: argparse.Namespace, office: Office | None) -> By:
    """By whom the command is given, of the people that a folder knows, if it is there already: by the login of the
    process, or the one for which it may speak. Tells if the clock went back since the last event."""
    done = office.events if office is not None else None
    if done and done.rows and (now := events.now()) < (last := done.of_id(len(done.rows)).at):
        clock = f"the clock of this machine says {voice.time(now)}, and the last event is of {voice.time(last)}"
        to_errors(f"{LOOK}: {clock}: set it right, or what is done now seems to have been done earlier")
    people = office.people if office is not None else People()
    return replace(by_of(people, said.who, said.whom, said.seen), shown=said.shown)


def number_of_event(words: Sequence[str]) -> int:
    """The number of an event that the words behind a command name. Raises WordsFault if they name none."""
    word = " ".join(words)
    if not (word.isascii() and word.isdigit() and len(word) < MOST_DIGITS):
        raise WordsFault(f"found {shown(word)}; expected the number of an event", voice.command("settings"), ", as of ")
    return int(word)


def tell_asked_for(asked: AskedFor) -> int:
    """Tells that something waits for another login, and answers the exit status."""
    outcomes.asked_for()
    print(asked)
    return FOUND


def to_errors(line: str) -> None:
    """Writes a line to standard error."""
    print(line, file=sys.stderr)
