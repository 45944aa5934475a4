"""Approves what another login asked for, where office.ini asks for four eyes: a change by its place, or a close, undo,
release or correct by its date, or another office.ini by its event. Without words it shows what waits for whom.

  ./day approve 3                              the change at place 3, with all that was handed in with it
  ./day approve close --date 2025-09-24        the close that somebody asked for
  ./day approve settings 57                    the office.ini that event 57 asks for (./day settings)

An approval is of exactly what was asked for. A change counts from then on; a command is done when it is given again, by
another login than the one that approves. If what it would do has changed by then, it waits once more.

Nobody approves what the same login asked for, and a name that is typed approves nothing: the login is that of the
system.
"""
import argparse

from registry_tools import voice
from registry_tools.calendars import dates
from registry_tools.cli import words
from registry_tools.errors import WordsFault
from registry_tools.office import approvals, approve, change, folder, people, rewriting
from registry_tools.office.approve import OF_DATES

EXAMPLE = "./day approve --office out/office"
NOTHING = "nothing waits for another login"


def add_words(parser: argparse.ArgumentParser) -> None:
    """Tells a parser the words of the command."""
    what = f"the place of something that was handed in, or {', '.join(OF_DATES)}"
    parser.add_argument("what", metavar="PLACE|COMMAND", nargs="*", help=what)
    parser.add_argument("--date", metavar="DATE", help="the day of the command")
    words.add_office(parser)
    words.add_who(parser)


def run(said: argparse.Namespace) -> int:
    """Runs the command, and answers the exit status."""
    if not said.what:
        return show_waiting(said)
    if said.what[0] in OF_DATES:
        return command_approved(said)
    if said.what[0] == people.REWRITE:
        number = words.number_of_event(said.what[1:])
        with folder.opened(said.office) as office:
            event = rewriting.approve_rewrite(office, words.by(said, office), number)
        print(f"approved: {event.name}: it is written")
        return 0
    if said.date is not None:
        raise WordsFault("--date stands behind a command: a place needs none")
    with folder.opened(said.office) as office:
        parts = approve.approve_places(office, words.by(said, office), tuple(said.what))
    for part in parts:
        print(f"approved: {part.places}, by {part.by}: {part.name}")
        print("\n".join([*(f"  {row}" for row in part.rows), *part.becomes]))
    return 0


def show_waiting(said: argparse.Namespace) -> int:
    """Shows what waits for whom."""
    with folder.opened(said.office) as office:
        handed_in = approvals.handed_in_of(office)
        waits = approvals.all_waiting(office, handed_in)
        lines = [line for each in waits for line in (f"{each.told}: {each.way}", *(f"    {row}" for row in each.rows))]
        for part in handed_in.waiting:
            rows = approve.rows_left(handed_in, part) + change.look_at_waiting(office, handed_in, part)
            lines += [f"  {part.start}: {part.name}", *(f"    {row}" for row in rows)]
    print("\n".join(lines or [NOTHING]))
    return 0


def command_approved(said: argparse.Namespace) -> int:
    """Approves what somebody asked for."""
    command, *more = said.what
    if more or said.date is None:
        raise WordsFault("name the day of what is approved", voice.command("approve", command, "--date", "DATE"))
    date = dates.date_of(voice.option("date"), said.date)
    with folder.opened(said.office) as office:
        asked, by = approve.approve_command(office, words.by(said, office), command, date)
    print(f"approved: {asked}, asked for by {by}: another login than {office.login} gives it again")
    return 0
