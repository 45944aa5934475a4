"""Asks for another office.ini: the deadlines, people, rights and switches of a folder. It counts once another login has
approved it, which may do all, as whoever asks. Without words it shows what office.ini says, and what was asked for.

  ./day settings "[due] surrender = 09-30" "[people] eva = Eva Nord: hand in" --why "she begins on Monday"
  ./day settings "[people] eva =" --why "she left"     without a value, the line is left out
  ./day settings --file new.ini --why "the new year"   all of it
  ./day approve settings 57                            as event 57 asks for it
  ./day take-back settings 57 --why "a slip"

If office.ini was changed meanwhile, it is asked for once more. An editor of the owner alone changes the program, the
one behind `close`, the socket of the desk, the key, whoever may speak for others, and the rights of the owner.
"""
import argparse

from registry_tools import opening, outcomes, voice
from registry_tools.cli import words
from registry_tools.elsewhere import Source
from registry_tools.errors import FOUND, WordsFault
from registry_tools.layout import SETTINGS
from registry_tools.office import approvals, folder, people, rewriting
from registry_tools.office.office import Office
from registry_tools.office.rewriting import Rewrite
from registry_tools.questions import rewrites
from registry_tools.texts import sections

EXAMPLE = "./day settings --office out/office"

NOTHING = f"nobody asked for another {SETTINGS}"


def add_words(parser: argparse.ArgumentParser) -> None:
    """Tells a parser the words of the command."""
    parser.add_argument("lines", metavar="LINE", nargs="*", help="a line that is laid in: [SECTION] NAME = VALUE")
    parser.add_argument("--file", metavar="FILE", type=Source, help="all of the other office.ini")
    words.add_office(parser)
    words.add_who(parser)
    parser.add_argument("--why", metavar="WORDS", help="the reason, which is kept")


def run(said: argparse.Namespace) -> int:
    """Runs the command, and answers the exit status."""
    if not said.lines and said.file is None:
        with folder.opened(said.office) as office:
            may = office.people.may(words.by(said, office).login, people.REWRITE)
            print("\n".join(all_told(office, may) or [NOTHING]))
        return 0
    if said.lines and said.file is not None:
        raise WordsFault("--file stands in place of lines")
    if said.why is None:
        raise WordsFault("--why is needed: it is kept with what is asked for")
    asked = Rewrite(words.one_line("why", said.why), tuple(said.lines), said.file)
    with folder.opened(said.office) as office:
        event, rows = rewriting.ask(office, words.by(said, office), asked)
        second = approvals.second_for(office, (people.REWRITE,), event.login)
    outcomes.asked_for()
    print("\n".join(rows))
    way = voice.command("approve", "settings", event.id)
    print(f"event {event.id}, another {SETTINGS}, {approvals.ASKED_FOR} {second}: {way}")
    return FOUND


def all_told(office: Office, may: bool) -> list[str]:
    """What was asked for, and, for who may do all, what office.ini says: it tells where something lies."""
    path, lines = office.path / SETTINGS, list[str]()
    for asked in rewrites.rewrites(office):
        by = approvals.who_did(office, asked.event.who, asked.event.login)
        lines += [f"event {asked.event.id}, asked for by {by} at {asked.event.at}, {asked.became}: {asked.event.why}"]
        lines += [f"  {row}" for row in asked.rows]
    rows = sections.rows_in(path, sections.letters_of(opening.read(path)))
    return [*(rows if may else ()), *lines, *[*rewrites.told(office)][-1:]]
