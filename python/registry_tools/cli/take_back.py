"""Takes back something that was handed in for the next day of a folder: by its place, by the file with which it came,
or by who handed it in. The folder keeps who took it back, and why.

  ./day take-back 8 12-19 --why "entered twice"
  ./day take-back --file orders.xlsx --why "the wrong month"
  ./day take-back --handed-by anna --why "she asked for it"
  ./day take-back settings 57 --why "a slip"          the office.ini that event 57 asks for

With several of these, what all of them name is taken back. A NAME of --handed-by is the one that --who said, or the
login. ./day status and ./day try show places and files. An instruction of the first text is taken out of that text:
./day init puts in another one.
"""
import argparse

from registry_tools.cli import words
from registry_tools.errors import WordsFault
from registry_tools.notes import first_of
from registry_tools.office import folder, people, rewriting, take_back
from registry_tools.office.take_back import TakeBack

EXAMPLE = './day take-back 8 --why "entered by mistake" --office out/office'
# More are only counted.
MOST_TOLD = 50


def add_words(parser: argparse.ArgumentParser) -> None:
    """Tells a parser the words of the command."""
    places = "the place of an instruction, account or working day, or a range of places, as 3-7"
    parser.add_argument("places", metavar="PLACE", nargs="*", help=places)
    parser.add_argument("--file", metavar="NAME", help="what came with the files of this name")
    parser.add_argument("--handed-by", metavar="NAME", help="what somebody handed in")
    words.add_office(parser)
    words.add_who(parser)
    words.add_why(parser)


def run(said: argparse.Namespace) -> int:
    """Runs the command, and answers the exit status."""
    asked = TakeBack(words.one_line("why", said.why), tuple(said.places), said.file, said.handed_by)
    if not asked.places and asked.file is None and asked.handed_by is None:
        raise WordsFault("name what is taken back", "a PLACE, --file or --handed-by")
    with folder.opened(said.office) as office:
        if asked.places[:1] == (people.REWRITE,):
            number = words.number_of_event(asked.places[1:])
            event = rewriting.take_back_rewrite(office, words.by(said, office), number, asked.why)
            print(f"taken back: {event.name}")
            return 0
        items = take_back.take_back(office, words.by(said, office), asked)
    told = [f"taken back: place {item.place}: {' '.join(item.rows)}" for item in items]
    print("\n".join(first_of(told, MOST_TOLD)))
    return 0
