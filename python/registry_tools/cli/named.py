"""The word that names a file of names."""
import argparse

from registry_tools.elsewhere import Source
from registry_tools.texts import namebook
from registry_tools.texts.namebook import Labels


def add_words(parser: argparse.ArgumentParser) -> None:
    """Tells a parser the word of the command."""
    names = "names of users, holders and accounts, as in labels.csv"
    parser.add_argument("--labels", metavar="FILE", type=Source, help=names)


def labels_of(said: argparse.Namespace) -> Labels:
    """The names of the file that the word names, or of the folder whose day was named; without one none."""
    names: Labels | None = getattr(said, "names", None)
    return namebook.read(said.labels) if said.labels is not None else names or Labels()
