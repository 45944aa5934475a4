"""Writes a line to be kept elsewhere than the folder: its last day, what settled that day, and the head of the folder.

  anchor,AT,DATE,HEAD,ENGINE,SIGNATURE

Later `./day audit --anchors FILE` says of each such line whether the folder has grown from there. One that was restored
from a backup, or that went another way, has not. With --to FILE the line is put behind those of FILE, which is made if
it is not there; keep it where others can't change it, or send the line to somebody.

If office.ini names a key ([anchor] key = PATH), ssh-keygen signs the line by it.
"""
import argparse

from registry_tools.cli import words
from registry_tools.elsewhere import Grown
from registry_tools.layout import must_not_be_of_folder
from registry_tools.office import folder
from registry_tools.output import write_answer
from registry_tools.questions import kept_heads

EXAMPLE = "./day anchor --to out/anchors.csv --office out/office"


def add_words(parser: argparse.ArgumentParser) -> None:
    """Tells a parser the words of the command."""
    # (not as `--to` of other commands, which begins a file anew)
    parser.add_argument("--to", dest="kept", metavar="FILE", type=Grown, help="put the line behind those of this file")
    words.add_office(parser)


def run(said: argparse.Namespace) -> int:
    """Runs the command, and answers the exit status."""
    with folder.opened(said.office) as office:
        anchor, head = kept_heads.anchor_of(office), office.events.head
    if said.kept is None:
        write_answer(f"{anchor.row()}\n", None)
        return 0
    must_not_be_of_folder(said.kept)
    print(f"{said.kept}: anchors {kept_heads.keep(said.kept, anchor)}, the last one of {head}")
    return 0
