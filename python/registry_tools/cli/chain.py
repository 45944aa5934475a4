"""Looks whether days follow from each other: each report from its day, and each day from the report before it.

  each pair      the report is what follows from the day, as docs/FORMATS.md says it of a pair
  the next day   its date is later, its NEXT is that of the report, its accounts are those of the report; each
                 difference is shown. One that somebody may make by hand, since no act makes it, is called `by hand`,
                 and so is each difference of the first rows. One of an account that stands so in a file of --changes,
                 as it was given to ./day next, does not count
  what waits     what was refused as NotDue comes on its due day, with the same fields
  the rules      periods are kept, and only added to; calendars agree where they overlap, and none of them brings
                 back a window for a reversal that was over
  allowances     of each kind, what there is at the end is what there was at the beginning, and what was created,
                 deleted, reversed and changed by hand

With --settle, PROGRAM settles each day again by `PROGRAM settle`, or without PROGRAM the library does, if it was built:
the report must have the same bytes. Of many equal differences the first three are shown, and the others counted.

exit status: 0 if nothing was found, else 1.
"""
import argparse

from registry_tools.elsewhere import Source
from registry_tools.engine import settler_of
from registry_tools.errors import FOUND, WordsFault
from registry_tools.notes import counted
from registry_tools.cli.options import add_engine, add_to
from registry_tools.output import write_answer
from registry_tools.questions.chain import Chain, Changes

EXAMPLE = (
    "./day chain examples/week/monday.csv examples/week/monday-report.csv examples/week/tuesday.csv "
    "examples/week/tuesday-report.csv"
)


def add_words(parser: argparse.ArgumentParser) -> None:
    """Tells a parser the words of the command."""
    pairs = "day texts, each with its report behind it, in order"
    parser.add_argument("files", metavar="DAY REPORT", type=Source, nargs="+", help=pairs)
    add_engine(parser, "--settle", "settle each day again: by a program, such as ./run, or else the library")
    changes = "files that were given to ./day next as changes"
    parser.add_argument("--changes", metavar="FILE", type=Source, nargs="+", default=[], help=changes)
    add_to(parser)


def run(words: argparse.Namespace) -> int:
    """Runs the command, and answers the exit status."""
    if len(words.files) % 2:
        program = f"; {words.settle} is the program of --settle" if isinstance(words.settle, str) else ""
        raise WordsFault(f"{len(words.files)} files: each DAY needs its REPORT behind it{program}")
    pairs = [*zip(words.files[::2], words.files[1::2])]
    settler = None if words.settle is None else settler_of(words.settle, "--settle")
    chain = Chain(Changes(words.changes), settler)
    for pair in pairs:
        chain.follow(*pair)
    found = chain.found
    agreed = f", {found.agreed} by hand as files of changes say" if words.changes else ""
    faults = counted(found.faults, "difference", "differences")
    by_hand = counted(found.by_hand, "change by hand", "changes by hand")
    last = f"{counted(len(pairs), 'day', 'days')}: {faults}, {by_hand}{agreed}"
    write_answer("\n".join([*chain.lines(), last, ""]), words.to)
    return FOUND if found.faults or found.by_hand else 0
