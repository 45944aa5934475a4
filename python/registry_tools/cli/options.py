"""The words of the commands: what is said once is said once, and a list takes all that is given to it."""
import argparse
import os
import re
import sys
from typing import IO, Any, Callable, Iterator, NoReturn, TypeVar

from registry_tools import streams
from registry_tools.elsewhere import Elsewhere, FileWord, Program, Source, Target
from registry_tools.errors import WordsFault
from registry_tools.output import must_be_writable

F = TypeVar("F", bound=FileWord)
# In place of a file that is read.
STANDARD_INPUT = "-"
# What stands for a date in a help: whoever reads one tells its form, also if it is empty.
A_DATE = "DATE"


class Given(argparse.Action):
    """An option with a value. Given twice, one that takes several values has all of them, and any other one is refused:
    the first value would be lost without a word. So is an empty value, such as a shell gives for a variable that is not
    set: it would stand for no option at all."""

    def __call__(
        self, parser: argparse.ArgumentParser, namespace: argparse.Namespace, values: Any,
        option_string: str | None = None,
    ) -> None:  # fmt: skip
        given: dict[str, Any] = namespace.__dict__.setdefault("_given", {})
        before = given.get(self.dest)
        if option_string and self.metavar != A_DATE and "" in (values if isinstance(values, list) else [values]):
            raise WordsFault(f"{option_string} has nothing behind it")
        if option_string and before is not None:
            if not isinstance(before, list):
                first, second = ("nothing" if value is True else value for value in (before, values))
                parser.error(f"{option_string} stands twice, with {first} and with {second}: which of them?")
            values = [*before, *values]
        given[self.dest] = values
        setattr(namespace, self.dest, values)


def whole_number(word: str) -> int:
    """The number that a word spells."""
    if not re.fullmatch("-?[0-9]+", word, re.ASCII):
        raise argparse.ArgumentTypeError(f"found {word!r}; expected a number")
    return int(word)


class Words(argparse.ArgumentParser):
    """A parser of the words of a command. `names_day` says that they name a day of a folder: then it reads no paths of
    a day and its report."""

    def __init__(self, names_day: bool = False, **more: Any) -> None:
        self.names_day = names_day
        # (what may stand in place of paths that lack)
        self.in_place: Callable[[], str] = str
        super().__init__(formatter_class=argparse.RawDescriptionHelpFormatter, allow_abbrev=False, **more)
        for name in (None, "store"):
            self.register("action", name, Given)
        self.register("type", int, whole_number)

    def error(self, message: str) -> NoReturn:
        """Says what is not taken, and what may stand in place of paths that lack; the exit status is 2."""
        super().error(f"{message}{self.in_place() if 'arguments are required' in message else ''}")

    def format_help(self) -> str:
        """The help, by the name under which the command was started."""
        return streams.in_help(super().format_help())

    def _print_message(self, message: str, file: IO[str] | None = None) -> None:
        """Writes the help, or why the words are not taken. (The one of argparse passes over a stream that takes
        nothing.)"""
        stream = file or sys.stderr
        stream.write(message)
        stream.flush()


class TellingWords(Words):
    """A parser of words that says by a fault what it does not take, and ends nothing."""

    def error(self, message: str) -> NoReturn:
        """Raises WordsFault with what is wrong."""
        raise WordsFault(message)


def add_pair(parser: argparse.ArgumentParser, of_report: str = "its report") -> None:
    """The words by which a command is told a day and its report, unless a day of a folder is named in their place."""
    add_day_text(parser, "a day text")
    if not is_day_named(parser):
        parser.add_argument("report", metavar="REPORT", type=Source, help=of_report)


def add_day_text(parser: argparse.ArgumentParser, what: str) -> None:
    """The word by which a command is told a day text, unless a day of a folder is named in its place."""
    if not is_day_named(parser):
        parser.add_argument("day", metavar="DAY", type=Source, help=what)


def is_day_named(parser: argparse.ArgumentParser) -> bool:
    """Whether the words that a parser reads name a day of a folder."""
    return isinstance(parser, Words) and parser.names_day


def add_to(parser: argparse.ArgumentParser) -> None:
    """The option by which a command writes its answer to a file."""
    whole = "write to this file, whole or not at all, in place of standard output"
    parser.add_argument("--to", metavar="FILE", type=Target, help=whole)


def add_engine(parser: argparse.ArgumentParser, option: str, what: str) -> None:
    """The option by which a day is settled once more: by a program, or else by the library."""
    parser.add_argument(option, metavar="PROGRAM", type=Program, nargs="?", const=True, help=what)


def look_at_files(words: argparse.Namespace) -> None:
    """Ends the command if standard input is named more than once, or if its answer would be written over one of its
    inputs, or may not be written. This is looked at before any work is done."""
    read = [str(word) for word in words_of_files(words, FileWord) if isinstance(word, (Source, Program))]
    to = getattr(words, "to", None)
    if read.count(STANDARD_INPUT) > 1:
        raise WordsFault(f"{STANDARD_INPUT} stands for standard input, and is named more than once")
    if to is None:
        return
    if to == STANDARD_INPUT:
        raise WordsFault("--to - names no file", "without --to the answer goes to standard output")
    if any(is_same_file(path, to) for path in read):
        raise WordsFault(f"--to {to} is one of the files that the command reads")
    must_be_writable(to)


def words_of_files(words: argparse.Namespace, kind: type[F]) -> Iterator[F]:
    """All words that name files of this kind."""
    for values in vars(words).values():
        yield from (value for value in (values if isinstance(values, list) else [values]) if isinstance(value, kind))


def is_same_file(path: str, other: str) -> bool:
    """Whether two paths name the same file, also by links. (Of one elsewhere, whoever gave the command has looked.)"""
    if isinstance(path, Elsewhere) or isinstance(other, Elsewhere):
        return False
    if os.path.realpath(path) == os.path.realpath(other):
        return True
    return os.path.exists(path) and os.path.exists(other) and os.path.samefile(path, other)
