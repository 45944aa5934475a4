"""Finds the command that the words name, runs it, and answers the exit status."""
import argparse
import contextlib
import difflib
import gc
import importlib
import os
import re
import signal
import sqlite3
import sys
from collections.abc import Callable
from pathlib import Path
from typing import Protocol, cast

from registry_tools import outcomes, steps, streams, tables, voice
from registry_tools.errors import FILE, NOT_WRITTEN, Fault, FileFault
from registry_tools.cli import desks, named_day
from registry_tools.cli.options import Words, look_at_files
from registry_tools.progress import progress

# Each command is a module of its own. It has its help as its own text, an EXAMPLE, and the functions `add_words`, which
# tells a parser its words, and `run`, which answers the exit status.
COMMANDS = {
    "next": "writes the next day's text from a day and its report",
    "chain": "looks whether days and reports follow from each other, and nothing is lost",
    "verify": "works a day out once more, without the program, and compares the report",
    "statements": "writes the statements of all accounts, each in a file",
    "explain": "says what is wrong with a day text, and mends what a spreadsheet did to it",
    "log": "writes the logs of reports as one table with a header",
    "compliance": "shows which operators are compliant for a year, and why others are not",
    "reconcile": "compares somebody's list of balances with the accounts after a day",
    "page": "makes HTML pages of a settled day: the day, compliance, accounts, and the rules",
    "completion": "writes what a shell needs to complete the words of ./day and ./run",
    "man": "writes the manual page",
    "link": "prints a link to the desk at a socket, for whoever gives the command alone",
}
# Those of a folder that remembers its days.
OFFICE_COMMANDS = {
    "init": "makes a folder that remembers its days, with the first day text",
    "status": "shows how it stands: the last day, what waits, what was handed in",
    "hand-in": "hands in instructions, working days and accounts for the next day",
    "change": "changes an account or the rules by hand, as a difference, or opens an account",
    "changes": "lists the changes by hand",
    "label": "names users, holders and accounts, or lists the names",
    "settings": "asks for another office.ini, which a second login approves, or shows what it says",
    "take-back": "takes something back that was handed in",
    "try": "shows what would come of the next day as it stands",
    "close": "settles the next day and files it",
    "approve": "approves what another login asked for, or shows what waits for whom",
    "undo": "takes the last day back, as long as it is not released",
    "correct": "closes a settled day once more, without an instruction or with others, and all days behind it",
    "release": "says that others know of the last day: it stays",
    "anchor": "writes a line to be kept elsewhere, by which an audit sees later whether the folder has grown from here",
    "audit": "looks whether anything in it was changed, and each day follows from the one before",
    "due": "shows what is due: deadlines, ends of reversal windows, what waits, the end of the calendar",
    "find": "finds log rows over all days: of an account, a user, an act, what was refused",
    "balance": "shows what an account held after a day",
    "history": "shows all that became of an account",
    "diff": "shows in what two days differ, of one folder or of two",
    "db": "makes a database of all days, for questions in SQL",
    "unpack": "writes its texts as plain files, with their SHA-256",
    "backup": "makes a copy of its file, also while others work on it",
    "upgrade": "makes the file of a folder that version 1.1 made",
    "month": "makes one page of several days: compliance, totals, refusals, changes by hand",
    "send": "makes a package for each holder, to print or to send",
    "desk": "serves the folder to a browser on this machine",
    "import": "makes instructions or accounts of a table that a spreadsheet saved; needs no folder",
    "export": "writes a table for a spreadsheet; needs no folder, if paths are named",
    "form": "writes an empty table of an act, accounts or labels, to be filled in; needs no folder",
}
MODULES = {"hand-in": "hand_in", "take-back": "take_back", "try": "trial", "import": "importing"}

HEAD = """./day COMMAND ..

The office round the program: the work of each day that needs no proof.

"""
TAIL = """
There `--day DATE` stands in place of the paths of a day and its report: verify, statements, compliance, reconcile,
page, log, explain, export.
./day --desk PATH COMMAND .. gives it at the socket of a desk, with files of here (./day desk --help).
./day COMMAND --help explains a command, with an example. ./day --version tells the version. ./day -C FOLDER COMMAND
runs the command in FOLDER; --office FOLDER may stand before it, too.

exit status: 0 it is as it has to be, 1 something was found, 2 the words do not fit, 3 a file is not what it must be:
then standard error has its name, the line, the field, what was found and what was expected. 5 standard output did not
take all, or standard input is a folder. 130 somebody interrupted it.
"""


# Behind this word stands the folder of a desk, in whose words all is told, and a file into which the command writes
# what came of it.
FOR_DESK = "--for-desk"
# Behind this word stands the socket of a desk, which carries the command out.
BY_DESK = "--desk"
# Before the command: the folder in which it is run, and the folder of days, as if it stood behind it.
FOLDER, OFFICE = "-C", "--office"


class Command(Protocol):
    """A module that is a command."""

    __doc__: str | None
    EXAMPLE: str

    def add_words(self, parser: argparse.ArgumentParser) -> None:
        """Tells a parser the words of the command."""

    def run(self, words: argparse.Namespace) -> int:
        """Runs the command, and answers the exit status."""


def help_text() -> str:
    """The help of all commands."""
    width = max(map(len, [*COMMANDS, *OFFICE_COMMANDS]))
    lines = [f"  {name.ljust(width)}  {what}\n" for name, what in COMMANDS.items()]
    of_office = [f"  {name.ljust(width)}  {what}\n" for name, what in OFFICE_COMMANDS.items()]
    of_folder = "\nIn a folder that remembers its days, or with --office FOLDER:\n\n"
    return streams.in_help("".join([HEAD, *lines, of_folder, *of_office, TAIL]))


def perhaps_meant(word: str) -> str:
    """The lines of the help of commands that are written almost as a word, or that speak of it."""
    commands = {**COMMANDS, **OFFICE_COMMANDS}
    near = difflib.get_close_matches(word, commands, 3)
    begin = re.compile(rf"\b{re.escape(word.lower())}") if len(word) > 2 else None
    names = [name for name, what in commands.items() if name in near or (begin and begin.search(what))]
    return "".join(f"  {name}: {commands[name]}\n" for name in names)


def parser_of(name: str, module: Command, names_day: bool = False) -> Words:
    """The parser of a command. It reads no paths of a day if the words name a day of a folder in their place."""
    example = f"example:\n  {module.EXAMPLE}"
    parser = Words(names_day, prog=voice.TERMINAL.command(name), description=module.__doc__, epilog=example)
    module.add_words(parser)
    if name in named_day.TAKES:
        named_day.add_words(name, parser)
    return parser


def module_of(name: str) -> Command:
    """The module of a command."""
    return cast(Command, importlib.import_module(f"registry_tools.cli.{MODULES.get(name, name)}"))


def run(name: str, arguments: list[str], desk: str | None = None) -> int:
    """Runs a command, here or by a desk. What it finds wrong is told on standard error."""
    module = module_of(name)

    def given() -> int:
        may_name = name in named_day.TAKES
        words = parser_of(name, module, may_name and named_day.is_named(name, arguments)).parse_args(arguments)
        carrier = desks.desk_for(name, words, desk)
        if carrier is not None:
            # (most commands go to no desk)
            from registry_tools.cli import calling

            look_at_files(words)
            return calling.ask(carrier, name, arguments, words)
        with named_day.looked_up(name, words) if may_name else contextlib.nullcontext():
            look_at_files(words)
            return module.run(words)

    return carry_out(name, given)


def carry_out(name: str, command: Callable[[], int]) -> int:
    """Runs a command, and answers its status. What it finds wrong is told on standard error."""
    # (a book is a million small objects, none of which refers to itself: looking for such takes a third of the time)
    gc.disable()
    try:
        with steps.of_command(name):
            status = command()
        sys.stdout.flush()
        return status
    except SystemExit as end:
        # (the help was written, or the words are not taken)
        return int(end.code or 0)
    except Fault as fault:
        progress.clear()
        outcomes.keep(fault)
        print(fault if isinstance(fault, FileFault) else f"{voice.command(name)}: {fault}", file=sys.stderr)
        return fault.status
    except sqlite3.Error as error:
        why = "another command may write the file just now, or it was changed"
        print(f"{voice.command(name)}: {error}: {why}", file=sys.stderr)
        return FILE
    except OSError as error:
        return cannot_go_on(voice.command(name), error)
    except KeyboardInterrupt:
        return 130
    finally:
        progress.clear()


def begin(name: str, arguments: list[str]) -> int:
    """Runs the words of the command line, by the name under which it was started, and answers the exit status."""
    streams.make_ready(name, NOT_WRITTEN)
    for number in (signal.SIGTERM, signal.SIGHUP):
        # (what is half written is taken away, as after Ctrl-C; `nohup` stays in force)
        if signal.getsignal(number) == signal.SIG_DFL:
            signal.signal(number, signal.default_int_handler)
    return main(arguments)


def start() -> None:
    """The command of an installation."""
    sys.exit(begin("registry-day", sys.argv[1:]))


def main(arguments: list[str]) -> int:
    """Runs the words of a command line, and answers the exit status."""
    if arguments[:1] == [FOR_DESK] and arguments[3:]:
        # (whoever started the command reads what came of it, and not its sentences)
        outcomes.telling = outcomes.Telling()
        with voice.speaking(voice.Desk(Path(arguments[1]))):
            status = main(arguments[3:])
        # (without room for it, the status alone tells what came of it)
        with contextlib.suppress(OSError):
            outcomes.write(Path(arguments[2]), status)
        return status
    tool = streams.names["./day"]
    if arguments[:1] == ["help"]:
        arguments = [*arguments[1:2], "--help"]
    if arguments[:1] in (["-h"], ["--help"], ["-V"], ["--version"]) and arguments[1:]:
        print(f"{tool}: {arguments[0]} takes no other word: found {' '.join(arguments[1:])}", file=sys.stderr)
        return 2
    if arguments[:1] in (["-h"], ["--help"]):
        return streams.write(tool, help_text(), NOT_WRITTEN)
    if arguments[:1] in (["-V"], ["--version"]):
        return streams.write(tool, f"{tool} of registry {tables.VERSION}\n", NOT_WRITTEN)
    if arguments[:1] == [FOLDER]:
        return in_folder(tool, arguments[1:])
    if not arguments:
        print(help_text(), end="", file=sys.stderr)
        return 2
    desk = arguments[1] if arguments[0] == BY_DESK and arguments[2:] else None
    words = arguments if desk is None else arguments[2:]
    name, *rest = (behind_command(words) if words[0].startswith(OFFICE) else words) or [""]
    if not name:
        print(f"{tool}: there is no command behind {' '.join(arguments)}", file=sys.stderr)
        return 2
    if name not in COMMANDS and name not in OFFICE_COMMANDS:
        print(f"{perhaps_meant(name)}{tool}: there is no command {name}; {tool} --help tells all", file=sys.stderr)
        return 2
    return run(name, rest, desk)


def in_folder(tool: str, arguments: list[str]) -> int:
    """Runs the words behind a folder in which they are run, and answers the exit status."""
    if not arguments:
        print(f"{tool}: {FOLDER} takes a folder, and has nothing behind it", file=sys.stderr)
        return 2
    try:
        os.chdir(arguments[0])
    except OSError as error:
        print(f"{tool}: {FOLDER} {arguments[0]}: {error.strerror}", file=sys.stderr)
        return 2
    return main(arguments[1:])


def behind_command(arguments: list[str]) -> list[str]:
    """The words with a folder of days that stands before the command behind it; none, if there is no command."""
    places = 1 if arguments[0].startswith(f"{OFFICE}=") else 2 if arguments[0] == OFFICE else 0
    named, rest = arguments[:places], arguments[places:]
    return [rest[0], *named, *rest[1:]] if rest else []


def cannot_go_on(name: str, error: OSError) -> int:
    """Says what cannot be read or written: a file, or standard output, which has no name."""
    if error.filename is None:
        streams.cannot_be_written(name, error)
        return NOT_WRITTEN
    print(f"{error.filename}: it cannot be read or written: {error.strerror}", file=sys.stderr)
    return FILE
