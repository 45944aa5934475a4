"""Writes the manual pages of ./day, of each of its commands, and of ./run, for man: made of the same parsers that read
the words, and of what the commands say of themselves.
"""
import argparse
import itertools
import os
import re
import sys
import textwrap
import time
from pathlib import Path
from typing import Iterator

from registry_tools import streams, tables
from registry_tools.cli import parsers
from registry_tools.errors import WordsFault

EXAMPLE = "./day man > out/day.1\n  ./day man close > out/day-close.1\n  ./day man run > out/run.1"

DAY, RUN = "day", "run"
SCRIPT = Path(__file__).resolve().parents[3] / RUN
# The columns of a line of text: man lays it out anew.
COLUMNS = 76
# A paragraph of a help that tells exit statuses.
STATUS = "exit status: "


def add_words(parser: argparse.ArgumentParser) -> None:
    """Tells a parser the words of the command."""
    parser.add_argument(
        "of", choices=(DAY, RUN, *parsers.descriptions()), nargs="?", default=DAY, metavar="COMMAND",
        help="whose page: a command of ./day, or run; without it, that of ./day with all commands",
    )  # fmt: skip


# What man reads.


def as_roff(text: str) -> str:
    """A text in which no letter means something to man."""
    lines = text.replace("\\", "\\e").replace("-", "\\-").split("\n")
    return "\n".join(f"\\&{line}" if line.startswith((".", "'")) else line for line in lines)


def filled(text: str) -> str:
    """A paragraph in short lines, which man lays out."""
    return as_roff("\n".join(textwrap.wrap(text, COLUMNS, break_long_words=False, break_on_hyphens=False)))


def as_it_stands(text: str) -> str:
    """Lines that man leaves as they are."""
    return f".nf\n{as_roff(text)}\n.fi"


def date_told() -> str:
    """The date of a page: that of SOURCE_DATE_EPOCH, which a release sets, or of this file."""
    moment = os.environ.get("SOURCE_DATE_EPOCH", "")
    seconds = float(moment) if moment.isdigit() else Path(__file__).stat().st_mtime
    return time.strftime("%Y-%m-%d", time.gmtime(seconds))


def head(name: str, part: int, about: str, what: str) -> str:
    """The first lines of a page."""
    title = f'.TH {as_roff(name).upper()} {part} "{date_told()}" "registry {tables.VERSION}" "{about}"'
    return f"{title}\n.SH NAME\n{as_roff(name)} \\- {as_roff(what)}"


def see_also(*pages: tuple[str, int]) -> str:
    """Which other pages there are."""
    named = [f".BR {as_roff(name)} ({part})" for name, part in pages]
    return ".SH SEE ALSO\n" + ",\n".join(named)


# The pages.


def plain_name() -> str:
    """How ./day is called, without a folder."""
    return streams.names["./day"].removeprefix("./")


def is_installed() -> bool:
    """Whether the commands were started under the name of an installation, where each has a page of its own."""
    return streams.names["./day"] != "./day"


def page_of_day() -> Iterator[str]:
    """The page of the commands, by the name under which they were started."""
    name, plain = streams.names["./day"], plain_name()
    yield head(plain, 1, "The office round the program", "the office round a settlement program")
    yield f".SH SYNOPSIS\n.B {as_roff(name)}\n.I COMMAND\n.RI [ words ]"
    yield ".SH COMMANDS"
    for command, what in parsers.descriptions().items():
        called = f".BR {as_roff(f'{plain}-{command}')} (1)" if is_installed() else f".B {as_roff(command)}"
        yield f".TP\n{called}\n{filled(streams.in_help(what))}"
    if not is_installed():
        for command, parser in parsers.all_of_day().items():
            yield f".SH {as_roff(command.upper())}\n{as_it_stands(parser.format_help().rstrip())}"
    yield f".SH EXIT STATUS\n{as_it_stands(parsers.STATUSES)}"
    if is_installed():
        yield see_also(("registry", 1), ("registry-rules", 1), ("registry-day-text", 5))


def page_of_command(command: str) -> Iterator[str]:
    """The page of one command of ./day."""
    parser, plain = parsers.all_of_day()[command], plain_name()
    what = streams.in_help(parsers.descriptions()[command].partition(";")[0])
    yield head(f"{plain}-{command}", 1, "The office round the program", what)
    usage = streams.in_help(re.sub("(?m)^(usage: | {7})", "", parser.format_usage().rstrip()))
    yield f".SH SYNOPSIS\n{as_it_stands(usage)}"
    told = streams.in_help(parser.description or "").strip().split("\n\n")
    yield ".SH DESCRIPTION"
    yield "\n.PP\n".join(block_of(each) for each in told if not each.startswith(STATUS))
    yield ".SH OPTIONS"
    yield from options_of(parser)
    statuses = [f"{each.removeprefix(STATUS)}\n" for each in told if each.startswith(STATUS)]
    yield f".SH EXIT STATUS\n{''.join(map(filled, statuses)) or as_it_stands(parsers.STATUSES)}"
    examples = streams.in_help(parser.epilog or "").removeprefix("example:\n")
    yield f".SH EXAMPLES\n{as_it_stands(textwrap.dedent(examples).rstrip())}"
    pages = [("registry", 1), ("registry-day-text", 5)] if is_installed() else []
    yield see_also((plain, 1), *pages)


def block_of(paragraph: str) -> str:
    """A paragraph of a help: text, or lines that stand as they are, perhaps with text before them."""
    lines = paragraph.split("\n")
    text = list(itertools.takewhile(lambda line: not line.startswith(" "), lines))
    rest = "\n".join(lines[len(text) :])
    if not rest:
        return filled(paragraph)
    # (what stands behind such lines stands as it is, too)
    return (f"{filled(chr(10).join(text))}\n" if text else "") + as_it_stands(rest)


def options_of(parser: argparse.ArgumentParser) -> Iterator[str]:
    """What each word of a command means."""
    formatter = parser._get_formatter()  # noqa: SLF001
    for action in parser._actions:  # noqa: SLF001
        if action.help != argparse.SUPPRESS:
            called = formatter._format_action_invocation(action)  # noqa: SLF001
            what = streams.in_help(formatter._expand_help(action)) if action.help else ""  # noqa: SLF001
            yield f".TP\n.B {as_roff(called)}\n{filled(what)}"


def page_of_run() -> Iterator[str]:
    """What the program says of itself, and the first lines of the script."""
    yield head(RUN, 1, "The settlement program", "runs the settlement program on a day text")
    yield ".SH SYNOPSIS\n.B ./run\n.I COMMAND\n.RI [ words ]\n< DAY"
    lines = SCRIPT.read_text(encoding="utf-8").splitlines()
    comments = itertools.takewhile(lambda line: line.startswith("#"), lines[1:])
    text = "\n".join(line.removeprefix("#").removeprefix(" ") for line in comments)
    yield f".SH DESCRIPTION\n{as_it_stands(text.strip())}"
    for name, text in parsers.helps_of_run().items():
        yield f".SH {as_roff(name.upper() or 'WORDS')}\n{as_it_stands(text.rstrip())}"


def text_of(lines: Iterator[str]) -> str:
    """A page, without lines that ask man for a distance that is there."""
    return re.sub(r"(?m)^\.PP\n(?=\.nf$)", ".sp\n", "\n".join([*lines, ""]))


def pages() -> dict[str, str]:
    """The page of an installation's commands and of each of them, by the name of its file."""
    made = {f"{plain_name()}.1": text_of(page_of_day())}
    made |= {f"{plain_name()}-{name}.1": text_of(page_of_command(name)) for name in parsers.descriptions()}
    return made


def run(said: argparse.Namespace) -> int:
    """Runs the command, and answers the exit status."""
    if said.of == RUN and not SCRIPT.exists():
        raise WordsFault("./run is a script of the repository, and not of an installation")
    found = {DAY: page_of_day, RUN: page_of_run}.get(said.of)
    sys.stdout.write(text_of(found() if found else page_of_command(said.of)))
    return 0
