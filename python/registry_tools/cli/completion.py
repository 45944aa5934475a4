"""Writes what a shell needs to complete the words of ./day and ./run: load it as the example does. Of ./day it
completes values, too: acts, names of checks, and the dates and accounts of the folder.

It is made of the same parsers that read the words.
"""
import argparse
import contextlib
import shlex
import sqlite3
import sys
from collections.abc import Iterator, Sequence
from pathlib import Path

from registry_tools import installed, tables
from registry_tools.cli import named_day, parsers
from registry_tools.errors import FileFault, WordsFault

TOP = Path(__file__).resolve().parents[3]
EXAMPLE = "source <(./day completion bash)"
SHELLS = ("bash", "zsh", "fish")
# In place of a shell: what a shell asks, with the words of a line behind it up to the one that is completed.
LINE = "line"
ASK = f"completion {LINE} --"
# Of more accounts nobody reads a list.
MOST_SHOWN = 500
# The values that all folders have, by the names that helps have for them.
KNOWN: dict[str, list[str]] = {
    "ACT": [act.word for act in tables.ACTS], "NAME": [check.name for check in tables.CHECKS],
}  # fmt: skip
ACCOUNTS = "SELECT DISTINCT account FROM accounts_by_day WHERE account LIKE ? || '%' ORDER BY account LIMIT ?"


def add_words(parser: argparse.ArgumentParser) -> None:
    """Tells a parser the words of the command."""
    which = f"the shell; or {LINE}, for the words that may stand last in a line, whose words stand behind --"
    parser.add_argument("shell", choices=(*SHELLS, LINE), help=which)
    parser.add_argument("words", metavar="WORD", nargs=argparse.REMAINDER, help=argparse.SUPPRESS)


# The words with which a line of ./day may go on.


def answer(words: Sequence[str]) -> int:
    """Writes the words with which a line goes on, one below another: none, if a folder cannot be asked."""
    with contextlib.suppress(SystemExit, WordsFault, FileFault, OSError, sqlite3.Error, BrokenPipeError):
        sys.stdout.write("".join(f"{word}\n" for word in words_behind([word for word in words if word != "="])))
        sys.stdout.flush()
    return 0


def words_behind(words: Sequence[str]) -> list[str]:
    """The words that may stand in place of the last one of a line, whose program is left out."""
    from registry_tools.cli import main

    place = 0
    while len(words) > place + 2 and words[place] in (main.FOLDER, main.OFFICE):
        place += 2
    before, line = words[:place], words[place:]
    if line[0] in (main.FOLDER, main.OFFICE):
        return []
    if len(line) < 2:
        return [*parsers.descriptions(), main.FOLDER, main.OFFICE, "--help", "--version"]
    name, current = line[0], line[-1]
    if name not in parsers.descriptions():
        return []
    parser = main.parser_of(name, main.module_of(name), named_day.is_named(name, [*line[1:-1]]))
    if current.startswith("-"):
        return parsers.options_of(parser)
    option = next((action for action in parser._actions if line[-2] in action.option_strings), None)  # noqa: SLF001
    positional = [action for action in parser._actions if not action.option_strings]  # noqa: SLF001
    asked = [option] if option is not None and option.nargs != 0 else positional
    return [*dict.fromkeys(word for action in asked for word in values_of(action, current, [*before, *line]))]


def values_of(action: argparse.Action, begin: str, line: Sequence[str]) -> Iterator[str]:
    """What may stand for an option or a word: what the parser takes, or what the folder of the line has."""
    yield from map(str, action.choices if action.choices is not None else KNOWN.get(str(action.metavar), []))
    if action.metavar in ("DATE", "ACCOUNT"):
        from registry_tools.office import composing, folder

        with folder.opened(folder_in(line)) as office:
            last = office.last()
            if action.metavar == "DATE" and "close" in line and last:
                # (only a later day is closed)
                yield from (str(date) for date in composing.filed_calendar(office, last) if date > last.date)
            elif action.metavar == "DATE":
                yield from (str(event.date) for event in office.store.events.days)
            else:
                yield from (str(number) for (number,) in office.store.db.execute(ACCOUNTS, (begin, MOST_SHOWN)))


def folder_in(line: Sequence[str]) -> str | None:
    """The folder that a line names."""
    parser = argparse.ArgumentParser(add_help=False, allow_abbrev=False)
    parser.add_argument("-C", dest="place", default="")
    parser.add_argument("--office")
    given, _ = parser.parse_known_args(line[:-1])
    return given.office if given.office is None and not given.place else str(Path(given.place, given.office or ""))


# What shells read.


def cases_of(of: dict[str, list[str]]) -> str:
    """The options of each command as the arms of a case."""
    return "".join(f"    {name}) words='{' '.join(options)}' ;;\n" for name, options in of.items())


# (`compgen -W` reads its words as a shell does: those of a folder are numbers and dates alone. The program is not the
# one that is typed, which somebody may have put where one stands: it is run before anybody asks for it.)
BASH_DAY = """\
_registry_day() {{
  local word=${{COMP_WORDS[COMP_CWORD]}} words
  words=$({program} {ask} "${{COMP_WORDS[@]:1:COMP_CWORD}}" 2>/dev/null)
  COMPREPLY=($(compgen -W "$words" -- "$word"))
  case $COMP_CWORD$word in
  1* | *-*) ;;
  *) COMPREPLY+=($(compgen -f -- "$word")) ;;
  esac
}}
complete -o filenames -F _registry_day {called}
"""
BASH_RUN = """\
_registry_run() {{
  local words word=${{COMP_WORDS[COMP_CWORD]}}
  if [ "$COMP_CWORD" = 1 ]; then
    words='{commands}'
  else
    case ${{COMP_WORDS[1]}} in
{cases}    *) words= ;;
    esac
  fi
  COMPREPLY=($(compgen -W "$words" -- "$word"))
}}
complete -F _registry_run {called}
"""
# One command for zsh, as a file of a folder in which it looks for such.
ZSH_DAY = """\
#compdef {called}
local -a found
found=("${{(@f)$({program} {ask} "${{(@)words[2,CURRENT]}}" 2>/dev/null)}}")
compadd -- $found
(( CURRENT == 2 )) || _files
"""
ZSH_RUN = """\
#compdef {called}
local -a found
if (( CURRENT == 2 )); then
  found=({commands})
else
  case ${{words[2]}} in
{cases}    *) found=() ;;
  esac
fi
compadd -- $found
"""
FISH_DAY = "complete {called} -a '({program} {ask} (commandline -opc)[2..-1] (commandline -ct) 2>/dev/null)'\n"
FISH_RUN = "complete {called} -f -n \"{when}\" -a '{words}'\n"
# How the commands are called, in a checkout and in an installation: none by a bare word that others may have, too.
DAY, RUN = ("./day", "registry-day"), ("./run", "registry")


def text_of(shell: str) -> str:
    """The lines that a shell reads of a checkout, or of an installation."""
    is_checkout = installed.is_checkout()
    day, run = (TOP / "day", TOP / "run") if is_checkout else (Path(DAY[1]), Path(RUN[1]))
    if shell == "fish":
        told = [f"-p {path}" if is_checkout else f"-c {path}" for path in (day, run)]
        return fish_of_day(told[0], str(day)) + fish_of_run(told[1], parsers.options_of_run())
    start = "autoload -U +X bashcompinit && bashcompinit\n" if shell == "zsh" else ""
    return start + bash_of_day(" ".join(DAY), str(day)) + "\n" + bash_of_run(" ".join(RUN), parsers.options_of_run())


def bash_of_day(called: str, program: str) -> str:
    """What bash needs to complete the words of ./day: it asks the program for them."""
    return BASH_DAY.format(called=called, program=shlex.quote(program), ask=ASK)


def bash_of_run(called: str, of: dict[str, list[str]]) -> str:
    """What bash needs to complete the words of ./run."""
    return BASH_RUN.format(commands=" ".join([*of, "--help"]), cases=cases_of(of), called=called)


def fish_of_day(called: str, program: str) -> str:
    """What fish needs to complete the words of ./day."""
    return FISH_DAY.format(called=called, program=shlex.quote(program).replace("'", "\\'"), ask=ASK)


def fish_of_run(called: str, of: dict[str, list[str]]) -> str:
    """What fish needs to complete the words of ./run."""
    first = FISH_RUN.format(called=called, when="__fish_is_first_arg", words=" ".join([*of, "--help"]))
    others = ((name, " ".join(words)) for name, words in of.items() if words)
    seen = "__fish_seen_subcommand_from {}"
    rows = (FISH_RUN.format(called=called, when=seen.format(name), words=words) for name, words in others)
    return first + "".join(rows)


def files() -> dict[str, str]:
    """What an installation has in the folders in which shells look for the words of a command."""
    (day, run), of = (DAY[1], RUN[1]), parsers.options_of_program()
    cases = cases_of(of).replace("words='", "found=(").replace("' ;;", ") ;;")
    return {
        f"bash-completion/completions/{day}": bash_of_day(day, day),
        f"bash-completion/completions/{run}": bash_of_run(run, of),
        f"zsh/site-functions/_{day}": ZSH_DAY.format(called=day, program=day, ask=ASK),
        f"zsh/site-functions/_{run}": ZSH_RUN.format(called=run, commands=" ".join([*of, "--help"]), cases=cases),
        f"fish/vendor_completions.d/{day}.fish": fish_of_day(f"-c {day}", day),
        f"fish/vendor_completions.d/{run}.fish": fish_of_run(f"-c {run}", of),
    }


def run(said: argparse.Namespace) -> int:
    """Runs the command, and answers the exit status."""
    if said.shell == LINE:
        return answer(said.words or [""])
    if said.words:
        raise WordsFault(f"{said.shell} takes no other word, and not {' '.join(said.words)}")
    sys.stdout.write(text_of(said.shell))
    return 0
