"""The rules of docs/RULES.md once more, in plain Python: what each command of the program has to write of a day text.

  tools/rules.py settle < DAY                 what the program has to write of this day; so for plan, figures and totals
  tools/rules.py statement ACCOUNT < DAY      the statement of one account

It was written from the rules in words, and not from the program or its definitions: so it is a second answer, to
compare the program with, and to look at before the kit is installed. It is not the proved
program. It is slow, and reads only day texts without a fault; of another one it tells the first fault.
The exit statuses are those of the program.
"""
import difflib
import os
import sys
from typing import TextIO

from registry_tools import streams
from registry_tools.second import faults, rules
from registry_tools.tables import MOST_NUMBER, VERSION

HELP, NAME = str(__doc__), "tools/rules.py"
COMMANDS = ("settle", "plan", "figures", "totals", "statement")
# The exit statuses if the words are not taken, if the text has a fault, and if a stream fails.
NOT_TAKEN, FAULTY, STREAM_FAILED = 2, 3, 5


def tell(stream: TextIO | None, text: str) -> bool:
    """Writes to standard output or standard error, which may be closed, and answers whether that went well."""
    try:
        if stream is not None:
            stream.write(text)
            stream.flush()
        return stream is not None
    except OSError:
        # (else the interpreter tries it again at its end, and ends with a status of its own)
        if stream is not None:
            streams.let_go(stream)
        return False


def account_named(word: str) -> int | None:
    """The account whose number a word is, as the program takes it; None if it is no such number."""
    digits = word.removeprefix("+")
    # (Python does not read numbers of thousands of digits, of which most may be zeros)
    number = digits.lstrip("0")
    if not (digits.isascii() and digits.isdecimal()) or len(number) > len(str(MOST_NUMBER)):
        return None
    return int(number) if 1 <= int(number or "0") <= MOST_NUMBER else None


def are_taken(command: str, words: list[str]) -> bool:
    """Whether the words are those of a command."""
    return command in COMMANDS and len(words) == (command == "statement") and all(map(account_named, words))


def refuse(words: list[str]) -> int:
    """Says why the words are not taken: a text that is named, or what else this can do."""
    files = [word for word in words if os.path.isfile(word)]
    if files:
        tell(sys.stderr, f"{NAME}: {files[0]} is a file. A day text comes from standard input: < {files[0]}\n")
    else:
        tell(sys.stderr, f"{NAME}: {why_not_taken(words)}\n\n{HELP}" if words else HELP)
    return NOT_TAKEN


def why_not_taken(words: list[str]) -> str:
    """Which word is not taken, and what may have been meant."""
    command, *others = words
    if command in COMMANDS:
        return f"{command} takes {'the number of one account' if command == 'statement' else 'no other word'}" + (
            f", and not {' '.join(others)}" if others else ""
        )
    near = difflib.get_close_matches(command, COMMANDS, 1)
    return f"there is no command {command}" + (f": write {near[0]}" if near else "")


def read_input() -> bytes | None:
    """All bytes of standard input, or None if they cannot be read."""
    try:
        return sys.stdin.buffer.read() if sys.stdin else None
    except OSError:
        return None


def start() -> None:
    """The command of an installation."""
    global HELP, NAME
    HELP, NAME = HELP.replace(NAME, "registry-rules"), "registry-rules"
    sys.exit(main(sys.argv[1:]))


def main(words: list[str]) -> int:
    """Writes the text of a command, or the line of a fault, and answers the exit status."""
    if {"-h", "--help"} & {*words}:
        tell(sys.stdout, HELP)
        return 0
    if "--version" in words:
        tell(sys.stdout, f"{NAME} of registry {VERSION}\n")
        return 0
    command, *account = words or [""]
    if not are_taken(command, account):
        return refuse(words)
    text = read_input()
    if text is None:
        tell(sys.stderr, "read failed\n")
        return STREAM_FAILED
    fault = faults.first_fault(text)
    if fault:
        tell(sys.stderr, fault)
        return FAULTY
    written = rules.answers(text).get(" ".join([command, *(str(account_named(word)) for word in account)]))
    if written is None:
        tell(sys.stderr, "no such account\n")
        return NOT_TAKEN
    if not tell(sys.stdout, written):
        tell(sys.stderr, "write failed\n")
        return STREAM_FAILED
    return 0
