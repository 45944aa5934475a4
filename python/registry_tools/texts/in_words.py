"""What the tools that draw a text share: reading the rows of a text of the program, the words of an instruction,
and laying out a table."""
import csv
import re
import sys
from collections.abc import Callable, Collection, Iterable, Iterator, Sequence
from pathlib import Path
from typing import Any, NamedTuple, NoReturn

from registry_tools import streams, tables
from registry_tools.second import rules

ACTS = {act.word: act for act in tables.ACTS}
# The fields of acts that have amounts.
AMOUNTS = ("AMOUNT", "TONNES")
# Those that are accounts.
OF_ACCOUNTS = ("FROM", "TO", "ACCOUNT", "OTHER")
NUMBER, SIGNED = re.compile("[0-9]{1,20}"), re.compile("-?[0-9]{1,20}")


class Wrong(Exception):
    """Says what is wrong with a text."""


def read_rows(stream: Iterable[str]) -> Iterator[tuple[int, list[str]]]:
    """Gives the rows of a text as lists of fields, its last row `end` left out."""
    is_over = False
    try:
        for number, row in enumerate((row for row in csv.reader(stream) if row), 1):
            if is_over:
                raise Wrong(f"row {number} stands behind the row end")
            is_over = row == ["end"]
            if not is_over:
                yield number, row
    except (csv.Error, UnicodeDecodeError) as error:
        raise Wrong(f"this is no text of rows: {error}") from None
    if not is_over:
        raise Wrong("the text has no row end")


def refuse(number: int, row: list[str]) -> NoReturn:
    """Ends the reading at a row that the text cannot have."""
    raise Wrong(f"row {number} does not fit: {','.join(row)}")


def read_instructions(path: str | Path) -> dict[int, rules.Instruction]:
    """The instructions of a day text, by their places."""
    instructions: dict[int, rules.Instruction] = {}
    with open(path, encoding="utf-8-sig", newline="") as stream:
        try:
            for number, row in read_rows(stream):
                if row[0] == "do":
                    instructions[len(instructions) + 1] = read_instruction(number, row)
        except Wrong as wrong:
            raise Wrong(f"{path}: {wrong}") from None
    return instructions


def read_instruction(number: int, row: list[str]) -> rules.Instruction:
    """The instruction of a `do` row; ends the program if it is none."""
    try:
        return rules.read_instruction(row[1:])
    except (ValueError, IndexError):
        refuse(number, row)


def grouped(digits: str | int) -> str:
    """A number with a comma after each three digits."""
    return f"{int(digits):,}"


def words_of(act: str, fields: Sequence[str], account: Callable[[str], str] = str) -> str:
    """An instruction in words, from its act and the act's fields; `account` has the words of an account."""
    if act == tables.DISTRIBUTE:
        giver, kind, *shares = fields
        parts = [f"{grouped(amount)} to {account(number)}" for number, amount in zip(shares[::2], shares[1::2])]
        return f"distribution of {kind} from {account(giver)}: {', '.join(parts)}"
    fields_named = zip(ACTS[act].fields.split(), fields, strict=True)
    words = (
        grouped(word) if name in AMOUNTS else account(word) if name in OF_ACCOUNTS else word
        for name, word in fields_named
    )
    return ACTS[act].sentence.format(*words)


def instruction_in_words(i: rules.Instruction, account: Callable[[str], str] = str) -> str:
    """An instruction in words."""
    return words_of(i.act, i.fields[4:], account)


class ActColumns(NamedTuple):
    """What the columns of an act say."""

    first: int | str = ""
    to: int | str = ""
    kind: str = ""
    amount: int | str = ""
    year: int | str = ""
    status: str = ""
    record_named: int | str = ""


def act_columns(i: rules.Instruction) -> list[ActColumns]:
    """The columns of an instruction: once, or for each account that receives."""
    if i.act == "create":
        return [ActColumns("", i.first, rules.known(i.kind), i.amounts[0])]
    if i.shares:
        return [ActColumns(i.first, to, rules.known(i.kind), amount) for to, amount in i.shares]
    kind_and_amount: dict[str, Any] = {"kind": i.kind, "amount": sum(i.amounts)}
    more: dict[str, dict[str, Any]] = {
        "surrender": kind_and_amount, "delete": kind_and_amount, "reverse": {"record_named": i.number},
        "trust": {"to": i.other}, "untrust": {"to": i.other}, "status": {"status": i.status},
        "emissions": {"amount": i.tonnes, "year": i.year}, "assess": {"year": i.year},
    }  # fmt: skip
    return [ActColumns(i.first, **more[i.act])]


def box_lines(name: object, i: rules.Instruction) -> list[str]:
    """An instruction in the lines of a box: its place or record number with its act, its accounts, and what it is
    about."""
    receivers = [to for to, _ in i.shares]
    to = f" → {receivers[0]}" if len(receivers) == 1 else f" → {len(receivers)} accounts" if receivers else ""
    return [f"{name} {i.act}", f"{i.first}{to}", subject_of(i)]


def subject_of(i: rules.Instruction) -> str:
    """What an instruction is about, beside its accounts."""
    if i.amounts:
        return f"{grouped(sum(i.amounts))} {i.kind}"
    if i.act == "reverse":
        return f"record {i.number}"
    if i.act in ("trust", "untrust"):
        return f"list: {i.other}"
    if i.act == "status":
        return f"to {i.status}"
    return f"{i.year}: {grouped(rules.known(i.tonnes))} tonnes" if i.act == "emissions" else f"year {i.year}"


def table_lines(head: Sequence[str], rows: Sequence[Sequence[str]], right: Collection[str]) -> list[str]:
    """The lines of a table. The columns of `right` stand at the right, all others at the left."""
    widths = [max(len(row[place]) for row in [head, *rows]) for place in range(len(head))]

    def line(row: Sequence[str]) -> str:
        pairs = zip(head, row, widths)
        cells = (cell.rjust(width) if name in right else cell.ljust(width) for name, cell, width in pairs)
        return "  ".join(cells).rstrip()

    return [line(head), *map(line, rows)]


def draw(name: str, help_text: str, drawing: Callable[..., list[str]], most: int = 0) -> int:
    """Runs a tool, and answers its exit status: writes the lines that `drawing` makes of standard input and of the
    tool's arguments, of which there are at most so many."""
    streams.make_ready(name, 1)
    arguments = sys.argv[1:]
    if {"-h", "--help"} & {*arguments}:
        return streams.write(name, help_text, 1)
    if len(arguments) > most or any(argument.startswith("-") for argument in arguments):
        print(help_text, end="", file=sys.stderr)
        return 2
    if not streams.is_open(sys.stdin):
        print("read failed", file=sys.stderr)
        return 5
    try:
        lines = drawing(sys.stdin, *arguments)
    except (Wrong, OSError) as wrong:
        print(f"{name}: {wrong}", file=sys.stderr)
        return 1
    return streams.write(name, "\n".join([*lines, ""]), 1)
