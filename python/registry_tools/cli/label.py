"""Names users, holders and accounts: find, status, compliance, month, due, pages and letters show the names beside the
numbers, and commands that take an ACCOUNT find it by its name.

  ./day label holder 5501 "Kalkwerk Nord" --why "a letter of 22 September"
  ./day label account 100210 --remove --why "it was named by mistake"
  ./day label --file names.xlsx --why "the list of September"
  ./day label                                                              lists the names

A FILE has rows user,NUMBER,NAME, holder,NUMBER,NAME and account,NUMBER,NAME, or is a table with the columns kind,
number and name, as csv, .xlsx or .ods (./day form labels makes an empty one); a number without a name there has none
any more. The folder keeps each name with who gave it, when and why.

With --csv or --json, a row for each name.
"""
import argparse
from collections.abc import Iterator

from registry_tools import showing, tables
from registry_tools.cli import answers, files, words
from registry_tools.elsewhere import Source
from registry_tools.errors import FileFault, WordsFault, shown
from registry_tools.notes import first_of
from registry_tools.office import folder, label
from registry_tools.office.incoming import Given, TableFault, text_handed_in
from registry_tools.office.label import MOST_TOLD, Named, one_name
from registry_tools.sheets import importing, mapping as mappings, sheets
from registry_tools.sheets.mapping import Mapping
from registry_tools.sheets.table import Table
from registry_tools.texts import namebook
from registry_tools.texts.namebook import COLUMNS, KINDS, Label
from registry_tools.texts.rows import packed_bytes_of, rows_of_text

EXAMPLE = './day label holder 5501 "Kalkwerk Nord" --why "a letter" --office out/office'
LISTED = tables.COLUMNS["label"]


def add_words(parser: argparse.ArgumentParser) -> None:
    """Tells a parser the words of the command."""
    one = "what is named, user, holder or account; its number; and its name"
    parser.add_argument("named", metavar="KIND NUMBER NAME", nargs="*", help=one)
    ways = parser.add_mutually_exclusive_group()
    ways.add_argument("--remove", action="store_true", help="it has no name any more")
    ways.add_argument("--file", metavar="FILE", type=Source, help="the names of a file")
    parser.add_argument("--mapping", metavar="FILE", type=Source, help="the columns and words of a table of others")
    files.add_named(parser)
    words.add_office(parser)
    words.add_who(parser)
    parser.add_argument("--why", metavar="WORDS", help="the reason, which is kept: a change needs it")
    answers.add_words(parser)


def run(said: argparse.Namespace) -> int:
    """Runs the command, and answers the exit status."""
    must_fit(said)
    if not said.named and said.file is None:
        with folder.opened(said.office) as office:
            labels = office.names().named.values()
        rows = sorted(labels, key=lambda label: (label.kind, int(label.number)))
        answers.show(said, LISTED, [cells_of(said, label) for label in rows])
        return 0
    if said.why is None:
        raise WordsFault("--why is needed: it is kept with the name")
    why, asked = words.one_line("why", said.why), [*asked_of(said)]
    with folder.opened(said.office) as office:
        named = label.keep_names(office, words.by(said, office), asked, why)
    print("\n".join([*first_of([*lines_of(named)], MOST_TOLD), *named.doubts]))
    return 0


def must_fit(said: argparse.Namespace) -> None:
    """Ends the command if its words do not fit together."""
    if said.named and said.file is not None:
        raise WordsFault("a file says itself who is named how", "leave out KIND NUMBER NAME")
    if said.remove and len(said.named) != 2:
        raise WordsFault("--remove takes KIND NUMBER alone")
    if said.named and not said.remove and len(said.named) < 3:
        raise WordsFault(f"{' '.join(said.named)}: expected KIND NUMBER NAME")
    if said.mapping is not None and said.file is None:
        raise WordsFault("--mapping is for --file")
    if not said.named and said.file is None:
        if said.why is not None:
            raise WordsFault("--why is for a change", "name something, by KIND NUMBER NAME or --file")
    elif answers.is_for_programs(said) or said.to is not None:
        raise WordsFault("--csv, --json and --to are for the list of names")


def cells_of(said: argparse.Namespace, label: Label) -> list[showing.Cell]:
    """The columns of the list."""
    name = label.name if answers.is_for_programs(said) else namebook.in_sight(label.name)
    more = (label.at or None, label.who or None, label.why or None)
    return [label.kind, int(label.number), name, *more]


def asked_of(said: argparse.Namespace) -> Iterator[Label]:
    """The names that the words ask for, or those of the file."""
    if said.file is not None:
        (given,) = files.given([said.file], said.called)
        yield from names_in(given, said.mapping)
    else:
        kind, number, *name = said.named
        yield one_name(kind, number, " ".join(name), said.remove)


def names_in(given: Given, mapping: str | None) -> Iterator[Label]:
    """The names of a file: rows as labels.csv has them, or a table."""
    path, content = given.told, packed_bytes_of(given.path)
    start = content[: len(max(KINDS, key=len)) + 4].decode("utf-8-sig", "replace")
    if mapping is None and start.lstrip().startswith(tuple(f"{kind}," for kind in KINDS)):
        source = rows_of_text(path, text_handed_in(given, content).decode("utf-8-sig", "surrogateescape"))
        for place, named in enumerate(namebook.rows_in(source)):
            tidy = named._replace(name=namebook.tidy(named.name))
            found, expected = label.wrong_part(tidy, may_lack=True)
            if expected:
                raise source.fault(place, "NAME", shown(found), expected)
            yield tidy
        return
    forms = mappings.read(mapping, COLUMNS) if mapping is not None else Mapping()
    table = Table(sheets.read_content(path, content), COLUMNS, None, forms)
    made = [*importing.found_in(names_of_table(table))]
    wrong = [label for label in made if isinstance(label, FileFault)]
    if wrong:
        raise TableFault(path, wrong, "no name was changed")
    yield from (label for label in made if isinstance(label, Label))


def names_of_table(table: Table) -> Iterator[Label | FileFault]:
    """The name of each row, or what is wrong with it."""
    wrong = [*table.wrong_heading()]
    yield from wrong
    lines: dict[tuple[str, str], int] = {}
    for number, cells in () if wrong else table.rows():
        values = table.with_always(cells)
        named = Label(values.get("kind", ""), values.get("number", ""), namebook.tidy(values.get("name", "")))
        found, expected = label.wrong_part(named, may_lack="name" in table.columns)
        name = next((name for name in COLUMNS if values.get(name, "") == found), "name")
        first = lines.setdefault(named[:2], number)
        if expected:
            yield table.fault(number, name, shown(found), expected)
        elif first != number:
            yield table.fault(number, "number", shown(named.number), f"another {named.kind} than in row {first + 1}")
        else:
            yield named


def lines_of(named: Named) -> Iterator[str]:
    """What was named how."""
    for label in named.new:
        old = named.before.named.get((label.kind, label.number))
        was = f", which was {namebook.in_sight(old.name)}" if old and label.name else ""
        gone = f"{namebook.in_sight(old.name)} no more" if old else ""
        yield f"labelled: {label.kind} {label.number}: {label.name or gone}{was}"
