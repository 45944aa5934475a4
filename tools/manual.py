"""Makes manual pages for man: of the program and of the second answer from their helps, of the library from its header,
and of the day text from docs/FORMATS.md."""
import re
from collections.abc import Iterator
from pathlib import Path

import package  # noqa: F401
from registry_tools.cli.man import as_it_stands, as_roff, head, see_also

RETURNED = r"struct registry_answer|uint32_t|size_t|const char \*"
PROTOTYPE = re.compile(rf"^(?:{RETURNED})\s*registry_\w+\([^;]*\);", re.MULTILINE)
# What of docs/FORMATS.md is about the text, and what about commands.
OF_TEXT = ("Rows and fields", "The day text", "The report", "The plan", "The statement", "The figures", "Faults")
INLINE = re.compile(r"`([^`]+)`|!?\[([^\]]*)\]\([^)]*\)|\*\*([^*]+)\*\*")
CELLS = re.compile(r"(?<!\\)\|")


ENGINE = "The settlement engine"
# Where a package for Debian has the days of the examples.
DAY = "/usr/share/doc/registry/examples/morning-batch.csv"
OF_PROGRAM = f"""\
registry settle < {DAY} > report.csv
registry statement 100210 < {DAY}
registry plan < {DAY}"""
OF_RULES = f"""\
registry-rules settle < {DAY} > second.csv
cmp report.csv second.csv"""


def page(parts: list[str]) -> str:
    """A page of these parts."""
    return "\n".join([*parts, ""])


def of_program(helped: str) -> str:
    """registry(1), from the help that the program writes."""
    uses = ["settle [--workers N]", "plan", "figures", "totals", "statement ACCOUNT"]
    lines = [f".B registry\n{as_roff(use)} < DAY > TEXT" for use in uses]
    return page([
        head("registry", 1, ENGINE, "settles a day of an allowance registry"),
        ".SH SYNOPSIS\n" + "\n.br\n".join(lines), f".SH DESCRIPTION\n{as_it_stands(helped.rstrip())}",
        f".SH EXAMPLES\n{as_it_stands(OF_PROGRAM)}",
        see_also(("registry-day", 1), ("registry-rules", 1), ("registry", 3), ("registry-day-text", 5)),
    ])  # fmt: skip


def of_rules(helped: str) -> str:
    """registry-rules(1), from the help that the second answer writes."""
    return page([
        head("registry-rules", 1, "The second answer", "the rules of a settlement in plain Python"),
        ".SH SYNOPSIS\n.B registry\\-rules\n.I COMMAND\n< DAY > TEXT",
        f".SH DESCRIPTION\n{as_it_stands(helped.strip())}", f".SH EXAMPLES\n{as_it_stands(OF_RULES)}",
        see_also(("registry", 1), ("registry-day", 1), ("registry-day-text", 5)),
    ])  # fmt: skip


def of_library(header: str) -> str:
    """registry(3), from its header."""
    calls = "\n\n".join(found[0] for found in PROTOTYPE.finditer(header))
    comment = "\n".join(re.sub(r"^ ?\*? ?", "", line) for line in header.split("*/")[0].removeprefix("/*").split("\n"))
    body = header[header.index("#define REGISTRY_VERSION") - 100 :].split("*/", 1)[1]
    return page([
        head("registry", 3, ENGINE, "the settlement engine as a library"),
        f".SH SYNOPSIS\n.nf\n.B #include <registry.h>\n\n{as_roff(calls)}\n",
        "Link with \\-lregistry, as pkg\\-config \\-\\-libs registry says.\n.fi",
        f".SH DESCRIPTION\n{as_it_stands(comment.strip())}", f".SH DECLARATIONS\n{as_it_stands(body.strip())}",
        see_also(("registry", 1), ("registry-day-text", 5)),
    ])  # fmt: skip


def of_text(document: str) -> str:
    """registry-day-text(5), from the sections of docs/FORMATS.md that are about texts."""
    sections = re.split(r"(?m)^## ", re.sub(r"<!--.*?-->\n?", "", document, flags=re.DOTALL))[1:]
    named = {section.partition("\n")[0]: section.partition("\n")[2] for section in sections}
    # (the first table has the rows in their order, up to the last one)
    rows = re.findall(r"(?m)^\| (?:- )?`([a-z]+(?:,[A-Z]+)*)`", named["The day text"])
    rows = rows[: rows.index("end") + 1]
    what = "a day of an allowance registry, and what is written of it"
    parts = [f'{head("registry-day-text", 5, "Texts", what)}\n.SH SYNOPSIS\n']
    parts.append(as_it_stands("\n".join(rows)) + "\n")
    for name in OF_TEXT:
        parts += [f".SH {as_roff(name.upper())}\n", *lines_of(named[name].strip().split("\n"))]
    parts.append(see_also(("registry", 1), ("registry-day", 1)) + "\n")
    # (a paragraph in front of another, or behind a heading, is one that is there)
    return re.sub(r"(?m)^\.PP\n(?=\.(?:PP|IP|TP|SH|SS|RS)\b)", "", "".join(parts))


def plain(words: str) -> str:
    """A line of Markdown with its code and its stressed words in bold."""
    told = INLINE.sub(lambda found: f"\\fB{found[1] or found[3]}\\fP" if found[2] is None else found[2], words)
    text = as_roff(told).replace("\\efB", "\\fB").replace("\\efP", "\\fP")
    return INLINE.sub(r"\1\2\3", text)


def lines_of(lines: list[str]) -> Iterator[str]:
    """The lines of a section: paragraphs, points, rows of tables, and blocks of code."""
    is_code = False
    for place, line in enumerate(lines):
        if line.startswith("```"):
            yield ".fi\n.RE\n" if is_code else ".RS\n.nf\n"
            is_code = not is_code
        elif is_code:
            yield f"{as_roff(line)}\n"
        elif line.startswith("### "):
            yield f".SS {plain(line[4:])}\n"
        elif line.startswith("|"):
            yield from row_of(line, lines[place + 1 : place + 2])
        elif line.startswith(("- ", "1. ")):
            yield f".IP \\(bu 2\n{plain(line.partition(' ')[2])}\n"
        else:
            yield f"{plain(line.strip())}\n" if line.strip() else ".PP\n"


def row_of(line: str, behind: list[str]) -> Iterator[str]:
    """A row of a table: what its first cell says, and the others below it. The head says no more here."""
    cells = [cell.strip().replace("\\|", "|") for cell in CELLS.split(line)[1:-1]]
    is_head = bool(behind) and set(behind[0]) <= set("|-: ")
    if not is_head and not set(line) <= set("|-: "):
        yield f".TP\n{plain(cells[0]) or '-'}\n{plain('; '.join(filter(None, cells[1:]))) or '-'}\n"


def read(path: Path) -> str:
    return path.read_text(encoding="utf-8")
