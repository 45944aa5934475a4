"""Wrong bodies of a crate as functions of their own beside the right ones, so that one check judges all of them.

An edit is a file crates/NAME/wrong-bodies/*.edit with a line `file: src/FILE.rt` and then pairs of lines `old: TEXT`
and `new: TEXT`, one line each. An `old:` text stands once in the file, as the pairs before have left it. All pairs of
an edit change one function, whose wrong body they make.
"""
from __future__ import annotations

import re
import shutil
from collections.abc import Iterable, Iterator
from dataclasses import dataclass
from pathlib import Path

FOLDER = "wrong-bodies"
# What of a crate a check reads.
PARTS = ("src", "specs", "proofs")
HEADER = re.compile(r"( *)(?:pub(?:\([a-z:]+\))? )?(?:const )?(?:unsafe )?(?:extern \"C\" )?fn (\w+)\b")
BLOCK = re.compile(r" *(?:pub(?:\([a-z:]+\))? )?(impl|trait|mod|macro_rules!)\b")
# What a copy does not keep: a cycle of several functions, since it calls the right ones, and a name for the linker.
LEFT_OUT = re.compile(r"#\[(?:cycle\(\w+\)|unsafe\(no_mangle\)|no_mangle)\]")


class Unplaced(Exception):
    """Says why an edit makes no wrong body."""


@dataclass(frozen=True)
class Function:
    """Where a function stands: from its first attribute to its last line, both as indexes."""

    name: str
    # The type whose method it is; "" for none.
    owner: str
    indent: str
    begin: int
    header: int
    end: int


@dataclass(frozen=True)
class Edit:
    """A wrong body: the lines of a file of the crate with the edit, and the function that it changes."""

    name: str
    file: str
    function: Function
    lines: tuple[str, ...]


@dataclass(frozen=True)
class Copy:
    """A function beside another one: a wrong body, or, where `edit` is None, the right one once more."""

    name: str
    right: str
    # The copy of the right one beside it.
    control: str
    edit: str | None
    file: str
    # The lines of the file where it stands, from 1.
    first: int
    last: int


def edit_files(crate: Path) -> list[Path]:
    """The edits of a crate that are judged together."""
    return sorted((crate / FOLDER).glob("*.edit"))


def pairs_of(text: str) -> tuple[str, list[tuple[str, str]]]:
    """The file that an edit names, and what it puts in the place of what."""
    file, old, pairs = "", "", []
    for number, line in enumerate(text.splitlines(), 1):
        if line.startswith("file: ") and not file:
            file = line.removeprefix("file: ").strip()
        elif line.startswith("old: ") and file and not old:
            old = line.removeprefix("old: ")
        elif line.startswith("new:") and old:
            pairs.append((old, line.removeprefix("new:").removeprefix(" ")))
            old = ""
        elif line.strip():
            raise Unplaced(f"line {number} is none of 'file: ', 'old: ', 'new: ' in this order: {line.strip()[:60]}")
    if not pairs or old:
        raise Unplaced("it has no line 'new: ' behind a line 'old: '")
    return file, pairs


def edited_text(crate: Path, file: str, pairs: Iterable[tuple[str, str]]) -> tuple[str, str]:
    """The text of a file of the crate, as it is and with the edit."""
    if not re.fullmatch(r"src/[\w/]+\.rt", file) or not (crate / file).is_file():
        raise Unplaced(f"there is no file {file} of src/: edits of definitions go into must-fail/")
    right = wrong = (crate / file).read_text(encoding="utf-8")
    for old, new in pairs:
        found = wrong.count(old)
        if found != 1:
            raise Unplaced(f"an 'old:' text stands {found} times in {file}, and not once: {old.strip()[:60]}")
        wrong = wrong.replace(old, new)
    if wrong == right:
        raise Unplaced("it changes nothing")
    return right, wrong


def read_edit(path: Path, crate: Path) -> Edit:
    """An edit of a crate. Raises Unplaced if it is none of one function."""
    file, pairs = pairs_of(path.read_text(encoding="utf-8"))
    right, wrong = (text.split("\n") for text in edited_text(crate, file, pairs))
    changed = [index for index, (old, new) in enumerate(zip(right, wrong)) if old != new]
    here = [function for function in functions_of(right) if function.header <= changed[0] <= function.end]
    if not here or changed[-1] > here[0].end:
        raise Unplaced("it changes more than one function, or none: such edits go into must-fail/")
    return Edit(path.stem, file, here[0], tuple(wrong))


def functions_of(lines: list[str]) -> Iterator[Function]:
    """The functions of a file in the layout of `rt fmt` that can have another one beside them: none of a trait, of an
    `impl` of one, or of a macro."""
    next_line = 0
    for index, line in enumerate(lines):
        found = HEADER.match(line)
        if index < next_line or not found:
            continue
        end = end_of(lines, index, found[1])
        next_line = end + 1
        owner = owner_of(lines, index, found[1])
        if owner is not None:
            yield Function(found[2], owner, found[1], begin_of(lines, index, found[1]), index, end)


def end_of(lines: list[str], header: int, indent: str) -> int:
    """The last line of the function with this header. One that is only declared ends with a semicolon."""
    if lines[header].endswith("}") and lines[header].count("{") == lines[header].count("}"):
        return header
    begun = re.compile(rf"{indent}(?:\S.*)?\{{")
    open_brackets = 0
    for index in range(header, len(lines)):
        open_brackets += lines[index].count("{") - lines[index].count("}")
        if begun.fullmatch(lines[index]):
            break
        if lines[index].endswith(";") and open_brackets == 0:
            return index
    return next((index for index in range(header, len(lines)) if lines[index] == indent + "}"), header)


def begin_of(lines: list[str], header: int, indent: str) -> int:
    """The first line of the attributes of the function with this header, without its comment."""
    begin = header
    while begin > 0 and lines[begin - 1].strip() and not lines[begin - 1].lstrip().startswith("//"):
        above = begin - 1
        if lines[above].endswith("]"):
            while not lines[above].startswith(indent + "#["):
                above -= 1
        if not lines[above].startswith(indent + "#["):
            break
        begin = above
    return begin


def owner_of(lines: list[str], header: int, indent: str) -> str | None:
    """The type in whose `impl` the function stands, "" for one in none; None where it can have no copy."""
    if not indent:
        return ""
    for index in range(header, -1, -1):
        found = BLOCK.match(lines[index])
        if found and len(lines[index]) - len(lines[index].lstrip()) < len(indent):
            head = " ".join(lines[index : header]).split("{")[0] + " "
            return owner_in(head, found[1])
    return None


def owner_in(head: str, kind: str) -> str | None:
    """The type that the first line of a block names."""
    if kind != "impl":
        return "" if kind == "mod" else None
    head = without_brackets(head.split("impl", 1)[1].split(" where ")[0])
    found = re.fullmatch(r" *(?:\w+::)*(\w+) *", head)
    return found[1] if found else None


def without_brackets(text: str) -> str:
    """A text without what stands in angle brackets."""
    while "<" in text:
        shorter = re.sub(r"<[^<>]*>", "", text)
        if shorter == text:
            break
        text = shorter
    return text


def copied(lines: Iterable[str], function: Function, name: str, calls_itself: bool) -> list[str]:
    """The lines of a function under another name, for use in its crate alone."""
    own = [line for line in list(lines)[function.begin : function.end + 1] if not LEFT_OUT.search(line)]
    at = next(index for index, line in enumerate(own) if HEADER.match(line))
    header = re.sub(r"^( *)pub fn", r"\1pub(crate) fn", own[at])
    own[at] = re.sub(rf"\bfn {function.name}\b", f"fn {name}", header, count=1)
    if calls_itself:
        call = re.compile(rf"(?<![\w.:])(self\.|Self::)?{function.name}\(")
        own[at + 1 :] = [call.sub(rf"\g<1>{name}(", line) for line in own[at + 1 :]]
    return own


def renamed(text: str, old: str, new: str) -> str:
    """A text with another name in the place of this one, also as a part of the names of goals."""
    return re.sub(rf"(?<!\w){old}(?!\w)", new, text)


class Planting:
    """The copies of a crate: they are written into a folder that has the crate's src/, specs/ and proofs/."""

    def __init__(self, room: Path, edits: Iterable[Edit]) -> None:
        self.room = room
        self.copies: list[Copy] = []
        by_file: dict[str, list[Edit]] = {}
        for edit in edits:
            by_file.setdefault(edit.file, []).append(edit)
        for file, own in by_file.items():
            self.plant(file, own)

    def plant(self, file: str, edits: list[Edit]) -> None:
        """Writes the copies of all functions of a file, each behind its function."""
        right = (self.room / file).read_text(encoding="utf-8").split("\n")
        written: list[str] = []
        behind = 0
        for function in sorted({edit.function for edit in edits}, key=lambda function: function.end):
            written += right[behind : function.end + 1]
            behind = function.end + 1
            bodies: list[tuple[str | None, Iterable[str]]] = [(None, right)]
            bodies += [(edit.name, edit.lines) for edit in edits if edit.function == function]
            control = self.name_of(function, None)
            calls_itself = self.cycle_of(file, function) is not None
            for edit, lines in bodies:
                name = self.name_of(function, edit)
                own = copied(lines, function, name, calls_itself)
                first, last = len(written) + 2, len(written) + 1 + len(own)
                self.copies.append(Copy(name, function.name, control, edit, file, first, last))
                written += ["", *own]
                self.copy_proofs(file, function, name)
        (self.room / file).write_text("\n".join([*written, *right[behind:]]), encoding="utf-8")

    def name_of(self, function: Function, edit: str | None) -> str:
        """A name that no other function of the crate has."""
        return f"{function.name}_{'right' if edit is None else 'wrong'}_{len(self.copies)}"

    def copy_proofs(self, file: str, function: Function, name: str) -> None:
        """Copies what is written of a function's proof, in which the names of its goals follow."""
        cycle = self.cycle_of(file, function)
        here = cycle or self.proofs_of(file, function)
        if here is None:
            return
        there = here.with_name(renamed(here.name, function.name, name))
        shutil.copytree(here, there)
        old, new = (".".join(folder.relative_to(self.room / "proofs").parts) for folder in (here, there))
        for proof in there.rglob("*.antt"):
            text = proof.read_text(encoding="utf-8")
            # (of a cycle, the function itself is a name in its goals)
            text = renamed(text, function.name, name) if cycle else text.replace(f".proofs.{old}.", f".proofs.{new}.")
            proof.write_text(text, encoding="utf-8")

    def module_of(self, file: str) -> Path:
        """The folder of what is written of the proofs of a file."""
        module = Path(file).relative_to("src").with_suffix("")
        return self.room / "proofs" / (module.parent if module.name in ("lib", "main", "mod") else module)

    def cycle_of(self, file: str, function: Function) -> Path | None:
        """The folder of the proof of a function that calls itself, with its closures and no other function."""
        own = rf"{function.name}|fn-{function.name}-.*|arg\d+"
        for folder in (self.module_of(file) / function.owner).glob("+*"):
            parts = folder.name.split("+")[1:]
            if function.name in parts and all(re.fullmatch(own, part) for part in parts):
                return folder
        return None

    def proofs_of(self, file: str, function: Function) -> Path | None:
        """The folder of what is written of a function's proof. A method's lies below the file of its type."""
        own = self.module_of(file) / function.owner / function.name
        if own.is_dir() or not function.owner:
            return own if own.is_dir() else None
        named = [*(self.room / "proofs").glob(f"**/{function.owner}/{function.name}")]
        return named[0] if len(named) == 1 else None
