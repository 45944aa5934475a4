"""Tells the version of all that is here, and writes it where it is told: the file VERSION is its one place.

usage: tools/version [--compare | NEW]

With --compare nothing is written: each place that tells another version is named, and the exit status is then 1. NEW,
such as 1.2, goes into VERSION and into all places. One of them is a source of the program, which is then proved again.
`cases/run-documents` compares.
"""
import re
import sys
from collections.abc import Iterator
from dataclasses import dataclass
from pathlib import Path

TOP = Path(__file__).resolve().parent.parent
SOURCE = "VERSION"
FORM = "(?:0|[1-9][0-9]{0,3})[.](?:0|[1-9][0-9]{0,3})"
# What stands behind the version where three numbers are asked for.
PATCH = ".0"


@dataclass(frozen=True)
class Place:
    """Where a version is told: in which file, and between which words of a line."""

    path: str
    before: str
    after: str = '"'
    more: str = ""

    def found(self, text: str) -> "re.Match[str] | None":
        return re.search(f"(?m)^({re.escape(self.before)})(.*?)({re.escape(self.after)})$", text)

    def read(self, top: Path) -> str:
        """The version that it tells; nothing, if it tells none."""
        found = self.found((top / self.path).read_text(encoding="utf-8"))
        return found[2].removesuffix(self.more) if found and found[2].endswith(self.more) else ""

    def write(self, top: Path, version: str) -> None:
        path = top / self.path
        text = path.read_text(encoding="utf-8")
        found = self.found(text)
        if found is None:
            sys.exit(f"version: {self.path} has no line that begins with {self.before}")
        path.write_text(text[: found.start(2)] + version + self.more + text[found.end(2) :], encoding="utf-8")


PLACES = (
    Place("crates/registry/src/words.rt", 'const VERSION: &str = "', '";'),
    Place("crates/registry_c/src/lib.rt", 'const ENGINE_VERSION: &str = "', '";'),
    Place("crates/registry_c/src/lib.rt", '    ensures { TellsText (codes "', '") result room.old room.new }'),
    Place("include/registry.h", '#define REGISTRY_VERSION_STRING "'),
    Place("python/registry_tools/tables.py", 'VERSION = "'),
    Place("examples/python/src/registry/__init__.py", '__version__ = "'),
    Place("examples/rust/Cargo.toml", 'version = "', more=PATCH),
    Place("examples/rust/Cargo.lock", 'name = "registry"\nversion = "', more=PATCH),
    *(Place(f"cases/program/{name}.stdout", "registry ", "")
      for name in ("version", "version-in-short", "version-and-help-in-short")),
)  # fmt: skip


def version_of(top: Path) -> str:
    """The version that the one place says."""
    word = (top / SOURCE).read_text(encoding="utf-8").removesuffix("\n")
    if not re.fullmatch(FORM, word, re.ASCII):
        sys.exit(f"version: {SOURCE} says {word!r}, and has to say a version, such as 1.2")
    return word


def others(top: Path) -> Iterator[str]:
    """The places that tell another version."""
    wanted = version_of(top)
    for place in PLACES:
        told = place.read(top)
        if told != wanted:
            yield f"{place.path} tells {told or 'no version'}, and {SOURCE} says {wanted}"


def main(words: list[str]) -> int:
    if words in (["-h"], ["--help"]):
        print(__doc__, end="")
        return 0
    if not words:
        print(version_of(TOP))
        return 0
    if words == ["--compare"]:
        found = [*others(TOP)]
        print("".join(f"{own}\n" for own in found), end="")
        return 1 if found else 0
    if len(words) != 1 or not re.fullmatch(FORM, words[0], re.ASCII):
        print("usage: tools/version [--compare | NEW], where NEW is such as 1.2", file=sys.stderr)
        return 2
    (TOP / SOURCE).write_text(f"{words[0]}\n", encoding="utf-8")
    for place in PLACES:
        if place.read(TOP) != words[0]:
            place.write(TOP, words[0])
            print(place.path)
    return 0


if __name__ == "__main__":
    sys.exit(main(sys.argv[1:]))
