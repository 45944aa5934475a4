"""The settings of a folder, office.ini: the program, what `close` makes, deadlines, keys and people; and what of it may
be changed by other ways than an editor."""
import configparser
from dataclasses import dataclass
from pathlib import Path

from registry_tools import opening
from registry_tools.calendars import deadlines
from registry_tools.errors import FileFault, must_be_known, of_file, shown
from registry_tools.office import people
from registry_tools.office.people import People
from registry_tools.texts import hooks, sections, sender

LAYOUT, SECTION, ANCHOR, KEY = "1", "office", "anchor", "key"
# What office.ini has: another section would be one that nobody reads.
SECTIONS = (SECTION, deadlines.SECTION, ANCHOR, people.SECTION, people.FOUR_EYES, hooks.SECTION, sender.SECTION)
# What it names under [office].
NAMES = ("layout", "program", "statements", "pages", "verify", "desk", "name")
# What an editor of the owner alone changes: where a program is that is run as the owner, and other paths. So are the
# rights of the owner, and who may speak for others.
FIXED = (
    (SECTION, "layout"), (SECTION, "program"), (SECTION, "desk"), (ANCHOR, KEY), (hooks.SECTION, hooks.AFTER_CLOSE),
)  # fmt: skip
BY_EDITOR = "what stands there: an editor of the owner alone changes it"


@dataclass(frozen=True)
class Settings:
    """What office.ini says."""

    # The program that settles; empty: the library if it was built, else the one that ./run starts.
    program: str
    makes_statements: bool
    makes_pages: bool
    # Whether the second answer works out all accounts of a day, and not only those that it touches.
    verifies: bool = False
    # The deadlines that the office names.
    due: deadlines.DueDates = deadlines.DueDates()
    # The key that signs anchors, if there is one.
    key: Path | None = None
    # Who may do what, and what waits for a second one.
    people: People = People()
    # The socket of its desk, for whoever may not write the folder.
    desk: str = ""
    # What the office is called, if it is told.
    name: str = ""
    # The program that is run behind `close`, if there is one, and whom letters come from.
    after_close: str = ""
    letters_from: sender.Sender = sender.Sender()

    def text(self) -> str:
        """The text of office.ini."""
        return (
            "# A folder that remembers its days: see docs/FORMATS.md.\n[office]\n"
            f"layout = {LAYOUT}\n# The program that settles.\nprogram = {self.program}\n"
            "# What ./day close makes beside the report: yes or no.\n"
            f"statements = {words_of(self.makes_statements)}\npages = {words_of(self.makes_pages)}\n"
        )


def words_of(is_so: bool) -> str:
    """A switch as the settings spell it."""
    return "yes" if is_so else "no"


def read(path: Path) -> Settings:
    """The settings of a folder. Raises FileFault if they are none."""
    try:
        return read_text(path, sections.letters_of(opening.read(path)))
    except OSError as error:
        raise of_file(path, f"it cannot be read: {error.strerror}") from None


def read_text(path: Path, text: str) -> Settings:
    """The settings that a text says."""
    parser = sections.parsed(path, text)
    if SECTION not in parser:
        raise FileFault(path, 0, "", f"no row [{SECTION}]", f"[{SECTION}], and below it {', '.join(NAMES)}")
    section = parser[SECTION]
    must_be_known(path, "section", parser.sections(), SECTIONS, f"one of {', '.join(f'[{name}]' for name in SECTIONS)}")
    must_be_known(path, "name", section, NAMES)
    if section.get("layout") != LAYOUT:
        raise FileFault(path, 0, "layout", shown(section.get("layout", "")), LAYOUT)
    makes_statements, makes_pages = is_yes(path, section, "statements"), is_yes(path, section, "pages")
    due, verifies = deadlines.read(path, parser), "verify" in section and is_yes(path, section, "verify")
    key, named = key_of(path, parser), people.read(path, text)
    letters = hooks.program_after_close(path, parser), sender.read(path, parser)
    program, desk, called = (section.get(name, "") for name in ("program", "desk", "name"))
    return Settings(program, makes_statements, makes_pages, verifies, due, key, named, desk, called, *letters)


def key_of(path: Path, parser: configparser.ConfigParser) -> Path | None:
    """The key that signs anchors. A path that is not whole begins at the folder."""
    if ANCHOR not in parser:
        return None
    section = parser[ANCHOR]
    unknown = next((name for name in section if name != KEY), None)
    if unknown is not None or not section.get(KEY):
        raise FileFault(path, 0, f"[{ANCHOR}]", shown(unknown or ""), f"{KEY} = PATH, a key of ssh-keygen")
    return path.parent / section[KEY]


def is_yes(path: Path, section: configparser.SectionProxy, name: str) -> bool:
    """Whether a switch of the settings is on. Raises FileFault if it is neither yes nor no."""
    word = section.get(name, "no")
    if word not in ("yes", "no"):
        raise FileFault(path, 0, name, shown(word), "yes or no")
    return word == "yes"


# Another text.


def must_be_open(path: Path, old: str, text: str, owner: str) -> Settings:
    """What another text says. Raises FileFault if it is none, or changes what an editor of the owner alone changes."""
    sections.must_be_lines(path, text)
    new = read_text(path, text)
    before, after = fixed_in(path, old, owner), fixed_in(path, text, owner)
    for field in (name for name in {**before, **after} if before.get(name, "") != after.get(name, "")):
        # (where a program lies is nothing for a page)
        raise FileFault(path, 0, field, shown(after.get(field, "")), BY_EDITOR)
    return new


def fixed_in(path: Path, text: str, owner: str) -> dict[str, str]:
    """What of a text an editor alone changes, by its section and name."""
    parser, named = sections.parsed(path, text), people.read(path, text).named.values()
    found = {f"[{section}] {name}": parser.get(section, name, fallback="") for section, name in FIXED}
    for person in named:
        if person.login == owner or people.PROXY in person.rights:
            found[f"[{people.SECTION}] {person.login}"] = f"{person.name}: {', '.join(sorted(person.rights))}"
    return found
