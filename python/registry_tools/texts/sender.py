"""Who sends letters: the section [sender] of office.ini.

  [sender]
  name = Emission Registry Office   whom letters come from
  mail = registry@example.org       where questions go, and from where messages are sent
"""
import configparser
import re
from dataclasses import dataclass
from pathlib import Path

from registry_tools.errors import FileFault, must_be_known, shown
from registry_tools.texts.namebook import wrong_name

SECTION, NAMES = "sender", ("name", "mail")
# An address of a message: of letters that no header gives another meaning. (RFC 5322 knows more, which nobody has.)
MAIL = re.compile(r"[A-Za-z0-9_+.%-]{1,64}@[A-Za-z0-9-]{1,63}(\.[A-Za-z0-9-]{1,63}){1,8}", re.ASCII)
# (as a word of a header is spelled that says letters by their numbers, among which line ends may be)
ENCODED = "=?"


@dataclass(frozen=True)
class Sender:
    """Whom letters come from; empty: nobody is named."""

    name: str = ""
    mail: str = ""

    def __str__(self) -> str:
        return ", ".join(filter(None, (self.name, self.mail))) or "the registry"


def read(path: Path, parser: configparser.ConfigParser) -> Sender:
    """The sender that a settings file names; without the section, none. Raises FileFault."""
    if SECTION not in parser:
        return Sender()
    section = parser[SECTION]
    must_be_known(path, f"[{SECTION}]", section, NAMES)
    name, mail = (section.get(field, "") for field in NAMES)
    if ENCODED in name or wrong_name(name):
        raise FileFault(path, 0, "name", shown(name), f"{wrong_name(name) or 'a name'} in one line, without {ENCODED}")
    if mail:
        must_be_address(path, 0, mail)
    return Sender(name, mail)


def must_be_address(path: str | Path, line: int, word: str) -> None:
    """Raises FileFault if a word of a file is no address that can stand in the head of a message."""
    if not MAIL.fullmatch(word):
        raise FileFault(path, line, "mail", shown(word), "an address such as office@example.org")
