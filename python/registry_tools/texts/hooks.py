"""The programs that office.ini has run behind commands: the section [hooks]."""
import configparser
from pathlib import Path

from registry_tools.errors import must_be_known

SECTION, AFTER_CLOSE = "hooks", "after_close"


def program_after_close(path: Path, parser: configparser.ConfigParser) -> str:
    """The program that is run behind `close`; nothing, if a settings file names none. Raises FileFault."""
    section = dict(parser[SECTION]) if SECTION in parser else {}
    must_be_known(path, f"[{SECTION}]", section, (AFTER_CLOSE,))
    return section.get(AFTER_CLOSE, "")
