"""Dates among the words of a command: all commands take the one form that a date has in a day text, and none of the
others that some versions of Python read."""
import datetime

from registry_tools.errors import WordsFault
from registry_tools.second import faults

DATE = faults.date("DATE")


def is_date(word: str) -> bool:
    """Whether a word is a date in the form of a day text."""
    try:
        return bool(DATE.read(word))
    except faults.Fault:
        return False


def date_of(name: str, word: str) -> datetime.date:
    """The date that a word says, behind the option with this name."""
    if not is_date(word):
        raise WordsFault(f"{name} {word or repr(word)} is not {DATE.expected}")
    return datetime.date.fromisoformat(word)
