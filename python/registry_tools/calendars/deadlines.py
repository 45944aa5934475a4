"""The deadlines of an office, which no rule of a day text tells: the section [due] of office.ini.

  [due]
  surrender = 09-30   by when allowances for a year have to be surrendered, as MONTH-DAY of the year behind it
  emissions = 03-31   by when the emissions of a year have to be entered, likewise
  lead = 30           how many days ahead `./day due` and `./day status` look
"""
import configparser
import datetime
import re
from dataclasses import dataclass
from pathlib import Path

from registry_tools.errors import FileFault, must_be_known, shown

SECTION = "due"
SURRENDER, EMISSIONS, LEAD = NAMES = ("surrender", "emissions", "lead")
MONTH_DAY = re.compile("(0[1-9]|1[0-2])-(0[1-9]|[12][0-9]|3[01])")
# (a year that has every day that another one has)
LEAP_YEAR = 2024
DEFAULT_LEAD, MOST_LEAD = 30, 3_660


@dataclass(frozen=True)
class DueDates:
    """The deadlines, as month and day of the year behind the one that they are about; None, if there is none."""

    surrender: tuple[int, int] | None = None
    emissions: tuple[int, int] | None = None
    lead: int = DEFAULT_LEAD

    def surrender_of(self, year: int) -> datetime.date | None:
        """By when allowances for a year have to be surrendered."""
        return in_year_behind(year, self.surrender)

    def emissions_of(self, year: int) -> datetime.date | None:
        """By when the emissions of a year have to be entered."""
        return in_year_behind(year, self.emissions)


def in_year_behind(year: int, month_day: tuple[int, int] | None) -> datetime.date | None:
    """A month and day of the year behind this one; of 29 February in a year without it, the day before."""
    if month_day is None:
        return None
    month, day = month_day
    try:
        return datetime.date(year + 1, month, day)
    except ValueError:
        return datetime.date(year + 1, month, day - 1)


def read(path: Path, parser: configparser.ConfigParser) -> DueDates:
    """The deadlines that a settings file says; without the section, none. Raises FileFault."""
    if SECTION not in parser:
        return DueDates()
    section = parser[SECTION]
    must_be_known(path, "name", section, NAMES)
    surrender, emissions = (month_day_of(path, section, name) for name in (SURRENDER, EMISSIONS))
    return DueDates(surrender, emissions, lead_of(path, section))


def month_day_of(path: Path, section: configparser.SectionProxy, name: str) -> tuple[int, int] | None:
    """A month and a day as the settings spell them."""
    word = section.get(name)
    if word is None:
        return None
    found = MONTH_DAY.fullmatch(word)
    try:
        if found is None:
            raise ValueError
        date = datetime.date(LEAP_YEAR, int(found[1]), int(found[2]))
    except ValueError:
        raise FileFault(path, 0, name, shown(word), "a month and a day, as 09-30") from None
    return date.month, date.day


def lead_of(path: Path, section: configparser.SectionProxy) -> int:
    """How many days ahead the settings look."""
    word = section.get(LEAD, str(DEFAULT_LEAD))
    if not re.fullmatch("[0-9]{1,4}", word) or int(word) > MOST_LEAD:
        raise FileFault(path, 0, LEAD, shown(word), f"a number of days, 0 to {MOST_LEAD}")
    return int(word)
