"""Patterns of rows, made of the grammar of `faults`. A book may have a million rows: one look at a row by a pattern is
quicker than to read each of its fields. What a pattern does not match is read again, field by field.
"""
import calendar
import functools
import re
from collections.abc import Iterable

from registry_tools import tables
from registry_tools.second import faults

NO_NUMBER, FEW = "(?!)", 10
YEARS = range(tables.FIRST_YEAR, tables.LAST_YEAR + 1)


def of_numbers(numbers: range) -> str:
    """A pattern of numbers of a range, without leading zeros: of all years and of all that are few, and else of those
    that have fewer digits than the first one above the range. The others are read field by field."""
    if numbers[-1] - numbers[0] < FEW:
        return "|".join(map(str, numbers))
    if numbers == YEARS:
        return of_years(numbers)
    most = max(abs(numbers[0]), abs(numbers[-1]))
    sign = "" if numbers[0] >= 0 else "-?" if numbers[-1] > 0 else "-"
    return f"{sign}[1-9][0-9]{{0,{len(str(most + 1)) - 2}}}" + ("|0" if 0 in numbers else "")


def of_years(years: Iterable[int]) -> str:
    """The pattern of these years."""
    centuries: dict[int, list[int]] = {}
    for year in years:
        centuries.setdefault(year // 100, []).append(year % 100)
    return "|".join(f"{century}(?:{of_two_digits(digits)})" for century, digits in centuries.items())


def of_two_digits(numbers: Iterable[int]) -> str:
    """The pattern of these numbers below 100, which are written with two digits each."""
    units: dict[int, str] = {}
    for number in numbers:
        units[number // 10] = units.get(number // 10, "") + str(number % 10)
    return "|".join(f"{tens}[{digits}]" for tens, digits in units.items())


@functools.lru_cache(maxsize=None)
def dates() -> str:
    """The pattern of all dates that exist. The last year, which is no leap year, tells how many days each month has."""
    months: dict[int, list[int]] = {}
    for month in range(1, 13):
        months.setdefault(calendar.monthrange(tables.LAST_YEAR, month)[1], []).append(month)
    days = "|".join(
        f"(?:{of_two_digits(numbers)})-(?:{of_two_digits(range(1, most + 1))})" for most, numbers in months.items()
    )
    leap_years = of_years(filter(calendar.isleap, YEARS))
    return f"(?:{of_years(YEARS)})-(?:{days})|(?:{leap_years})-02-29"


def of_field(field: faults.Field[faults.Value]) -> str:
    """The pattern of a field of numbers, words or a date."""
    if field.words:
        return "|".join(map(re.escape, field.words))
    if field.numbers:
        return "|".join(of_numbers(numbers) if numbers else NO_NUMBER for numbers in field.numbers)
    return dates()


def of_row(tag: str, forms: list[list[faults.Field[faults.Value]]]) -> str:
    """The pattern of a row, whose one group is its first field. If it has two forms, the second has more fields behind
    those of the first."""
    (first, *rest), *longer = forms
    patterns = [f"{tag},({of_field(first)})", *(f"(?:{of_field(field)})" for field in rest)]
    more = [f"(?:,(?:{of_field(field)}))?" for form in longer for field in form[len(forms[0]) :]]
    return ",".join(patterns) + "".join(more)


ACCOUNT_ROW = re.compile(of_row("account", [faults.FIELDS["account"]]))


@functools.lru_cache(maxsize=None)
def list_row(periods: int) -> re.Pattern[str]:
    """The pattern of a row behind an `account` row, of a day with so many periods. Its groups are the keys of the
    lists, in the order in which the lists stand."""
    reading = faults.Reading(version=2, last_years=[*range(periods)])
    return re.compile("|".join(of_row(tag, reading.forms(tag)) for tag in faults.BLOCK[1:]))


RETIRED_PLACE = faults.BLOCK.index("retired")


def has_no_fault(rows: list[str], pattern: re.Pattern[str], next_record: int) -> bool:
    """Whether these rows of the lists of an account are without a fault. False says only that they must be looked at
    again."""
    last_place = last_key = together = count = 0
    for row in rows:
        match = pattern.fullmatch(row)
        if match is None:
            return False
        place = match.lastindex or 0
        key = int(match[place])
        if place == last_place:
            if key <= last_key:
                return False
            count += 1
        elif place < last_place:
            return False
        else:
            last_place, count = place, 1
        last_key = key
        if place == RETIRED_PLACE:
            fields = row.split(",")
            together += int(fields[4])
            if fields[2] == "deletion" and len(fields) > 7:
                return False
            if key >= next_record or together > tables.MOST_RETIRED:
                return False
        if count > faults.MOST["user"] and count > faults.MOST.get(faults.BLOCK[place], count):
            return False
    return True
