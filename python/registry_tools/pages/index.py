"""An index of accounts by ranges of their numbers: so an account is found without a script.

The page of the day names the ranges of the whole list. If that goes over several pages, each of them names its own
ranges.
"""
from collections.abc import Sequence

from registry_tools.pages.html import Markup, paragraph, tag
from registry_tools.pages.settled import Settled, page_name, rows_of_parts

# How many accounts a range has.
RANGE = 50
WORDS = "Find an account by its number:"


def anchor(number: int) -> str:
    """The anchor of an account."""
    return f"account-{number}"


def ranges(numbers: Sequence[int], size: int) -> list[tuple[int, int]]:
    """The first and the last number of each so many."""
    return [(part[0], part[-1]) for part in rows_of_parts(numbers, size)]


def words_of(first: int, last: int) -> str:
    """A span of numbers in words."""
    return str(first) if first == last else f"{first} to {last}"


def nav(targets: list[tuple[str, str]]) -> Markup:
    """Links with their words."""
    links = [tag("li", tag("a", words, href=target)) for target, words in targets]
    return tag("nav", paragraph(WORDS), tag("ol", *links), aria_label=WORDS.rstrip(":"), class_="parts")


def of_all(settled: Settled, file: str) -> Markup:
    """The index on the page of the day: the accounts, if they are few; or else the pages of the list, or if it has only
    one, its ranges."""
    numbers = settled.report.numbers
    if len(numbers) <= RANGE and len(settled.shown) == len(numbers):
        return nav([(f"accounts/{number}.html", str(number)) for number in numbers])
    parts = [*rows_of_parts(numbers)]
    if len(parts) == 1:
        return of_page(file, numbers)
    return nav([(page_name(file, place), words_of(part[0], part[-1])) for place, part in enumerate(parts, 1)])


def of_page(file: str, numbers: Sequence[int]) -> Markup:
    """The ranges of one page."""
    return nav([(f"{file}#{anchor(first)}", words_of(first, last)) for first, last in ranges(numbers, RANGE)])


def cell(settled: Settled, number: int, is_start: bool) -> Markup | str:
    """The number of an account in the list. Where a range begins, links find it."""
    shown = settled.account_link(number)
    return tag("span", shown, id=anchor(number)) if is_start else shown
