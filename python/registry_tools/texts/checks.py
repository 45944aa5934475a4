"""What each check means and what to do about it, in plain words, of the table of checks."""
import functools
import re
from collections.abc import Callable, Iterable
from dataclasses import dataclass, replace

from registry_tools import tables, voice

# A command, as a table marks it.
MARKED = re.compile(r"`\./day ([a-z-]+)")
LINK = re.compile(r"\[([^]]+)\]\(([^)]*)\)")
# What forms and letters call the accounts of an instruction.
IN_FORMS = {
    "FROM": "the account that gives", "TO": "the account that receives", "ACCOUNT": "the account",
    "OTHER": "the other account",
}  # fmt: skip
NAMED = re.compile(r"\b(" + "|".join(IN_FORMS) + r")\b")
# What would not read well by these words.
MEANING = {
    "UnknownAccount": "There is no account with one of the numbers in the instruction.",
    "HoldingTooLarge": "An account that receives would hold more than 10^15 allowances of the kind.",
}


@dataclass(frozen=True)
class Check:
    """A check: its code and its name, when it fails, and what to do then."""

    code: int
    name: str
    meaning: str
    advice: str


def without_marks(text: str, place: Callable[[str], str] = "docs/RULES.md{}".format) -> str:
    """A sentence of a table without its marks. A link that only says `below` names the place, a section of the
    rules."""
    words = LINK.sub(lambda link: place(link[2]) if link[1] == "below" else link[1], text)
    return MARKED.sub(lambda marked: voice.TERMINAL.command(marked[1]), words).replace("`", "")


def form_words(text: str) -> str:
    """A sentence of the table as forms and letters say it."""
    words = NAMED.sub(lambda found: IN_FORMS[found[1]], text)
    return re.sub(r"(^|[.] )([a-z])", lambda found: found[1] + found[2].upper(), words)


@functools.lru_cache(maxsize=None)
def checks() -> dict[str, Check]:
    """All checks by their names, in the order in which they are asked."""
    return {
        check.name: Check(code, check.name, without_marks(check.meaning), without_marks(check.advice))
        for code, check in enumerate(tables.CHECKS, 1)
    }


@functools.lru_cache(maxsize=None)
def form_checks() -> dict[str, Check]:
    """The same, as forms say it."""
    return {
        name: Check(check.code, name, MEANING.get(name) or form_words(check.meaning), form_words(check.advice))
        for name, check in checks().items()
    }


@functools.lru_cache(maxsize=None)
def desk_checks() -> dict[str, Check]:
    """The same, as the desk says it, which has a page of the rules."""
    advice = {check.name: form_words(without_marks(check.advice, in_rules)) for check in tables.CHECKS}
    return {check.name: replace(check, advice=advice[check.name]) for check in form_checks().values()}


def in_rules(section: str) -> str:
    """A section of the rules, by its title."""
    return f"the rules, under {section.removeprefix('#').replace('-', ' ')}"


def checks_told() -> dict[str, Check]:
    """The same as they are told: to who gives commands, or at the desk."""
    return desk_checks() if voice.is_desk() else checks()


def advice_for(name: str) -> str:
    """What to do after a refusal by the check of this name."""
    return checks()[name].advice


def meanings(names: Iterable[str]) -> dict[str, str]:
    """Of each of these checks, what it means and what to do, each once."""
    by_name = checks_told()
    return {name: f"{by_name[name].meaning} {by_name[name].advice}" for name in dict.fromkeys(names)}
