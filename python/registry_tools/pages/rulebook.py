"""What the rules say, for the pages: the checks, the acts, the kinds of account and the statuses, by the tables; and
the pages of the rules and of the texts, which `tools/tables` makes of docs/RULES.md and docs/FORMATS.md."""
import functools
import re
from importlib import resources

from registry_tools import tables
from registry_tools.pages.html import Frame, Markup, link, markup, tag
from registry_tools.texts.checks import Check

RULES, FORMATS = "rules.html", "formats.html"
# The acts by their words: what each is called, and where the rules tell of it.
ACTS = {act.word: (act.name, act.anchor) for act in tables.ACTS}
# What a sentence of the tables may have.
MARKED = re.compile(r"`(?P<code>[^`]+)`|\[(?P<words>[^]]+)\]\((?P<target>[^)]*)\)")
# Which document becomes which page.
PAGES = {"": RULES, "RULES.md": RULES, "FORMATS.md": FORMATS}


def anchor_of(code: object) -> str:
    """Where the row of a check is found in the rules."""
    return f"check-{code}"


@functools.lru_cache(maxsize=None)
def words_of(sentence: str, root: str) -> Markup:
    """A sentence of the tables, on a page from which `root` leads to the folder."""
    parts, behind = [], 0
    # (on another page nothing stands below)
    elsewhere = sentence.replace("[below]", "[the rules]")
    for match in MARKED.finditer(elsewhere):
        parts += [markup(elsewhere[behind : match.start()]), marked(match, root)]
        behind = match.end()
    return Markup("".join([*parts, markup(elsewhere[behind:])]))


def marked(match: re.Match[str], root: str) -> Markup:
    """A part of a sentence: code, or a link to a page of a document."""
    if match["code"]:
        return tag("code", match["code"])
    document, _, anchor = match["target"].partition("#")
    return link(f"{root}{PAGES[document]}#{anchor}", match["words"])


@functools.lru_cache(maxsize=None)
def link_to_check(code: int, name: str, root: str) -> Markup:
    """A link to a check in the rules."""
    return link(f"{root}{RULES}#{anchor_of(code)}", name)


class Rulebook:
    """The words of the tables, on pages from which `root` leads to the folder, if they do not say so themselves."""

    def __init__(self, root: str = "") -> None:
        self.root = root
        numbered = enumerate(tables.CHECKS, 1)
        self.checks = {code: Check(code, check.name, check.meaning, check.advice) for code, check in numbered}
        self.kinds, self.statuses = tables.KINDS, tables.STATUSES

    def words(self, sentence: str, root: str = "") -> str:
        """A sentence of the tables, on a page from which `root` leads to the folder."""
        return words_of(sentence, root or self.root)

    def check_link(self, code: int, root: str = "") -> str:
        """The name of a check, which leads to its row in the rules."""
        return link_to_check(code, self.checks[code].name, root or self.root)

    def act_link(self, act: str, root: str = "") -> Markup:
        """A link to an act in the rules."""
        name, anchor = ACTS[act]
        return link(f"{root or self.root}{RULES}#{anchor}", name)


def document_parts(page: str) -> tuple[str, Markup]:
    """The heading of the page of the rules, or of the texts, and what stands below it."""
    title, _, body = (resources.files(__package__) / page).read_text(encoding="utf-8").partition("\n")
    return title, Markup(body)


def document_page(frame: Frame, page: str) -> str:
    """The page of the rules, or of the texts."""
    title, body = document_parts(page)
    return frame.page(title, body, current=page)
