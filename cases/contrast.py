"""How well the colours of a style sheet can be told apart, computed of the sheet itself, as WCAG 2 has it: a text from
what is behind it by 4.5 at least, and a line or a shape that says something by 3."""
import re
from collections.abc import Iterator
from dataclasses import dataclass

TEXT, SHAPE = 4.5, 3.0
INK, PAPER = "--ink", "--paper"
COLOUR = re.compile("#([0-9a-f]{6})", re.ASCII)
VARIABLE = re.compile(r"var\((--[a-z]+)\)")
# What only parts rows or bands from each other, and says nothing that a word does not say.
QUIET = {"--rule", "--faint"}
SCHEMES = {"light": "", "dark": "(prefers-color-scheme: dark)", "paper": "print"}


@dataclass
class Rule:
    """A rule of a sheet: in which media it stands, for what, and what it says."""

    media: str
    selector: str
    said: dict[str, str]


def rules_of(sheet: str, media: str = "") -> Iterator[Rule]:
    """The rules of a sheet, with those in its media."""
    place = 0
    while (begin := sheet.find("{", place)) >= 0:
        head, depth, end = sheet[place:begin].strip().rpartition(";")[2].strip(), 1, begin + 1
        while depth:
            depth += {"{": 1, "}": -1}.get(sheet[end], 0)
            end += 1
        body, place = sheet[begin + 1 : end - 1], end
        if head.startswith("@media"):
            yield from rules_of(body, f"{media} {head.removeprefix('@media')}".strip())
        else:
            pairs = [line.partition(":") for line in body.split(";") if ":" in line]
            yield Rule(media, head, {name.strip(): value.strip() for name, _, value in pairs})


def colours_of(rules: list[Rule], scheme: str) -> dict[str, str]:
    """What each name of a colour stands for in a scheme."""
    asked = SCHEMES[scheme]
    roots = [rule for rule in rules if rule.selector == ":root" and (not rule.media or asked and asked in rule.media)]
    return {name: own for rule in roots for name, own in rule.said.items() if COLOUR.fullmatch(own)}


def brightness(colour: str) -> float:
    parts = [int(colour[place : place + 2], 16) / 255 for place in (1, 3, 5)]
    own: list[float] = [part / 12.92 if part <= 0.04045 else ((part + 0.055) / 1.055) ** 2.4 for part in parts]
    return 0.2126 * own[0] + 0.7152 * own[1] + 0.0722 * own[2]


def contrast(one: str, other: str) -> float:
    dark, light = sorted((brightness(one), brightness(other)))
    return (light + 0.05) / (dark + 0.05)


def pairs_of(rule: Rule) -> Iterator[tuple[str, str, float]]:
    """The names of two colours that a rule sets against each other, and by how much they have to differ."""
    ink, paper = (name_in(rule.said.get(own, "")) for own in ("color", "background"))
    if ink or paper:
        yield ink or INK, paper or PAPER, TEXT
    fill = name_in(rule.said.get("fill", ""))
    if fill in QUIET:
        yield INK, fill, TEXT
    elif fill:
        yield fill, PAPER, TEXT if "text" in rule.selector else SHAPE
    for name in ("border", "outline", "stroke", "border-bottom", "border-top"):
        line = name_in(rule.said.get(name, ""))
        if line and line not in QUIET:
            yield line, PAPER, SHAPE


def name_in(value: str) -> str:
    found = VARIABLE.search(value)
    return found[1] if found else ""


def faults_of(sheet: str) -> list[str]:
    """The colours of a sheet that are too near to each other, in light, in dark and on paper; and those without a name,
    which no scheme changes."""
    rules = [*rules_of(sheet)]
    found = [
        f"{rule.selector}: {value} is no name of a colour"
        for rule in rules for name, value in rule.said.items()
        if not name.startswith("--") and COLOUR.search(value)
    ]  # fmt: skip
    for scheme in SCHEMES:
        colours = colours_of(rules, scheme)
        for rule in rules:
            for one, other, least in pairs_of(rule):
                if one != other and contrast(colours[one], colours[other]) < least:
                    told = contrast(colours[one], colours[other])
                    found.append(f"{scheme}: {rule.selector}: {one} on {other}: {told:.2f}, below {least}")
    return found
