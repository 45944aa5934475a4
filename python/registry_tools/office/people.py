"""Who works on a folder: the login by which the system knows them, the people whom office.ini names, and what each may
do.

  [people]
  anna = Anna Berg: hand in, change     login = NAME: what this person may do, or `all` of it
  desk = The desk: proxy                a desk behind a proxy, which says for whom it works
  eva = Eva Nord: holder 5501, user 5102    somebody outside, who sees the accounts of this holder alone at the desk
                                            (holders/), and asks and approves there as this user and no other
  [four eyes]
  commands = change, close              what counts only if another login approves it (office/approvals.py)

Without [people] every login may do everything, as far as the system lets it write the folder. A login is that of the
process: no word and no variable of a command says it. Only `proxy` may speak for others: their login is then written as
DESK:LOGIN."""
import configparser
import os
import pwd
import re
from collections.abc import Collection
from dataclasses import dataclass, field
from pathlib import Path

from registry_tools import voice
from registry_tools.errors import FileFault, must_be_known, RightsFault, shown, visible, WordsFault
from registry_tools.layout import SETTINGS
from registry_tools.store.texts import sum_of

SECTION, FOUR_EYES, COMMANDS = "people", "four eyes", "commands"
HAND_IN, CHANGE, CLOSE, RELEASE, LOOK, PROXY = RIGHTS = ("hand in", "change", "close", "release", "look", "proxy")
ALL = "all"
OF_ALL = frozenset({HAND_IN, CHANGE, CLOSE, RELEASE, LOOK})
# The command that asks for another office.ini.
REWRITE = "settings"
# To whom a login is tied; and what it alone may do, and nothing else.
HOLDER, USER, OWN = "holder", "user", "own"
TIED = re.compile(f"({HOLDER}|{USER}) ([1-9][0-9]{{0,8}})")
# The right that each command needs; another one that changes a folder needs that its login is named.
RIGHT_OF = {
    "hand-in": HAND_IN, "change": CHANGE, "label": CHANGE, "init": CHANGE, "close": CLOSE,
    "undo": CLOSE, "correct": CLOSE, "release": RELEASE, OWN: HOLDER, REWRITE: ALL,
}  # fmt: skip
# Who files or undoes a day passes on what is left there.
PASSES = "close"
# The commands that may be asked to wait for another login.
MAY_WAIT = ("hand-in", "change", "close", "undo", "release", "correct")
# Between the login of a desk and the login for which it speaks: no login has it.
SPEAKS_FOR = ":"


@dataclass(frozen=True)
class Person:
    """Somebody whom office.ini names."""

    login: str
    name: str
    rights: frozenset[str]

    def __str__(self) -> str:
        return f"{self.name} ({self.login})"

    def may(self, command: str) -> bool:
        """Whether this person may give a command."""
        if self.tied_to(HOLDER):
            return command == OWN
        if command == REWRITE:
            return self.rights >= OF_ALL
        return command not in RIGHT_OF or RIGHT_OF[command] in self.rights

    def tied_to(self, kind: str) -> int | None:
        """The holder, or the user, to which this person is tied, if they are."""
        found = (TIED.fullmatch(right) for right in self.rights)
        return next((int(tie[2]) for tie in found if tie and tie[1] == kind), None)


@dataclass(frozen=True)
class People:
    """The people whom office.ini names, by login, and the commands that wait for a second one."""

    named: dict[str, Person] = field(default_factory=dict)
    four_eyes: tuple[str, ...] = ()

    def sum(self) -> str:
        """The sum of all that is said here; nothing, if nothing is."""
        rows = [f"{each.login}={each.name}:{','.join(sorted(each.rights))}" for each in self.named.values()]
        text = "\n".join([*sorted(rows), *sorted(self.four_eyes)])
        return sum_of(text.encode("utf-8", "surrogateescape")) if text else ""

    def may(self, login: str, command: str) -> bool:
        """Whether a login may give a command."""
        person = self.named.get(person_of(login))
        return not self.named or (person is not None and person.may(command))

    def may_speak(self, login: str) -> bool:
        """Whether a login of the system may speak for others."""
        person = self.named.get(login)
        return person is not None and PROXY in person.rights

    def may_have(self, login: str, command: str) -> bool:
        """Whether something that came by this command counts: if who did it may give it, and who passed it on may file
        days; or if they may speak for others, who may."""
        *passed, person = login.split(SPEAKS_FOR)
        asked = [(person, command), *((hand, PASSES) for hand in passed)]
        return all(self.may(hand, each) or self.may_speak(hand) for hand, each in asked)

    def hands_of(self, login: str) -> set[str]:
        """Whose hands something has come through: who did it, and who passed it on and may not speak for others."""
        *passed, person = login.split(SPEAKS_FOR)
        return {person, *(hand for hand in passed if not self.may_speak(hand))}

    def others_for(self, commands: Collection[str], login: str) -> list[str]:
        """Who may approve what this login asks for; nothing, if office.ini names nobody."""
        hands = self.hands_of(login)
        others = (other for other in self.named.values() if other.login not in hands)
        return [str(other) for other in others if all(map(other.may, commands))]

    def with_all(self) -> list[str]:
        """Who may do all."""
        return [str(person) for person in self.named.values() if person.may(REWRITE)]

    def without_second(self) -> list[str]:
        """The commands that wait for another login, although office.ini names fewer than two people who may give
        them."""
        may = {command: sum(person.may(command) for person in self.named.values()) for command in self.four_eyes}
        return [command for command, count in may.items() if self.named and count < 2]

    def in_words(self, login: str) -> str:
        """A login with the name of its person, if office.ini names one."""
        person = self.named.get(person_of(login))
        desk = login.rpartition(SPEAKS_FOR)[0]
        return f"{person or person_of(login)}{f', as {desk} says' if desk else ''}"


def person_of(login: str) -> str:
    """For whom a login speaks: for itself, or for the one that a desk names."""
    return login.rpartition(SPEAKS_FOR)[2]


def owner_of(login: str) -> str:
    """The login that the system knows."""
    return login.partition(SPEAKS_FOR)[0]


def login_of(uid: int) -> str:
    """The login of a user of the system, or the number of one without a login."""
    try:
        return pwd.getpwuid(uid).pw_name
    except KeyError:
        return f"user {uid}"


def system_login() -> str:
    """The login of whoever started this process: of its real user, whatever rights it has beside."""
    return login_of(os.getuid())


def login_for(people: People, whom: str | None) -> str:
    """The login that gives a command: that of the system, or the one for which it may speak, or whom one says that may
    speak, too."""
    login = system_login()
    if whom is None:
        return login
    *passed, person = whom.split(SPEAKS_FOR)
    for speaker in (login, *passed):
        if not people.may_speak(speaker):
            why = f"{speaker} may not speak for others: {SETTINGS} gives it no right {PROXY}"
            raise WordsFault(f"{voice.option('for', whom)}: {why}")
    if not person.strip() or not whom.isprintable():
        raise WordsFault(f"{voice.option('for', shown(whom))}: that is no login")
    return f"{login}{SPEAKS_FOR}{whom}"


def one_line(name: str, word: str) -> str:
    """A word that is kept in a line of what was done. Raises WordsFault if it can't be."""
    if not word.strip() or any(not letter.isprintable() for letter in word):
        raise WordsFault(f"{voice.option(name)} has to be some words in one line")
    return word


def must_be_allowed(people: People, login: str, command: str) -> None:
    """Ends the command if office.ini names people, and this login is nobody's who may give it."""
    if people.may(login, command):
        return
    person = people.named.get(person_of(login))
    if person is None:
        why = f"{person_of(login)} is no login that {SETTINGS} names under [{SECTION}]"
        raise RightsFault(why, ": nothing was done")
    right, others = RIGHT_OF.get(command, command), people.others_for((command,), login)
    may = ", ".join(right for right in (*RIGHTS, *sorted(person.rights - {*RIGHTS})) if right in person.rights)
    who = f"{' or '.join(others)} may" if others else "nobody may"
    raise RightsFault(f"{person} may {may}, and not {right}: {SETTINGS} says so; {who}")


def read(path: Path, text: str) -> People:
    """The people that a settings file names. Raises FileFault."""
    parser = configparser.ConfigParser(interpolation=None)
    # (a login may have capital letters)
    setattr(parser, "optionxform", str)
    parser.read_string(text, str(path))
    people = parser[SECTION].items() if SECTION in parser else ()
    return People({login: person_named(path, login, words) for login, words in people}, commands_in(path, parser))


def person_named(path: Path, login: str, words: str) -> Person:
    """A person, by a line of the settings."""
    name, colon, rights = (part.strip() for part in words.rpartition(":"))
    given = frozenset(part.strip() for part in rights.split(","))
    # (a line that is indented goes on with the one above it: the rights of one would be those of another)
    is_line = all(letter.isprintable() or "\ud800" <= letter <= "\udfff" for letter in login + name)
    is_tied = [part[1] for part in map(TIED.fullmatch, sorted(given)) if part] in ([HOLDER], [HOLDER, USER])
    is_known = len(given) <= 2 and all(map(TIED.fullmatch, given)) if is_tied else given <= {*RIGHTS, ALL}
    if not colon or not name or not is_known or SPEAKS_FOR in login or not is_line:
        some = f"some of {', '.join(RIGHTS)}, or {ALL}, or {HOLDER} NUMBER, {USER} NUMBER"
        expected = f"NAME: and behind it {some}, in a line that begins with the login"
        raise FileFault(path, 0, "".join(map(visible, login)), shown(words), expected)
    return Person(login, name, (given - {ALL}) | OF_ALL if ALL in given else given)


def commands_in(path: Path, parser: configparser.ConfigParser) -> tuple[str, ...]:
    """The commands that wait for a second login."""
    if FOUR_EYES not in parser:
        return ()
    section = parser[FOUR_EYES]
    words = tuple(word.strip() for word in section.get(COMMANDS, "").split(","))
    expected = f"{COMMANDS} = some of {', '.join(MAY_WAIT)}"
    must_be_known(path, f"[{FOUR_EYES}]", section, (COMMANDS,), expected)
    if not {*words} <= {*MAY_WAIT}:
        raise FileFault(path, 0, f"[{FOUR_EYES}]", shown(section.get(COMMANDS, "")), expected)
    return words
