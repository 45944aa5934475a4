"""Months that three people live in a folder of days, with four eyes. Each command is given by a drawn login, which may
give it or not, in a drawn order; what has to become of it is known beforehand: whether it is done, waits or is refused,
who approved it, and what each day and report is by paths. Now and then office.ini lets others do so.

For cases/run-office."""
from __future__ import annotations

import datetime
from collections.abc import Callable, Iterator
from dataclasses import dataclass, field, replace
from pathlib import Path
from typing import NamedTuple

from harness import Said
from interrupted import Interrupted
from months import Month
from offices import content_of, events_of, text_of
from second_login import with_lines

from registry_tools.cli.words import user_name
from registry_tools.office import approvals, folder, intake, people
from registry_tools.second import rules
from registry_tools.texts.report import read_report

DAYS = 10
# Whom an office names, and what each may: each command is for two of them at least.
OFFICES: tuple[dict[str, str], ...] = (
    {"anna": "hand in, change", "ben": "hand in, change, close, release", "carla": "close, release"},
    {"anna": "hand in, change, close", "ben": "hand in, release", "carla": "change, close, release"},
    {"anna": "all", "ben": "all", "carla": "all"},
)
NAMES = {"anna": "Anna Berg", "ben": "Ben Dahl", "carla": "Carla Enge"}
# A login that no office names.
STRANGER = "zoe"
# The right that each command needs, and what a file that was handed in waits as.
RIGHTS = {"hand-in": "hand in", "change": "change", "close": "close", "undo": "close", "release": "release"}
WAITS_AS = {"do": "hand-in", "work": "hand-in", "changes": "change", "edits": "change"}
USUAL = ("change", "close", "release")
# So often one of the commands of a day is another one than the next one needed; and so often somebody gives it who may.
STRAY, FITTING = 0.2, 0.85
# What is told of an event.
TOLD = ("what", "coalesce(date, '0001-01-01')", "who", "login", "approved", "why")
# Within so many commands a day comes to its end.
MOST_COMMANDS = 400
LOOKS = ("status", "try", "approve", "changes", "audit", "due")
REASONS = ("a slip", "another one")
# What a command is asked for as: its name, its day, the state of the folder, and what it would give.
Key = tuple[object, ...]


class Fault(Exception):
    """What is wrong with a month."""


class Taken(NamedTuple):
    """What was taken back, as its row tells it."""

    who: str
    place: int
    why: str
    login: str


@dataclass
class Handed:
    """A file that was handed in, as its row tells it, with its items."""

    who: str
    kind: str
    start: int
    name: str
    login: str
    # The rows of each item; of a change, its words for each.
    items: list[list[str]]
    account: int = 0
    earliest: datetime.date | None = None
    gone: set[int] = field(default_factory=set)
    # Who approved it as it is now: by login, the name that was given.
    approved: dict[str, str] = field(default_factory=dict)

    def places(self) -> range:
        return range(self.start, self.start + len(self.items))

    def left(self) -> list[list[str]]:
        """The items that were not taken back."""
        return [item for place, item in zip(self.places(), self.items) if place not in self.gone]

    def told(self) -> list[str]:
        """What its row says, without time, file and sum."""
        earliest = str(self.earliest or "")
        return [self.who, self.kind, str(self.start), str(len(self.items)), earliest, self.name, self.login]


@dataclass
class Filed:
    """A settled day: its files by paths, and what it was made of."""

    date: datetime.date
    text: bytes
    waiting: bytes
    parts: list[Handed]


def told_of(there: intake.HandedIn) -> dict[str, list[list[str]]]:
    """What was handed in, without times and sums."""
    parts = [
        [part.who, part.kind, str(part.start), str(part.count), str(part.earliest or ""), part.name, part.login]
        for part in there.parts
    ]
    taken = [[own.who, str(own.place), own.why, own.login] for own in there.taken]
    approved = [[own.who, str(own.place), own.login] for own in there.approved]
    return {"handed": parts, "taken": taken, "approved": approved}


class MonthOfThree(Month):
    """A month of three people. The trial keeps what has to be in the folder beside it, and compares both behind each
    command."""

    def __init__(self, work: Path, seed: int, runs: Interrupted) -> None:
        super().__init__(work, seed, runs)
        self.name = f"month {seed} of three people"
        chance = self.chance
        self.draw_people()
        self.system = people.system_login()
        self.dates = [self.heading.day]
        self.filed: list[Filed] = []
        self.parts: list[Handed] = []
        self.taken: list[Taken] = []
        # The lines of the journal: event, date, who, login, who approved it, and why.
        self.events: list[list[object]] = []
        self.released = datetime.date.min
        # What was asked for, by whom; and who approved it. It counts as long as nothing else is handed in, taken back,
        # filed or undone: `version` counts all of this.
        self.asked: dict[tuple[str, datetime.date], tuple[str, Key]] = {}
        self.approvals: dict[Key, list[str]] = {}
        self.version = 0
        # What was drawn last, so that the next one is another.
        self.last_file, self.last_holder, self.last_account = 0, 7000, 500

    # Who gives a command, and what has to become of it.

    def draw_people(self) -> None:
        """What each of the three may, and what waits for a second one."""
        self.rights = self.chance.choice(OFFICES)
        drawn = tuple(command for command in RIGHTS if self.chance.random() < 0.6)
        self.four_eyes: tuple[str, ...] = drawn if drawn and self.chance.random() < 0.5 else USUAL

    def name_people(self) -> None:
        """Has office.ini name them, in place of those whom it named before."""
        path = self.office / "office.ini"
        path.write_text(path.read_text().partition("[people]")[0])
        named = {login: f"{NAMES[login]}: {rights}" for login, rights in self.rights.items()}
        with_lines(self.office, {**named, self.system: "The desk: proxy"}, ", ".join(self.four_eyes))

    def rename_people(self) -> None:
        """From now on others may give some commands, and others wait: what was approved counts if it still may be."""
        self.draw_people()
        self.name_people()

    def may(self, login: str | None, command: str) -> bool:
        rights = self.rights.get(login or "", "")
        return rights == "all" or RIGHTS[command] in rights.split(", ")

    def who_may(self, command: str) -> list[str]:
        return [login for login in self.rights if self.may(login, command)]

    def somebody(self, command: str, other_than: str | None = None) -> str | None:
        """Who gives a command: mostly somebody who may."""
        if self.chance.random() < FITTING:
            return self.chance.choice([own for own in self.who_may(command) if own != other_than])
        return self.chance.choice([*self.rights, *self.rights, STRANGER, None])

    def login_of(self, login: str | None) -> str:
        """A login as the rows name it: that of this process speaks for it."""
        return f"{self.system}:{login}" if login else self.system

    def give(self, login: str | None, wanted: tuple[int, ...], *words: object) -> str:
        """Gives a command for a login, and answers the name that was given. What is refused has to change nothing."""
        name = NAMES.get(login or "", STRANGER) if self.chance.random() < 0.5 else ""
        more = [*(["--for", login] if login else []), *(["--who", name] if name else [])]
        begun = self.stands()
        wrong = self.run(*words, *more, wanted=wanted)
        if wrong:
            raise Fault(f"wanted {wanted}: {wrong}")
        if wanted == (2,) and self.stands() != begun:
            raise Fault(f"{words} {more}: refused, and changes something")
        return name or user_name()

    def stands(self) -> object:
        """All that the folder says, with times and names."""
        return content_of(self.office)

    def lets_through(self, command: str, login: str, key: Key) -> bool:
        """Whether a command is done now: if it has to, because another login approved exactly this."""
        return command not in self.four_eyes or bool(self.seconds(command, login, key))

    def seconds(self, command: str, login: str, key: Key) -> set[str]:
        """Who approved what this login does, and still may."""
        return {own for own in self.approvals.get(key, []) if own != login and self.may(own, command)}

    def do_dated(self, command: str, date: datetime.date, why: str, result: object, is_right: bool) -> bool:
        """Gives a command of a day: it is refused, waits, or is done; then its line has to be there."""
        login = self.somebody(command)
        words: list[object] = ["--date", date, "--second"] if command == "close" else [date, "--why", why]
        words += [] if command == "undo" else ["--yes"]
        if not is_right or login is None or not self.may(login, command):
            self.give(login, (2,), command, *words)
            return False
        key: Key = command, date, why, self.version, result
        if not self.lets_through(command, login, key):
            self.give(login, (1,), command, *words)
            self.asked[command, date] = login, key
            return False
        who = self.give(login, (0,), command, *words)
        event = {"close": "filed", "undo": "undone", "release": "released"}[command]
        by = {*map(self.login_of, self.seconds(command, login, key))}
        self.events.append([event, date, who, self.login_of(login), by if command in self.four_eyes else {""}, why])
        self.version += 1
        return True

    # What is in next/.

    def waits(self, part: Handed) -> bool:
        """Whether a file does not count before another login approves it."""
        command = WAITS_AS.get(part.kind, "")
        return command in self.four_eyes and self.second_of(part) is None and bool(part.left())

    def second_of(self, part: Handed) -> str | None:
        """Who approved a file that has to be, and still may: the first one."""
        command = WAITS_AS.get(part.kind, "")
        may = [own for own in part.approved if self.may(own.rpartition(":")[2], command)]
        return may[0] if may and command in self.four_eyes else None

    def is_left(self, part: Handed, date: datetime.date) -> bool:
        return self.waits(part) or (part.earliest is not None and part.earliest > date)

    def counting(self, kind: str, date: datetime.date) -> Iterator[Handed]:
        """The files that come into the text of a day."""
        return (part for part in self.parts if part.kind == kind and not self.is_left(part, date))

    @property
    def end(self) -> int:
        return max((part.places().stop for part in self.parts), default=1)

    def rows_of(self, parts: list[Handed]) -> dict[str, list[list[str]]]:
        """What the journal of these files has to say."""
        every = {place for part in parts for place in part.places()}
        return {
            "handed": [part.told() for part in parts],
            "taken": [[who, str(place), why, login] for who, place, why, login in self.taken if place in every],
            "approved": [
                [part.approved[own], str(part.start), own]
                for part in parts if part.left() and (own := self.second_of(part))
            ],
        }

    def must_stand(self) -> None:
        """Ends the month if the folder does not say of what was done what it has to."""
        with folder.at(self.office) as office:
            there, wanted = approvals.handed_in_of(office), self.rows_of(self.parts)
        found, waiting = told_of(there), [part.start for part in self.parts if self.waits(part)]
        if found != wanted or [part.start for part in there.waiting] != waiting:
            raise Fault(f"for the next day is {found}, {there.waiting}, wanted {wanted}, {waiting}")
        events = [
            [what, datetime.date.fromisoformat(date), who, login, {*approved.split(", ")}, why]
            for what, date, who, login, approved, why in events_of(self.office, *TOLD)
            if what in ("filed", "undone", "released")
        ]
        if events != self.events:
            raise Fault(f"the folder has {events[-2:]}, wanted {self.events[-2:]}")

    def file_of(self, kind: str, items: list[list[str]]) -> Handed:
        """A new file, which nobody has handed in yet."""
        self.last_file += 1
        path = self.work / f"{self.last_file}-{kind}.csv"
        path.write_text("".join(f"{row}\n" for item in items for row in item))
        return Handed("", kind, 0, path.name, "", items)

    def hand_in_files(self, *kinds: str) -> None:
        """Hands in a file of each of these kinds by one command."""
        drawn = {"do": self.drawn_acts, "work": self.drawn_work, "changes": self.drawn_account}
        made = [self.file_of(kind, items) for kind in kinds if (items := drawn[kind]())]
        if not made:
            return
        login = self.somebody("hand-in")
        paths = [self.work / part.name for part in made]
        again = [f"{path}:{line}" for path, part in zip(paths, made) if part.kind == "do"
                 for line in range(1, len(part.items) + 1)]  # fmt: skip
        words = ["hand-in", *paths, *(word for own in again for word in ("--again", own))]
        needed = {"hand-in", *("change" for part in made if part.kind == "changes")}
        if not all(self.may(login, command) for command in needed):
            self.give(login, (2,), *words)
            return
        who = self.give(login, (0, 1), *words)
        for part in made:
            self.parts.append(replace(part, who=who, login=self.login_of(login), start=self.end))
        self.version += 1

    def drawn_acts(self) -> list[list[str]]:
        return [[row] for row in self.instructions()]

    def drawn_work(self) -> list[list[str]]:
        """Working days behind all that there are."""
        days = self.heading.working_days
        days += [days[-1] + datetime.timedelta(more) for more in range(1, 4)]
        return [[f"work,{date}"] for date in days[-3:]]

    def drawn_account(self) -> list[list[str]]:
        self.last_account += 1
        return [[f"account,{self.last_account},trading,78,open,no,no,0,0,0", "user,101,both"]]

    def change(self) -> None:
        """Changes fields of an account by hand."""
        login, self.last_holder = self.somebody("change"), self.last_holder + 1
        account, why = self.chance.choice(self.accounts).number, self.chance.choice(REASONS)
        items = [["--holder", str(self.last_holder)]]
        for name in ("--outside", "--waiver"):
            items += [[name, self.chance.choice(["yes", "no"])]] if self.chance.random() < 0.4 else []
        words = [word for item in items for word in item]
        is_right = self.may(login, "change") and bool(self.filed)
        who = self.give(login, (0,) if is_right else (2,), "change", account, *words, "--why", why, "--yes")
        if is_right:
            self.parts.append(Handed(who, "edits", self.end, why, self.login_of(login), items, account))
            self.version += 1

    def take_back(self) -> None:
        """Takes back some of a file."""
        if not self.parts:
            return
        part, why = self.chance.choice(self.parts), self.chance.choice(REASONS)
        left = [place for place in part.places() if place not in part.gone]
        if not left:
            return
        places = sorted(self.chance.sample(left, self.chance.randint(1, len(left))))
        command = WAITS_AS.get(part.kind, "hand-in")
        login = self.somebody(command)
        is_right = part.kind != "first" and self.may(login, command)
        who = self.give(login, (0,) if is_right else (2,), "take-back", *places, "--why", why)
        if is_right:
            self.taken += [Taken(who, place, why, self.login_of(login)) for place in places]
            part.gone |= {*places}
            part.approved = {}
            self.version += 1

    # Approvals.

    def may_approve(self, login: str | None, part: Handed) -> bool:
        """Whether a login may name a file that it approves. (What it approved before it may, beside something that
        waits: so the same command goes on behind an interrupted one.)"""
        own, command = self.login_of(login), WAITS_AS.get(part.kind, "")
        is_own = self.second_of(part) == own and bool(part.left())
        return (self.waits(part) or is_own) and self.may(login, command) and part.login != own

    def approve_parts(self, *parts: Handed) -> None:
        """Approves files that were handed in, all by one command, by somebody who may or may not."""
        login = self.somebody(WAITS_AS.get(parts[0].kind, "hand-in"), parts[0].login.rpartition(":")[2])
        own, left = self.login_of(login), [part for part in parts if self.waits(part)]
        is_right = bool(left) and all(self.may_approve(login, part) for part in parts)
        places = [self.chance.choice(part.places()) for part in parts]
        who = self.give(login, (0,) if is_right else (2,), "approve", *places)
        for part in left if is_right else []:
            part.approved[own] = who

    def approve_some(self) -> None:
        """Approves one file or two, of which some wait and some do not."""
        parts = [part for part in self.parts if part.items]
        waiting = [part for part in parts if self.waits(part)]
        drawn = waiting if waiting and self.chance.random() < FITTING else parts
        if drawn:
            self.approve_parts(*self.chance.sample(drawn, min(len(drawn), self.chance.choice([1, 1, 2]))))

    def approve_asked(self, command: str, date: datetime.date) -> None:
        """Approves a command of a day, as far as it would still be done as it was asked for."""
        asker, key = self.asked.get((command, date), ("", ()))
        login = self.somebody(command, asker)
        is_right = bool(key) and key[3] == self.version and login != asker and self.may(login, command)
        if command == "close" and is_right:
            is_right = key[4] == self.by_paths()
        self.give(login, (0,) if is_right else (2,), "approve", command, "--date", date)
        if is_right and login and login not in self.approvals.setdefault(key, []):
            self.approvals[key].append(login)

    # Days.

    @property
    def date(self) -> datetime.date:
        """The next day."""
        return self.dates[len(self.filed)]

    def by_paths(self) -> tuple[bytes, bytes]:
        """The text of the next day and its pending file, as they are by paths."""
        merged = {
            kind: [row for part in self.counting(kind, self.date) for item in part.left() for row in item]
            for kind in ("do", "work", "changes")
        }
        if not self.filed:
            first = (self.work / "0.csv").read_text().splitlines()[:-1]
            return "".join(f"{row}\n" for row in [*first, *merged["do"], "end"]).encode(), b""
        day, report = self.pairs[len(self.filed) - 1]
        merged["changes"] += self.edited(day, report)
        merged["changes"] = in_order(merged["changes"])
        words: list[object] = ["next", report, day, "--date", self.date, "--again"]
        waiting = self.work / "pending.csv"
        waiting.unlink(missing_ok=True)
        if len(self.filed) > 1:
            waiting.write_bytes(self.filed[-1].waiting)
        words += ["--pending" if len(self.filed) > 1 else "--pending-new", waiting]
        for kind, rows in merged.items():
            if rows:
                path = self.work / f"next-{kind}.csv"
                path.write_text("".join(f"{row}\n" for row in rows))
                words += [f"--{kind}", path]
        said = Said(*words)
        if said.status not in (0, 1):
            raise Fault(f"by paths: {words}: {said}")
        return said.output.encode(), waiting.read_bytes()

    def edited(self, day: Path, report: Path) -> Iterator[str]:
        """The blocks of the accounts that are changed, by paths."""
        of_accounts: dict[int, dict[str, str]] = {}
        for part in self.counting("edits", self.date):
            of_accounts.setdefault(part.account, {}).update({name: value for name, value in part.left()})
        for account, fields in ((account, fields) for account, fields in of_accounts.items() if fields):
            words = [word for item in fields.items() for word in item]
            said = Said("change", account, *words, "--pairs", day, report)
            if said.status != 0 and "is so already" not in said.errors:
                raise Fault(f"by paths: {account} {words}: {said}")
            yield from said.output.splitlines()

    def close_day(self) -> None:
        """Tries to close the next day."""
        date, made = self.date, self.by_paths()
        if not self.do_dated("close", date, "", made, True):
            return
        parts = [part for part in self.parts if not self.is_left(part, date)]
        left = [part for part in self.parts if self.is_left(part, date)]
        with folder.at(self.office) as office:
            filed = told_of(intake.for_a_day(office.store, office.events.days[-1]))
        wanted = self.rows_of(parts)
        # (who approved what nobody has to approve any more is told, too)
        more = [own for own in filed["approved"] if own not in wanted["approved"]]
        known = [[who, str(part.start), own] for part in parts for own, who in part.approved.items()]
        if {**filed, "approved": wanted["approved"]} != wanted or any(own not in known for own in more):
            raise Fault(f"{date} was made of {filed}, wanted {wanted}")
        place = len(self.filed)
        text, report = (self.work / f"{place}.{name}" for name in ("day", "report"))
        text.write_bytes(made[0])
        report.write_text(rules.answers(made[0])["settle"])
        self.pairs[place:] = [(text, report)]
        wrong = self.compare(date, text, report)
        if wrong or (place and text_of(self.office, str(date), "waiting") != made[1]):
            raise Fault(wrong or f"what waited before {date} is another one")
        self.filed.append(Filed(date, *made, parts))
        self.begin_next([], left)

    def begin_next(self, again: list[Handed], left: list[Handed]) -> None:
        """What is in next/ behind a day that was filed or undone: what was not taken back, and approved by nobody."""
        self.parts, self.taken = [], []
        for part in [*again, *left]:
            items = part.items if part.kind == "first" else part.left()
            if items or part.kind == "first":
                self.parts.append(replace(part, items=items, start=self.end, gone=set(), approved={}))

    def undo(self) -> None:
        """Tries to take the last day back, or another one."""
        if not self.filed or self.would_not_fit():
            return
        day = self.filed[-1] if self.chance.random() < 0.8 else self.chance.choice(self.filed)
        is_right = day is self.filed[-1] and day.date > self.released
        if self.do_dated("undo", day.date, self.chance.choice(REASONS), "", is_right):
            self.filed.pop()
            self.begin_next([replace(part, earliest=day.date) for part in day.parts], self.parts)

    def would_not_fit(self) -> bool:
        """Whether what was handed in since can't stand behind what the last day was made of: the first day has no
        changes, and of working days a later file has later ones."""
        first_of = [part.left()[0][0] for part in self.parts if part.kind == "work" and part.left()]
        last_of = [part.left()[-1][0] for part in self.filed[-1].parts if part.kind == "work" and part.left()]
        is_only_first = len(self.filed) == 1 and any(part.kind != "do" for part in self.parts)
        return is_only_first or min(first_of, default="x") < max(last_of, default="")

    def release(self) -> None:
        """Tries to release a day."""
        if not self.filed:
            return
        day = self.chance.choice(self.filed[-3:])
        if self.do_dated("release", day.date, self.chance.choice(REASONS), "", day.date > self.released):
            self.released = day.date

    # The whole month.

    def look(self) -> None:
        """Somebody looks at the folder: whatever it is in the middle of, it is sound, and no look changes it."""
        command, begun = self.chance.choice(LOOKS), self.stands()
        # (before a day is settled nothing is due)
        refuses = command == "due" and not self.filed
        wrong = self.run(command, wanted=(0, 1) if command == "try" else (2,) if refuses else (0,))
        if wrong or self.stands() != begun:
            raise Fault(wrong or f"{command} changes something")

    def step(self) -> None:
        """One command: mostly one that is needed next, now and then another one."""
        strays: list[Callable[[], None]] = [
            lambda: self.hand_in_files("do"), self.take_back, self.approve_some, self.undo, self.close_day,
            self.release, self.look, self.rename_people,
            lambda: self.approve_asked(*self.chance.choice([*self.asked, ("close", self.date)])),
        ]  # fmt: skip
        if self.filed:
            strays += [self.change, lambda: self.hand_in_files("work"), lambda: self.hand_in_files("do", "changes")]
        waiting = [part for part in self.parts if self.waits(part)]
        asked = self.asked.get(("close", self.date))
        if self.chance.random() < STRAY:
            self.chance.choice(strays)()
        elif waiting and self.chance.random() < 0.6:
            self.approve_some()
        elif asked and self.is_open(asked[1]) and self.chance.random() < 0.7:
            self.approve_asked("close", self.date)
        else:
            self.close_day()
        self.must_stand()

    def is_open(self, key: Key) -> bool:
        """Whether something that was asked for waits for an approval. (If it would give another text by now, it has to
        be asked for once more.)"""
        return key[3] == self.version and not any(self.may(own, str(key[0])) for own in self.approvals.get(key, []))

    def begin_day(self) -> None:
        """What is handed in first for a day that was not closed before."""
        place = len(self.filed)
        if place == len(self.dates):
            self.dates.append(self.dates[-1] + datetime.timedelta(self.chance.choice([1, 1, 2, 3])))
        self.heading.day = self.dates[place]
        if place:
            self.drawer.next_record = read_report(self.pairs[place - 1][1]).next_record
        if 0 < place < 4:
            self.hand_in_files("work")
        self.hand_in_files("do", *(["changes"] if place % 7 == 3 else []))
        if place and self.chance.random() < 0.3:
            self.change()

    def begin(self) -> None:
        """The folder with its first text, and its people."""
        first, rows = self.work / "0.csv", [*self.first_rows()]
        first.write_text("\n".join([*rows, ""]))
        said = Said("init", self.office, first)
        if said.status:
            raise Fault(str(said))
        self.name_people()
        acts = [[row] for row in rows if row.startswith("do,")]
        self.parts = [Handed(user_name(), "first", 1, first.name, self.system, acts)]

    def trial(self) -> str | None:
        """Lives the month; what is wrong, if something is."""
        try:
            self.begin()
            for _ in range(DAYS):
                count = len(self.filed)
                self.begin_day()
                self.must_stand()
                for _ in range(MOST_COMMANDS):
                    self.step()
                    if len(self.filed) > count:
                        break
                else:
                    raise Fault(f"{self.date} comes to no end: {self.parts}")
        except Fault as fault:
            return f"{self.rights}, four eyes {self.four_eyes}: {fault}"
        said = Said("audit", "--second", "--office", self.office)
        return None if said.status == 0 and "0 differences" in said.output else str(said)


def in_order(rows: list[str]) -> list[str]:
    """The blocks of a file, by the numbers of their accounts."""
    blocks: list[list[str]] = []
    for row in rows:
        if row.startswith("account,"):
            blocks.append([])
        blocks[-1].append(row)
    return [row for block in sorted(blocks, key=lambda own: int(own[0].split(",")[1])) for row in block]
