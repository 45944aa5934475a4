"""What other logins on the machine try with a folder of days that one login owns: to look into it, to change it, to
have its owner open something of theirs in its place or run a program of theirs; and to be two people. Each attempt says
what it must get."""
from __future__ import annotations

import os
import shutil
from collections.abc import Callable, Iterator
from dataclasses import replace
from pathlib import Path

from colleagues import ACT, MONDAY, RULES, TUESDAY, WEEK, Owned, must_get, must_run, owned, without_folder
from harness import Said, differs
from logins import Login, made
from offices import FILE, JOURNAL, must_do, told, unchanged
from second_login import LOGIN, file_of, with_lines

Attempts = Iterator[tuple[str, object]]
WHY = ["--why", "a slip"]
CLOSE = ["close", "--date", TUESDAY]
CHANGE = ["change", "100210", "--holder", "5503", *WHY, "--yes"]
OTHER = "found a file or folder of another login"
# What others must not read or write: its words are in no answer.
SECRET = "[office]\nlayout = 1\nprogram = the-secret-of-bert\n"
# What is put in the place of another thing by each login's own hands.
LINK = """
import shutil
place, to = sys.argv[1:]
shutil.rmtree(place, ignore_errors=True)
os.path.lexists(place) and os.unlink(place)
os.symlink(to, place)
"""
BLOCK = "account,300126,trading,9017,open,no,no,0,0,0\nuser,4201,both\n"


# Other logins.


def stranger_attempts(work: Path) -> Attempts:
    """Nobody but its owner looks into a folder or changes it: not who shares a group, nor who does not, nor root."""
    with made("anna", "bert", "cora") as logins:
        base = owned(work, logins)
        acts = base.file("acts.csv", ACT.format(1))
        commands: list[list[str]] = [
            ["status"], ["find"], ["audit"], ["balance", "100210"], ["hand-in", acts], CHANGE, CLOSE,
            ["undo", MONDAY, *WHY], ["approve", "1"], ["backup", "/tmp/rgy-copy"], ["unpack", "/tmp/rgy-unpacked"],
            ["label", "holder", "5501", "X", *WHY], ["release", MONDAY, "--yes", *WHY],
        ]  # fmt: skip
        for name, mode in (("closed", 0o700), ("that all may read", 0o755), ("that a group may write", 0o770)):
            base.path.chmod(mode)
            for login, who in ((base.anna, "a colleague"), (base.cora, "a stranger")):
                for words in commands:
                    # (who comes as far is told whose it is)
                    has = [OTHER] if mode == 0o755 and words[0] != "audit" else []
                    yield f"{who} at a folder {name}: {words[0]}", base.refuses(login, has, *words)
            if mode == 0o770:
                for words in (["status"], CLOSE):
                    told_of = base.refuses(base.bert, ["chmod go-w"], *words)
                    yield f"its owner, at a folder {name}: {words[0]}", told_of
        base.path.chmod(0o700)
        has = [f"{base.path}: found a file or folder of another login"]
        for word in ("status", "audit", "find"):
            yield f"root: {word}", unchanged(base.path, 3, has, word, *base.own)
        yield "init in its place", base.refuses(base.anna, [], "init", base.path, WEEK / "monday.csv")
        yield "its owner", base.gets(base.bert, 0, [": 0 differences"], "audit")


# Something of theirs in its place.


def link_attempts(work: Path) -> Attempts:
    """A folder, file or link of another login in the place of one's own is refused by its name, and what a link leads
    to stays as it is."""
    with made("anna", "bert", "cora") as logins:
        base = owned(work, logins)
        acts, secret = base.file("acts.csv", ACT.format(1)), secret_of(base)
        for name, words in (
            (FILE, ["status"]), (FILE, CLOSE), (FILE, ["audit"]), (JOURNAL, CHANGE), (JOURNAL, ["status"]),
            ("office.ini", ["status"]), ("office.ini", CLOSE), (FILE, ["hand-in", acts]),
            (FILE, ["undo", MONDAY, *WHY]),
        ):  # fmt: skip
            folder = base.copy("links")
            base.bert.does(LINK, folder.path / name, secret)
            ended, says = base.bert.day(*words, *folder.own)
            is_told = ended in (1, 3) and f"{folder.path / name}: " in says and "a link" in says
            yield f"{name} is a link, {words[0]}", None if is_told else f"status {ended}: {says[-600:]}"
            yield f"{name} is a link, {words[0]}: what it leads to", untouched(secret, says)
        yield from of_others_attempts(base)
        yield from no_file_attempts(base)
        yield from answer_attempts(base, secret)
        yield from planted_attempts(base)


def secret_of(base: Owned) -> Path:
    """A file that bert alone may read and write."""
    path = base.path.parent / "secret"
    base.bert.does("p, c = sys.argv[1:]\nopen(p, 'w').write(c)\nos.chmod(p, 0o600)", path, SECRET)
    return path


def untouched(secret: Path, says: str) -> object:
    """Whether bert's file is as it was, and nothing of it is told."""
    return differs(secret.read_text(), SECRET) or ("it is told" if "the-secret" in says else None)


def of_others_attempts(base: Owned) -> Attempts:
    """A folder that anna made stands where bert's was, or its file does."""
    room = base.work / "anna"
    room.mkdir()
    shutil.chown(room, base.anna.user, base.anna.group)
    room.chmod(0o755)
    theirs = replace(base, path=room / "office")
    must_get(None if base.anna.day("init", theirs.path, WEEK / "monday.csv")[0] == 0 else "no folder")
    theirs.path.chmod(0o755)
    (theirs.path / FILE).chmod(0o644)
    (theirs.path / "office.ini").chmod(0o644)
    has = [f"{theirs.path}: found a file or folder of another login"]
    for words in (["status"], ["close", "--date", MONDAY, "--second"], ["find"]):
        yield f"a folder of anna's, {words[0]}", theirs.refuses(base.bert, has, *words)
    folder = base.copy("of-anna")
    shutil.copy2(theirs.path / FILE, folder.path / FILE)
    shutil.chown(folder.path / FILE, base.anna.user, base.anna.group)
    has = [f"{folder.path / FILE}: found a file or folder of another login"]
    yield "a file of anna's in bert's folder", folder.refuses(base.bert, has, "status")


def no_file_attempts(base: Owned) -> Attempts:
    """What is no plain file, and a file that has another name elsewhere."""
    folder = base.copy("pipe")
    base.bert.does("p = sys.argv[1]\nos.unlink(p)\nos.mkfifo(p, 0o600)", folder.path / FILE)
    yield "a pipe", folder.gets(base.bert, 3, [f"{FILE}: found no plain file"], "status")
    folder = base.copy("hard")
    os.link(folder.path / FILE, base.path.parent / "second-name")
    yield "a second name elsewhere", folder.refuses(base.bert, ["a file that has another name elsewhere"], *CHANGE)
    folder = base.copy("folder")
    base.bert.does("p = sys.argv[1]\nos.unlink(p)\nos.mkdir(p)", folder.path / FILE)
    yield "a folder", folder.gets(base.bert, 3, [f"{FILE}: found no plain file"], "status")


def answer_attempts(base: Owned, secret: Path) -> Attempts:
    """Answers that are written where others may make files: what lies there as a link is not written through."""
    room = base.work / "for-all"
    room.mkdir()
    room.chmod(0o1777)
    inner = base.path.parent / "inner"
    base.bert.does("os.mkdir(sys.argv[1], 0o700)", inner)
    for name, leads_to, words in (
        ("copy.sqlite", secret, ["backup"]), ("days.sqlite", secret, ["db"]), ("month.html", secret, ["month"]),
        ("anchors", secret, ["anchor", "--to"]), ("answer", secret, ["status", "--to"]), ("plain", inner, ["unpack"]),
        ("sheets", inner, ["statements", "--day", MONDAY]), ("pages", inner, ["page", "--day", MONDAY]),
        ("sent", inner, ["send"]),
    ):  # fmt: skip
        base.anna.does("p, q = sys.argv[1:]\nos.symlink(q, p)", room / name, leads_to)
        ended, says = base.bert.day(*words, room / name, *base.own)
        is_told = ended == 3 and f"{room / name}: found a link" in says
        yield f"a link where {words[0]} writes", None if is_told else f"status {ended}: {says[-600:]}"
        yield f"a link where {words[0]} writes: what it leads to", untouched(secret, "") or [*inner.iterdir()] or None
    aside = room / f".x.csv.{os.getpid()}.day-unfinished"
    base.anna.does("p, q = sys.argv[1:]\nos.symlink(q, p)", aside, secret)
    said = Said("log", WEEK / "monday-report.csv", "--to", room / "x.csv")
    yield "a link where an answer is written first", (None if said.status == 0 else said) or untouched(secret, "")


# What SQLite does by itself with a file that somebody else packed.

# A journal that names another one, behind pages of which none is put back; and rows without an end.
ANOTHER = bytes.fromhex("d9d505f920a163d7")
ENDLESS = """
DROP TRIGGER texts_stay; DROP TRIGGER texts_remain; ALTER TABLE texts RENAME TO texts_before;
CREATE VIEW texts AS WITH RECURSIVE rows (sum) AS (SELECT '' UNION ALL SELECT sum || 'x' FROM rows)
  SELECT sum, 1 AS size, x'00' AS packed FROM rows;
"""


def journal_of(file: Path, named: Path) -> bytes:
    """A journal of a file as a change of several files leaves it: it names `named`, which SQLite takes away."""
    size, name = int.from_bytes(file.read_bytes()[16:18], "big"), str(named).encode()
    head = [0, 1, file.stat().st_size // size, 512, size]
    page, length, check = (own.to_bytes(4, "big") for own in ((1 << 30) // size + 1, len(name), sum(name)))
    begin = ANOTHER + b"".join(own.to_bytes(4, "big") for own in head)
    return begin.ljust(512, b"\0") + page + name + length + check + ANOTHER


def planted_attempts(base: Owned) -> Attempts:
    """A folder that somebody else packed, and bert unpacked: what lies beside its file, and what is in it."""
    write = "import shutil\np, q = sys.argv[1:]\nshutil.copyfile(q, p)\nos.chmod(p, 0o600)"
    for word in ("status", "audit"):
        folder, kept, made = base.copy("packed"), base.path.parent / "kept", base.work / "made"
        base.bert.writes(kept, "of bert\n")
        made.write_bytes(journal_of(folder.path / FILE, kept))
        base.bert.does(write, folder.path / JOURNAL, made)
        has = [f"{folder.path / JOURNAL}: found a journal that names another file"]
        yield f"a journal that names another file, {word}", folder.gets(base.bert, 3, has, word)
        yield f"what it names is there, {word}", None if kept.exists() else "it is gone"
    for what, code in (
        ("no plain file", "os.mkfifo(sys.argv[1], 0o600)"),
        ("a file that has another name elsewhere", "os.link(sys.argv[2], sys.argv[1])"),
    ):  # fmt: skip
        folder = base.copy("packed")
        base.bert.does(code, folder.path / JOURNAL, kept)
        yield f"{what} as a journal", folder.gets(base.bert, 3, [f"{JOURNAL}: found {what}"], "status")
    for word in ("status", "audit"):
        folder = base.copy("packed")
        change = "import sqlite3\nsqlite3.connect(sys.argv[1]).executescript(sys.argv[2])"
        base.bert.does(change, folder.path / FILE, ENDLESS)
        has = ["table texts: found a view; expected a table"]
        yield f"a table without an end, {word}", folder.gets(base.bert, 3, has, word)
    yield from beside_attempts(base)


def beside_attempts(base: Owned) -> Attempts:
    """A copy is made anew where others may make files: what lies beside the one before is not read."""
    room, kept = base.work / "for-all", base.path.parent / "kept"
    for name, word in (("copy-2.sqlite", "backup"), ("days-2.sqlite", "db")):
        path = room / name
        must_get(without_folder(base.bert.day(word, path, *base.own)))
        made = base.work / "made"
        made.write_bytes(journal_of(path, kept))
        base.anna.does("import shutil\nshutil.copyfile(*sys.argv[:0:-1])", f"{path}-journal", made)
        has = [f"{path}-journal: found a file or folder of another login"]
        yield f"a journal of anna's beside what {word} made", base.gets(base.bert, 3, has, word, path)
        yield f"what it names is there, {word}", None if kept.exists() else "it is gone"


# A program of their own.


def program_attempts(work: Path) -> Attempts:
    """What office.ini names is run only if nobody else could have changed it."""
    with made("anna", "bert", "cora") as logins:
        yield from changed_by_others(owned(work, logins))


def planted(base: Owned, login: Login, path: Path, mode: int = 0o755) -> Path:
    """A program that leaves a mark if it is run."""
    text = f"#!/bin/sh\ntouch {base.path.parent / 'ran'}\nexec {RULES} \"$@\"\n"
    login.does("p, c, m = sys.argv[1:]\nopen(p, 'w').write(c)\nos.chmod(p, int(m))", path, text, mode)
    return path


def not_run(base: Owned, has: list[str], *words: str) -> object:
    """What is wrong, if a command runs the program or does not say why it does not."""
    mark = base.path.parent / "ran"
    mark.unlink(missing_ok=True)
    wrong = base.gets(base.bert, 1 if words[0] == "audit" else 3, has, *words)
    return "it was run" if mark.exists() else wrong


def changed_by_others(base: Owned) -> Attempts:
    """The folder is bert's alone; the program, or a folder or link on the way, is not."""
    bert, anna = base.bert, base.anna
    settings = base.path / "office.ini"
    own = settings.read_text()
    rooms = {name: base.work / name for name in ("closed", "opened", "sticky", "ways")}
    for name, mode in (("closed", 0o755), ("opened", 0o775), ("sticky", 0o1777), ("ways", 0o775)):
        rooms[name].mkdir()
        must_run("chgrp", str(bert.group), str(rooms[name]))
        rooms[name].chmod(mode)
    good = rooms["closed"] / "good"
    shutil.copy2(RULES, good)
    (rooms["ways"] / "way").symlink_to(rooms["closed"])
    (rooms["closed"] / "way").symlink_to(rooms["ways"] / "way")
    attempts: list[tuple[str, Path, str]] = [
        ("that a group may write", planted(base, bert, rooms["opened"] / "mine", 0o775), "the group "),
        ("that everybody may write", planted(base, bert, rooms["sticky"] / "for-all", 0o757), "everybody"),
        ("in a folder that a group may write", planted(base, bert, rooms["opened"] / "own"), "the group "),
        ("of a colleague", planted(base, anna, rooms["sticky"] / "hers"), anna.name),
        ("behind a link that others may replace", rooms["ways"] / "way" / "good", "the group "),
        ("behind a link to such a link", rooms["closed"] / "way" / "good", "the group "),
    ]
    for name, program, who in attempts:
        settings.write_text(own.replace(str(RULES), str(program)))
        has = ["office.ini: program: found ", f"may be written by {who}"]
        for words in (CLOSE, ["audit", "--settle"]):
            yield f"a program {name}, {words[0]}", not_run(base, has, *words)
        settings.write_text(f"{own}[hooks]\nafter_close = {program}\n")
        behind = ["office.ini: after_close: found ", has[1]]
        yield f"a program {name}, after close", not_run(base, behind, *CLOSE)
    settings.write_text(own.replace(str(RULES), str(attempts[-1][1])))
    let = replace(base, let={"REGISTRY_PROGRAMS": "/nowhere"})
    yield "although another one is let", not_run(let, has, *CLOSE)
    settings.write_text(own.replace(str(RULES), str(planted(base, bert, rooms["sticky"] / "mine"))))
    yield "a program of one's own in a folder for all", base.gets(bert, 0, [f"{TUESDAY} is settled"], *CLOSE)


# One person as two.


def second_person_attempts(work: Path) -> Attempts:
    """What a correction adds needs the right and the second one that a hand-in and a change need."""
    correct = ["correct", MONDAY, *WHY, "--second", "--yes", "--with"]
    acts, block = file_of(work, "acts.csv", ACT.format(1).replace("09-23", "09-22")), file_of(work, "block.csv", BLOCK)
    office, own = of_people(work, "rights", {"anna": "close", "bert": "all", "cora": "all"})
    anna, bert, cora = (["--for", name] for name in ("anna", "bert", "cora"))
    for path, right in ((acts, "hand in"), (block, "change")):
        has = [f"may close, and not {right}"]
        yield f"correct without the right {right}", unchanged(office, 2, has, *correct, path, *anna, *own)
    office, own = of_people(work, "eyes", {"anna": "close, hand in", "bert": "close", "cora": "all"}, "hand-in")
    asked = ["is asked for, and waits for", "cora"]
    yield "correct hands in alone", told(1, asked, *correct, acts, *anna, *own)
    yield "and nothing is done", told(0, ["events 1, days 1"], "audit", *own)
    approve = ["approve", "correct", "--date", MONDAY]
    yield "it approves itself", unchanged(office, 2, ["another login approves it"], *approve, *anna, *own)
    has = ["may close, and not hand in"]
    yield "who may close approves what is handed in", unchanged(office, 2, has, *approve, *bert, *own)
    yield "who may hand in approves it", told(0, ["approved: correct"], *approve, *cora, *own)
    file_of(work, "acts.csv", ACT.format(2).replace("09-23", "09-22"))
    yield "other rows under the same name", told(1, asked, *correct, acts, *anna, *own)
    file_of(work, "acts.csv", ACT.format(1).replace("09-23", "09-22"))
    yield "what was approved", told(0, [f"{MONDAY} is corrected"], *correct, acts, *anna, *own)
    yield from passed_on_attempts(work)


def passed_on_attempts(work: Path) -> Attempts:
    """What waits when a day is filed is told by who filed it: who handed it in is not the second one behind it."""
    office, own = of_people(work, "passed", {"anna": "all", "bert": "all", "cora": "all"}, "hand-in")
    anna, bert, cora = (["--for", name] for name in ("anna", "bert", "cora"))
    must_get(told(0, ["place 1 waits"], "hand-in", file_of(work, "more.csv", ACT.format(1)), *anna, *own))
    must_get(told(0, ["is settled"], *CLOSE, "--second", "--yes", *bert, *own))
    yield "who handed it in, behind another day", unchanged(office, 2, ["asked for it"], "approve", "1", *anna, *own)
    yield "another one may", told(0, ["approved: place 1"], "approve", "1", *cora, *own)


def of_people(work: Path, name: str, rights: dict[str, str], four_eyes: str = "") -> tuple[Path, list[str]]:
    """A folder of this login, which speaks for these people."""
    office = work / name
    own = ["--office", str(office)]
    must_do(["init", str(office), str(WEEK / "monday.csv")], ["close", "--date", MONDAY, "--second", *own])
    named = {login: f"{login}: {words}" for login, words in rights.items()}
    with_lines(office, {**named, LOGIN: "The desk: proxy"}, four_eyes)
    return office, own


PARTS: tuple[tuple[str, Callable[[Path], Attempts]], ...] = (
    ("strangers", stranger_attempts), ("links", link_attempts), ("programs", program_attempts),
    ("one person as two", second_person_attempts),
)  # fmt: skip
