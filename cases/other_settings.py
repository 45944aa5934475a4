"""Another office.ini, which one login asks for and a second one approves: who may, what may be changed so, what is told
of it, and texts that somebody made to get more than they have. For cases/run-trust."""
import contextlib
import os
import stat
from collections.abc import Iterator
from pathlib import Path
from unittest import mock

from harness import Said, differs
from offices import events_of, must_do, told, unchanged
from second_login import PEOPLE, TUESDAY, at_once, desk, file_of, of, refusal_of, settled

from registry_tools.errors import Fault
from registry_tools.office import folder, people, rewriting
from registry_tools.office.office import By

WHY = ["--why", "she begins"]
HEDY, LEAD = "[people] hedy = Hedy Holt: hand in", "[due] lead = 20"
ASKED, NOT_SO = (
    "office.ini, is asked for, and waits for Bert Kohl (bert): ./day approve settings",
    "asks for no office.ini",
)
EDITOR, HERE = "an editor of the owner alone changes it", "office.ini"
Told = tuple[str, object]


def other_settings_trials(work: Path) -> Iterator[Told]:
    """All trials of this file."""
    work.mkdir()
    for trials in (
        done_trials, ask_trials, approve_trials, alone_trials, fixed_trials, text_trials, line_trials, changed_trials,
        taken_trials, ended_trials, once_trials, beside_trials,
    ):  # fmt: skip
        yield from trials(work)


def asks(own: list[str], *lines: str, login: str = "anna") -> str:
    """Asks for lines, and answers the number of the event."""
    said = Said("settings", *lines, *WHY, *of(login), *own)
    assert said.status == 1, said
    return said.output.rpartition("settings ")[2].strip()


def said_by(office: Path) -> str:
    """What lies there as office.ini."""
    return (office / HERE).read_text()


def done_trials(work: Path) -> Iterator[Told]:
    """It is asked for, waits, is approved, lies there, and is told."""
    office, own = settled(work, "done")
    os.chmod(office / HERE, 0o640)
    before = said_by(office)
    yield "it waits", told(
        1, [f"+ {HEDY}\n+ {LEAD}\nevent 3, another {ASKED} 3"], "settings", HEDY, LEAD, *WHY, *of("anna"), *own
    )
    yield "nothing is written yet", differs(said_by(office), before)
    waits = "event 3, another office.ini, asked for by Anna Berg (anna), as "
    yield "what waits", told(0, [waits, "she begins: waits for Bert Kohl (bert)", f"\n    + {HEDY}\n"], "approve", *own)
    yield "status tells it", told(0, [waits], "status", *own)
    yield "it is approved", told(
        0, ["approved: event 3, another office.ini: it is written"], "approve", "settings", "3", *of("bert"), *own
    )
    yield "all else stays", differs(said_by(office), f"{before}hedy = Hedy Holt: hand in\n[due]\nlead = 20\n")
    yield "its mode stays", differs(stat.S_IMODE(os.stat(office / HERE).st_mode), 0o640)
    yield "nothing is left beside it", differs(
        sorted(each.name for each in office.iterdir()), [HERE, "registry.sqlite"]
    )
    yield "it counts", told(
        0, ["handed in"], "hand-in", str(file_of(work, "own.csv", "work,2025-10-06")), *of("hedy"), *own
    )
    told_by = [
        "office.ini as event 3 asked for, by Anna Berg (anna)",
        "was approved by Bert Kohl (bert), as ",
        f"+ {LEAD}",
    ]
    yield "audit tells who", told(0, [*told_by, "0 differences"], "audit", *own)
    asked_for, approved = (events_of(office, "login", "kind", "text", what=what)[0] for what in ("asked", "approved"))
    desk_of = people.system_login()
    kinds = [asked_for[:2], approved[:2]]
    yield "the events", differs(kinds, [(f"{desk_of}:anna", "settings"), (f"{desk_of}:bert", "settings")])
    yield "of one text", differs(approved[2], asked_for[2])
    shows = ["event 3, asked for by Anna Berg (anna), as ", "approved by Bert Kohl (bert)", f"  + {HEDY}"]
    yield "settings shows it", told(0, [*shows, "[due] lead = 20\n"], "settings", *of("anna"), *own)
    said = Said("settings", *of("gerd"), *own)
    yield "who may not do all is shown no path", None if "rules.py" not in said.output and HEDY in said.output else said
    yield "once more is nothing", unchanged(
        office, 2, ["it is so already"], "settings", HEDY, LEAD, *WHY, *of("bert"), *own
    )
    yield "approved once", unchanged(office, 2, [NOT_SO], "approve", "settings", "3", *of("bert"), *own)
    with open(office / HERE, "a", encoding="utf-8") as ini:
        ini.write("emissions = 03-31\n")
    by_hand = "office.ini is not the one that was approved last, as event 3 asked for it: an editor changed it"
    yield "audit tells an editor", told(0, [by_hand, "0 differences"], "audit", *own)
    yield "settings tells an editor", told(0, [by_hand], "settings", *own)


# Who.


def ask_trials(work: Path) -> Iterator[Told]:
    """Who may do all asks, and nobody else, also for all rights of their own."""
    office, own = settled(work, "ask")
    for login in (*PEOPLE, "zoe", None):
        for line in (LEAD, f"[people] {login} = X: all"):
            words = ["settings", line, *WHY, *(of(login) if login else []), *own]
            if login not in ("anna", "bert"):
                has = refusal_of(login)
                yield f"{login} asks for {line}", unchanged(office, 2, has, *words)
            elif line == LEAD:
                yield f"{login} asks", told(1, ["waits for"], *words)
    yield "without a reason", unchanged(office, 2, ["--why is needed"], "settings", LEAD, *of("anna"), *own)
    both = ["settings", LEAD, "--file", str(office / HERE), *WHY, *of("anna"), *own]
    yield "lines and a file", unchanged(office, 2, ["--file stands in place of lines"], *both)


def approve_trials(work: Path) -> Iterator[Told]:
    """Another login that may do all now approves it, and nobody else: a typed name is no login."""
    office, own = settled(work, "approve")
    number = asks(own, "[people] cora = Cora Lund: all")
    approve = ["approve", "settings", number]
    for login in (*PEOPLE, "zoe", None):
        if login != "bert":
            has = ["Anna Berg (anna), as "] if login == "anna" else refusal_of(login)
            words = [*approve, *(of(login) if login else []), *own]
            yield f"{login} approves", unchanged(office, 2, has, *words)
    typed = [*approve, "--who", "Bert Kohl", *of("anna"), *own]
    yield "by a typed name", unchanged(office, 2, ["asked for it: another login approves it"], *typed)
    passed_on = [*approve, "--for", f"{people.system_login()}:anna", *own]
    yield "by a desk behind a desk", unchanged(office, 2, ["asked for it"], *passed_on)
    for word in ("0", "2", "99", "x", "", "-1", "3 4", "\u0663", "9" * 40):
        yield f"event {word!r}", unchanged(office, 2, [], "approve", "settings", *word.split(), *of("bert"), *own)
    yield "the other one", told(0, ["it is written"], *approve, *of("bert"), *own)
    yield "who may do all now", told(
        1, ["waits for Anna Berg (anna) or Bert Kohl (bert)"], "settings", LEAD, *WHY, *of("cora"), *own
    )


def alone_trials(work: Path) -> Iterator[Told]:
    """Where one login alone may do all, or a login speaks for the other, nobody is the second one."""
    system = people.system_login()
    known: tuple[tuple[str, dict[str, str], str], ...] = (
        ("nobody", {}, "nobody who may do all"),
        ("one", {system: "Me: all", "cora": "Cora: hand in"}, f"Me ({system}) who"),
        ("tied", {system: "Me: all", "eva": "Eva: holder 5501"}, f"Me ({system}) who may do all"),
    )
    for name, named, found in known:
        office, own = settled(work, f"alone-{name}", named=named)
        has = [f"[people]: found {found}", "expected two: the owner of the folder names a second one, by an editor"]
        yield f"{name} may do all", unchanged(office, 3, has, "settings", LEAD, *WHY, *own)
    office, own = settled(work, "speaks", named={**PEOPLE, system: "Me: all, proxy"})
    speaks = ["are one here: one of them speaks for the other"]
    by_anna = asks(own, LEAD)
    yield "who speaks approves", unchanged(office, 2, speaks, "approve", "settings", by_anna, *own)
    said = Said("settings", "[due] lead = 21", *WHY, *own)
    number = said.output.rpartition("settings ")[2].strip()
    yield "whom they speak for approves", unchanged(office, 2, speaks, "approve", "settings", number, *of("bert"), *own)
    office, own = settled(work, "last")
    for lines in (["[people] bert ="], ["[people] bert = Bert Kohl: look"], [f"[people] {each} =" for each in PEOPLE]):
        left = ["who may do all; expected two"]
        yield f"{lines} would leave one", unchanged(office, 3, left, "settings", *lines, *WHY, *of("anna"), *own)


# What an editor alone changes.


def fixed_trials(work: Path) -> Iterator[Told]:
    """Programs, paths, who speaks for others and the owner stay, by lines and by a whole text."""
    system = people.system_login()
    office, own = settled(work, "fixed")
    for lines, field in (
        (["[office] program = /bin/sh"], "[office] program: found '/bin/sh'; expected what stands"),
        (["[office] program ="], "[office] program: found nothing"), (["[office] PROGRAM = /bin/sh"], "'program'"),
        (["[office] desk = /tmp/x"], "[office] desk: found '/tmp/x'; expected what stands"),
        (["[anchor] key = /tmp/x"], "[anchor] key: found"),
        (["[hooks] after_close = /tmp/x"], "[hooks] after_close: found"),
        (["[DEFAULT] program = /bin/sh"], "found "), (["[office] layout = 2"], "layout: found '2'"),
        (["[DEFAULT] desk = /tmp/x"], "found "),
        ([f"[people] {system} = The desk: proxy, all"], f"[people] {system}: found"),
        ([f"[people] {system} = The desk: all"], f"[people] {system}: found"),
        ([f"[people] {system} ="], f"{system}: found"),
        (["[people] anna = Anna Berg: all, proxy"], "[people] anna: found 'Anna Berg: change, close,"),
        (["[people] zoe = Zoe: proxy"], "[people] zoe: found 'Zoe: proxy'; expected what stands"),
    ):  # fmt: skip
        words = ["settings", *lines, *WHY, *of("anna"), *own]
        yield f"{lines}", unchanged(office, 3, [field], *words)
        by_editor = Said(*words).errors
        is_told = EDITOR in by_editor or "DEFAULT" in lines[0] or "PROGRAM" in lines[0] or "layout" in lines[0]
        yield f"{lines}: who changes it", None if is_told else by_editor
    for number, (was, becomes) in enumerate((
        ("pages = no", "pages = no\ndesk = /tmp/x"), ("program = ", "program = /tmp/x # "),
        ("[people]", "[hooks]\nafter_close = x\n[people]"),
        (": proxy", ": proxy, hand in"), ("Kohl: all", "Kohl: all, proxy"),
    )):  # fmt: skip
        new = file_of(work, f"fixed-{number}.ini", said_by(office).replace(was, becomes))
        words = ["settings", "--file", str(new), *WHY, *of("anna"), *own]
        yield f"a text with {becomes!r}", unchanged(office, 3, [f"{new}: ", EDITOR], *words)


# Texts.


def text_trials(work: Path) -> Iterator[Told]:
    """What is no text of settings, or hides something, is refused with its place; what is one counts to the letter."""
    office, own = settled(work, "texts")
    now = said_by(office)
    for name, content, has in (
        ("twice", f"{now}[people]\nx = X: all\n", "these are no settings"), ("empty", "", "no row [office]"),
        ("twice a name", f"{now}anna = Anna: all\n", "these are no settings"), ("nothing", "\n", "no row [office]"),
        ("a NUL", f"{now}hedy = E\0va: all\n", "<NUL>; expected a line of"),
        ("a long line", f"{now}# {'x' * 500}\n", "502 letters"),
        ("10 MB", now + "# x\n" * 2_500_000, "letters; expected at most 100,000"),
        ("blanks", f"{now}a{' ' * 90_000}b\n", "letters"),
        ("a section of a holder", f"{now}[holder 5501]\naccounts = all\n", "section: found 'holder 5501'"),
        ("a line that goes on", now.replace("Berg: all", "Berg: look\n  zoe = Zoe: all"), "anna: found"),
        ("right to left", f"{now}hedy = Eva \u202e: all\n", "<U+202E>; expected"),
        ("no rights", f"{now}hedy = Eva\n", "hedy: found"),
        ("a return", f"{now}hedy = Eva\rzoe: all\n", "<carriage return>"),
        ("two holders", f"{now}hedy = E: holder 1, holder 2\n", "hedy: "),
        ("all and a holder", f"{now}hedy = Eva: holder 5501, all\n", "hedy: found"),
        ("a number", f"{now}[due]\nlead = x\n", "lead: "),
        ("no section", "layout = 1\n", "these are no settings"),
        ("a program of bytes", f"{now}[poeple]\n", "found 'poeple'"),
    ):  # fmt: skip
        new = work / f"{name}.ini"
        new.write_bytes(content.encode("utf-8", "surrogateescape"))
        yield name, unchanged(office, 3, [f"{new}", has], "settings", "--file", str(new), *WHY, *of("anna"), *own)
    for name, content in (
        ("as it is", now), ("another comment", f"# new\n{now}"), ("line ends of Windows", now.replace("\n", "\r\n")),
        ("a mark of bytes", f"\ufeff{now}"),
    ):  # fmt: skip
        new = work / f"{name}.ini"
        new.write_bytes(content.encode())
        yield name, unchanged(office, 2, ["it is so already"], "settings", "--file", str(new), *WHY, *of("anna"), *own)
    strange = now.replace("layout = 1", "layout = 1\nname = 100 %(program)s %s ${x} \u00c4\udcff")
    new = work / "strange.ini"
    new.write_bytes(strange.encode("utf-8", "surrogateescape"))
    said = Said("settings", "--file", str(new), *WHY, *of("anna"), *own)
    shown = "+ [office] name = 100 %(program)s %s ${x} \u00c4<byte FF>"
    yield "what stands for nothing", None if shown in said.output else said
    must_do(["approve", "settings", said.output.rpartition("settings ")[2].strip(), *of("bert"), *own])
    yield "to the letter", differs((office / HERE).read_bytes(), new.read_bytes())
    with folder.at(office) as there:
        yield "it is read so", differs(there.settings.name, "100 %(program)s %s ${x} \u00c4\udcff")


def line_trials(work: Path) -> Iterator[Told]:
    """A line comes into its section, in place of one with its name; what is no line is refused."""
    office, own = settled(work, "lines")
    for line in (
        "lead = 20",
        "[due]",
        "[due] lead",
        "",
        "[] a = b",
        "[due] = 3",
        "[due] lead = 2\n[people] x = X: all",
        "[[due]] lead = 3",
    ):
        yield f"{line!r}", unchanged(
            office, 2, ["expected [SECTION] NAME = VALUE"], "settings", line, *WHY, *of("anna"), *own
        )
    hidden = unchanged(office, 3, ["found"], "settings", "[people] [four eyes] = x", *WHY, *of("anna"), *own)
    yield "a section in a name", hidden
    for number, (lines, wanted) in enumerate((
        (["[office] name = Here", "[four eyes] commands = close, undo"], ["name = Here", "commands = close, undo"]),
        (["[four eyes] commands = close", "[due]lead=7"], ["commands = close", "lead = 7"]),
        (["[people] cora = Cora B. Lund: hand in, close"], ["cora = Cora B. Lund: hand in, close"]),
    )):  # fmt: skip
        must_do(["approve", "settings", asks(own, *lines), *of("bert"), *own])
        there = said_by(office).split("\n")
        yield f"{number}: its lines", [line for line in wanted if there.count(line) != 1]
    must_do(
        ["approve", "settings", asks(own, "[four eyes] commands =", "[four eyes] commands = undo"), *of("bert"), *own]
    )
    yield "its people", told(
        0, ["[people] dan = Dan Moor: change\n", "commands = undo\n"], "settings", *of("anna"), *own
    )


# What came in between.


def changed_trials(work: Path) -> Iterator[Told]:
    """Of another office.ini than lay there, nothing is approved, also not what two asked for one after another."""
    office, own = settled(work, "changed")
    first, second = asks(own, LEAD), asks(own, HEDY, login="bert")
    text = said_by(office)
    (office / HERE).write_text(f"{text}# of the owner\n")
    has = ["office.ini: SHA-256: found ", f"which it was when event {first} asked for another one: ask once more"]
    yield "an editor came between", unchanged(office, 3, has, "approve", "settings", first, *of("bert"), *own)
    waits = Said("approve", *own)
    yield "it waits no longer", None if "nothing waits" in waits.output else waits
    became = f"event {first}, asked for by Anna Berg (anna)", ", of another office.ini than lies there now"
    yield "settings says so", told(0, [*became], "settings", *of("anna"), *own)
    (office / HERE).write_text(text)
    must_do(["approve", "settings", first, *of("bert"), *own])
    of_old = ["SHA-256: found ", f"when event {second} asked"]
    yield "the other one", unchanged(office, 3, of_old, "approve", "settings", second, *of("anna"), *own)
    third = asks(own, "[people] dan = Dan Moor: all", login="bert")
    path = office / HERE
    path.write_text(said_by(office).replace("anna = Anna Berg: all", "anna = Anna Berg: look\nzoe = Zoe: all"))
    yield "who may no longer", unchanged(office, 3, ["SHA-256"], "approve", "settings", third, *of("anna"), *own)
    yield "nor asks", unchanged(office, 2, ["may look, and not all"], "settings", LEAD, *WHY, *of("anna"), *own)
    yield "in the middle", middle(office, third)


def middle(office: Path, number: str) -> object:
    """What is wrong if office.ini is changed behind the first look at rights: those count that stand."""
    path, text = office / HERE, said_by(office).replace("anna = Anna Berg: look", "anna = Anna Berg: all")
    path.write_text(text)
    with folder.at(office) as there:
        path.write_text(text.replace("anna = Anna Berg: all", "anna = Anna Berg: look"))
        with contextlib.suppress(Fault):
            rewriting.ask(there, By(f"{people.system_login()}:anna", "x"), rewriting.Rewrite("x", (LEAD,)))
            return "anna asked, who may look"
    return None if number not in {str(each) for each in events_of(office, "of", what="approved")} else "it is approved"


def taken_trials(work: Path) -> Iterator[Told]:
    """It is taken back by who may do all, once, and is gone then."""
    office, own = settled(work, "taken")
    number = asks(own, LEAD)
    take = ["take-back", "settings", number, "--why", "a slip"]
    for login in ("cora", "gerd", "zoe"):
        yield f"{login} takes it back", unchanged(office, 2, refusal_of(login), *take, *of(login), *own)
    yield "it is taken back", told(0, [f"taken back: event {number}, another office.ini"], *take, *of("bert"), *own)
    yield "twice", unchanged(office, 2, [NOT_SO], *take, *of("bert"), *own)
    yield "and not approved", unchanged(office, 2, [NOT_SO], "approve", "settings", number, *of("bert"), *own)
    yield "it is told", told(
        0, [", taken back by Bert Kohl (bert), as ", ": a slip: she begins"], "settings", *of("anna"), *own
    )
    yield "what was handed in is as it was", told(0, ["handed in: nothing"], "status", *own)
    for word in ("2", "x", "99"):
        yield f"event {word}", unchanged(office, 2, [], "take-back", "settings", word, "--why", "x", *of("anna"), *own)


def ended_trials(work: Path) -> Iterator[Told]:
    """Where the disk fails behind the event, the one before counts, and that is told; before it, nothing is done."""
    office, own = settled(work, "ended")
    number, text = asks(own, LEAD), said_by(office)
    for name, call, status in (
        ("the other text", "registry_tools.office.rewriting.sync", 5),
        ("its name", "os.replace", 5),
    ):
        with mock.patch(call, side_effect=OSError(status, "Input/output error")), folder.at(office) as there:
            try:
                rewriting.approve_rewrite(there, By(f"{people.system_login()}:bert", "x"), int(number))
                yield f"{name} fails", "it was approved"
            except (Fault, OSError) as fault:
                is_told = "approves what is not written: ask for it once more" in str(fault)
                yield f"{name} fails", None if "Input/output error" in str(fault) and is_told == (
                    call == "os.replace"
                ) else fault
        yield f"{name}: the one before counts", differs(said_by(office), text)
        count = len(events_of(office, "id", what="approved"))
        yield f"{name}: what is kept", differs(count, 0 if "sync" in call else 1)
    left = sorted(each.name for each in office.iterdir())
    yield "nothing is left beside", differs(left, [HERE, "registry.sqlite"])
    yield "audit tells it", told(0, [f"not the one that was approved last, as event {number}"], "audit", *own)
    yield "approved twice", unchanged(office, 2, [NOT_SO], "approve", "settings", number, *of("bert"), *own)
    must_do(["approve", "settings", asks(own, LEAD), *of("bert"), *own])
    yield "once more", None if LEAD.partition("] ")[2] in said_by(office) else said_by(office)


def once_trials(work: Path) -> Iterator[Told]:
    """Two that approve at once: it is approved once."""
    office, own = settled(work, "at-once", named={**desk(), "eva": "Eva Nord: all"})
    number = asks(own, LEAD)
    ended = [
        run.wait() for run in [at_once("approve", "settings", number, *of(login), *own) for login in ("bert", "eva")]
    ]
    yield "two approvals", None if 0 in ended and {*ended} <= {0, 2, 3} and ended != [0, 0] else ended
    yield "one event", differs(len(events_of(office, "id", what="approved")), 1)
    yield "whole", told(0, ["0 differences", "was approved by"], "audit", *own)


def beside_trials(work: Path) -> Iterator[Told]:
    """What else waits stays as it was, and what is asked for outlives a day."""
    office, own = settled(work, "beside", "close")
    must_do(["hand-in", str(file_of(work, "beside.csv", "work,2025-10-06")), *of("anna"), *own])
    close = ["close", "--date", TUESDAY]
    Said(*close, *of("anna"), *own)
    number = asks(own, LEAD)
    must_do(["approve", *close, *of("bert"), *own])
    both = [f"close {TUESDAY}, asked for by", "is approved by Bert Kohl", f"event {number}, another office.ini"]
    yield "both wait", told(0, both, "approve", *own)
    must_do([*close, *of("anna"), *own])
    yield "it waits behind the day", told(0, [f"event {number}, another office.ini"], "approve", *own)
    yield "it is approved then", told(0, ["it is written"], "approve", "settings", number, *of("bert"), *own)
