"""The calls whose memory and threads run-refusals refuses: their days, the library that refuses, and what must come of
it."""
from __future__ import annotations

import os
import subprocess
import sys
import tempfile
from collections.abc import Iterable, Iterator, Mapping, Sequence
from dataclasses import dataclass
from enum import Enum
from pathlib import Path

from harness import TOP

# A run that takes longer is ended, and counts as one that hangs.
MOST_SECONDS = 20
# The program takes so many workers, and reads by so many threads.
MOST_WORKERS = 8
# The commands that answer by a thread for each processor, at most so many, and what they do by all of these: each reads
# the text, the plan also takes the accounts that instructions touch, and figures and totals do that for the regions,
# try them and settle them. For a statement the calling thread settles the day alone.
QUESTIONS = {("plan",): 2, ("statement", "1"): 1, ("figures",): 4, ("totals",): 4}
# So many accounts make a text that is long enough for all of these threads, of 64 KB or more each, and a report that is
# spelled by as many.
MANY_ACCOUNTS = 20_000
# These do the work of a thread that cannot be started themselves, so they never answer that there was none.
DO_WITHOUT_THREADS = (
    "command_settle",
    "command_workers",
    "plan_with",
    "read_day_of_pieces",
    "settle",
    "settle_regions",
    "write_report_of_lists",
    "write_report_pieces",
)
# What an answer is called, and whether the call was then refused something.
ANSWERS = {"done": False, "no memory": True, "no thread": True, "given back": True}

HEADING = """\
format,1
day,2025-03-31,{next}
period,2021,2030
lags,0,1,1,2
surrender,operator,general
surrender,aircraft,general
surrender,aircraft,aviation
admin,901
admin,902
work,2025-03-31
work,2025-04-01
work,2025-04-02
work,2025-04-03
work,2025-04-04
"""
# The accounts that most cases share.
ACCOUNTS = """\
account,1,operator,11,open,no,no,0,100,0
user,101,propose
user,102,approve
trusted,2,2025-03-03
account,2,trading,12,open,no,no,0,0,0
user,201,both
user,202,both
trusted,1,2025-03-03
account,3,aircraft,13,open,no,no,0,0,50
user,301,propose
user,302,approve
account,8,allocation,1,open,no,no,0,0,0
account,9,total,1,open,no,no,0,0,0
"""
# An account whose lists have no more room where they lie.
LISTED = """\
account,1,operator,11,open,no,no,-5,100,7
user,101,propose
user,102,approve
user,103,both
user,104,both
user,105,both
trusted,2,2025-03-03
trusted,4,2025-03-03
trusted,5,2025-03-03
trusted,6,2025-03-03
trusted,8,2025-04-01
retired,1,surrender,general,60,2025-03-28,no
retired,2,surrender,general,20,2025-03-28,no
retired,3,surrender,general,5,2025-03-28,no
retired,4,surrender,general,5,2025-03-28,no
retired,5,deletion,aviation,10,2025-03-28,yes
emissions,2022,50
figure,2021,25
account,2,trading,12,open,no,no,0,0,0
"""
# An account that trusts as many others as there is room for where its list lies.
TRUSTING = """\
account,1,operator,11,open,no,no,0,100,0
user,101,propose
user,102,approve
trusted,2,2025-03-03
trusted,4,2025-03-03
trusted,5,2025-03-03
trusted,6,2025-03-03
account,3,aircraft,13,open,no,no,0,0,50
"""
# An account of which no figure is determined yet.
EMITTING = """\
account,1,operator,11,open,no,no,-5,100,0
user,101,propose
retired,4,surrender,general,90,2025-03-28,no
retired,5,surrender,general,10,2025-03-28,no
emissions,2021,60
emissions,2022,50
"""

# Two accounts that distribute, and the eight to which each of them does.
RECEIVERS = {8: range(20, 28), 18: range(30, 38)}
DISTRIBUTING = "".join(f"account,{number},allocation,1,open,no,no,0,80,0\n" for number in RECEIVERS) + "".join(
    f"account,{number},operator,{number},open,no,no,0,0,0\n" for of in RECEIVERS.values() for number in of
)


@dataclass(frozen=True)
class Day:
    """A day text, or a row of one, and what it is."""

    name: str
    text: bytes


def day(name: str, instructions: Iterable[str], accounts: str = ACCOUNTS, following: int = 1) -> Day:
    """The day with these instructions, each without the first fields of its row."""
    rows = "".join(f"do,2025-03-31,{row}\n" for row in instructions)
    return Day(name, (HEADING.format(next=following) + accounts + rows + "end\n").encode())


def unknown(count: int, first: int = 71) -> list[str]:
    """Transfers to accounts that are not there, which touch no account."""
    return [f"101,102,transfer,1,{first + number},general,1" for number in range(count)]


def distributed() -> Iterator[str]:
    """Two distributions to eight accounts, and an instruction on each of the eighteen accounts.

    The eighteen wait for the distributions, and come into the deque of whoever runs these: more than it has room for,
    if that is one worker.
    """
    for number, receivers in RECEIVERS.items():
        yield f"901,902,distribute,{number},general," + ",".join(f"{receiver},1" for receiver in receivers)
    for number, receivers in RECEIVERS.items():
        yield f"901,902,status,{number},blocked"
        yield from (f"901,902,emissions,{receiver},2021,60" for receiver in receivers)


TRANSFER = day("a transfer", ["101,102,transfer,1,2,general,40"])
TWICE = day("two transfers of which the second finds too little", ["101,102,transfer,1,2,general,70"] * 2)
BACK = day("a transfer and another back", ["101,102,transfer,1,2,general,100", "201,202,transfer,2,1,general,100"])
APART = day("two surrenders apart", ["101,102,surrender,1,general,50", "301,302,surrender,3,aviation,50"])
UNKNOWN = day("eight transfers to unknown accounts", unknown(8))
CHAIN = day("64 transfers in a chain", ["101,102,transfer,1,2,general,1"] * 64)
CREATED = day(
    "allowances created, moved, given back and deleted",
    [
        "901,902,create,9,general,1000",
        "901,902,central,9,8,general,600",
        "901,902,central,8,1,general,100",
        "101,102,return,1,8,general,50",
        "101,102,delete,1,general,30",
    ],
)
ENTERED = day("emissions entered", ["901,902,emissions,1,2021,60"])
TRUSTED = day("a fifth trusted account", ["101,102,trust,1,3"], TRUSTING)
ASSESSED = day("a first figure determined", ["901,902,assess,1,2022"], EMITTING, 6)
MANY = day("17 transfers to unknown accounts", unknown(17))
# As many log rows as are spelled by several threads.
LOGGED = day("1,024 transfers to unknown accounts", unknown(1024))
# One instruction alone: neither its plan nor its log row takes a second thread.
LONG = day(
    "a long day",
    ["101,102,transfer,1,2,general,40"],
    ACCOUNTS + "".join(f"account,{10 + number},trading,12,open,no,no,0,0,0\n" for number in range(MANY_ACCOUNTS)),
)
# The same, given as a file.
FILED = Day("a long day as a file", LONG.text)
# As many instructions as eight threads look up and spell, each of 1,024.
FULL = day(
    "a long day of 8,192 instructions",
    unknown(8192, 2 * MANY_ACCOUNTS),
    ACCOUNTS + "".join(f"account,{10 + number},trading,12,open,no,no,0,0,0\n" for number in range(MANY_ACCOUNTS)),
)
# Twice as many transfers between accounts that stand far apart, which are most of the book: each pair is a bundle of
# two of them, and one of its accounts has to be swapped into the region of the other, where few stand that nobody
# wants.
SWAPPED = day(
    "a long day of 16,384 transfers, two of each pair of accounts far apart",
    [f"101,102,transfer,{10 + number},{9 + MANY_ACCOUNTS - number},general,1" for number in range(8192)] * 2,
    ACCOUNTS + "".join(f"account,{10 + number},trading,12,open,no,no,0,0,0\n" for number in range(MANY_ACCOUNTS)),
)
# A file of it is read in two pieces, of which the second begins with an account in the middle; empty lines say nothing.
HALF = 72 * 1024
PADDED = Day(
    "a transfer amid empty lines, as a file",
    TRANSFER.text.replace(b"account,1,", b"\n" * HALF + b"account,1,", 1) + b"\n" * HALF,
)
LISTS = day("an account with long lists", [], LISTED, 6)
FAULTY = Day("a last row of an unknown tag", TWICE.text.replace(b"\nend\n", b"\nended\n"))
ONE_ROW = Day("one instruction alone", b"do,2025-03-31,101,102,transfer,1,2,general,40\n")
DISTRIBUTED = day("two distributions to eight accounts, and 18 instructions on these", distributed(), DISTRIBUTING)
ALL_ACTS = Day("every row and every act", (TOP / "cases" / "books" / "every-row-and-act.csv").read_bytes())
PERIODS = Day("two periods", (TOP / "cases" / "periods" / "a-day-in-the-second-of-two-periods.csv").read_bytes())
FACTORS = Day(
    "factors of eight periods", (TOP / "cases" / "periods" / "figures-of-each-of-eight-periods.csv").read_bytes()
)

# The batches that are settled in every way, each with its number of workers.
BATCHES = [(TRANSFER, 1), (TWICE, 2), (BACK, 2), (APART, 2), (UNKNOWN, 8), (CHAIN, 8)]
# The other calls: the word, and the day.
OTHERS = [
    ("copy", TRANSFER),
    ("copy", LISTS),
    ("copy", FACTORS),
    ("retire", APART),
    ("retire", LISTS),
    ("trust", TRUSTED),
    ("trust", LISTS),
    ("set_emissions", ENTERED),
    ("set_emissions", LISTS),
    ("determine", ASSESSED),
    ("determine", LISTS),
    ("execute", APART),
    ("execute", TRUSTED),
    ("execute", ENTERED),
    ("execute", ASSESSED),
    ("apply", TRUSTED),
    ("apply", ENTERED),
    ("apply", ASSESSED),
    ("draft_insert:0", TRANSFER),
    ("draft_insert:4", TRANSFER),
    ("directory_insert", TRANSFER),
    ("directory_insert:1", TRANSFER),
    ("plan_of", TWICE),
    ("plan_with:1", TWICE),
    ("plan_with:2", APART),
    ("plan_with:8", ALL_ACTS),
    ("check_order", TWICE),
    ("plan_text", TWICE),
    ("context_of", APART),
    ("opening", TWICE),
    ("task_run", TRANSFER),
    ("task_run", APART),
    ("gather", APART),
    ("world_new:2", APART),
    ("world_run:2", APART),
    ("world_run:2", BACK),
    ("claim_table", MANY),
    ("dock_new", TWICE),
    ("docks_new", TWICE),
    ("docks_new", UNKNOWN),
    ("yard_new:2", APART),
    ("yard_new:8", APART),
    ("put:16", MANY),
    ("settle_with:2", MANY),
    ("settle_with:2", DISTRIBUTED),
    ("settle_regions:2", MANY),
    ("settle_regions:2", DISTRIBUTED),
    ("read_day", TRANSFER),
    ("read_day", LISTS),
    ("read_day", PERIODS),
    ("read_day", FACTORS),
    ("read_instruction", ONE_ROW),
    ("read_version", PERIODS),
    ("read_day_of_pieces:1", TRANSFER),
    ("read_day_of_pieces:2", LISTS),
    ("read_day_of_pieces:8", ALL_ACTS),
    ("write_report", TRANSFER),
    ("write_report_pieces:1", TRANSFER),
    ("write_report_pieces:2", LOGGED),
    ("write_report_pieces:8", LOGGED),
    ("write_report_of_lists:1", TRANSFER),
    ("write_report_of_lists:8", LOGGED),
    ("write_log_row", TRANSFER),
    ("write_book", TRANSFER),
    ("write_book", FACTORS),
    ("figures", LISTS),
    ("totals_text", CREATED),
    ("statement", TWICE),
    ("all_statements", TWICE),
    ("write_front", PERIODS),
    ("command_plan", TWICE),
    ("command_statement:1", TWICE),
    ("command_figures", ASSESSED),
    ("command_totals", CREATED),
    # (these end with a fault: no such account, 9 workers, and a row that is faulty)
    ("command_statement:77", TWICE),
    ("command_workers:9", TWICE),
    ("command_settle:2", FAULTY),
    ("command_statement:1", FAULTY),
]


class Wrong(Exception):
    """Says what is wrong with a run."""


class Way(Enum):
    """How a number says what is refused."""

    ALONE = "in turn"
    REST = "with all after them"
    OWN = "of the calling thread"
    OTHERS = "of other threads"


# What tells the library how a number says what is refused.
SETTINGS: dict[Way, dict[str, str]] = {
    Way.ALONE: {},
    Way.REST: {"REFUSE_REST": "1"},
    Way.OWN: {"REFUSE_OF": "own"},
    Way.OTHERS: {"REFUSE_OF": "others"},
}


@dataclass(frozen=True)
class Attempt:
    """The number of what is refused; nothing is if it is 0."""

    number: int
    way: Way = Way.ALONE

    def settings(self) -> dict[str, str]:
        return {"REFUSE_CALL": str(self.number), **SETTINGS[self.way]}


@dataclass(frozen=True)
class Found:
    """What the library has found, and how the program ended."""

    calls: int
    refused: int
    at: int
    own: str
    started: int
    joined: int
    detached: int
    left: int
    lost: int
    status: int
    stdout: bytes
    stderr: bytes


class Program:
    """A program behind the library that refuses. It gets its text by a pipe, or as a file."""

    def __init__(
        self, library: str, work: str, path: str, words: Sequence[str], text: bytes, is_file: bool = False
    ) -> None:
        self.library, self.work, self.path, self.words, self.text = library, work, path, words, text
        self.is_file = is_file

    def run(self, attempt: Attempt, more: Mapping[str, str] | None = None) -> Found:
        handle, told = tempfile.mkstemp(dir=self.work)
        os.close(handle)
        settings = {"LD_PRELOAD": self.library, "REFUSE_TELL": told, **attempt.settings(), **(more or {})}
        try:
            run = self.answer({**os.environ, **settings})
        except subprocess.TimeoutExpired as late:
            raise Wrong(f"no answer in {MOST_SECONDS} seconds") from late
        with open(told, encoding="ascii") as lines:
            told_of = dict((line.rstrip("\n").split(" ", 1) + [""])[:2] for line in lines)
        os.remove(told)
        if not told_of:
            raise Wrong(f"status {run.returncode}, and nothing found: {run.stderr[-300:]!r}")
        numbers = {name: int(told_of[name]) for name in Found.__annotations__ if name in told_of and name != "own"}
        return Found(**numbers, own=told_of["own"], status=run.returncode, stdout=run.stdout, stderr=run.stderr)

    def answer(self, settings: Mapping[str, str]) -> subprocess.CompletedProcess[bytes]:
        """Runs it with these variables of the environment."""
        words = [self.path, *self.words]
        if not self.is_file:
            return subprocess.run(words, input=self.text, env=settings, capture_output=True, timeout=MOST_SECONDS)
        with tempfile.TemporaryFile(dir=self.work) as file:
            file.write(self.text)
            file.seek(0)
            return subprocess.run(words, stdin=file, env=settings, capture_output=True, timeout=MOST_SECONDS)


def starts_in(own: str) -> set[int]:
    """Which calls of the thread that makes the tried call belong to starts of threads, counted from 1.

    The memory for what a thread is told is taken right before its start.
    """
    places = set()
    for place, letter in enumerate(own, 1):
        if letter in "ti":
            places.add(place)
        if letter == "t" and place > 1 and own[place - 2] == "m":
            places.add(place - 1)
    return places


class Case:
    """A call that is tried, and its name."""

    def __init__(self, name: str, program: Program) -> None:
        self.name, self.program = name, program
        self.starts: set[int] = set()

    def found(self, attempt: Attempt) -> Found:
        """Makes the call once."""
        raise NotImplementedError

    def look_at(self, found: Found) -> bool:
        """Answers whether the call was refused something. Fails if anything is not as it has to be."""
        raise NotImplementedError

    def refused_word(self, found: Found) -> str:
        """The answer that is wanted if there is one that tells of a refusal."""
        does_without = self.program.words[0].partition(":")[0] in DO_WITHOUT_THREADS
        return "no thread" if found.at in self.starts and not does_without else "no memory"

    def try_ample(self) -> Found:
        found = self.found(Attempt(0))
        self.starts = starts_in(found.own)
        self.look_at(found)
        if found.refused:
            raise Wrong("something was refused")
        return found


class CallCase(Case):
    """A call that `test_refusals` makes."""

    def found(self, attempt: Attempt) -> Found:
        return self.program.run(attempt)

    def look_at(self, found: Found) -> bool:
        """Answers whether the call was refused something. Fails if anything is not as it has to be."""
        lines = found.stdout.decode(errors="replace").splitlines()
        if found.status != 0 or lines[:1] != list(self.program.words) or lines[1:3] != ["begin", "end"]:
            raise Wrong(f"status {found.status}, {lines}")
        answer = lines[3]
        if answer not in ANSWERS:
            raise Wrong(f"it ended {answer}")
        wanted = ["right"]
        if ANSWERS[answer]:
            wanted = ["unchanged", "done", "right"]
            if found.refused == 0:
                raise Wrong(f"{answer}, though nothing was refused")
            if answer not in (self.refused_word(found), "given back"):
                raise Wrong(f"{answer} in place of {self.refused_word(found)}")
        if lines[4:] != wanted:
            raise Wrong(f"{answer}, and then {lines[4:]}")
        if found.started != found.joined or found.detached:
            raise Wrong(f"{answer}: {found.started} threads started, {found.joined} joined, {found.detached} let go")
        if found.left or found.lost:
            raise Wrong(f"{answer}: {found.left} blocks were not given back")
        return ANSWERS[answer]


class ProgramCase(Case):
    """The program `registry`, from its first call to its end. It is told that it may use so many processors, or as many
    as there are."""

    def __init__(self, name: str, program: Program, told: int | None = None) -> None:
        super().__init__(name, program)
        self.report = b""
        self.settings = {"REFUSE_ALL": "1"} | ({} if told is None else {"REFUSE_PROCESSORS": str(told)})

    def try_ample(self) -> Found:
        """The whole text is what the program, or one worker of it, writes behind no library."""
        words = ["settle", "--workers", "1"] if self.program.words[0] == "settle" else self.program.words
        run = subprocess.run([self.program.path, *words], input=self.program.text, capture_output=True, check=True)
        self.report = run.stdout
        return super().try_ample()

    def found(self, attempt: Attempt) -> Found:
        return self.program.run(attempt, self.settings)

    def try_threads(self, wanted: int) -> None:
        """The program starts so many threads."""
        started = self.try_ample().started
        if started != wanted:
            raise Wrong(f"{started} threads started, wanted {wanted}")

    def look_at(self, found: Found) -> bool:
        if found.status == 0 and found.stdout == self.report and not found.stderr:
            return False
        said = "out of memory" if self.refused_word(found) == "no memory" else "no thread"
        # (the threads that read a file are done without, so that what is refused after them tells)
        told = "out of memory\n" if self.program.is_file and found.stderr == b"out of memory\n" else said + "\n"
        if found.status != 4 or found.stdout or found.stderr.decode() != told:
            raise Wrong(
                f"status {found.status}, {len(found.stdout)} bytes written, {found.stderr[-200:]!r}; wanted {said}"
            )
        if found.started != found.joined or found.detached:
            raise Wrong(f"{found.started} threads started, {found.joined} joined, {found.detached} let go")
        return True


def settle_case(
    library: str, work: str, registry: str, workers: int, of: Day, is_file: bool = False
) -> ProgramCase:
    """The program settles a batch by so many workers."""
    words = ["settle", "--workers", str(workers)]
    program = Program(library, work, registry, words, of.text, is_file)
    return ProgramCase(f"registry {' '.join(words)}, {of.name}", program)


def cases_of(library: str, work: str, refusals: str, registry: str) -> Iterator[Case]:
    """All cases."""

    def call(word: str, of: Day) -> CallCase:
        return CallCase(f"{word}, {of.name}", Program(library, work, refusals, [word], of.text))

    def program(workers: int, of: Day) -> ProgramCase:
        return settle_case(library, work, registry, workers, of)

    for of, workers in BATCHES:
        for word in ("settle_plain", "run_order"):
            yield call(word, of)
        for word in ("settle_waves", "settle_with", "settle_regions", "command_settle"):
            yield call(f"{word}:{workers}", of)
        yield program(workers, of)
    yield program(4, ALL_ACTS)
    yield program(4, PERIODS)
    yield program(2, MANY)
    yield program(2, DISTRIBUTED)
    yield settle_case(library, work, registry, 2, PADDED, is_file=True)
    for word, of in OTHERS:
        yield call(word, of)


def processors() -> int:
    """How many processors a program may use here."""
    return min(len(os.sched_getaffinity(0)), quota())


def quota() -> int:
    """How many processors the container leaves to a program."""
    try:
        limit, period = Path("/sys/fs/cgroup/cpu.max").read_text(encoding="ascii").split()
        return max(int(limit) // int(period), 1)
    except (OSError, ValueError):
        return sys.maxsize


def thread_cases(library: str, work: str, registry: str) -> Iterator[tuple[ProgramCase, int]]:
    """Cases of the program, and how many threads each must start.

    To read takes all workers but the calling thread, and so does it to spell the accounts, with many instructions to
    look up their accounts, to try the regions, to settle them and to spell the log rows, and with a file to get its
    bytes. A short day that is one bundle starts none.
    """
    for workers in range(1, MOST_WORKERS + 1):
        others = workers - 1
        yield settle_case(library, work, registry, workers, ALL_ACTS), 0
        yield settle_case(library, work, registry, workers, LONG), 2 * others
        yield settle_case(library, work, registry, workers, FULL), 6 * others
        # (where a day is not dealt out to regions, the calling thread alone settles it)
        yield settle_case(library, work, registry, workers, SWAPPED), 6 * others
        yield settle_case(library, work, registry, workers, FILED, is_file=True), 3 * others
    for told in (1, MOST_WORKERS, 2 * MOST_WORKERS):
        others = min(told, quota(), MOST_WORKERS) - 1
        for words, times in QUESTIONS.items():
            program = Program(library, work, registry, [*words], FULL.text)
            name = f"registry {' '.join(words)} on {told} processors, {FULL.name}"
            yield ProgramCase(name, program, told), times * others
