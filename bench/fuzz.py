#!/usr/bin/env -S python3 -B
"""Tries the program on day texts that come of the cases by changes at random, without anybody who steers.

usage: fuzz.py [--program PROGRAM] [--minutes N] [--seed N] [--jobs N] [--corpus FOLDER] [--self-test]

It begins with all texts of cases/ and examples/, those of tables too. Again and again it takes one of its texts,
changes a few rows, fields, bytes or line ends, puts two texts together, or repeats accounts until the text has several
parts (`mutations.py`), and compares what the program says of it with the second answer
(`registry_tools`): by `settle` with one worker and with a drawn number of them, and by two other commands, or where the
text has a fault by one. What a text shows is a set of words:

  fault     the tag of the first faulty row, its cause, and the tag of the row before it
  log       the act of an instruction, and the check that refused it, or `done`
  status    the act, the statuses of the accounts that it names, and the version
  command   a command, and its fault
  seam      where the program cuts a text of more than 128 KiB into parts for threads: how many, the tags of the rows in
            front of and behind a cut, and what is in the way of the part
  workers   the number of workers, and how many instructions there are, to the next power of two

A text that shows a word which none showed before is kept, in FOLDER (left out: out/fuzz) too: a later run begins with
those as well. Each text on which an answer differs stands in FOLDER/found, with the reason beside it. The same seed
gives the same texts, if FOLDER is the same. PROGRAM is out/registry, unless another is named; N jobs (left out: one for
each processor) run at once, for N minutes (left out: 10).

With --self-test it tries for some seconds a program that gives a wrong byte, line or status now and then, and fails if
one of these answers is not found, or another one is.

The last line is 'N passed, M failed', which counts texts; the exit status is 0 only if none failed and at least one
passed.
"""
import argparse
import hashlib
import os
import sys
import tempfile
import time
from collections import Counter
from collections.abc import Callable, Iterator, Sequence
from concurrent.futures import ProcessPoolExecutor
from dataclasses import dataclass, field, replace
from pathlib import Path
from random import Random

import beside  # noqa: F401 (it finds the modules of cases/)
from harness import TOP, Trials, program_of

from registry_tools.second import faults
import mutations
from registry_tools.second import rules
from compared import Expected, difference as difference_once
from stored import Case, trials_of_folder

# So many texts are drawn before what they showed is looked at.
ROUND = 256
# One of so many texts grows until it has several parts.
ONE_GROWS = 40
LARGE = 64 * 1024
LARGEST_WORKERS = 8
PART = 64 * 1024
STARTS = (b"\naccount,", b"\ndo,")
TAGS = {*faults.FIELDS, "current", "correction", "do"}
NO_ACCOUNT = ("", "no such account\n", 2)
# The self-test ends after so many texts.
TEST_TEXTS = 60
SAY_AFTER = 60
# A reason is cut behind so many letters.
MOST_LETTERS = 400


@dataclass(frozen=True)
class Tried:
    """What came of a text: the words that it shows, how many runs there were, and which differ from the second
    answer."""

    shown: frozenset[str]
    runs: int
    differ: list[str]


@dataclass(frozen=True)
class Task:
    """A text to try. Where another text is named, it is changed before, and may take something of that one."""

    program: Path
    text: bytes
    other: bytes | None
    seed: str
    grows: bool


def first_texts() -> list[bytes]:
    """All texts of cases/ and examples/."""
    trials = (trial for _, trial in trials_of_folder(TOP / "cases"))
    texts = [trial.text for trial in trials if isinstance(trial, Case)]
    texts += [path.read_bytes() for path in sorted((TOP / "examples").rglob("*.csv"))]
    return [*dict.fromkeys(text for text in texts if len(text) < LARGE)]


# What a text shows.


def cut(text: bytes, near: int) -> int:
    """Where the program cuts a text, at or behind a place."""
    found = (text.find(start, near) for start in STARTS)
    return next((at + 1 for at in found if at >= 0), len(text))


def parts(text: bytes, workers: int) -> list[bytes]:
    """The parts in which so many threads read a text: the rows before the accounts, and what is behind them."""
    count = min(len(text) // PART, workers)
    if count < 2:
        return [text]
    head = cut(text, 0)
    pieces, rest = [text[:head]], text[head:]
    for left in range(1, count):
        at = cut(rest, len(rest) // (count - left + 1))
        if at == len(rest):
            break
        pieces.append(rest[:at])
        rest = rest[at:]
    return [*pieces, rest]


def tag(row: Sequence[str]) -> str:
    """The tag of a row, if it is one that rows have."""
    return row[0] if row and row[0] in TAGS else "?"


def tag_of_line(line: bytes) -> str:
    return tag(line.decode("latin-1").split(",", 1))


def seams(text: bytes, workers: int) -> Iterator[str]:
    """A word for each cut of the text."""
    pieces = parts(text, workers)
    for place, (before, behind) in enumerate(zip(pieces, pieces[1:])):
        last, first = before.rstrip(b"\n").rsplit(b"\n", 1)[-1], behind.split(b"\n", 1)[0]
        tags = f"{tag_of_line(last)} {tag_of_line(first)}"
        yield f"seam {len(pieces)} {min(place, 1)} {tags} {in_the_way(behind)}"


def in_the_way(part: bytes) -> str:
    """What makes a part of a text hard to read by itself."""
    if b'"' in part:
        return "quote"
    if part.startswith(b"\xef"):
        return "mark"
    return "plain" if part.endswith(b"\n") else "line"


def fault_word(text: bytes, fault: str) -> str:
    """The first fault of a text, with the tags of its row and of the row before."""
    number, cause = fault[4:].split(":")
    rows = [[""]]
    for place, row in enumerate(rules.fields_in(text), 1):
        if place in (int(number), int(number) - 1):
            rows.append(row)
        if place == int(number):
            break
    else:
        rows.append([""])
    return f"fault {tag(rows[-1])}{cause.rstrip()} behind {tag(rows[-2])}"


def log_words(text: bytes, report: str) -> Iterator[str]:
    """The words of the log rows of a day, and of the statuses of the accounts that their acts name."""
    day = rules.day_in(text)
    version = next(rules.fields_in(text))[1]
    statuses = {number: account.status for number, account in day.accounts.items()}
    for asked, line in zip(day.instructions, report.splitlines()):
        fields = line.split(",")
        is_done = fields[-3] != "refused"
        yield f"log {asked.act} {'done' if is_done else fields[-1]}"
        named = [statuses.get(number, "none") for number in rules.named(asked)[:3]]
        yield f"status {asked.act} {' '.join(named)} {version}"
        if asked.act == "status" and is_done:
            statuses[asked.first] = rules.known(asked.status)
    yield f"periods {len(day.periods)} {day.current}"


# Trying a text.


def words_of_settle(chance: Random, workers: int) -> str:
    return f"settle {chance.choice([f'--workers {workers}'] * 5 + [f'--workers={workers}', f'--workers +0{workers}'])}"


def other_words(chance: Random, accounts: list[str]) -> str:
    """The words of another command than `settle`; a statement is of one of these accounts, or of one that is not
    there."""
    command = chance.choice(["plan", "figures", "totals", "statement", "statement"])
    if command != "statement":
        return command
    known = accounts and chance.random() < 0.95
    return f"statement {chance.choice(accounts) if known else chance.randint(1, 999_999_999)}"


def expected_of(text: bytes, chance: Random) -> tuple[int, str, dict[str, Expected]]:
    """The workers that are drawn, and for each command to try what it has to answer."""
    workers = chance.randint(1, LARGEST_WORKERS)
    fault = faults.first_fault(text)
    if fault:
        tried = {words_of_settle(chance, workers), other_words(chance, [])}
        return workers, fault, {words: ("", fault, 3) for words in tried}
    answers = rules.answers(text)
    accounts = [words.split()[1] for words in answers if words.startswith("statement")]
    settled = ("settle --workers 1", words_of_settle(chance, workers))
    expected: dict[str, Expected] = {words: (answers["settle"], "", 0) for words in settled}
    for words in (other_words(chance, accounts), other_words(chance, accounts)):
        expected[words] = (answers[words], "", 0) if words in answers else NO_ACCOUNT
    return workers, "", expected


def shown_by(text: bytes, workers: int, fault: str, expected: dict[str, Expected]) -> Iterator[str]:
    """The words that a text shows, given what is expected of it."""
    yield from seams(text, workers)
    if fault:
        yield fault_word(text, fault)
    else:
        yield from log_words(text, expected["settle --workers 1"][0])
    instructions = text.count(b"\ndo,")
    yield f"workers {workers} {instructions.bit_length()} {bool(fault)}"
    for words, (_, line, _) in expected.items():
        yield f"command {words.split()[0]} {line.split(':')[-1].strip()}"


def difference(program: Path, words: str, text: bytes, wanted: Expected) -> str:
    """Where an answer is another one than it has to be. If there was none in time, it is asked for once more: the
    machine may have stood still."""
    said = difference_once(program, words, text, wanted)
    return difference_once(program, words, text, wanted) if "no answer" in said else said


def try_text(program: Path, text: bytes, seed: str) -> Tried:
    """Runs the program on a text, and compares."""
    chance = Random(seed)
    workers, fault, expected = expected_of(text, chance)
    shown = frozenset(shown_by(text, workers, fault, expected))
    said = [difference(program, words, text, wanted) for words, wanted in expected.items()]
    return Tried(shown, len(expected), [reason[:MOST_LETTERS] for reason in said if reason])


def try_task(task: Task) -> tuple[bytes, Tried]:
    """The text of a task, and what came of it. A second answer that fails counts as a difference."""
    made = task.text
    if task.other is not None:
        made = mutations.mutated(Random(f"change {task.seed}"), task.text, task.other, task.grows)
    try:
        return made, try_text(task.program, made, f"try {task.seed}")
    except Exception as error:  # (it is told with the text)
        return made, Tried(frozenset(), 0, [f"the second answer ended with {error!r}"])


# The texts that are kept.


@dataclass
class Corpus:
    """The texts that showed something new, and what was shown."""

    folder: Path
    days: list[bytes] = field(default_factory=list)
    faulty: list[bytes] = field(default_factory=list)
    large: list[bytes] = field(default_factory=list)
    shown: Counter[str] = field(default_factory=Counter)
    texts: int = 0
    runs: int = 0
    differ: int = 0

    def take(self, text: bytes, tried: Tried) -> None:
        """Counts a text; keeps it if it showed something new, and what differs."""
        self.texts += 1
        self.runs += tried.runs
        if any(word not in self.shown for word in tried.shown):
            is_faulty = any(word.startswith("fault") for word in tried.shown)
            (self.large if len(text) >= LARGE else self.faulty if is_faulty else self.days).append(text)
            self.save(self.folder, text)
        self.shown.update(tried.shown)
        if tried.differ:
            self.differ += 1
            path = self.save(self.folder / "found", text)
            path.with_suffix(".txt").write_text("\n".join(tried.differ) + "\n")
            print(f"DIFFERS: {path}: {tried.differ[0]}", flush=True)

    @staticmethod
    def save(folder: Path, text: bytes) -> Path:
        path = folder / f"{hashlib.sha1(text).hexdigest()[:16]}.csv"
        folder.mkdir(parents=True, exist_ok=True)
        path.write_bytes(text)
        return path

    def drawn(self, chance: Random) -> bytes:
        """One of the texts: most often a day without a fault, since most changes make one. Those that were kept last
        come more often."""
        many = chance.choices([self.days, self.faulty, self.large], [85, 14, 1])[0] or self.days
        return many[-chance.randint(1, min(len(many), 200))] if chance.random() < 0.3 else chance.choice(many)

    def counts(self) -> str:
        kinds = Counter(word.split()[0] for word in self.shown)
        words = ", ".join(f"{count} {kind}" for kind, count in sorted(kinds.items()))
        kept = f"{len(self.days)} days, {len(self.faulty)} with a fault, {len(self.large)} large"
        return f"{self.texts} texts, {self.runs} runs, {self.differ} differ; kept {kept}; shown: {words}"


def tasks_of_round(program: Path, corpus: Corpus, number: int, seed: int) -> Iterator[Task]:
    """The tasks of a round: each is drawn from what is kept by then."""
    chance = Random(f"{seed} {number}")
    for place in range(ROUND):
        grows = chance.randrange(ONE_GROWS) == 0
        yield Task(program, corpus.drawn(chance), corpus.drawn(chance), f"{seed} {number} {place}", grows)


def fuzz(program: Path, corpus: Corpus, jobs: int, seed: int, goes_on: Callable[[], bool]) -> None:
    """Tries the first texts and those that are kept, and then drawn ones, round by round."""
    kept = [path.read_bytes() for path in sorted(corpus.folder.glob("*.csv"))]
    texts = [*dict.fromkeys(first_texts() + kept)]
    said = time.monotonic()
    with ProcessPoolExecutor(jobs) as pool:
        tasks = [Task(program, text, None, f"{seed} first {place}", False) for place, text in enumerate(texts)]
        number = 0
        while tasks:
            for text, tried in pool.map(try_task, tasks, chunksize=4):
                corpus.take(text, tried)
                if time.monotonic() - said > SAY_AFTER:
                    said = time.monotonic()
                    print(corpus.counts(), flush=True)
            number += 1
            tasks = [*tasks_of_round(program, corpus, number, seed)] if goes_on() else []


# The self-test.

# One answer of eight is another one than that of the program: a byte of the output, a line too many, or the status.
WRONG_PROGRAM = """\
#!{python} -SE
import pathlib, subprocess, sys, zlib
text = sys.stdin.buffer.read()
run = subprocess.run([{program!r}, *sys.argv[1:]], input=text, capture_output=True)
out, err, status = run.stdout, run.stderr, run.returncode
drawn = zlib.crc32(" ".join(sys.argv[1:]).encode() + text)
if drawn % 8 == 0:
    pathlib.Path({told!r}, str(drawn)).write_bytes(text)
    way, at = drawn // 8 % 3, drawn // 24
    if way == 0 and out:
        out = out[: at % len(out)] + bytes([out[at % len(out)] ^ 1]) + out[at % len(out) + 1 :]
    elif way == 1:
        err += b"row 1: end\\n"
    else:
        status += 1
sys.stdout.buffer.write(out)
sys.stderr.buffer.write(err)
sys.exit(status)
"""


def self_test(program: Path, jobs: int, seed: int) -> tuple[list[str], int]:
    """Tries the wrong program for a while. Answers what is wrong with what was found."""
    with tempfile.TemporaryDirectory() as name:
        folder = Path(name)
        wrong, told = folder / "wrong-program", folder / "told"
        wrong.write_text(WRONG_PROGRAM.format(python=sys.executable, program=str(program), told=str(told)))
        wrong.chmod(0o755)
        told.mkdir()
        texts = enumerate(first_texts()[:TEST_TEXTS])
        tasks = [Task(program, text, text, f"{seed} {place}", False) for place, text in texts]
        with ProcessPoolExecutor(jobs) as pool:
            right = [*pool.map(try_task, tasks)]
            planted = [*pool.map(try_task, [replace(task, program=wrong) for task in tasks])]
        spoilt = {path.read_bytes() for path in told.iterdir()}
    found = {text for text, tried in planted if tried.differ}
    lines = [f"the program differs: {tried.differ[0]}" for _, tried in right if tried.differ]
    lines += ["a wrong answer was not found"] * len(spoilt - found) + ["a right answer was told"] * len(found - spoilt)
    if not spoilt:
        lines.append("no wrong answer was given")
    return lines, len(spoilt & found)


def arguments() -> argparse.Namespace:
    parser = argparse.ArgumentParser(description=__doc__, formatter_class=argparse.RawDescriptionHelpFormatter)
    parser.add_argument("--program", default=str(TOP / "out" / "registry"))
    parser.add_argument("--minutes", type=float, default=10)
    parser.add_argument("--seed", type=int, default=1)
    parser.add_argument("--jobs", type=int, default=os.cpu_count())
    parser.add_argument("--corpus", type=Path, default=TOP / "out" / "fuzz")
    parser.add_argument("--self-test", action="store_true")
    words = parser.parse_args()
    words.program = program_of(words.program)
    return words


def main() -> int:
    words, trials = arguments(), Trials()
    if words.self_test:
        lines, found = self_test(words.program, words.jobs, words.seed)
        trials.passed = found
        for line in lines:
            trials.add("", line)
        return trials.end()
    corpus = Corpus(words.corpus)
    until: float = time.monotonic() + 60 * words.minutes
    fuzz(words.program, corpus, words.jobs, words.seed, lambda: time.monotonic() < until)
    print(corpus.counts())
    # (each text that differs was shown when it was found)
    trials.passed, trials.failed = corpus.texts - corpus.differ, corpus.differ
    return trials.end()


if __name__ == "__main__":
    sys.exit(main())
