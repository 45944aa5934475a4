"""Judges all wrong bodies of a crate by one check of a copy of it.

usage: tools/edits [--anew] CRATE..     over what `rt check` has proved and kept in these crates
       tools/edits --look CRATE..       only whether each edit can be placed, without a check
       tools/edits [--anew] --behind LOG END CRATE..
                                        each crate as soon as LOG, what an `rt ci` in this folder prints, says that it
                                        is proved, from nothing; the file END says that this `rt ci` has ended

Each edit of crates/NAME/wrong-bodies becomes a function of its own beside the right one, with a copy of what is written
of its proof, and so does each right function once more. The prover must refuse each wrong body and prove each right
one, else a proof that does not fit a copy would count as a refusal. A line tells for each edit what was not proved of
it. What passed is kept in the user's folder of such files, by the sums of all that it was judged by: the same is not
judged again, but with --anew. The last line is 'N passed, M failed', and counts edits; the exit status is 0 only if
none failed.
"""
from __future__ import annotations

import contextlib
import hashlib
import os
import re
import shutil
import signal
import subprocess
import sys
import tempfile
import threading
import time
from collections.abc import Callable, Iterable
from concurrent.futures import ThreadPoolExecutor
from dataclasses import dataclass, field
from pathlib import Path
from types import FrameType

sys.path += [str(Path(__file__).resolve().parent), os.environ["RTLIB"]]
import rtlib
from wrong_bodies import PARTS, Copy, Edit, Planting, Unplaced, edit_files, read_edit

TOP = Path(__file__).resolve().parent.parent
USAGE = str(__doc__).split("\n\n")[1]
# The free memory with which a check is begun beside others, and after how many seconds it has taken what it needs.
GB_OF_A_CHECK = 2.5
SECONDS_TO_GROW = 10
SECONDS_BETWEEN = 0.2
# How much a check gives way to the proofs of an `rt ci`.
GIVES_WAY = 10
# So many of the things that were not proved of a wrong body are told.
MOST_TOLD = 3
# What a check says of each function and each impl, and where it did not prove something.
VERDICT = re.compile(r"(?:fn|impl|struct|trait) (\S+): (.*)")
PLACE = re.compile(r"(?:note: )?(?:\./)?((?:src|specs|proofs)/\S+?):(\d+):\d+: (.*)")
ERROR = re.compile(r"(?:\./)?(src/\S+?):(\d+):\d+: error\[[\w-]+\]|error\[[\w-]+\].*")
# What a check calls what is to be shown of a function.
GOAL = "[a-z][^`.]*"
# What antt says where it cannot read a text, or a proof names what is not there: no clause is judged then.
UNREAD = re.compile(
    r"is not in scope|has no field|has no `|was not admitted|is no name|operand is missing|expected the end"
    r"|cannot continue"
)


# What antt says where it gives up by a limit of its own.
LIMITS = re.compile(r"antt ran out of|outgrew the memory limit|stopped at the step limit")
ONLY_BY_NAME = "(only where a proof names what it took away: change a value, and keep the names)"
ONLY_BY_LIMIT = "(only by a limit of the prover: choose a change that it refuses sooner)"


class Unjudged(Exception):
    """Says why a check says nothing of a crate's edits."""


@dataclass
class Said:
    """What is said of the edits of a crate: what is wrong with each, or "", why it was refused, and a line of each."""

    crate: str
    wrong: dict[str, str] = field(default_factory=dict)
    reasons: dict[str, str] = field(default_factory=dict)
    lines: list[str] = field(default_factory=list)

    def pass_edit(self, edit: str, reason: str) -> None:
        self.wrong[edit] = ""
        self.reasons[edit] = reason
        self.lines.append(f"{self.crate}: {edit}: refused: {reason}")

    def fail(self, edit: str, why: str) -> None:
        self.wrong[edit] = why
        self.lines.append(f"{self.crate}: {edit}: FAILED: {why}")

    def leave(self, edits: Iterable[str], why: str) -> None:
        """Says of those of these edits of which nothing was said that they were not judged."""
        self.lines.append(f"{self.crate}: FAILED: not judged: {why}")
        for edit in edits:
            self.wrong.setdefault(edit, why)

    def failed(self) -> int:
        return sum(bool(why) for why in self.wrong.values())

    def show(self) -> None:
        for line in sorted(self.lines):
            print(line, flush=True)


# The check of one crate.


@dataclass
class Answer:
    """What the prover says of the functions of a crate: the verdict on each name, and what it did not prove where."""

    verdicts: dict[str, str]
    places: list[tuple[str, int, str]]
    text: str


def read_answer(text: str) -> Answer:
    found = [match for match in map(VERDICT.fullmatch, text.splitlines()) if match]
    places = [match for match in map(PLACE.match, text.splitlines()) if match]
    return Answer(
        {match[1]: match[2] for match in found}, [(match[1], int(match[2]), match[3]) for match in places], text
    )


def is_of(copy: Copy, file: str, line: int) -> bool:
    """Whether a place is in a copy of a function, or in what is written of its proof."""
    return file == copy.file and copy.first <= line <= copy.last or copy.name in re.findall(r"\w+", file)


def is_proved(verdict: str) -> bool:
    """Whether a function was proved, or a closure for what its callers give."""
    return verdict.startswith("proved")


def verdict_of(copy: Copy, answer: Answer) -> str:
    found = [verdict for name, verdict in answer.verdicts.items() if name.endswith(f"::{copy.name}")]
    return found[0] if len(found) == 1 else "nothing was said of it"


def others_unproved(planting: Planting, answer: Answer) -> list[str]:
    """The names of what was not proved and is in no copy."""
    copies = {copy.name for copy in planting.copies}
    unproved = [name for name, verdict in answer.verdicts.items() if not is_proved(verdict)]
    return [name for name in unproved if copies.isdisjoint(re.findall(r"\w+", name))]


def reasons(copy: Copy, verdict: str, answer: Answer) -> list[str]:
    """What was not proved of a copy: the names of goals, or else what the prover says at its proof. That a proof names
    what is not there is no reason."""
    own = [said for file, line, said in answer.places if is_of(copy, file, line) and not UNREAD.search(said)]
    goals = [name for said in own for name in re.findall(rf"\(`({GOAL})`\)", said)]
    goals += re.findall(rf"`({GOAL})`", verdict.partition("did not prove")[2])
    goals += [name for said in own for name in re.findall(rf"error: `({GOAL})`", said)]
    return list(dict.fromkeys(goals)) or own


def judge_wrong(copy: Copy, answer: Answer, said: Said) -> None:
    """Says of an edit what `rt` would say of it: one that a limit of the prover stops, or a name that it took away, is
    refused too."""
    verdict = verdict_of(copy, answer)
    edit = str(copy.edit)
    if is_proved(verdict):
        said.fail(edit, f"`{copy.right}` is proved with it: no clause refuses it")
    elif verdict.startswith(("no proof", "not proved")):
        said.pass_edit(edit, first_of(reasons(copy, verdict, answer)) or ONLY_BY_NAME)
    elif verdict.startswith("could not tell") and LIMITS.search(answer.text):
        said.pass_edit(edit, ONLY_BY_LIMIT)
    else:
        said.fail(edit, f"the prover does not refuse it, but says: {verdict}")


def first_of(found: list[str]) -> str:
    more = f" and {len(found) - MOST_TOLD} more" if len(found) > MOST_TOLD else ""
    return ", ".join(found[:MOST_TOLD]) + more


def judge(planting: Planting, answer: Answer, said: Said) -> None:
    """Says of each edit whether it was refused, and whether its right function was proved in the same check."""
    if others := others_unproved(planting, answer):
        raise Unjudged(f"beside the copies this is not proved: {', '.join(others[:MOST_TOLD])}")
    controls = {copy.name: copy for copy in planting.copies if copy.edit is None}
    for copy in planting.copies:
        if copy.edit is None:
            continue
        control = controls[copy.control]
        verdict = verdict_of(control, answer)
        if not is_proved(verdict):
            told = ", ".join(reasons(control, verdict, answer)[:MOST_TOLD])
            said.fail(copy.edit, f"an unchanged copy of `{copy.right}` is not proved ({verdict[:60]}; {told[:200]})")
        else:
            judge_wrong(copy, answer, said)


def refused_at_once(planting: Planting, text: str) -> dict[str, str]:
    """By edit: what the compiler says of it, where it refuses the crate before the prover is asked."""
    found: dict[str, str] = {}
    for line in text.splitlines():
        at = ERROR.match(line)
        place = PLACE.match(line)
        for copy in planting.copies:
            if at and place and copy.edit and is_of(copy, place[1], int(place[2])):
                found.setdefault(copy.edit, line)
    return found


@dataclass
class Bench:
    """How the crates of a folder are checked."""

    rooms: Path
    crates: dict[str, rtlib.Crate]
    # Words before each check.
    before: list[str]
    # Whether a check begins with what `rt check` kept.
    keeps: bool
    # The seconds of processors that the checks of a crate took.
    seconds: dict[str, float] = field(default_factory=dict)

    def room_of(self, name: str, edits: Iterable[Edit]) -> Planting:
        """A copy of a crate with the copies of its functions."""
        room = self.rooms / f"edits-{name}"
        shutil.rmtree(room, ignore_errors=True)
        for part in PARTS:
            if (TOP / "crates" / name / part).is_dir():
                shutil.copytree(TOP / "crates" / name / part, room / part)
        return Planting(room, edits)

    def take_library(self, name: str) -> None:
        """Links the library of a crate, which another run may replace, into a folder of this one."""
        library = self.rooms / "libraries" / name / f"{name}.rlib"
        source = Path(self.crates[name].rlib)
        if source.is_dir() and not library.exists():
            shutil.copytree(source, library, copy_function=link_or_copy)

    def words(self, planting: Planting, name: str) -> list[str]:
        """The words of a check of the copies and of what they call."""
        crate = self.crates[name]
        words: list[str] = crate.words(["--jobs", "1"], keeps=False)
        for below in crate.below():
            old, new = f"{below.folder}/out/rlib", str(self.rooms / "libraries" / below.name)
            moved = {f"dependency={old}": f"dependency={new}"}
            moved[f"{below.name}={below.rlib}"] = f"{below.name}={new}/{below.name}.rlib"
            words = [moved.get(word, word) for word in words]
        kept = Path(crate.folder) / "out" / "incremental"
        if self.keeps and kept.is_dir():
            own = planting.room / "kept"
            if not own.is_dir():
                shutil.copytree(kept, own, copy_function=link_if_proof)
            words += ["--incremental", str(own)]
        return words + [word for copy in planting.copies for word in ("--only", copy.name)]

    def check(self, planting: Planting, name: str) -> str:
        """What the prover says of the copies."""
        words = [*self.before, rtlib.RATTLE, "check", *self.words(planting, name)]
        for _ in range(2):
            text, status = self.run(words, planting.room, name)
            # (once more after what is most likely a want of memory)
            if status != -signal.SIGKILL:
                break
        if status not in (0, 1, 3):
            raise Unjudged(f"the check ended with status {status}: {text.strip()[-400:]}")
        if rtlib.STALE.search(text):
            raise Unjudged("the kept work of a library could not be used")
        return text

    def run(self, words: list[str], folder: Path, name: str) -> tuple[str, int]:
        """What a command prints in a folder, and its status. Notes what it cost."""
        with tempfile.TemporaryFile("w+", encoding="utf-8", errors="replace") as said:
            process = subprocess.Popen(
                words, cwd=folder, stdin=subprocess.DEVNULL, stdout=said, stderr=subprocess.STDOUT
            )  # fmt: skip
            _, status, used = os.wait4(process.pid, 0)
            process.returncode = os.waitstatus_to_exitcode(status)
            self.seconds[name] = self.seconds.get(name, 0) + used.ru_utime + used.ru_stime
            said.seek(0)
            return said.read(), process.returncode

    def judge(self, name: str, edits: list[Edit], said: Said) -> None:
        """Judges the edits of a crate. One that is not even compiled fails alone."""
        left = edits
        while left:
            planting = self.room_of(name, left)
            text = self.check(planting, name)
            if text.rstrip().rpartition("\n")[2].startswith(("only=", "rattle: no verdict")):
                judge(planting, read_answer(text), said)
                return
            refused = refused_at_once(planting, text)
            if not refused:
                raise Unjudged(f"the prover was not asked: {first_error(text)}")
            for edit, why in refused.items():
                said.fail(edit, f"it does not compile: {why[:300]}")
            left = [edit for edit in left if edit.name not in refused]


def first_error(text: str) -> str:
    lines = [line for line in text.splitlines() if "error" in line] or text.splitlines()[-1:]
    return " ".join(lines[:1])[:300]


def link_or_copy(source: str, target: str) -> str:
    """Gives a file of `rt` a second name: it writes each of them anew."""
    try:
        os.link(source, target)
    except OSError:
        shutil.copyfile(source, target)
    return target


def link_if_proof(source: str, target: str) -> str:
    """Gives a proof that `rt` kept a second name. It notes other things in files that it writes again."""
    return link_or_copy(source, target) if source.endswith(".oantt") else str(shutil.copyfile(source, target))


# All crates of a call.


def free_gigabytes() -> float:
    """The free memory."""
    with open("/proc/meminfo", encoding="ascii") as lines:
        return next(int(line.split()[1]) for line in lines if line.startswith("MemAvailable:")) / 1_000_000


class Turns:
    """Begins one check after another, as processors and memory allow."""

    def __init__(self) -> None:
        self.lock = threading.Lock()
        self.running: set[int] = set()
        self.most = len(os.sched_getaffinity(0))

    def run(self, call: Callable[[], None]) -> None:
        with self.lock:
            while len(self.running) >= self.most or self.running and free_gigabytes() < GB_OF_A_CHECK:
                time.sleep(SECONDS_BETWEEN)
            self.running.add(threading.get_ident())
            if len(self.running) > 1:
                time.sleep(SECONDS_TO_GROW)
        try:
            call()
        finally:
            self.running.discard(threading.get_ident())


class Kept:
    """What was said of edits that all passed, by the sums of all that they were judged by."""

    def __init__(self, is_anew: bool, is_whole: bool) -> None:
        caches = os.environ.get("XDG_CACHE_HOME") or os.path.expanduser("~/.cache")
        self.folder = Path(caches) / "registry-edits"
        self.is_anew = is_anew
        # (a whole check takes nothing that was judged over kept proofs)
        self.kind = "from nothing" if is_whole else "over kept proofs"

    def place(self, crate: rtlib.Crate) -> Path:
        """Where it is kept what was said of a crate as it stands."""
        named = [TOP / "crates.txt", *(Path(rtlib.KIT) / name for name in ("KIT-ID", "WHAT"))]
        named += [Path(__file__), Path(__file__).with_name("wrong_bodies.py"), *edit_files(Path(crate.folder))]
        for below in [*crate.below(), crate]:
            parts = (sorted((Path(below.folder) / part).rglob("*")) for part in PARTS)
            named += [path for part in parts for path in part if path.is_file()]
        found = hashlib.sha256(f"{crate.name} {self.kind}".encode())
        for path in named:
            found.update(f"{path.name} ".encode() + hashlib.sha256(path.read_bytes()).digest())
        return self.folder / found.hexdigest()

    def give(self, crate: rtlib.Crate, said: Said) -> bool:
        """Says what was kept of a crate, if it was."""
        place = self.place(crate)
        if self.is_anew or not place.is_file():
            return False
        kept = dict(line.split("\t", 1) for line in place.read_text(encoding="utf-8").splitlines())
        if {*kept} != {path.stem for path in edit_files(Path(crate.folder))}:
            return False
        for edit, reason in kept.items():
            said.pass_edit(edit, f"{reason} (kept)")
        return True

    def keep(self, place: Path, said: Said) -> None:
        """Keeps what was said of a crate, if all edits passed."""
        if said.failed() or not said.wrong:
            return
        with contextlib.suppress(OSError):
            self.folder.mkdir(parents=True, exist_ok=True)
            new = place.with_suffix(f".{os.getpid()}")
            new.write_text("".join(f"{edit}\t{reason}\n" for edit, reason in said.reasons.items()), encoding="utf-8")
            new.replace(place)


class Proofs:
    """Which crates an `rt ci` has proved so far, by what it prints."""

    SAYS = re.compile(r"rt: (\w+) (proved|is kept|NOT PROVED)")

    def __init__(self, log: Path, end: Path, bench: Bench) -> None:
        self.log, self.end, self.bench = log, end, bench
        self.proved: set[str] = set()
        self.refused: set[str] = set()
        self.has_ended = False

    def read(self) -> None:
        """Takes the libraries of the crates that have been proved since."""
        has_ended = self.end.exists()
        text = self.log.read_text(encoding="utf-8", errors="replace") if self.log.exists() else ""
        for name, what in self.SAYS.findall(text):
            if what == "NOT PROVED":
                self.refused.add(name)
            elif name not in self.proved and name in self.bench.crates:
                self.bench.take_library(name)
                self.proved.add(name)
        self.has_ended = has_ended

    def follow(self) -> None:
        """Reads until `rt ci` has ended."""
        while not self.has_ended:
            self.read()
            time.sleep(SECONDS_BETWEEN)

    def wait_for(self, name: str) -> None:
        while name not in self.proved:
            if name in self.refused or self.has_ended:
                raise Unjudged("rt ci has not proved the crate")
            time.sleep(SECONDS_BETWEEN)


def read_edits(name: str, said: Said) -> list[Edit]:
    """The edits of a crate that can be placed."""
    crate = TOP / "crates" / name
    found = []
    for path in edit_files(crate):
        try:
            found.append(read_edit(path, crate))
        except (Unplaced, UnicodeDecodeError) as why:
            said.fail(path.stem, str(why))
    return found


def judge_as_it_stands(bench: Bench, name: str, kept: Kept, said: Said) -> None:
    """Judges the edits of a crate, and keeps what is said of them if its files are still the same."""
    edits = read_edits(name, said)
    place = kept.place(bench.crates[name])
    bench.judge(name, edits, said)
    if kept.place(bench.crates[name]) == place:
        kept.keep(place, said)


def judge_crate(bench: Bench, name: str, turns: Turns, kept: Kept, wait: Callable[[str], None]) -> Said:
    """Judges the edits of a crate once it may begin."""
    said, begun = Said(name), time.monotonic()
    try:
        wait(name)
        if not kept.give(bench.crates[name], said):
            turns.run(lambda: judge_as_it_stands(bench, name, kept, said))
    except Unjudged as why:
        said.leave([path.stem for path in edit_files(TOP / "crates" / name)], str(why))
    passed = len(said.wrong) - said.failed()
    took = f"{time.monotonic() - begun:.0f} s, of processors {bench.seconds.get(name, 0):.0f} s"
    print(f"{name}: {passed} of {len(said.wrong)} edits refused, {took}", flush=True)
    said.show()
    return said


def must_be_built(bench: Bench) -> Callable[[str], None]:
    """Looks whether the libraries below a crate are built, and takes them."""

    def wait(name: str) -> None:
        lacking = [below.name for below in bench.crates[name].below() if not below.is_built()]
        if lacking:
            raise Unjudged(f"{lacking[0]} is not built as it stands: run rt check in crates/{name}")
        for below in bench.crates[name].below():
            bench.take_library(below.name)

    return wait


def judge_all(bench: Bench, names: list[str], kept: Kept, proofs: Proofs | None) -> list[Said]:
    """Judges the edits of these crates, as many crates at once as there are processors and memory."""
    turns = Turns()
    wait = proofs.wait_for if proofs else must_be_built(bench)
    # (crates that wait for `rt ci` take no turn of others)
    lanes = len(names) if proofs else len(os.sched_getaffinity(0))
    pool = ThreadPoolExecutor(lanes)
    waiting = [pool.submit(judge_crate, bench, name, turns, kept, wait) for name in names]
    if proofs:
        proofs.follow()
    return [it.result() for it in waiting]


def folder_of_rooms() -> str:
    """Where rooms are made: on the disk of the repository, and where `rt ci` does not look for sources."""
    git = TOP / ".git"
    return tempfile.mkdtemp(prefix="rooms-of-edits.", dir=git if git.is_dir() else None)


def look(names: list[str]) -> list[Said]:
    """Whether each edit can be placed."""
    found = []
    for name in names:
        said = Said(name)
        for edit in read_edits(name, said):
            said.wrong[edit.name] = ""
        found.append(said)
        if said.lines:
            said.show()
    return found


def stop(_signal: int, _frame: FrameType | None) -> None:
    raise KeyboardInterrupt


def judged(words: list[str], is_anew: bool, log: Path | None, end: Path | None) -> list[Said]:
    """What is said of the edits of these crates."""
    crates = {crate.name: crate for crate in rtlib.crates_below(str(TOP))}
    names = [name for name in words if edit_files(TOP / "crates" / name)]
    rooms = Path(folder_of_rooms())
    before = [*rtlib.guarded(), *(["nice", "-n", str(GIVES_WAY)] if log else [])]
    bench = Bench(rooms, crates, before, keeps=log is None)
    try:
        return judge_all(bench, names, Kept(is_anew, log is not None), Proofs(log, end, bench) if log and end else None)
    finally:
        shutil.rmtree(rooms, ignore_errors=True)


def main(words: list[str]) -> int:
    is_anew = words[:1] == ["--anew"]
    words = words[is_anew:]
    kind, log, end = "", None, None
    if words[:1] in (["--look"], ["--behind"]):
        kind, words = words[0], words[1:]
    if kind == "--behind":
        log, end, words = Path("".join(words[:1])), Path("".join(words[1:2])), words[2:]
    if not words or any(name.startswith("-") or not (TOP / "crates" / name).is_dir() for name in words):
        print(USAGE, file=sys.stderr)
        return 2
    for number in (signal.SIGTERM, signal.SIGHUP):
        signal.signal(number, stop)
    try:
        said = look(words) if kind == "--look" else judged(words, is_anew, log, end)
    except KeyboardInterrupt:
        # (the checks end with this process, and nothing waits for them)
        os._exit(130)
    failed = sum(it.failed() for it in said)
    print(f"{sum(len(it.wrong) for it in said) - failed} passed, {failed} failed", flush=True)
    return 1 if failed else 0


if __name__ == "__main__":
    sys.exit(main(sys.argv[1:]))
