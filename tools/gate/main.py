"""The words of `./check`, and what each of them does."""
from __future__ import annotations

import os
import subprocess
import sys
import tempfile
from collections.abc import Sequence
from dataclasses import dataclass
from pathlib import Path

from gate import TOP, kit, program, trials
from gate.parts import Interrupted, Parts, raise_interrupts, say
from gate.some import Some
from gate.whole import Whole

HELP = """\
./check            proofs, tests, programs and cases: `rt ci` proves every crate of a copy of the files and runs
                   its tests and programs; then the cases of cases/ are tried on the program that it built, each
                   allocation and each start of a thread is refused in turn, which needs a C compiler, cc, the days of
                   the cases are settled by workers that are delayed, and the example of a program over the crates is
                   tried. It shows that what stands here is
                   proved, and does what the cases say. Some kits keep what `rt ci` passed on this machine: that is
                   not proved again if its files are the same
./check --edits    the whole check: all this, and the prover must refuse each edit of crates/NAME/wrong-bodies, which
                   tools/edits judges together as soon as their crate is proved, and of crates/NAME/must-fail, which
                   rt ci tries one by one. It shows that the contracts refuse these wrong bodies. A table tells what
                   each crate cost in processor minutes
./check [--edits] --anew
                   the same, with all proved from nothing, whatever the kit keeps
./check CRATE..    for daily work: looks at the layout of all files; proves and tests these crates
                   and those above them, over what earlier checks kept, and tries their edits;
                   builds the program, and tries the cases if the program or a case has changed;
                   refuses each allocation if test_refusals is one of these crates, tries
                   workers if bench_workers is, and the examples of programs if example_embed
                   or example_one_by_one is. Its last lines name what it left out.
                   `tools/crates all` lists the crates
./check --unproved
                   for daily work: tries the cases on the unproved build that ./run keeps, and makes it first if a
                   source is newer. That takes minutes and shows nothing of a proof. Its last lines name what else
                   it left out
./check --office   for daily work: tries what needs neither the kit nor a program
./check --help     this text

The last line is 'N passed, M failed'. The exit status is 0 only if M is 0 and something was tried.
"""
LEFT_OUT_OF_UNPROVED = """
check: this was not a check of what is proved. Left out:
  all proofs, and with them what holds of every input and of every way in which threads share the work
  the tests of the crates, and edits that must be refused
  days at the limits of a text, inputs of 2^30 bytes, and three of four drawn days, for which this build is too slow
  what becomes of the program where there is little memory, and the library for other languages
  refused memory and threads, and workers that are delayed"""
LEFT_OUT_OF_OFFICE = """
check: this was not a check of the program. Left out: all that needs the kit or a program."""
LINES_SHOWN = 5


class Slip(Exception):
    """Says which words are not taken."""


@dataclass(frozen=True)
class Words:
    """What `./check` is asked for."""

    has_edits: bool = False
    is_anew: bool = False
    is_unproved: bool = False
    is_of_office: bool = False
    crates: tuple[str, ...] = ()


OPTIONS = {"--edits": "has_edits", "--anew": "is_anew", "--unproved": "is_unproved", "--office": "is_of_office"}


def read(words: Sequence[str]) -> Words:
    """What these words ask for. It raises `Slip` if they are not taken."""
    asked: dict[str, bool] = {}
    for word in words:
        if word.startswith("-") and word not in OPTIONS:
            raise Slip(f"there is no option {word}.")
        if word in OPTIONS:
            asked[OPTIONS[word]] = True
    found = Words(crates=tuple(word for word in words if word not in OPTIONS), **asked)
    if found.crates and asked:
        raise Slip("no option goes with crates, whose edits are tried anyway.")
    for word in ("--unproved", "--office"):
        if OPTIONS[word] in asked and len(asked) > 1:
            raise Slip(f"no option goes with {word}, which proves nothing.")
    if found.crates:
        listed: list[str | Path] = [TOP / "tools/crates", "above", *found.crates]
        said = subprocess.run(listed, capture_output=True, text=True, check=False)
        if said.returncode != 0:
            raise Slip((said.stdout + said.stderr).strip())
    return found


class Check:
    """One run of `./check`."""

    def __init__(self, words: Words, work: Path) -> None:
        self.words, self.parts = words, Parts(work)
        self.running: Whole | Some | None = None

    def run(self) -> None:
        if self.words.is_of_office:
            self.try_office()
        elif self.words.is_unproved:
            self.try_unproved()
        elif not kit.is_there():
            self.parts.failed = 1
        else:
            self.running = self.with_kit()
            self.running.run()

    def with_kit(self) -> Whole | Some:
        """The check of all crates, or of some."""
        if self.words.crates:
            return Some(self.parts, self.words.crates)
        anew = kit.word_for_anew(self.parts.work) if self.words.is_anew else []
        return Whole(self.parts, self.words.has_edits, anew)

    def try_office(self) -> None:
        """Tries what needs neither the kit nor a program."""
        every = trials.every()
        self.begin([each for each in every if each.is_of_office], [each for each in every if not each.is_of_office], {})
        say(LEFT_OUT_OF_OFFICE)

    def try_unproved(self) -> None:
        """Tries the cases on the unproved build. What passes on it counts for nothing later."""
        if not program.is_unproved_current():
            if not kit.is_there():
                self.parts.failed = 1
                return
            say("check: the unproved build is made now, which takes two or three minutes on slow cores.")
            if not program.keep_unproved(self.parts):
                self.parts.failed = 1
                say("check: it could not be kept. The last lines that rt said:")
                errors = self.parts.work / "said"
                lines = errors.read_text(encoding="utf-8", errors="replace").splitlines() if errors.exists() else []
                say("\n".join(lines[-LINES_SHOWN:]))
                return
        say(program.note_of_unproved())
        every, programs = trials.every(), {"PROGRAM": program.UNPROVED}
        chosen = [each for each in every if not each.is_slow and {*each.needs} <= {*programs}]
        self.begin(chosen, [each for each in every if each not in chosen], programs)
        say(LEFT_OUT_OF_UNPROVED)

    def begin(self, chosen: list[trials.Trials], left: list[trials.Trials], programs: dict[str, Path]) -> None:
        trials.tell(chosen, left)
        trials.begin(self.parts, chosen, programs, trials.UNPROVED)
        self.parts.finish()
        trials.keep_seconds(self.parts.seconds)

    def stop(self) -> None:
        """Ends what runs, and puts back what is half done."""
        self.parts.say_running()
        self.parts.stop()
        if self.running:
            self.running.stop()
        program.forget()
        if isinstance(self.running, Whole) and self.running.is_here:
            kit.put_back()


def check(words: Words) -> int:
    with tempfile.TemporaryDirectory(ignore_cleanup_errors=True) as folder:
        # (others may enter it: rt runs programs as nobody)
        os.chmod(folder, 0o711)
        made = Check(words, Path(folder))
        try:
            raise_interrupts()
            made.run()
        except Interrupted:
            made.stop()
            say("\ncheck: interrupted")
            return 130
        say(f"{made.parts.passed} passed, {made.parts.failed} failed")
        return 0 if made.parts.passed and not made.parts.failed else 1


def main(words: Sequence[str]) -> int:
    if {"-h", "--help"} & {*words}:
        print(HELP, end="")
        return 0
    os.chdir(TOP)
    try:
        asked = read(words)
    except Slip as slip:
        print(f"check: {slip}", file=sys.stderr)
        print(
            "Write ./check, ./check --edits, ./check --unproved, or ./check CRATE.. with crates of crates.txt; "
            "./check --help tells what each does.", file=sys.stderr,
        )  # fmt: skip
        return 2
    return check(asked)
