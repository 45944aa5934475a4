"""What a whole check costs in processor time, and what the host of a virtual machine kept from it."""
from __future__ import annotations

import contextlib
import os
import subprocess
from dataclasses import dataclass
from pathlib import Path

from gate import TOP
from gate.parts import processors, say, stop, time_of

# The whole check warns if it used more processor minutes (user and system) than this, on a machine on
# which the proofs of these crates take so many together. A change of one of them changes that number too.
MOST_PROCESSOR_MINUTES = 137.0
LOW_CRATES = ("reg_base", "reg_account", "reg_plan", "reg_rules", "reg_book")
MINUTES_OF_LOW_CRATES = 8.6


def kept_by_host() -> int:
    """The seconds for which the host of a virtual machine has kept processors from it that it wanted to use, summed
    over them, since it started; 0 where the kernel does not tell."""
    with contextlib.suppress(OSError, ValueError, IndexError):
        words = Path("/proc/stat").read_text(encoding="ascii").split("\n", 1)[0].split()
        return int(words[8]) // int(os.sysconf("SC_CLK_TCK")) if words[0] == "cpu" else 0
    return 0


def proof_of(crates: tuple[str, ...], used: str) -> float | None:
    """The seconds that the proofs of these crates took together; none if one of them was not proved."""
    rows = [line.split() for line in used.splitlines()]
    seconds = [float(row[2]) for row in rows if row[1:2] == ["proof"] and row[0] in crates]
    return sum(seconds) if len(seconds) == len(crates) else None


def told_costs(seconds: float, proof: float | None) -> list[str]:
    """What is said of the whole cost. How fast the machine is shows in the proofs of the low crates: the sum is turned
    into minutes of the machine of the bound. One crate alone would not do: a proof that runs beside nothing else is
    cheaper than one that shares the machine. If one of them was kept from an earlier run, the sum is not that of a
    whole check, and nothing is said of the bound."""
    low = " ".join(LOW_CRATES)
    lines = [f"in all {seconds / 60:.1f} processor minutes (user and system)"]
    if not proof:
        kept = f"Not all of these crates were proved in this run: {low}. So this is not the cost of a whole check."
        return [*lines, kept]
    minutes = seconds * MINUTES_OF_LOW_CRATES / proof
    lines += [
        f"the proofs of {low} took {proof / 60:.1f} minutes,",
        f"and take {MINUTES_OF_LOW_CRATES} on the machine of the bound: there the whole takes about {minutes:.1f}",
    ]
    if minutes > MOST_PROCESSOR_MINUTES:
        lines += [
            f"WARNING: that is above the bound of {MOST_PROCESSOR_MINUTES:g} processor minutes. "
            "Make the check cheaper, or raise",
            "MOST_PROCESSOR_MINUTES in tools/gate/costs.py in the commit that needs it.",
        ]
    return lines


@dataclass
class Costs:
    """Watches which crates the processor time goes to. Nothing but the table is lost if that fails."""

    work: Path
    watch: subprocess.Popen[bytes] | None = None

    def __post_init__(self) -> None:
        self.used = self.work / "used"
        self.kept = kept_by_host()

    def begin(self) -> None:
        with open(self.work / "watch-errors", "wb") as errors:
            self.watch = subprocess.Popen(
                [TOP / "tools/processor-time", "watch", str(os.getpid()), self.used], stdin=subprocess.DEVNULL,
                stderr=errors, start_new_session=True,
            )  # fmt: skip

    def end(self) -> None:
        if self.watch:
            stop([self.watch])
            self.watch = None

    def show(self) -> None:
        """Prints what each crate cost, and warns if the sum is above the bound."""
        times = os.times()
        seconds = times.user + times.system + times.children_user + times.children_system
        say()
        table = subprocess.run([TOP / "tools/processor-time", "table", self.used, f"{seconds}"], check=False)
        if table.returncode != 0:
            say("check: the table of crates could not be made")
        used = self.used.read_text(encoding="utf-8") if self.used.exists() else ""
        for line in told_costs(seconds, proof_of(LOW_CRATES, used)):
            say(line)

    def say_times(self, of_rt: float, in_all: float) -> None:
        """Says how long it took, and how much of that the host took for others."""
        say(f"elapsed: rt ci {time_of(of_rt)}, in all {time_of(in_all)}, on {processors()} processors")
        kept = kept_by_host() - self.kept
        if kept:
            say(f"the host of this machine kept these processors from it for {time_of(kept)} together")
