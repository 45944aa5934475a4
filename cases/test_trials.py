"""Tries the trials themselves: one that asserts nothing, that nobody makes, or a part without one, must not pass.

Scripts of trials are written into a folder of their own, beside this folder's conftest, and pytest is run there.
"""
from __future__ import annotations

import ast
import re
import subprocess
import sys
from collections.abc import Sequence
from importlib.util import find_spec
from pathlib import Path

import pytest

from harness import CASES

HEAD = """\
#!/usr/bin/env python3
'''usage: run-planted-here
'''
import sys
from collections.abc import Iterator
from harness import LeftOut, Trial, Trials

def left() -> None:
    raise LeftOut("no memory")

"""
TAIL = """
if __name__ == "__main__":
    trials = Trials()
    trials.add_all(one_trials())
    trials.make(two_trials())
    sys.exit(trials.end())
"""
RIGHT = """\
def one_trials() -> Iterator[tuple[str, object]]:
    print("said before")
    yield "one", {one}
    {more}
"""
TWO = """\
def two_trials() -> Iterator[tuple[str, Trial]]:
    yield "two", {two}
    yield "three close", lambda: None
"""


def ran(name: str, text: str, *words: str, cache: Sequence[str] = ("-p", "no:cacheprovider")) -> tuple[str, list[str]]:
    """What pytest says of a script of this text, and what it says of each trial."""
    script = CASES / name
    script.write_text(text)
    try:
        run = subprocess.run(
            [sys.executable, "-m", "pytest", "-v", "-rs", *cache, *words, script],
            capture_output=True, text=True, check=False, cwd=CASES.parent,
        )  # fmt: skip
    finally:
        script.unlink()
    # (a process beside others tells the outcome first)
    outcome = "(PASSED|FAILED|SKIPPED)"
    told = re.findall(rf"(?:{outcome} )?cases/{name}::(.*?)(?: {outcome}|\s*$)", run.stdout, re.MULTILINE)
    return run.stdout, [f"{own} {first or last}" for first, own, last in told if first or last]


@pytest.fixture
def name(request: pytest.FixtureRequest) -> str:
    return f"run-planted-{abs(hash(request.node.nodeid)) % 10**6}"


def made(one: str = "None", more: str = "", two: str = "lambda: None") -> str:
    return HEAD + RIGHT.format(one=one, more=more) + TWO.format(two=two) + TAIL


def test_each_trial_is_told_by_its_name(name: str) -> None:
    assert ran(name, made())[1] == ["one PASSED", "two PASSED", "three close PASSED"]


def test_failure_has_its_place_and_what_was_written(name: str) -> None:
    said, told = ran(name, made(one="'it is wrong'"))
    assert told == ["one FAILED", "two PASSED", "three close PASSED"]
    assert f"cases/{name}:13: one: it is wrong" in said and "said before" in said


def test_part_that_raises_loses_no_other_trial(name: str) -> None:
    said, told = ran(name, made(more="raise ValueError('fell')"))
    assert told == ["one PASSED", "one_trials FAILED", "two PASSED", "three close PASSED"]
    assert "ValueError: fell" in said


def test_trial_that_raises_loses_no_other_trial(name: str) -> None:
    assert ran(name, made(two="lambda: 1 / 0"))[1] == ["one PASSED", "two FAILED", "three close PASSED"]


def test_what_is_left_out_is_skipped_with_its_reason(name: str) -> None:
    said, told = ran(name, made(two="left"))
    assert told == ["one PASSED", "two SKIPPED", "three close PASSED"]
    assert "no memory" in said


def test_words_choose_trials(name: str) -> None:
    assert ran(name, made(), "-k", "close")[1] == ["three close PASSED"]
    assert ran(name, made(), "-k", "not close and not one")[1] == ["two PASSED"]


def test_words_of_no_name_are_skipped(name: str) -> None:
    """A script is chosen by its text, in which words may stand that no trial has."""
    said, told = ran(name, made(), "-k", "before")
    assert told == ["* SKIPPED"] and "no name of its trials" in said


def test_words_choose_trials_of_a_module(name: str) -> None:
    """A script may have its trials in modules beside it: their names are known before they are made, too."""
    module = CASES / f"{name.replace('-', '_')}_parts.py"
    module.write_text(HEAD.partition("def left")[0] + TWO.format(two="lambda: None"))
    try:
        tail = TAIL.replace("    trials.add_all(one_trials())\n", "")
        script = f"{HEAD}from {module.stem} import two_trials\n{tail}"
        assert ran(name, script, "-k", "close")[1] == ["three close PASSED"]
    finally:
        module.unlink()


def test_first_failure_ends_the_run(name: str) -> None:
    assert ran(name, made(one="'wrong'"), "-x")[1] == ["one FAILED"]


def test_what_is_started_can_be_interrupted() -> None:
    """Also where the trials ignore it, as behind `nohup ./check &`."""
    is_ignored = "import signal; print(signal.getsignal(signal.SIGINT) == signal.SIG_IGN)"
    code = f"import harness, subprocess, sys; subprocess.run([sys.executable, '-c', {is_ignored!r}])\n{is_ignored}"
    said = subprocess.run(
        ["sh", "-c", f"trap '' INT; exec {sys.executable} -c \"$0\"", code], cwd=CASES, capture_output=True, text=True,
        check=False,
    )  # fmt: skip
    assert (said.stdout, said.stderr) == ("False\nFalse\n", "")


def test_what_failed_last_is_tried_alone(name: str, tmp_path: Path) -> None:
    cache = ("-o", f"cache_dir={tmp_path}")
    assert ran(name, made(two="lambda: 1 / 0"), cache=cache)[1] == ["one PASSED", "two FAILED", "three close PASSED"]
    assert ran(name, made(), "--lf", cache=cache)[1] == ["two PASSED"]


@pytest.mark.skipif(find_spec("xdist") is None, reason="pytest-xdist is not installed")
def test_processors_share_the_trials(name: str) -> None:
    said, told = ran(name, made(two="left"), "-n", "2")
    assert sorted(told) == ["one PASSED", "three close PASSED", "two SKIPPED"] and "2 passed, 1 skipped" in said


# Planted: each must fail.


def test_part_without_a_trial_fails(name: str) -> None:
    empty = made().replace('    print("said before")\n    yield "one", None\n', "    yield from ()\n")
    said, told = ran(name, empty)
    assert "one_trials FAILED" in told and "it has no trial" in said


def test_script_without_a_trial_fails(name: str) -> None:
    said, told = ran(name, HEAD + "print('0 passed, 0 failed')\nsys.exit(1)\n")
    assert told == ["* FAILED"] and "it has no trial" in said


def test_script_that_breaks_off_fails(name: str) -> None:
    said, told = ran(name, made(two="lambda: sys.exit(0)"))
    assert told == ["one PASSED", "* FAILED"] and "it ended with status 0" in said


# What is written in cases/.


def trees() -> dict[str, ast.Module]:
    files = [*CASES.glob("*.py"), *CASES.glob("run-*")]
    return {path.name: ast.parse(path.read_text(encoding="utf-8")) for path in sorted(files)}


TREES = trees()


def functions_of(tree: ast.Module) -> list[ast.FunctionDef]:
    return [each for each in ast.walk(tree) if isinstance(each, ast.FunctionDef)]


def asserts(function: ast.FunctionDef) -> bool:
    """Whether a function may fail by what it says: it asserts, raises, or calls what does so for it."""
    names = {each.func.attr if isinstance(each.func, ast.Attribute) else getattr(each.func, "id", "")
             for each in ast.walk(function) if isinstance(each, ast.Call)}  # fmt: skip
    has = any(isinstance(each, ast.Assert | ast.Raise) for each in ast.walk(function))
    return has or bool(names & {"raises", "agrees", "run_state_machine_as_test"})


def answers(function: ast.FunctionDef) -> bool:
    """Whether a function says what is wrong: by what it answers, or by what it raises."""
    said = [each.value for each in ast.walk(function) if isinstance(each, ast.Return) and each.value is not None]
    adds = {each.attr for each in ast.walk(function) if isinstance(each, ast.Attribute)} & {"add", "add_all"}
    is_said = any(not isinstance(value, ast.Constant) or value.value is not None for value in said)
    return is_said or bool(adds) or asserts(function)


def silent_tests(tree: ast.Module) -> list[str]:
    """The functions that pytest collects, and that assert nothing."""
    return [each.name for each in functions_of(tree) if each.name.startswith("test_") and not asserts(each)]


def silent_trials(tree: ast.Module) -> list[str]:
    """The functions of a script that have a trial in their name, and say nothing: each would always pass."""
    trials = [each for each in functions_of(tree) if each.name.endswith(("_fault", "_trial"))]
    return [each.name for each in trials if not answers(each) and not is_generator(each)]


def is_generator(function: ast.FunctionDef) -> bool:
    return any(isinstance(each, ast.Yield | ast.YieldFrom) for each in ast.walk(function))


def uncollected(trees: dict[str, ast.Module]) -> list[str]:
    """Functions `test_..` outside of files `test_..py`, such files without one, and trials that nothing uses."""
    own = [(file, each.name) for file, tree in trees.items() for each in functions_of(tree)]
    found = [f"{file}: {name}" for file, name in own if name.startswith("test_") and not file.startswith("test_")]
    found += [file for file in trees if file.startswith("test_") and file not in {
        each for each, name in own if name.startswith("test_")}]  # fmt: skip
    used = {each.id for tree in trees.values() for each in ast.walk(tree) if isinstance(each, ast.Name)}
    used |= {each.attr for tree in trees.values() for each in ast.walk(tree) if isinstance(each, ast.Attribute)}
    trial = re.compile(r"^(?!test_).*(_trials?|_fault)$|^trials_")
    return found + [f"{file}: {name}" for file, name in own if trial.search(name) and name not in used]


@pytest.mark.parametrize("file", [*TREES])
def test_each_trial_says_what_is_wrong(file: str) -> None:
    assert silent_trials(TREES[file]) + (silent_tests(TREES[file]) if file.startswith("test_") else []) == []


def test_each_trial_is_collected() -> None:
    assert uncollected(TREES) == []


@pytest.mark.parametrize(
    "file, text, told",
    [
        ("test_x.py", "def test_it(): made()", ["test_it"]),
        ("test_x.py", "def test_it():\n    assert made()", []),
        ("run-x", "def one_trial(): made()\nadd(one_trial)", ["one_trial"]),
        ("run-x", "def one_trial(): return made()\nadd(one_trial)", []),
        ("run-x", "def test_it():\n    assert made()", ["run-x: test_it"]),
        ("test_x.py", "def it():\n    assert made()", ["test_x.py"]),
        ("run-x", "def one_trials():\n    yield 'a', made()", ["run-x: one_trials"]),
        ("run-x", "def one_trials():\n    yield 'a', made()\nadd(one_trials())", []),
    ],
)
def test_planted_trial_that_shows_nothing_is_told(file: str, text: str, told: list[str]) -> None:
    """One that asserts nothing, one that says nothing, and those that nobody collects."""
    tree = ast.parse(text)
    assert silent_tests(tree) + silent_trials(tree) + uncollected({file: tree}) == told
