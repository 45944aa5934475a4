"""What `pytest cases` collects: the cases that are kept as files, the scripts of trials, and functions as ever.

`pytest cases --program PROGRAM` tries this program; without it, what `./run` keeps at the top is tried.
"""
from __future__ import annotations

import re
import sys
from collections.abc import Iterator
from pathlib import Path
from typing import Any

import pytest

sys.dont_write_bytecode = True
CASES = Path(__file__).resolve().parent
sys.path[:0] = [str(folder) for folder in (CASES, CASES.parent / "python", CASES.parent / "tools")]

from _pytest.mark import KeywordMatcher  # noqa: E402
from _pytest.mark.expression import Expression  # noqa: E402
from _pytest.runner import runtestprotocol  # noqa: E402

import drawing_runs  # noqa: E402
from collecting import EVERY, PROGRAMS, CaseFile, Script, ScriptFile, option_of, program_of  # noqa: E402
from gate import trials  # noqa: E402

# These two try the files that are collected here by themselves.
BY_HAND = {"run-cases", "run-planted"}
# The words after -k, which are read here: a script does not know the names of its trials before it makes them.
WORDS = "words_of_k"
# What nearly each script uses, and what gives no trials.
SHARED = {"harness", "listening"}
# What pytest calls that in which trials end.
PASSED, FAILED = ("passed", "xpassed"), ("failed", "error", "xfailed")


def pytest_addoption(parser: pytest.Parser) -> None:
    for program in PROGRAMS:
        parser.addoption(
            f"--{option_of(program)}", metavar="PATH",
            help=f"the {program.word} that is tried: {' or '.join(program.built)}, if it is left out",
        )  # fmt: skip
    drawing_runs.add_options(parser)
    parser.addoption("--count", action="store_true", help="end with 'N passed, M failed', as scripts of trials do")


@pytest.fixture(scope="session")
def program(pytestconfig: pytest.Config) -> Path:
    """The program that is tried."""
    return program_of(pytestconfig)


@pytest.hookimpl(trylast=True)  # type: ignore[misc]
def pytest_configure(config: pytest.Config) -> None:
    setattr(config.option, WORDS, config.option.keyword or getattr(config.option, WORDS, ""))
    config.option.keyword = ""
    drawing_runs.prepare(config)
    config.addinivalue_line("markers", "slow: is left to the whole check")
    config.addinivalue_line("markers", "office: needs neither the kit nor a program")
    # (so that a script runs again of which a trial has failed)
    last = failed_last(config)
    last.update({f"{name.partition('::')[0]}::{EVERY}": True for name in last if is_of_script(name)})


def failed_last(config: pytest.Config) -> dict[str, bool]:
    """What failed in the last run, as pytest keeps it."""
    plugin = config.pluginmanager.get_plugin("lfplugin")
    failed: dict[str, bool] = plugin.lastfailed if plugin else {}
    return failed


def is_of_script(nodeid: str) -> bool:
    path, _, name = nodeid.partition("::")
    return bool(name) and Path(path).name.startswith("run-")


def pytest_collect_file(file_path: Path, parent: pytest.Collector) -> pytest.Collector | None:
    kind: type[pytest.File] = CaseFile
    if file_path.parent == CASES:
        kind = ScriptFile
        if not file_path.name.startswith("run-") or file_path.name in BY_HAND:
            return None
    if "__pycache__" in file_path.parts or file_path.suffix == ".py":
        return None
    collector: pytest.Collector = kind.from_parent(parent, path=file_path)
    return collector


def words_match(config: pytest.Config, names: set[str]) -> bool:
    """Whether the words after -k choose what has these names."""
    words = getattr(config.option, WORDS)
    lower = {name.lower() for name in names}
    return not words or Expression.compile(words).evaluate(lambda word: any(word.lower() in name for name in lower))


def pytest_collection_modifyitems(config: pytest.Config, items: list[pytest.Item]) -> None:
    again = config.getoption("lf", False)
    for item in items:
        if isinstance(item, Script):
            item.wanted, item.words = wanted_of(item, again), getattr(config.option, WORDS)
            known = trials.trials_of(item.path)
            item.add_marker("slow") if known.is_slow else None
            item.add_marker("office") if known.is_of_office else None
    chosen = [item for item in items if may_match(config, item)]
    if len(chosen) < len(items):
        kept = {*map(id, chosen)}
        config.hook.pytest_deselected(items=[item for item in items if id(item) not in kept])
        items[:] = chosen


def may_match(config: pytest.Config, item: pytest.Item) -> bool:
    """Whether the words after -k choose an item. A script may have a trial of a name that it has somewhere."""
    words = getattr(config.option, WORDS)
    if isinstance(item, Script):
        return " not " in f" {words} " or words_match(config, {*item.listnames(), *texts_of(item.path)})
    return not words or words_match(config, {*KeywordMatcher.from_item(item)._names} - {""})


def texts_of(script: Path) -> Iterator[str]:
    """The text of a script, and of the modules of this folder that it names, by their names or by how these begin."""
    text = script.read_text(encoding="utf-8")
    yield text
    named = set(re.findall(r"\w+", text))
    begun = tuple(re.findall(r'"(\w+_)\*\.py"', text)) or ("*",)
    for module in CASES.glob("*.py"):
        if module.stem in named - SHARED or module.stem.startswith(begun):
            yield module.read_text(encoding="utf-8")


def wanted_of(script: Script, again: bool) -> Any:
    """Which trials of a script are wanted: by its name, by the words after -k, and, with --lf, those that failed."""
    config = script.config
    before = f"{script.path.relative_to(config.rootpath)}::"
    last = {name[len(before) :] for name in failed_last(config) if name.startswith(before)} - {EVERY}

    def wanted(name: str) -> bool:
        if script.name not in (EVERY, name) or (again and last and name not in last):
            return False
        return words_match(config, {*script.listnames()[:-1], name})

    return wanted


@pytest.hookimpl(tryfirst=True)  # type: ignore[misc]
def pytest_runtest_protocol(item: pytest.Item, nextitem: pytest.Item | None) -> bool | None:
    """Runs a script. It reports its trials itself, so that of its own reports only what failed is of interest."""
    if not isinstance(item, Script):
        return None
    item.ihook.pytest_runtest_logstart(nodeid=item.nodeid, location=item.location)
    failed_last(item.config).pop(item.nodeid, None)
    for report in runtestprotocol(item, nextitem=nextitem, log=False):
        if report.failed or report.skipped:
            item.ihook.pytest_runtest_logreport(report=report)
    item.ihook.pytest_runtest_logfinish(nodeid=item.nodeid, location=item.location)
    return True


@pytest.hookimpl(tryfirst=True)  # type: ignore[misc]
def pytest_pyfunc_call(pyfuncitem: pytest.Function) -> bool | None:
    return drawing_runs.draw_on(pyfuncitem) or None


class Namer:
    """Gives each trial of a script its own id. (A worker of xdist has to report what it was asked to run.)"""

    @pytest.hookimpl(tryfirst=True)  # type: ignore[misc]
    def pytest_runtest_logreport(self, report: pytest.TestReport) -> None:
        name = getattr(report, "trial", None)
        if name is not None:
            report.nodeid = report.nodeid.rpartition("::")[0] + f"::{name}"


def pytest_sessionfinish(session: pytest.Session, exitstatus: int) -> None:
    """Files for which hypothesis draws are left out without it, and are no failure."""
    if exitstatus == pytest.ExitCode.NO_TESTS_COLLECTED and not drawing_runs.HAS_HYPOTHESIS:
        session.exitstatus = pytest.ExitCode.OK


@pytest.hookimpl(trylast=True)  # type: ignore[misc]
def pytest_unconfigure(config: pytest.Config) -> None:
    """Ends with the line that ./check counts, if it asks for it."""
    reporter = config.pluginmanager.get_plugin("terminalreporter")
    if config.getoption("count") and reporter:
        for report in reporter.stats.get("skipped", []):
            print(f"LEFT OUT: {report.nodeid}: {report.longrepr[2]}")
        passed, failed = (sum(len(reporter.stats.get(kind, [])) for kind in kinds) for kinds in (PASSED, FAILED))
        print(f"{passed} passed, {failed} failed")


def pytest_sessionstart(session: pytest.Session) -> None:
    if not hasattr(session.config, "workerinput"):
        session.config.pluginmanager.register(Namer())
