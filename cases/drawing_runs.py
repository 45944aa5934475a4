"""How hypothesis draws: the same examples in each run of the gate, and others for as long as somebody asks."""
from __future__ import annotations

import time
from typing import Any

import pytest

try:
    import hypothesis
except ImportError:
    hypothesis = None  # type: ignore[assignment]
HAS_HYPOTHESIS = hypothesis is not None

# So many examples of each function, and in each round of a long run.
EXAMPLES, EXAMPLES_OF_A_ROUND = 60, 200


def add_options(parser: pytest.Parser) -> None:
    parser.addoption(
        "--draw-for", type=float, default=0, metavar="SECONDS",
        help="have hypothesis draw other examples for so long for each function, from --hypothesis-seed on",
    )  # fmt: skip


def prepare(config: pytest.Config) -> None:
    """Sets how examples are drawn."""
    if not HAS_HYPOTHESIS:
        return
    known: dict[str, Any] = {"deadline": None, "database": None, "suppress_health_check": [*hypothesis.HealthCheck]}
    hypothesis.settings.register_profile("gate", derandomize=True, max_examples=EXAMPLES, print_blob=False, **known)
    hypothesis.settings.register_profile("long", max_examples=EXAMPLES_OF_A_ROUND, **known)
    hypothesis.settings.load_profile("long" if config.getoption("draw_for") else "gate")


def draw_on(function: pytest.Function) -> bool:
    """Draws for a function, with another seed each round, until its time is over. Answers whether it did."""
    seconds, drawn = function.config.getoption("draw_for"), drawn_of(function.obj)
    if not seconds or not drawn:
        return False
    seed, until = int(function.config.getoption("hypothesis_seed", None) or 0), time.monotonic() + seconds
    given = {name: function.funcargs[name] for name in function._fixtureinfo.argnames}
    while time.monotonic() < until:
        hypothesis.seed(seed)(drawn)
        try:
            function.obj(**given)
        except BaseException:
            print(f"--hypothesis-seed={seed} shows it in one round")
            raise
        seed += 1
    return True


def drawn_of(test: Any) -> Any:
    """What takes the seed: a function that hypothesis draws for, or its machine of commands."""
    return getattr(test, "machine", None) or (test if getattr(test, "is_hypothesis_test", False) else None)
