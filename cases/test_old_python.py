"""A Python that is too old is told in one line, with status 2, before anything is imported."""
import contextlib
import os
import shutil
import subprocess
from pathlib import Path

import pytest

from harness import TOP

SCRIPTS = ("day", "packaging/registry-day", "packaging/registry-rules", "tools/rules.py")
# Those that are on the PATH, or that pyenv keeps.
OLD = ("3.6", "3.7", "3.8", "3.9")
PYENV = Path(os.environ.get("PYENV_ROOT", str(Path.home() / ".pyenv"))) / "versions"


def python_of(version: str) -> str:
    """A Python of this version; nothing, if there is none."""
    kept: list[Path] = []
    # (they may lie in the home of somebody else)
    with contextlib.suppress(PermissionError):
        kept = [path for path in sorted(PYENV.glob(f"{version}.*/bin/python3")) if os.access(path, os.X_OK)]
    return str(kept[-1]) if kept else shutil.which(f"python{version}") or ""


@pytest.mark.parametrize("version", OLD)
@pytest.mark.parametrize("script", SCRIPTS)
def test_an_old_python(script: str, version: str) -> None:
    python = python_of(version)
    if not python:
        pytest.skip(f"there is no Python {version} here")
    run = subprocess.run([python, "-IB", TOP / script, "--help"], capture_output=True, text=True, check=False)
    assert (run.stdout, run.returncode) == ("", 2)
    assert run.stderr.count("\n") == 1
    assert run.stderr.endswith(f"needs Python 3.10 or later, and this is Python {version}\n")
