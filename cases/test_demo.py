"""./demo stops where it can't go on, and says why."""
import shutil
import subprocess
from pathlib import Path

from harness import TOP


def demo_in(folder: Path) -> "subprocess.CompletedProcess[str]":
    """What ./demo does in a folder."""
    shutil.copy(TOP / "demo", folder)
    return subprocess.run([folder / "demo"], capture_output=True, text=True, check=False)


def test_a_folder_that_cannot_be_written(tmp_path: Path) -> None:
    (tmp_path / "out").write_text("")
    run = demo_in(tmp_path)
    assert run.stderr.splitlines()[-1].startswith("demo: nothing can be written to out/demo here")
    assert (run.stdout, run.returncode) == ("", 1)


def test_a_command_that_ends_otherwise(tmp_path: Path) -> None:
    for name in ("tools", "examples"):
        (tmp_path / name).mkdir()
    (tmp_path / "tools/rules.py").write_text("#!/bin/sh\nexit 1\n")
    (tmp_path / "tools/rules.py").chmod(0o755)
    (tmp_path / "examples/morning-batch.csv").write_text("")
    run = demo_in(tmp_path)
    assert run.stderr == "demo: this ended with status 1, which it should not\n"
    assert run.returncode == 1
