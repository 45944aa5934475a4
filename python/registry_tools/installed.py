"""What an installation has beside this package: the program, the library, and the note of their build. An installation
is an archive that was unpacked, what its ./install or packages have put in place, or what pip has. A checkout has ./run
and what it builds, and nothing of this."""
import functools
import importlib.util
import os
import re
import subprocess
import sysconfig
from pathlib import Path

PACKAGE = Path(__file__).resolve().parent
SCRIPT = PACKAGE.parents[1] / "run"
PROGRAM, LIBRARY, PYTHON = "bin/registry", "libregistry.so.1", "registry"
# The note of a build, below the folder of an installation.
NOTE = Path("share/registry/registry.source")
# So far above the package its installation begins: PREFIX/lib/python3.11/site-packages and PREFIX/share/registry.
MOST_ABOVE = 5
# How many seconds a program has to tell its version.
MOST_SECONDS = 60


def is_checkout() -> bool:
    """Whether this package lies in the repository, which has ./run."""
    return SCRIPT.exists()


def prefixes() -> list[Path]:
    """The folders that may be those of the installation, the nearest one first."""
    return [above for above in PACKAGE.parents[1:MOST_ABOVE] if above != above.parent]


@functools.cache
def program() -> str | None:
    """The program `registry` of this installation, if it has one."""
    if is_checkout():
        return None
    found = (prefix / PROGRAM for prefix in prefixes())
    return next((str(path) for path in found if path.is_file() and is_registry(path)), None)


def is_registry(path: Path) -> bool:
    """Whether a program says that it is this one: others have the same name."""
    try:
        output = subprocess.run([path, "--version"], capture_output=True, timeout=MOST_SECONDS, check=False).stdout
    except (OSError, subprocess.TimeoutExpired):
        return False
    return re.match(rb"registry [0-9]", output) is not None


def note_of(path: str) -> Path:
    """Where the note of a program's build lies: beside it, or in its installation."""
    real = Path(os.path.realpath(path))
    beside = real.with_name(f"{real.name}.source")
    return beside if beside.exists() else real.parent.parent / NOTE


def library() -> Path | None:
    """The library of this installation, if it has one and the calls for Python."""
    spec = None if is_checkout() else importlib.util.find_spec(PYTHON)
    if spec is None or spec.origin is None or not Path(spec.origin).with_name("native.py").exists():
        return None
    system = Path("lib") / str(sysconfig.get_config_var("MULTIARCH"))
    # (beside the calls, as pip puts it, or where a system has its libraries)
    paths = [Path(spec.origin).with_name("libregistry.so")]
    paths += [prefix / room / LIBRARY for prefix in prefixes() for room in (Path("lib"), system)]
    return next((path for path in paths if path.exists()), None)
