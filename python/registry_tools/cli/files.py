"""The files that commands of a folder take, and how a desk that keeps them says what they are called."""
import argparse
from collections.abc import Sequence

from registry_tools.errors import WordsFault
from registry_tools.office.incoming import Given


def add_named(parser: argparse.ArgumentParser) -> None:
    """The option by which a desk says how a file that it keeps is called: once for each file, in their order."""
    parser.add_argument("--named", dest="called", metavar="NAME", nargs=1, default=[], help=argparse.SUPPRESS)


def given(paths: Sequence[str], named: Sequence[str] = ()) -> tuple[Given, ...]:
    """Files with the names by which they are called, if the words say some. Raises WordsFault if these are fewer or
    more."""
    if named and len(named) != len(paths):
        raise WordsFault(f"--named stands {len(named)} times, and there are {len(paths)} files")
    return tuple(Given(path, name) for path, name in zip(paths, named or [""] * len(paths)))
