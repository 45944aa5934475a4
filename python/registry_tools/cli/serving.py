"""What a desk is asked to serve, as the words of ./day desk say it, and what serves it."""
from collections.abc import Callable
from dataclasses import dataclass
from pathlib import Path


@dataclass(frozen=True)
class AtPort:
    """A folder at a port of this machine. `who` works at it, or whom a proxy names: the header by which it does, and
    the file of its secret. A desk that is a `look` shows all, and changes nothing."""

    path: Path
    port: int
    who: str | None
    proxy: tuple[str, str] | None
    is_look: bool


@dataclass(frozen=True)
class AtSocket:
    """A folder at a socket, where the system says who comes; by this `header` a proxy says for whom it comes, if it is
    another one than that of each desk."""

    path: Path
    socket: str
    header: str | None
    is_look: bool


# What serves it, and answers the exit status: the room `desk`, which uses this one, so that whoever starts the commands
# says it (registry_tools/main.py).
serve: Callable[[AtPort | AtSocket], int]
