"""The one step by which a command changes something for good. Behind it signals wait until the command ends: whoever
interrupts it then is told what it did, with its own status, and not that it was interrupted. In a program of somebody
else, which goes on behind it, they never wait."""
import contextlib
import signal
from collections.abc import Iterator

SIGNALS = (signal.SIGINT, signal.SIGTERM, signal.SIGHUP)
# What was held back before, while signals wait.
before: list[set[int]] = []
# How many commands this process carries out, one in another.
commands: list[str] = []


@contextlib.contextmanager
def of_command(name: str) -> Iterator[None]:
    """The block carries out a command, behind which signals come again."""
    commands.append(name)
    try:
        yield
    finally:
        commands.pop()
        let_go()


def hold() -> None:
    """Has signals wait from here on, in a command: they are held at the one step, before it is made."""
    if commands and not before:
        before.append({*signal.pthread_sigmask(signal.SIG_BLOCK, SIGNALS)})


def let_go() -> None:
    """Has signals come again. What came meanwhile came too late, and is taken off."""
    if before:
        while signal.sigtimedwait(SIGNALS, 0):
            pass
        signal.pthread_sigmask(signal.SIG_SETMASK, before.pop())
