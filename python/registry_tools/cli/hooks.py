"""The program that office.ini has run behind a command, under [hooks]: `after_close = PROGRAM`.

It is run with the date of the day and the head of the folder behind it as arguments, and finds the folder in the
variable REGISTRY_OFFICE: so `./day unpack` in it needs no path. It has the rights of whoever closes, the owner of the
folder, and so is run only if nobody else could have named or changed it.
"""
import os
import subprocess
import tempfile

from registry_tools import steps
from registry_tools.errors import FileFault
from registry_tools.notes import LOOK
from registry_tools.office.folder import VARIABLE
from registry_tools.office.office import Office
from registry_tools.office.program import must_be_ours
from registry_tools.texts.hooks import AFTER_CLOSE
from registry_tools.store.events import Event

# So many bytes of what it says are told.
MOST_TOLD = 1 << 16


def must_be_safe(office: Office) -> None:
    """Raises FileFault if others could have named or changed the program that is run behind `close`: before anything is
    done."""
    must_be_ours(office, AFTER_CLOSE, office.settings.after_close)


def after_close(office: Office, filed: Event) -> list[str]:
    """Runs the program that office.ini names behind a day that is filed. Answers what it says, and that it went wrong,
    if it did: the day stays filed."""
    program = office.settings.after_close
    # (the day is filed: an interrupt from here on is one of the program, which may hang)
    steps.let_go()
    try:
        must_be_safe(office)
        status, lines = run(program, office, filed)
    except OSError as error:
        return [wrong(program, filed, f"cannot be run: {error.strerror}")]
    except FileFault as fault:
        return [wrong(program, filed, f"is not run: {fault}")]
    except KeyboardInterrupt:
        return [wrong(program, filed, "was interrupted")]
    return lines if not status else [*lines, wrong(program, filed, f"ends with status {status}")]


def run(program: str, office: Office, filed: Event) -> tuple[int, list[str]]:
    """Runs it, and answers its status and the lines that it said. Raises OSError."""
    environment = {**os.environ, VARIABLE: str(office.path.resolve())}
    # (a file: what it leaves at work in a pipe would have to end, too)
    with tempfile.TemporaryFile() as told:
        status = subprocess.run(
            [program, str(filed.date), office.state()], env=environment, stdin=subprocess.DEVNULL, stdout=told,
            stderr=subprocess.STDOUT, check=False,
        ).returncode  # fmt: skip
        told.seek(0)
        return status, told.read(MOST_TOLD).decode("utf-8", "replace").splitlines()


def wrong(program: str, filed: Event, why: str) -> str:
    """That the program went wrong, in words."""
    return f"{LOOK}: {AFTER_CLOSE} of office.ini: {program} {why}; {filed.date} is filed all the same"
