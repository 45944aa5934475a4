"""What a desk keeps over a restart where the system or a proxy names people: by what it signs cookies, and which links
count. At a socket it lies beside that, in a file of this login alone; behind a proxy it follows from its secret. So
whoever was let in stays in, and a form that was being filled in is taken."""
import contextlib
import hmac
import json
import os
import secrets
import stat
from pathlib import Path

from registry_tools import opening
from registry_tools.output import write_all

# How the name of the file goes on behind that of the socket; and how long it may be.
KEPT, MOST_BYTES = ".kept", 1 << 20
BYTES = 32
# A link: for which login it counts, and until when, in seconds of the clock.
Links = dict[str, tuple[str, float]]


def signed_by(secret: str, folder: Path) -> bytes:
    """By what a desk signs cookies whose proxy has this secret."""
    return hmac.digest(secret.encode(), b"the cookies of the desk of " + os.fsencode(folder), "sha256")


class Kept:
    """The file beside a socket."""

    def __init__(self, socket: str) -> None:
        self.path = Path(f"{socket}{KEPT}")
        self.key, self.links = self.read() or (secrets.token_bytes(BYTES), {})
        self.write()

    def read(self) -> tuple[bytes, Links] | None:
        """What was kept; nothing, if there is no such file of this login alone."""
        with contextlib.suppress(OSError, ValueError, TypeError, KeyError, AttributeError):
            file = os.open(self.path, os.O_RDONLY | os.O_NOFOLLOW | os.O_NONBLOCK)
            with open(file, "rb") as stream:
                status = os.fstat(file)
                if not stat.S_ISREG(status.st_mode) or status.st_mode & 0o077 or status.st_uid != os.geteuid():
                    return None
                values = json.loads(stream.read(MOST_BYTES))
            key = bytes.fromhex(values["key"])
            links = {str(name): (str(login), float(until)) for name, (login, until) in values["links"].items()}
            return (key, links) if len(key) == BYTES else None
        return None

    def write(self) -> None:
        """Keeps it as it is now. A folder that cannot be written keeps nothing: then a restart asks for new links."""
        with contextlib.suppress(OSError):
            made = f"{self.path}.new"
            file = opening.create(made, 0o600)
            try:
                write_all(file, json.dumps({"key": self.key.hex(), "links": self.links}).encode())
            finally:
                os.close(file)
            os.replace(made, self.path)
