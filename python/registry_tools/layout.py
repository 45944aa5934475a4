"""What lies in a folder of days, by name, and that no answer of a command is written over it."""
import os
from pathlib import Path

from registry_tools.elsewhere import Elsewhere
from registry_tools.errors import FileFault

SETTINGS, STORE, PAPERS = "office.ini", "registry.sqlite", "days"
OWN = {SETTINGS, STORE, *(f"{STORE}{end}" for end in ("-journal", "-wal", "-shm"))}


def must_not_be_of_folder(path: str | Path) -> None:
    """Ends the command if an answer would be written over a file of a folder of days."""
    if isinstance(path, Elsewhere):
        return
    real = Path(os.path.realpath(path))
    for folder in real.parents:
        if real.relative_to(folder).parts[0] in OWN and (folder / SETTINGS).is_file():
            expected = f"another name: only commands that change {folder} write there"
            raise FileFault(path, 0, "", "a name of a folder of days itself", expected)
