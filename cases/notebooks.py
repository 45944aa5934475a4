"""A notebook of Jupyter, read as a script: for the cases that run it."""
import json
from pathlib import Path
from typing import Any


def cells_of(path: Path) -> list[dict[str, Any]]:
    cells: list[dict[str, Any]] = json.loads(path.read_text(encoding="utf-8"))["cells"]
    return cells


def script_of(path: Path) -> str:
    """The code of all cells, one behind the other."""
    return "\n".join("".join(cell["source"]) for cell in cells_of(path) if cell["cell_type"] == "code")


def form_fault(path: Path) -> str | None:
    """What is wrong with the form of a notebook: it is spelled as Jupyter spells it, and keeps nothing of a run, so
    that a change of it shows what was changed, and that alone."""
    text, cells = path.read_text(encoding="utf-8"), cells_of(path)
    spelled = json.dumps(json.loads(text), indent=1, ensure_ascii=False) + "\n"
    names = [cell["id"] for cell in cells]
    ran = [cell["id"] for cell in cells if cell.get("outputs") or cell.get("execution_count")]
    if text != spelled:
        return "it is not spelled as Jupyter spells it"
    if ran or any(cell["metadata"] for cell in cells):
        return f"it keeps what a run of it wrote: {ran}"
    return None if cells and len(set(names)) == len(names) else f"two cells have one name: {names}"
