"""The check of this repository, over the kit's `rt`: what `./check` runs, how it counts, and what it says.

- `main`: the words of `./check`, and what each of them does; `--unproved` and `--office` do it there.
- `whole`: `./check` and `./check --edits`; `some`: `./check CRATE..`.
- `trials`: which trials there are, what each needs, and about how long it takes.
- `parts`: parts that run one after another or side by side, and their counts.
- `program`: what is built at the top, and whether a source is newer; `kit`: what is asked of `rt`.
- `costs`: what each crate costs in processor time.
"""
from pathlib import Path

TOP = Path(__file__).resolve().parent.parent.parent
