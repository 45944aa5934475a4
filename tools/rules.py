#!/usr/bin/env -S sh -c 'if [ -d /dev/stdin ]; then echo "read failed" >&2; exit 5; fi; exec python3 -IB "$0" "$@"'
"""Starts the second answer, the rules in plain Python, which stand in python/registry_tools/second/rules.py.

  tools/rules.py settle < DAY                 what the program has to write of this day; so for plan, figures and totals
  tools/rules.py statement ACCOUNT < DAY      the statement of one account
"""
import sys

if sys.version_info < (3, 10):
    sys.stderr.write("tools/rules.py needs Python 3.10 or later, and this is Python %d.%d\n" % sys.version_info[:2])
    sys.exit(2)
from pathlib import Path  # noqa: E402

sys.path.append(str(Path(__file__).resolve().parent))
import package  # noqa: E402, F401
from registry_tools.second_answer import main  # noqa: E402

if __name__ == "__main__":
    sys.exit(main(sys.argv[1:]))
