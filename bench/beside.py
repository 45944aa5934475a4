"""Lets the scripts of this folder find the modules of cases/, whose harness finds those of python/: import it first."""
import sys
from pathlib import Path

sys.path.insert(0, str(Path(__file__).resolve().parent.parent / "cases"))
