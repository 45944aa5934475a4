"""Lets the scripts of this folder find the package of python/: they import this first."""
import sys
from pathlib import Path

sys.path.insert(0, str(Path(__file__).resolve().parent.parent / "python"))
