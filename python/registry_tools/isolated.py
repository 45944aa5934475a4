"""Starts a command as a process of its own, whose Python is isolated: neither the folder where it works nor a variable
of the environment says where modules are looked for. Else whoever leaves a file there has it run."""
import sys
from pathlib import Path

# Where this package lies: in a checkout, or where pip or an installation has put it.
PACKAGE = Path(__file__).resolve().parents[1]
START = "import sys; place = sys.argv.pop(1); place in sys.path or sys.path.insert(0, place)"
BEGIN = "from registry_tools import main; sys.exit(main.begin(sys.argv[1], sys.argv[2:]))"
ANSWER = "import runpy; runpy.run_module('registry_tools.door.answering', run_name='__main__')"


def command_by(python: str = sys.executable) -> list[str]:
    """The words that start a command by a Python; behind them stand the name of the commands, and its own words."""
    return [python, "-IB", "-c", f"{START}; {BEGIN}", str(PACKAGE)]


def answer_by(python: str = sys.executable) -> list[str]:
    """The words that start a process that carries out a command of somebody elsewhere (door/answering.py); behind them
    stand its own words."""
    return [python, "-IB", "-c", f"{START}; {ANSWER}", str(PACKAGE)]
