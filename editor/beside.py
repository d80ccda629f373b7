"""Puts the scripts of `guide` where Python finds them, since what serves an editor stands on them; and what is said of the program."""
import os
import sys
from pathlib import Path

EDITOR = Path(__file__).resolve().parent
TOP = EDITOR.parent
# In front, since the standard library has a `trace` too.
sys.path.insert(0, str(TOP / "guide"))

UNPROVED = "unproved: this is the program that a trial built, and nothing that it says is proved"


def is_unproved():
    """Whether the script `stack` has the program of a trial, because none is proved yet."""
    return os.environ.get("STACK_TRIED") == "1"


def ended(status):
    """How the program ended, if it said nothing."""
    return f"the program was ended by signal {-status}" if status < 0 else f"the program ended with status {status}, and said nothing"
