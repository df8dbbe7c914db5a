"""What the command line and the environment of a test say."""
import os
import sys


def option(name: str, value: str) -> str:
    """The word after an option, or this one where the option is not given."""
    return sys.argv[sys.argv.index(name) + 1] if name in sys.argv else value


def patience(seconds: float) -> float:
    """The seconds that a command may take: these, or fewer where PATIENCE says so, as for a stand-in that never ends."""
    return min(seconds, float(os.environ.get("PATIENCE", seconds)))
