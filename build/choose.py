#!/usr/bin/env python3
"""choose.py: prints which program ./pdp8 is to run, and builds that with checks where neither it nor the proved one is as the sources stand."""
import os
import sys

sys.dont_write_bytecode = True
TOP = os.path.dirname(os.path.dirname(os.path.abspath(__file__)))
sys.path.insert(0, TOP)
from build.proved import MADE, PROGRAM, Wanted
from build.unproved import Build, ready
from build.working import heed_signals


def main() -> int:
    heed_signals()
    if Wanted().is_proved(PROGRAM):
        os.utime(MADE)  # a source may be newer, though it is what was proved
        print(MADE)
        return 0
    status = ready(PROGRAM)
    if not status:
        print(Build(PROGRAM).program)
    return status


if __name__ == "__main__":
    sys.exit(main())
