"""Puts time steps in front of values as they come, for a network that is played live.

    sensor | python3 tools/clock.py [MS] | ./sfplay NET

Each line that comes in is a value; its step is the milliseconds since the line before, at least 1. With MS, a step with the input
unchanged goes out whenever no line has come for MS milliseconds.
"""

import argparse
import os
import select
import sys
import time

LONGEST_STEP = 3_600_000


class Clock:
    def __init__(self):
        self.last = None

    def say(self, value):
        now = time.monotonic_ns() // 1_000_000
        step = 0 if self.last is None else min(max(now - self.last, 1), LONGEST_STEP)
        self.last = now if self.last is None else self.last + step
        os.write(1, b"%d %s\n" % (step, value))


def main():
    parser = argparse.ArgumentParser(description=__doc__, formatter_class=argparse.RawDescriptionHelpFormatter)
    parser.add_argument("ms", metavar="MS", nargs="?", type=int, default=LONGEST_STEP)
    tick = parser.parse_args().ms / 1000
    clock, held, piece = Clock(), b"", b" "
    while piece:
        # (before the first value there is none to repeat)
        if clock.last is not None and not select.select([0], [], [], tick)[0]:
            clock.say(b"=")
            continue
        piece = os.read(0, 65536)
        *lines, held = (held + piece).split(b"\n")
        for line in lines:
            clock.say(line)
    if held:
        clock.say(held)


if __name__ == "__main__":
    main()
