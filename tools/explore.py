"""Plays all inputs that can be made of some lines, and looks for one at which the output of a network isn't right.

    python3 tools/explore.py NET SAMPLES PATTERN LINE..

Each LINE is a step, `DT VALUE` or `DT =`. A run begins with the value of one of them, and goes on with any of them in any order, for at
most SAMPLES samples. Each value that is written has to match all of PATTERN, a regular expression; a fault matches none. The shortest
run that ends with a wrong one is written beside what it gives. The last line says how many such histories were tried: the shorter ones
first, each once.

Before each step the run saves, and behind it it returns. So no run is begun anew for each order of the lines.

Status 0: all are right. 1: one is wrong. 2: a line or a word is refused.
"""

import argparse
import re
import sys

from session import Session, add_program, program_of

# A run has at most 1,000,000 lines, and keeps at most 64 saves.
MOST_LINES, MOST_SAMPLES = 999_990, 65


class Explorer:
    def __init__(self, words, steps, pattern):
        self.words, self.steps, self.pattern = words, steps, re.compile(pattern)
        self.session, self.histories, self.samples = None, 0, 0

    def begin(self, path):
        """Begins a run anew that has come to where a path leads, with what is kept before each of its steps."""
        if self.session:
            self.session.end()
        self.session = Session(*self.words)
        for at, (line, _) in enumerate(path):
            if at:
                self.session.tell(f"save at{at}")
            self.session.sample(line)

    def sample(self, line):
        """What a line gives, and whether it is right."""
        self.samples += 1
        given = self.session.sample(line)[-1]
        if given.startswith("! line"):
            print(f"explore: {line!r} is refused: {given}", file=sys.stderr)
            sys.exit(2)
        mark, _, value = (given.split(" ", 2) + ["", ""])[:3]
        return given, mark == ">" and bool(self.pattern.fullmatch(value))

    def go_on(self, path, left):
        """The first path on from here, of so many steps, that ends with a wrong sample."""
        self.session.tell(f"save at{len(path)}")
        for line in self.steps:
            if self.session.lines > MOST_LINES:
                self.begin(path)
                self.session.tell(f"save at{len(path)}")
            given, is_right = self.sample(line)
            self.histories += left == 1
            longer = [*path, (line, given)]
            found = longer if not is_right else self.go_on(longer, left - 1) if left > 1 else None
            if found:
                return found
            self.session.tell(f"back at{len(path)}")
        return None

    def explore(self, most):
        """The shortest path of at most so many samples that ends with a wrong one."""
        values = [line.split(" ", 1)[1] for line in self.steps]
        firsts = [f"0 {value}" for value in dict.fromkeys(values) if value != "="]
        for length in range(1, most + 1):
            for first in firsts:
                self.begin([])
                given, is_right = self.sample(first)
                self.histories += length == 1
                path = [(first, given)]
                found = path if not is_right else self.go_on(path, length - 1) if length > 1 else None
                if found:
                    return found
        return None


def main():
    parser = argparse.ArgumentParser(description=__doc__, formatter_class=argparse.RawDescriptionHelpFormatter)
    parser.add_argument("net", metavar="NET")
    parser.add_argument("samples", metavar="SAMPLES", type=int, choices=range(1, MOST_SAMPLES + 1))
    parser.add_argument("pattern", metavar="PATTERN")
    parser.add_argument("steps", metavar="LINE", nargs="+")
    add_program(parser)
    options = parser.parse_args()
    if any(" " not in line for line in options.steps):
        parser.error("a LINE has a time step and a value, as in '16 42'")
    explorer = Explorer([program_of(options), options.net], options.steps, options.pattern)
    found = explorer.explore(options.samples)
    for line, given in found or ():
        print(f"{line:30} {given}")
    print(f"{explorer.histories:,} histories were tried by {explorer.samples:,} samples, and " + ("the last one is wrong" if found else "all are right"))
    return 1 if found else 0


if __name__ == "__main__":
    sys.exit(main())
