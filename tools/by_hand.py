"""Plays a network by hand: what is typed is played at once, and can be taken back.

    python3 tools/by_hand.py NET

A line with a value is a sample 100 milliseconds behind the one before, and `=` one with the input unchanged. `DT VALUE` and `DT =` are
samples DT milliseconds behind it. `undo` takes the last sample back, as often as one likes, and `log` writes the lines that lead to
here. `save NAME` keeps where the run is, and `back NAME` returns there. A line that is refused changes nothing, and neither does one
that gives a fault. Readings of probes are written too.
"""

import argparse
import sys

from session import Session, add_program, program_of

STEP = 100
# How many of the last samples are taken back by a return to a save; before these, the lines are played anew.
KEPT = 64


class ByHand:
    def __init__(self, words):
        self.words, self.log, self.saves = words, [], {}
        self.begin()

    def begin(self):
        """Begins a run anew, and plays all lines that lead to here."""
        self.session, self.newest = Session(*self.words), 0
        for at, line in enumerate(self.log):
            self.play(at, line)

    def play(self, at, line):
        """What a line gives behind so many others; what is before it is kept."""
        if at:
            self.session.tell(f"save at{at % KEPT}")
            self.newest = max(self.newest, at)
        return self.session.sample(line)

    def sample(self, line):
        given = self.play(len(self.log), line)
        if given[-1].startswith(">"):
            self.log.append(line)
        else:
            self.session.end()
            self.begin()
        return given

    def undo(self):
        if not self.log:
            return ["nothing is left to take back"]
        self.log.pop()
        if self.log and len(self.log) > self.newest - KEPT:
            self.session.tell(f"back at{len(self.log) % KEPT}")
        else:
            self.session.end()
            self.begin()
        return self.where()

    def where(self):
        return [f"back at {sum(int(line.split()[0]) for line in self.log)}"] if self.log else ["back before the first sample"]

    def back(self, name):
        if name not in self.saves:
            return ["nothing is kept under this name"]
        self.log = list(self.saves[name])
        self.session.end()
        self.begin()
        return self.where()

    def answer(self, typed):
        if typed == "undo":
            return self.undo()
        if typed == "log":
            return self.log
        step, _, value = typed.partition(" ")
        if step == "save" and value:
            self.saves[value] = list(self.log)
            return []
        if step == "back" and value:
            return self.back(value)
        if not (step.isdigit() and value):
            step, value = str(STEP), typed
        return self.sample(f"{step if self.log else 0} {value}")


def main():
    parser = argparse.ArgumentParser(description=__doc__, formatter_class=argparse.RawDescriptionHelpFormatter)
    parser.add_argument("net", metavar="NET")
    add_program(parser)
    options = parser.parse_args()
    by_hand = ByHand([program_of(options), "--probes", options.net])
    for typed in sys.stdin:
        if typed.strip():
            for line in by_hand.answer(typed.strip()):
                print(line, flush=True)


if __name__ == "__main__":
    main()
