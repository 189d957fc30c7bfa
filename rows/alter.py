"""Has altered texts of networks checked and written anew: each front of one, and one with every form in which a token is altered.

Each single token is left out, doubled, or exchanged for another one, which a fixed seed chooses.

    python3 rows/alter.py --exe PATH

A text is refused by `--check` with a rule and its place, or it is accepted. What `--dump` writes of it is written anew as the same bytes,
and what it refuses is refused by `--check` for the same rule at the same place. The last line is `N passed, M failed`.
"""

import argparse
import os
import random
import re
import subprocess
import sys
import tempfile

from play import TOKEN, unplayed
from refuse_growths import many

SEED = 7
# A text whose fronts are tried: the canonical text of a network.
SHORT = b"network 1;\ntemplate main(): Int ~> Int = (iPre 7 >>> arr x => (x + 1));\n"
# Templates of the forms that are not in the text of many forms.
OTHERS = [
    "numbers(): Int ~> Bool = arr n => ((((n div 2) < 3) or ((n mod 2) <= 1)) and (not (n >= 4) or true))",
    "pairs(): (Event Int, Event Int) ~> (Event (Int, Int), (Bool, Event Int)) = arr e => (attach(fst(e), 1), (isEvent(snd(e)), rMerge(fst(e), snd(e))))",
    "counted(): Event Int ~> Event Int = (((notYet >>> takeEvents 5) >>> dropEvents 1) >>> count)",
    "summed(): Event Int ~> (Event Int, (Int, Event Int)) = (accumBy(0, (s, x) => (s + x)) &&& (accumHoldBy(0, (s, x) => (s + x)) &&& sscan(none Int, (_, e) => e)))",
    "compared(): Int ~> Event Int = edgeBy(0, (old, new) => gate(event (new - old), (old != new)))",
    "timed(): Int ~> (Int, Event Int) = (>--(3, delay 10 0) &&& (-->(1, pre) >>> repeatedly 20 2))",
    "switched(): (Int, Event Int) ~> Int = (drSwitch(identity, x => constant x) >>> switch((identity &&& never Unit), _ => identity))",
    "kept(f: Int ~> Int): Int ~> Int = dkSwitch(run f, arr (_, x) => gate(event (), (x > 2)), k, _ => kept(sf run k))",
    'gathered(n: Int, c: [Text: Int ~> Int]): Int ~> Table Text Int = parB if (n > 0) then add(use c, "a", iPre 0) else drop(empty Text Int, "a")',
    'released(): Int ~> Table Text Int = dpSwitchB(empty Text Int, arr (_, t) => get(t, "b"), ks, n => gathered(n, col keep(use ks, k => (k < "c"))))',
    "edited(c: [Int: Int ~> Int]): (Int, Event Int) ~> Table Int Int = drpSwitchB(use c, ks, k => add(use ks, k, integral))",
]
REFUSED = re.compile(rb"sfplay: [LPC]\d+ \w+ \d+:\d+\n")


def whole():
    """A text in which every form stands."""
    text = many().encode("ascii") + b"".join(b"template %s;\n" % other.encode("ascii") for other in OTHERS)
    missing = unplayed([text])
    if missing:
        raise SystemExit(f"alter: the text has no {', '.join(missing)}")
    return text


def altered(text):
    """What is done to a token, and the text then."""
    choice = random.Random(SEED)
    tokens = TOKEN.findall(text)
    for found in TOKEN.finditer(text):
        start, end, token = found.start(), found.end(), found.group()
        other = choice.choice(tokens)
        for done, put in (("left out", b""), ("doubled", token + b" " + token), (f"as {other!r}", other)):
            yield f"token {token!r} at {start} {done}", text[:start] + put + text[end:]


def fronts(text):
    return ((f"the first {length} bytes", text[:length]) for length in range(len(text)))


class Program:
    """A program that is given texts in a file."""

    def __init__(self, exe, place):
        self.exe = os.path.abspath(exe)
        self.path = os.path.join(place, "network")

    def asked(self, text, flag):
        with open(self.path, "wb") as file:
            file.write(text)
        done = subprocess.run([self.exe, self.path, flag], stdin=subprocess.DEVNULL, capture_output=True, timeout=60)
        return done.returncode, done.stdout, done.stderr

    def is_well(self, text):
        """Whether both flags do with a text what they should."""
        checked, dumped = self.asked(text, "--check"), self.asked(text, "--dump")
        if checked != (0, b"ok\n", b"") and not (checked[:2] == (5, b"") and REFUSED.fullmatch(checked[2])):
            return False
        if dumped[0]:
            return dumped == checked
        return dumped == (0, dumped[1], b"") and self.asked(dumped[1], "--dump") == dumped


def main():
    parser = argparse.ArgumentParser()
    parser.add_argument("--exe", required=True)
    options = parser.parse_args()
    passed = failed = 0
    with tempfile.TemporaryDirectory() as place:
        program = Program(options.exe, place)
        text = whole()
        given = [("the whole text", text), *altered(text), *fronts(SHORT)]
        for done, changed in given:
            well = program.is_well(changed)
            passed, failed = passed + well, failed + (not well)
            if not well:
                print(f"{done}: {program.asked(changed, '--check')!r}, {program.asked(changed, '--dump')!r}")
        if program.asked(text, "--check") != (0, b"ok\n", b""):
            failed += 1
            print("the text with every form is refused")
    print(f"{passed} passed, {failed} failed")
    return 1 if failed else 0


if __name__ == "__main__":
    sys.exit(main())
